//! `sample BLOCKS` writes short passes, that many blocks in all, chosen so that
//! every branch that `compare` counts is met in them: of many passes drawn, the
//! one that adds most to what is rare so far is taken next. Each ends with a
//! refused block, and refused blocks alone follow; the one that is cut short
//! comes last.

use oracle::block::Block;
use oracle::draw::Draw;
use oracle::plain::Controller;
use oracle::world::{broken, World};
use std::collections::{BTreeMap, BTreeSet};
use std::io::{self, Write};

const REFUSALS: [u32; 7] = [1, 4, 6, 7, 8, 9, 10];
/// What a pass's first block can be refused with, but for its length.
const ALONE: [u32; 6] = [1, 4, 6, 7, 8, 10];
const LETTERS: [&str; 8] = ["Q", "G", "C", "S", "T", "J", "F", "R"];

struct Pass {
    k: u32,
    seed: u64,
    blocks: usize,
    met: BTreeMap<&'static str, usize>,
}

/// The blocks of a pass, and one more for the refusal.
fn drawn(seed: u64, k: u32, blocks: usize) -> Vec<Block> {
    let mut world = World::dense(seed, k);
    (0..=blocks).map(|_| world.block()).collect()
}

fn candidate(seed: u64) -> Pass {
    let mut draw = Draw::new(seed);
    let k = match draw.below(3) {
        0 => 64 - draw.below(20) as u32,
        1 => [1, 2, 4, 8, 16, 32, 64][draw.below(7)],
        _ => 1 + draw.below(64) as u32,
    };
    let blocks = 45 + draw.below(80);
    let mut plain = Controller::new(k);
    let mut outcomes = [0; 8];
    for block in &drawn(seed, k, blocks)[..blocks] {
        outcomes[plain.tick(block)[1] as usize] += 1;
    }
    let mut met = plain.met;
    met.extend(LETTERS.into_iter().zip(outcomes).filter(|(_, n)| *n > 0));
    Pass {
        k,
        seed,
        blocks,
        met,
    }
}

/// What a pass adds to what is met so far, for each block: each time counts half
/// as much as the time before.
fn worth(pass: &Pass, so_far: &BTreeMap<&str, usize>) -> f64 {
    let mut sum = 0.0;
    for (what, n) in &pass.met {
        let before = so_far.get(what).copied().unwrap_or(0) as i32;
        sum += 0.5f64.powi(before) - 0.5f64.powi(before + *n as i32);
    }
    sum / (pass.blocks + 1) as f64
}

fn main() -> io::Result<()> {
    let Some(budget) = std::env::args()
        .nth(1)
        .and_then(|n| n.parse::<usize>().ok())
    else {
        eprintln!("usage: sample BLOCKS");
        std::process::exit(2)
    };
    let mut passes: Vec<Pass> = (0..6000).map(candidate).collect();
    let all: BTreeSet<&str> = passes.iter().flat_map(|p| p.met.keys().copied()).collect();
    let mut so_far: BTreeMap<&str, usize> = BTreeMap::new();
    let mut taken: Vec<Pass> = Vec::new();
    let mut left = budget - ALONE.len() * 6;
    while let Some((at, _)) = passes
        .iter()
        .enumerate()
        .filter(|(_, p)| p.blocks < left)
        .max_by(|a, b| worth(a.1, &so_far).total_cmp(&worth(b.1, &so_far)))
    {
        let pass = passes.swap_remove(at);
        left -= pass.blocks + 1;
        for (what, n) in &pass.met {
            *so_far.entry(what).or_default() += n;
        }
        taken.push(pass);
    }
    let mut out = io::stdout().lock();
    for (i, pass) in taken.iter().enumerate() {
        let mut blocks = drawn(pass.seed, pass.k, pass.blocks);
        let refused = blocks.pop().unwrap();
        for block in &blocks {
            out.write_all(&block.bytes())?;
        }
        // Now and then 9 and 10 at once.
        let draw = &mut Draw::new(pass.seed);
        out.write_all(&broken(refused, REFUSALS[i % 7], draw))?;
    }
    for seed in 0..6 {
        for refusal in ALONE {
            let draw = &mut Draw::new(seed);
            out.write_all(&broken(World::new(seed, 16).block(), refusal, draw))?;
        }
    }
    let short = broken(World::new(1, 16).block(), 5, &mut Draw::new(1));
    out.write_all(&short)?;
    for what in all {
        if !so_far.contains_key(what) {
            eprintln!("not met: {what}");
        }
    }
    Ok(())
}
