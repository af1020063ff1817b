//! A list of blocks, the text that `drive` prints for them, and the 96 words of
//! each tick.

use crate::check::Report;
use crate::words::Reader;
use oracle::block::{Block, BYTES};
use oracle::cart::{Cart, LETTERS};
use oracle::plain::Controller;
use oracle::world::World;
use std::fs;
use std::io;
use std::path::Path;

const TICKS: usize = 2500;
const K: u32 = 32;
const SEED: u64 = 125;

pub fn write(data: &Path) -> io::Result<()> {
    let mut world = World::new(SEED, K);
    let mut cart = Cart::new(K);
    let (mut blocks, mut text, mut words) = (Vec::new(), String::new(), Vec::new());
    for _ in 0..TICKS {
        let block = world.block();
        let answer = cart.tick(&block);
        blocks.extend(block.bytes());
        text += &cart.line(&answer);
        text += "\n";
        words.extend(cart.record(&answer).iter().flat_map(|w| w.to_le_bytes()));
    }
    text += &cart.last_line();
    text += "\n";
    fs::write(data.join("blocks.bin"), blocks)?;
    fs::write(data.join("drive.txt"), text)?;
    fs::write(data.join("ticks.bin"), words)
}

/// The stored words against the plain tick, and the text against the words.
pub fn check(data: &Path) -> io::Result<Report> {
    let mut r = Report::default();
    let blocks = fs::read(data.join("blocks.bin"))?;
    let text = fs::read_to_string(data.join("drive.txt"))?;
    let mut lines = text.lines();
    let mut stored = Reader::open(&data.join("ticks.bin"))?;
    let mut plain = Controller::new(K);
    let mut counts = [0; 8];
    for bytes in blocks.chunks(BYTES) {
        let block = Block::read(bytes).unwrap();
        assert_eq!(block.refusal(Some(K), r.calls as u32), None);
        let words = plain.tick(&block);
        for (at, w) in words.iter().enumerate() {
            let place = format!("tick {} word {at}", r.calls);
            r.same_word(&place, stored.number() as u32, *w);
        }
        let outcome = words[1] as usize;
        counts[outcome] += 1;
        let rest = match words[2] {
            0 => words[37..41]
                .iter()
                .map(|w| format!("{w:08x}"))
                .collect::<Vec<_>>()
                .join(" "),
            n => format!("E{n}"),
        };
        let line = format!(
            "{} {} {} {} {rest}",
            r.calls,
            LETTERS[outcome],
            if words[56] == 1 { 'V' } else { '-' },
            if words[57] == 1 { 'B' } else { 'N' },
        );
        r.same_line(&line, lines.next());
        r.calls += 1;
    }
    let last: Vec<String> = std::iter::once(r.calls)
        .chain(counts)
        .map(|n| n.to_string())
        .collect();
    r.same_line(&last.join(" "), lines.next());
    assert!(stored.at_end() && lines.next().is_none());
    for (letter, n) in LETTERS.iter().zip(counts) {
        r.met_times(&format!("outcome {letter}"), n);
    }
    for (what, n) in &plain.met {
        r.met_times(what, *n);
    }
    Ok(r)
}
