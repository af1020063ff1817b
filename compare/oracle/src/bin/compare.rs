//! Runs blocks from standard input through the firmware's tick and through the
//! plain one, compares all 96 words of each tick, and prints how often each
//! branch was met. A refused block ends its pass, and the next block begins
//! another. `--reset-every N` resets both before each tick whose number is a
//! multiple of N.

use oracle::block::{Block, BYTES};
use oracle::cart::{Cart, LETTERS};
use oracle::plain::Controller;
use std::collections::BTreeMap;
use std::io::{self, Read};
use std::process::ExitCode;

#[derive(Default)]
struct Tally {
    differences: u64,
    ticks: u64,
    outcomes: [u64; 8],
    refusals: BTreeMap<u32, u64>,
    met: BTreeMap<&'static str, usize>,
}

impl Tally {
    fn compare(&mut self, tick: u32, firmware: &[u32; 96], plainly: &[u32; 96]) {
        for at in 0..96 {
            if firmware[at] != plainly[at] {
                self.differences += 1;
                if self.differences <= 10 {
                    println!(
                        "tick {tick} word {at}: firmware {:08x}, plain {:08x}",
                        firmware[at], plainly[at]
                    );
                }
            }
        }
    }

    /// A pass is over.
    fn add(&mut self, pair: Option<(Cart, Controller)>) {
        if let Some((cart, plain)) = pair {
            self.ticks += u64::from(cart.ticks);
            for (sum, n) in self.outcomes.iter_mut().zip(cart.counts) {
                *sum += u64::from(n);
            }
            for (what, n) in plain.met {
                *self.met.entry(what).or_default() += n;
            }
        }
    }

    fn print(&self) {
        println!("{} ticks, {} differences", self.ticks, self.differences);
        for (letter, n) in LETTERS.iter().zip(self.outcomes) {
            println!("  {n:8}  {letter}");
        }
        for (what, n) in &self.met {
            println!("  {n:8}  {what}");
        }
        for (refusal, n) in &self.refusals {
            println!("  {n:8}  block refused: {refusal}");
        }
    }
}

fn reset_every() -> Option<u32> {
    let args: Vec<String> = std::env::args().skip(1).collect();
    match args.as_slice() {
        [] => Some(0),
        [flag, n] if flag == "--reset-every" => n.parse().ok(),
        _ => None,
    }
}

fn main() -> io::Result<ExitCode> {
    let Some(reset_every) = reset_every() else {
        eprintln!("usage: compare [--reset-every N] < BLOCKS");
        return Ok(ExitCode::from(2));
    };
    let mut input = io::BufReader::with_capacity(1 << 16, io::stdin().lock());
    let mut pair: Option<(Cart, Controller)> = None;
    let mut tally = Tally::default();
    loop {
        let mut bytes = Vec::with_capacity(BYTES);
        input.by_ref().take(BYTES as u64).read_to_end(&mut bytes)?;
        if bytes.is_empty() {
            break;
        }
        let state = pair.as_ref().map(|(cart, _)| (cart.k, cart.ticks));
        let (k, next) = (state.map(|s| s.0), state.map_or(0, |s| s.1));
        let block = match Block::read(&bytes).map(|b| (b.refusal(k, next), b)) {
            Ok((None, block)) => block,
            Ok((Some(n), _)) | Err(n) => {
                *tally.refusals.entry(n).or_default() += 1;
                tally.add(pair.take());
                continue;
            }
        };
        let (cart, plain) =
            pair.get_or_insert_with(|| (Cart::new(block.k()), Controller::new(block.k())));
        if reset_every != 0 && cart.ticks % reset_every == 0 {
            cart.body.reset();
            plain.reset();
        }
        let answer = cart.tick(&block);
        let plainly = plain.tick(&block);
        tally.compare(cart.ticks - 1, &cart.record(&answer), &plainly);
    }
    tally.add(pair);
    tally.print();
    Ok(if tally.differences == 0 {
        ExitCode::SUCCESS
    } else {
        ExitCode::FAILURE
    })
}
