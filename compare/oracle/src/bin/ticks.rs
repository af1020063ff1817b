//! Runs the firmware's tick on blocks from standard input.
//!
//! `ticks` prints what `drive` prints. `ticks --full` writes 96 words for each
//! block instead, as the proved program that replays ticks does; with
//! `--reset-every N` the controller is reset before each tick whose number is a
//! multiple of N. With `--passes` a refused block does not end the run: the next
//! block begins another pass.

use oracle::block::{Block, BYTES};
use oracle::cart::{last_line, Cart};
use std::io::{self, BufWriter, Read, Write};

const MOST_TICKS: u32 = 16_777_216;

struct Options {
    full: bool,
    passes: bool,
    reset_every: u32,
}

fn options() -> Option<Options> {
    let mut options = Options {
        full: false,
        passes: false,
        reset_every: 0,
    };
    let mut args = std::env::args().skip(1);
    while let Some(arg) = args.next() {
        match arg.as_str() {
            "--full" => options.full = true,
            "--passes" => options.passes = true,
            "--reset-every" => options.reset_every = args.next()?.parse().ok()?,
            _ => return None,
        }
    }
    Some(options)
}

/// Up to 512 bytes; fewer at the end of the input.
fn next_block(input: &mut impl Read) -> io::Result<Vec<u8>> {
    let mut bytes = Vec::with_capacity(BYTES);
    input.take(BYTES as u64).read_to_end(&mut bytes)?;
    Ok(bytes)
}

fn accepted(bytes: &[u8], cart: &Option<Cart>) -> Result<Block, u32> {
    let next = cart.as_ref().map_or(0, |c| c.ticks);
    let block = Block::read(bytes)?;
    match block.refusal(cart.as_ref().map(|c| c.k), next) {
        Some(n) => Err(n),
        None if next >= MOST_TICKS => Err(3),
        None => Ok(block),
    }
}

fn write_words(output: &mut impl Write, words: &[u32; 96]) -> io::Result<()> {
    let mut bytes = [0; 384];
    for (to, w) in bytes.chunks_exact_mut(4).zip(words) {
        to.copy_from_slice(&w.to_le_bytes());
    }
    output.write_all(&bytes)
}

fn write_last(output: &mut impl Write, cart: &Option<Cart>) -> io::Result<()> {
    let last = match cart {
        Some(cart) => cart.last_line(),
        None => last_line(0, &[0; 8]),
    };
    writeln!(output, "{last}")
}

fn run(options: Options) -> io::Result<()> {
    let mut input = io::BufReader::with_capacity(1 << 16, io::stdin().lock());
    let mut output = BufWriter::with_capacity(1 << 16, io::stdout().lock());
    let mut cart: Option<Cart> = None;
    loop {
        let bytes = next_block(&mut input)?;
        if bytes.is_empty() {
            break;
        }
        match accepted(&bytes, &cart) {
            Ok(block) => {
                let cart = cart.get_or_insert_with(|| Cart::new(block.k()));
                if options.reset_every != 0 && cart.ticks % options.reset_every == 0 {
                    cart.body.reset();
                }
                let answer = cart.tick(&block);
                if options.full {
                    write_words(&mut output, &cart.record(&answer))?;
                } else {
                    writeln!(output, "{}", cart.line(&answer))?;
                }
            }
            Err(n) => {
                if options.full {
                    write_words(&mut output, &Cart::refused(cart.take(), n))?;
                } else {
                    let next = cart.as_ref().map_or(0, |c| c.ticks);
                    writeln!(output, "{next} ! {n}")?;
                }
                if !options.passes {
                    break;
                }
                if !options.full {
                    write_last(&mut output, &cart.take())?;
                }
            }
        }
    }
    if !options.full {
        write_last(&mut output, &cart)?;
    }
    output.flush()
}

fn main() -> io::Result<()> {
    match options() {
        Some(options) => run(options),
        None => {
            eprintln!("usage: ticks [--full] [--passes] [--reset-every N] < BLOCKS");
            std::process::exit(2)
        }
    }
}
