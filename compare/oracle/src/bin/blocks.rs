//! `blocks SEED COUNT K` writes COUNT tick blocks for a cart with that K, the
//! same for the same arguments. `blocks SEED COUNT K REFUSAL` makes the last
//! one such that it is refused with that number (1, 4, 5, 6, 7, 8, 9 or 10).
//! `blocks SEED COUNT K REFUSAL MORE` puts MORE blocks of another pass behind it.

use oracle::draw::Draw;
use oracle::world::{broken, World};
use std::io::{self, BufWriter, Write};

fn arguments() -> Option<(u64, u32, u32, Option<u32>, u32)> {
    let args: Vec<String> = std::env::args().skip(1).collect();
    let refusal = match args.get(3) {
        Some(r) => {
            let r: u32 = r.parse().ok()?;
            [1, 4, 5, 6, 7, 8, 9, 10].contains(&r).then_some(Some(r))?
        }
        None => None,
    };
    let k: u32 = args.get(2)?.parse().ok()?;
    let more = args.get(4).map_or(Some(0), |m| m.parse().ok())?;
    (args.len() <= 5 && (1..=64).contains(&k)).then_some(())?;
    Some((
        args[0].parse().ok()?,
        args[1].parse().ok()?,
        k,
        refusal,
        more,
    ))
}

fn main() -> io::Result<()> {
    let Some((seed, count, k, refusal, more)) = arguments() else {
        eprintln!("usage: blocks SEED COUNT K [REFUSAL [MORE]]");
        std::process::exit(2)
    };
    let mut world = World::new(seed, k);
    let mut out = BufWriter::with_capacity(1 << 16, io::stdout().lock());
    for number in 0..count {
        let block = world.block();
        match refusal {
            Some(r) if number + 1 == count => {
                out.write_all(&broken(block, r, &mut Draw::new(seed)))?
            }
            _ => out.write_all(&block.bytes())?,
        }
    }
    let mut other = World::new(seed + 1, k);
    for _ in 0..more {
        out.write_all(&other.block().bytes())?;
    }
    out.flush()
}
