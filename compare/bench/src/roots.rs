// The exported root beside the hardware's, over all 2^32 words, on two threads. NaN is one value.
use crate::functions::*;
use std::hint::black_box;
use std::sync::atomic::{AtomicU64, Ordering::Relaxed};

const CHUNK: u64 = 1 << 20;

// The differences among the words that the other threads have not taken.
fn take_turns(next: &AtomicU64) -> u64 {
    let (ours, theirs) = (
        black_box(ieee754_sqrt as One),
        black_box(hardware_sqrt as One),
    );
    let mut differences = 0;
    loop {
        let start = next.fetch_add(CHUNK, Relaxed);
        if start >= 1 << 32 {
            return differences;
        }
        for w in start..start + CHUNK {
            let x = f32::from_bits(w as u32);
            if !same(ours(x), theirs(x)) {
                differences += 1;
                if differences <= 8 {
                    println!(
                        "{w:08x}: {:08x}, hardware {:08x}",
                        ours(x).to_bits(),
                        theirs(x).to_bits()
                    );
                }
            }
        }
    }
}

pub fn run() {
    let next = AtomicU64::new(0);
    let differences: u64 = std::thread::scope(|s| {
        let threads = [s.spawn(|| take_turns(&next)), s.spawn(|| take_turns(&next))];
        threads.map(|t| t.join().unwrap()).iter().sum()
    });
    println!("roots of all 4294967296 words: {differences} differ from the hardware's");
}
