// A list of different arguments, with a count for each kind.
use std::collections::HashSet;

pub struct List {
    name: &'static str,
    words: Vec<u32>,
    seen: HashSet<u32>,
    state: u64,
}

// A float's word; every NaN is 7fc00000. Kept out of line: inlined on a root, rustc 1.95 at -O gave
// a NaN's own bits.
#[inline(never)]
pub fn word(x: f32) -> u32 {
    if x.is_nan() {
        0x7fc0_0000
    } else {
        x.to_bits()
    }
}

impl List {
    pub fn new(name: &'static str) -> List {
        List {
            name,
            words: vec![],
            seen: HashSet::new(),
            state: 0x9e37_79b9_7f4a_7c15,
        }
    }

    // The same arguments under another name.
    pub fn like(other: &List, name: &'static str) -> List {
        List {
            name,
            words: other.words.clone(),
            seen: other.seen.clone(),
            state: other.state,
        }
    }

    // The next random word (xorshift64*, fixed seed).
    pub fn random(&mut self) -> u32 {
        self.state ^= self.state >> 12;
        self.state ^= self.state << 25;
        self.state ^= self.state >> 27;
        (self.state.wrapping_mul(0x2545_f491_4f6c_dd1d) >> 32) as u32
    }

    pub fn push(&mut self, w: u32) {
        if self.seen.insert(w) {
            self.words.push(w);
        }
    }

    // w with the words before and after it.
    pub fn push_around(&mut self, w: u32, reach: u32) {
        for d in 0..=2 * reach {
            self.push(w.wrapping_add(d).wrapping_sub(reach));
        }
    }

    // w with either sign.
    pub fn push_both(&mut self, w: u32) {
        self.push(w);
        self.push(w ^ 0x8000_0000);
    }

    // Adds the arguments of one kind, and prints how many were new.
    pub fn kind(&mut self, what: &str, add: impl FnOnce(&mut List)) {
        let before = self.words.len();
        add(self);
        println!("{:>12} {:6} {}", self.name, self.words.len() - before, what);
    }

    // NaN patterns: quiet and signalling, both signs, each payload bit alone, and random ones.
    pub fn push_nans(&mut self, random: u32) {
        for top in [0x7f80_0000, 0x7fc0_0000, 0xff80_0000, 0xffc0_0000] {
            for bit in 0..22 {
                self.push(top + (1 << bit));
            }
            self.push(top | 0x40_0000);
            self.push(top | 0x3f_ffff);
            for _ in 0..random {
                let payload = self.random() & 0x3f_ffff;
                self.push(top | payload.max(1));
            }
        }
    }

    // Writes each argument with its answer to the data folder of the crate that replays them.
    pub fn write(&self, answer: impl Fn(u32) -> u32) {
        let mut bytes = vec![];
        for &w in &self.words {
            bytes.extend(w.to_le_bytes());
            bytes.extend(answer(w).to_le_bytes());
        }
        let folder = concat!(
            env!("CARGO_MANIFEST_DIR"),
            "/../../crates/replay_lists/data"
        );
        std::fs::create_dir_all(folder).unwrap();
        std::fs::write(format!("{folder}/{}", self.name), bytes).unwrap();
        println!("{} {}", self.name, self.words.len());
    }
}
