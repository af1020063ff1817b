//! Lists of little-endian 32-bit words; every NaN is written 7fc00000.

use std::fs;
use std::io;
use std::path::Path;

pub fn word(x: f32) -> u32 {
    if x.is_nan() {
        0x7fc0_0000
    } else {
        x.to_bits()
    }
}

#[derive(Default)]
pub struct Writer {
    words: Vec<u32>,
}

impl Writer {
    pub fn number(&mut self, n: usize) {
        self.words.push(u32::try_from(n).unwrap());
    }

    pub fn floats(&mut self, xs: &[f32]) {
        self.words.extend(xs.iter().map(|x| word(*x)));
    }

    pub fn save(&self, path: &Path) -> io::Result<()> {
        let bytes: Vec<u8> = self.words.iter().flat_map(|w| w.to_le_bytes()).collect();
        fs::write(path, bytes)
    }
}

pub struct Reader {
    words: Vec<u32>,
    at: usize,
}

impl Reader {
    pub fn open(path: &Path) -> io::Result<Reader> {
        let bytes = fs::read(path)?;
        assert_eq!(bytes.len() % 4, 0, "{}: not whole words", path.display());
        let words = bytes
            .chunks_exact(4)
            .map(|b| u32::from_le_bytes(b.try_into().unwrap()))
            .collect();
        Ok(Reader { words, at: 0 })
    }

    pub fn number(&mut self) -> usize {
        self.at += 1;
        self.words[self.at - 1] as usize
    }

    pub fn float(&mut self) -> f32 {
        f32::from_bits(self.number() as u32)
    }

    pub fn floats<const N: usize>(&mut self) -> [f32; N] {
        std::array::from_fn(|_| self.float())
    }

    pub fn vec(&mut self, n: usize) -> Vec<f32> {
        (0..n).map(|_| self.float()).collect()
    }

    pub fn at_end(&self) -> bool {
        self.at == self.words.len()
    }
}
