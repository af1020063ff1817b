// Arguments for the square root.
use crate::list::List;

// The word of m * 2^k for an m of 24 digits or fewer, where it is a float above zero.
fn float(m: u64, k: i32) -> Option<u32> {
    let (mut m, mut k) = (m, k);
    while m < 1 << 23 && k > -149 {
        m *= 2;
        k -= 1;
    }
    if m >= 1 << 23 && m < 1 << 24 && k >= -149 && k <= 104 {
        return Some(((k + 149) as u32) * 0x80_0000 + m as u32);
    }
    (k == -149 && m > 0 && m < 1 << 23).then_some(m as u32)
}

// Significands m of 24 digits, with s of 25 digits for which s * s is nearest to m * 2^25 or
// m * 2^26 and not equal to it. An odd s is twice a midpoint between two floats, an even s twice a
// float. Nearest first; each with 25 or 26.
fn hardest(odd_s: bool, count: usize) -> Vec<(u64, i32)> {
    let mut found = vec![];
    for s in (1 << 24)..(1u64 << 25) {
        if (s % 2 == 1) != odd_s {
            continue;
        }
        for shift in [25, 26] {
            let (n, unit) = (s * s, 1u64 << shift);
            for m in [n / unit, n / unit + 1] {
                let d = n as i64 - (m * unit) as i64;
                if d != 0 && d.abs() < 40_000 && m >= 1 << 23 && m < 1 << 24 {
                    found.push((d.abs(), d, m, shift));
                }
            }
        }
    }
    found.sort();
    found
        .iter()
        .take(count)
        .map(|&(_, _, m, shift)| (m, shift))
        .collect()
}

// Subnormals whose root is nearest to a midpoint between two floats, nearest first.
fn hardest_subnormals(count: usize) -> Vec<u32> {
    let mut found = vec![];
    for b in 1..1u64 << 23 {
        // b * 2^-149 = n * 4^k, n of 49 or 50 digits
        let mut n = 2 * b;
        while n < 1 << 48 {
            n *= 4;
        }
        let s = (n as f64).sqrt() as u64 | 1;
        let d = [s - 2, s, s + 2].map(|s| (n as i64 - (s * s) as i64).abs());
        found.push((d[0].min(d[1]).min(d[2]), b as u32));
    }
    found.sort();
    found.iter().take(count).map(|&(_, b)| b).collect()
}

fn push_subnormals(l: &mut List) {
    for b in 1..=600 {
        l.push(b);
        l.push(0x7f_ffff - b);
        l.push(0x80_0000 + b);
    }
    for bit in 0..23 {
        l.push_around(1 << bit, 2);
        for _ in 0..40 {
            let low = l.random() & ((1 << bit) - 1);
            l.push((1 << bit) + low);
        }
    }
}

fn push_squares(l: &mut List) {
    for u in (1..4096u64).step_by(2) {
        let k = (l.random() % 115) as i32 - 64;
        if let Some(w) = float(u * u, 2 * k) {
            l.push_around(w, 1);
        }
    }
    for u in 1..=400u64 {
        l.push_around(float(u * u, 0).unwrap(), 1);
    }
}

// Each at two exponents, odd for 25 and even for 26.
fn push_hardest(l: &mut List, odd_s: bool, count: usize) {
    for (m, shift) in hardest(odd_s, count) {
        for _ in 0..2 {
            let j = (l.random() % 126) as i32 - 74;
            l.push(float(m, 2 * j + shift % 2).unwrap());
        }
    }
}

pub fn arguments() -> List {
    let mut list = List::new("roots");
    list.kind("zeros, infinities and their neighbours", |l| {
        for w in [0, 0x8000_0000, 0x7f80_0000, 0xff80_0000] {
            l.push_around(w, 3);
        }
    });
    list.kind("NaN patterns: quiet, signalling, both signs", |l| {
        l.push_nans(100)
    });
    list.kind("below zero", |l| {
        for field in 0..255 {
            l.push(0x8000_0000 | field << 23);
            let digits = l.random() & 0x7f_ffff;
            l.push(0x8000_0000 | field << 23 | digits);
        }
    });
    list.kind("every exponent: its ends, their neighbours, random", |l| {
        for field in 0..255 {
            l.push_around(field << 23, 4);
            for _ in 0..12 {
                let digits = l.random() & 0x7f_ffff;
                l.push(field << 23 | digits);
            }
        }
        l.push_around(0x7f7f_ffff, 0);
    });
    list.kind(
        "subnormals: smallest, largest, every length",
        push_subnormals,
    );
    list.kind("exact squares and both neighbours", push_squares);
    list.kind("roots nearest to a midpoint between two floats", |l| {
        push_hardest(l, true, 2500)
    });
    list.kind("roots nearest to a float and not equal to it", |l| {
        push_hardest(l, false, 1500)
    });
    list.kind("subnormals with roots nearest to a midpoint", |l| {
        for b in hardest_subnormals(2000) {
            l.push(b);
        }
    });
    list.kind("random, above zero", |l| {
        for _ in 0..5000 {
            let w = l.random() % 0x7f80_0000;
            l.push(w);
        }
    });
    list
}
