// Arguments for the remainder by 2.0 * PI.
use crate::list::List;

const TAU: u64 = 0xc9_0fdb; // 2.0 * PI = TAU * 2^-21, PI = TAU * 2^-22

// The largest float up to n * PI, by its word; the next word is above it.
fn below(n: u128) -> u32 {
    let mut m = n * TAU as u128;
    let mut field = 128; // m * 2^-22 where m has 24 digits
    while m >= 1 << 24 {
        m /= 2;
        field += 1;
    }
    (field << 23) + (m as u32 - (1 << 23))
}

// The m with m * 2^k = rest up to multiples of TAU, if one has 24 digits.
fn leaving(rest: u64, k: u32) -> Option<u32> {
    let half = (TAU + 1) / 2; // 2 * half = 1 up to multiples
    let mut m = rest;
    for _ in 0..k {
        m = m * half % TAU;
    }
    (m >= 1 << 23 && m < 1 << 24).then_some(m as u32)
}

// At every exponent from 4.0 on, the arguments that leave least, and those nearest to the tie, with
// quotients up to 2^125: the rest is near 0 or near TAU / 2 in units of 2^-21.
fn push_hardest(l: &mut List) {
    for k in 0..126 {
        for d in 0..12 {
            for rest in [d, TAU - 1 - d, TAU / 2 - d, TAU / 2 + 1 + d] {
                if let Some(m) = leaving(rest, k) {
                    l.push_both(((129 + k) << 23) + (m - (1 << 23)));
                }
            }
        }
    }
}

// Both sides of multiples of PI.
fn push_multiples(l: &mut List) {
    for n in 1..3000u128 {
        let w = below(n) | if n % 4 < 2 { 0 } else { 0x8000_0000 };
        l.push(w);
        l.push(w + 1);
    }
    for bits in 12..97 {
        for _ in 0..8 {
            let n = (0..3).fold(1, |n, _| n << 32 | l.random() as u128) >> (96 - bits) | 1;
            l.push_both(below(n));
            l.push_both(below(n) + 1);
        }
    }
}

pub fn arguments() -> List {
    let mut list = List::new("remainders");
    list.kind("zeros, infinities and their neighbours", |l| {
        for w in [0, 0x8000_0000, 0x7f80_0000, 0xff80_0000] {
            l.push_around(w, 3);
        }
    });
    list.kind("NaN patterns: quiet, signalling, both signs", |l| {
        l.push_nans(30)
    });
    list.kind(
        "PI, 2 PI, .. 8 PI and half of PI, 16 floats to each side",
        |l| {
            l.push_around(0x3fc9_0fdb, 16);
            l.push_around(0xbfc9_0fdb, 16);
            for n in 1..=8 {
                l.push_around(below(n), 16);
                l.push_around(below(n) | 0x8000_0000, 16);
            }
        },
    );
    list.kind(
        "both sides of multiples of PI, odd and even",
        push_multiples,
    );
    list.kind(
        "every exponent from 4.0 on: least rests, and rests nearest to PI",
        push_hardest,
    );
    list.kind("every exponent: its ends, their neighbours, random", |l| {
        for field in 0..255 {
            for w in [field << 23, (field << 23) + 1, (field << 23) + 0x7f_ffff] {
                l.push_both(w);
            }
            for _ in 0..12 {
                let digits = l.random() & 0x7f_ffff;
                l.push_both(field << 23 | digits);
            }
        }
    });
    list.kind("subnormals", |l| {
        for bit in 0..23 {
            l.push_both(1 << bit);
            l.push_both((1 << bit) - 1);
            let low = l.random() & ((1 << bit) - 1);
            l.push_both((1 << bit) + low);
        }
    });
    list.kind("whole numbers and hundredths", |l| {
        for n in 1..=1000 {
            l.push_both((n as f32).to_bits());
            l.push_both((n as f32 * 0.01).to_bits());
        }
    });
    list.kind("random between -100.0 and 100.0", |l| {
        for _ in 0..3000 {
            let x = (l.random() as f64 / 2f64.powi(32) - 0.5) * 200.0;
            l.push((x as f32).to_bits());
        }
    });
    list.kind("random words", |l| {
        for _ in 0..3000 {
            let w = l.random();
            l.push(w);
        }
    });
    list
}
