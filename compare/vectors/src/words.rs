// Words that are read as floats.
use crate::list::List;

pub fn arguments() -> List {
    let mut list = List::new("words");
    list.kind("the ends of every class, 8 words to each side", |l| {
        for w in [0, 0x80_0000, 0x3f80_0000, 0x7f80_0000, 0x7fc0_0000] {
            l.push_around(w, 8);
            l.push_around(w | 0x8000_0000, 8);
        }
    });
    list.kind("NaN patterns: quiet, signalling, both signs", |l| {
        l.push_nans(250)
    });
    list.kind("each bit alone, and each bit missing", |l| {
        for bit in 0..32 {
            l.push(1 << bit);
            l.push(!(1 << bit));
        }
    });
    list.kind("every exponent, both signs: its ends and random", |l| {
        for field in 0..255 {
            for digits in [0, 1, 0x40_0000, 0x7f_fffe, 0x7f_ffff] {
                l.push_both(field << 23 | digits);
            }
            for _ in 0..4 {
                let digits = l.random() & 0x7f_ffff;
                l.push_both(field << 23 | digits);
            }
        }
    });
    list.kind("subnormals of every length, both signs", |l| {
        for bit in 0..23 {
            l.push_both((1 << bit) - 1);
            for _ in 0..12 {
                let low = l.random() & ((1 << bit) - 1);
                l.push_both((1 << bit) + low);
            }
        }
    });
    list.kind("random", |l| {
        for _ in 0..4000 {
            let w = l.random();
            l.push(w);
        }
    });
    list
}
