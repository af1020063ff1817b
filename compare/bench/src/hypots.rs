// Where libm's hypotf and the rule (docs/RULES.md, 'The hypotenuse') differ, and whether the exported
// hypot is the rule's.
use crate::functions::*;
use crate::random::Random;

const PAIRS: u32 = 10_000_000;

// How far apart two floats that are not below zero are, in ulps.
fn ulps(a: f32, b: f32) -> u32 {
    a.to_bits().abs_diff(b.to_bits())
}

fn compare(what: &str, seed: u64, pair: impl Fn(&mut Random) -> (f32, f32)) {
    let mut random = Random::new(seed);
    let (mut differ, mut most, mut exported) = (0, 0, 0);
    let mut example = (0.0, 0.0);
    for _ in 0..PAIRS {
        let (x, y) = pair(&mut random);
        let rule = rule_hypot(x, y);
        exported += !same(rule, ieee754_hypot(x, y)) as u32;
        let away = ulps(rule, libm_hypot(x, y));
        differ += (away > 0) as u32;
        if away > most {
            most = away;
            example = (x, y);
        }
    }
    let share = 100.0 * differ as f64 / PAIRS as f64;
    println!("{what}: {differ} of {PAIRS} pairs differ ({share:.2} %), by {most} ulp at most");
    show("    the first that far apart", example.0, example.1);
    println!("    the exported hypot differs from the stand-in on {exported}");
}

fn show(what: &str, x: f32, y: f32) {
    let (rule, libm) = (rule_hypot(x, y), libm_hypot(x, y));
    println!(
        "{what}: {x:?}, {y:?} ({:08x}, {:08x}): rule {:08x}, libm {:08x}",
        x.to_bits(),
        y.to_bits(),
        rule.to_bits(),
        libm.to_bits()
    );
}

// The first pair that differs, by the larger argument and then by the smaller one.
fn first(arguments: impl Fn(u32) -> f32) -> (f32, f32) {
    for a in 1.. {
        for b in 1..=a {
            let (x, y) = (arguments(a), arguments(b));
            if !same(rule_hypot(x, y), libm_hypot(x, y)) {
                return (x, y);
            }
        }
    }
    unreachable!()
}

pub fn run() {
    compare("both even between -10.0 and 10.0", 1, |r| {
        (r.between(-10.0, 10.0), r.between(-10.0, 10.0))
    });
    compare("both even between 1.0 and 2.0", 2, |r| {
        (r.between(1.0, 2.0), r.between(1.0, 2.0))
    });
    compare("exponents even from -10 to 10", 3, |r| {
        (r.exponents(-10, 11), r.exponents(-10, 11))
    });
    compare("every exponent, within 2^12 of each other", 4, |r| {
        let (x, y) = (r.word() % 0x7f80_0000, r.word() % (24 << 23));
        (
            f32::from_bits(x),
            f32::from_bits((x + y).saturating_sub(12 << 23).min(0x7f7f_ffff)),
        )
    });
    compare("every float above zero", 5, |r| {
        (
            f32::from_bits(r.word() % 0x7f80_0000),
            f32::from_bits(r.word() % 0x7f80_0000),
        )
    });
    let (x, y) = first(|n| n as f32);
    show(
        "smallest whole numbers, by the larger and then the smaller",
        x,
        y,
    );
    let (x, y) = first(f32::from_bits);
    show("smallest bits, by the larger and then the smaller", x, y);
}
