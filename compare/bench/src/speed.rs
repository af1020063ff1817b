// ns per call on the same arguments in one run: independent calls over an array, the best of many
// rounds. The functions take turns, and so do the lists of arguments, so that a busy neighbour
// disturbs all alike.
use crate::functions::*;
use crate::random::Random;
use std::hint::black_box;
use std::time::Instant;

const COUNT: usize = 4096;
const PASSES: usize = 10;
const ROUNDS: usize = 500;

// Functions with the same task, the archive's first, on one list of arguments.
struct Case {
    what: &'static str,
    names: Vec<&'static str>,
    // How many of the archive's answers are another than each function's.
    differences: Vec<usize>,
    // One round of the function at an index: ns per call.
    round: Box<dyn Fn(usize) -> f64>,
    best: Vec<f64>,
}

// Eight calls to a turn, so that the loop counts for little.
#[inline(never)]
fn round_of_one(f: One, xs: &[f32]) -> f64 {
    let mut out = [0.0; COUNT];
    let start = Instant::now();
    for (o, x) in out.chunks_exact_mut(8).zip(xs.chunks_exact(8)) {
        for i in 0..8 {
            o[i] = f(x[i]);
        }
    }
    let time = start.elapsed();
    black_box(&out);
    time.as_nanos() as f64 / COUNT as f64
}

#[inline(never)]
fn round_of_two(f: Two, xs: &[(f32, f32)]) -> f64 {
    let mut out = [0.0; COUNT];
    let start = Instant::now();
    for (o, x) in out.chunks_exact_mut(8).zip(xs.chunks_exact(8)) {
        for i in 0..8 {
            o[i] = f(x[i].0, x[i].1);
        }
    }
    let time = start.elapsed();
    black_box(&out);
    time.as_nanos() as f64 / COUNT as f64
}

fn case_of_one(
    what: &'static str,
    functions: &[(&'static str, One)],
    seed: u64,
    argument: impl Fn(&mut Random) -> f32,
) -> Case {
    let mut random = Random::new(seed);
    let xs: Vec<f32> = (0..COUNT).map(|_| argument(&mut random)).collect();
    let ours = functions[0].1;
    let differ = |f: One| xs.iter().filter(|&&x| !same(ours(x), f(x))).count();
    Case {
        what,
        names: functions.iter().map(|f| f.0).collect(),
        differences: functions.iter().map(|f| differ(f.1)).collect(),
        best: vec![f64::MAX; functions.len()],
        round: {
            let functions = functions.to_vec();
            Box::new(move |i| round_of_one(black_box(functions[i].1), black_box(&xs)))
        },
    }
}

fn case_of_two(
    what: &'static str,
    functions: &[(&'static str, Two)],
    seed: u64,
    argument: impl Fn(&mut Random) -> (f32, f32),
) -> Case {
    let mut random = Random::new(seed);
    let xs: Vec<(f32, f32)> = (0..COUNT).map(|_| argument(&mut random)).collect();
    let ours = functions[0].1;
    let differ = |f: Two| {
        xs.iter()
            .filter(|x| !same(ours(x.0, x.1), f(x.0, x.1)))
            .count()
    };
    Case {
        what,
        names: functions.iter().map(|f| f.0).collect(),
        differences: functions.iter().map(|f| differ(f.1)).collect(),
        best: vec![f64::MAX; functions.len()],
        round: {
            let functions = functions.to_vec();
            Box::new(move |i| round_of_two(black_box(functions[i].1), black_box(&xs)))
        },
    }
}

fn cases() -> Vec<Case> {
    let roots: [(&str, One); 3] = [
        ("ieee754", ieee754_sqrt),
        ("the hardware's", hardware_sqrt),
        ("libm", libm_sqrt),
    ];
    let remainders: [(&str, One); 2] = [("ieee754", ieee754_remainder), ("libm", libm_remainder)];
    let hypots: [(&str, Two); 3] = [
        ("ieee754", ieee754_hypot),
        ("the same rule, the hardware's root", rule_hypot),
        ("libm", libm_hypot),
    ];
    vec![
        case_of_one("sqrt, 0.0 to 100.0", &roots, 1, |r| r.between(0.0, 100.0)),
        case_of_one("sqrt, every exponent", &roots, 2, |r| {
            r.exponents(-126, 128)
        }),
        case_of_one("sqrt, subnormals", &roots, 3, |r| {
            f32::from_bits(r.word() >> 9)
        }),
        case_of_one("remainder, -7.0 to 7.0", &remainders, 4, |r| {
            r.between(-7.0, 7.0)
        }),
        case_of_one("remainder, -100.0 to 100.0", &remainders, 5, |r| {
            r.between(-100.0, 100.0)
        }),
        case_of_one("remainder, every exponent", &remainders, 6, |r| {
            r.exponents(-126, 128)
        }),
        case_of_two("hypot, -10.0 to 10.0", &hypots, 7, |r| {
            (r.between(-10.0, 10.0), r.between(-10.0, 10.0))
        }),
        case_of_two("hypot, every exponent", &hypots, 8, |r| {
            (r.exponents(-126, 128), r.exponents(-126, 128))
        }),
    ]
}

pub fn run() {
    println!("{COUNT} arguments, best of {} rounds", PASSES * ROUNDS);
    let mut cases = cases();
    for _ in 0..PASSES {
        for case in &mut cases {
            for i in (0..case.names.len())
                .cycle()
                .take(ROUNDS * case.names.len())
            {
                case.best[i] = case.best[i].min((case.round)(i));
            }
        }
    }
    for case in cases {
        println!("{}", case.what);
        for i in 0..case.names.len() {
            let (name, ns, times) = (case.names[i], case.best[i], case.best[0] / case.best[i]);
            let differ = case.differences[i];
            println!("    {name:34} {ns:6.2} ns a call; ieee754 takes {times:.2} times that; {differ} answers differ");
        }
    }
}
