//! Inputs aimed at thresholds, with the controller's state in view: each is met
//! exactly, or one ulp beside.

use crate::draw::Draw;
use crate::plain::{BASE, SPIN};

pub(crate) const NEXT: usize = 46;
pub(crate) const FRESH: usize = 37;
pub(crate) const ESTIMATE: usize = 18;

/// A block's words by name, before its check is made.
pub(crate) struct Words(pub [u32; 128]);

impl Words {
    pub(crate) fn put(&mut self, at: usize, xs: &[f32]) {
        for (i, x) in xs.iter().enumerate() {
            self.0[at + i] = x.to_bits();
        }
    }

    pub(crate) fn get(&self, at: usize) -> f32 {
        f32::from_bits(self.0[at])
    }
}

/// A sample that is held for a tick, and the estimate that meets it there.
#[derive(Clone, Copy)]
pub(crate) struct Scene {
    pub sample: [f32; 6],
    pub estimate: [f32; 6],
    pub stop: bool,
}

/// The slope for which 300/64 + 7·slope, or 400/64 + 30·slope, is this.
fn slope(kp: f32, kd: f32, wanted: f32) -> f32 {
    (wanted - kp / 64.0) / kd
}

/// On the x or y axis, or beside it by so little that it counts in a sum but not
/// in a root of squares.
fn on_axis(draw: &mut Draw, v: f32) -> (f32, f32) {
    let v = draw.either_sign(v);
    let beside = match draw.below(3) {
        0 => (v.abs().next_up() - v.abs()) * 0.505,
        _ => 0.0,
    };
    if draw.chance(50) {
        (v, beside)
    } else {
        (beside, v)
    }
}

fn beside_axis(draw: &mut Draw, v: f32) -> (f32, f32) {
    let v = draw.near(v);
    on_axis(draw, v)
}

pub(crate) fn scene(draw: &mut Draw) -> Scene {
    const PI: f32 = std::f32::consts::PI;
    let mut p = [0.0; 3];
    let mut v = [0.0; 3];
    let mut at = [0.0; 3];
    let mut moving = None;
    let mut stop = draw.chance(20);
    match draw.below(12) {
        0 => {
            // Friction by acceleration: 300 e + 7 slope is 0.5.
            let i = draw.below(2);
            let sign = draw.either_sign(1.0);
            at[i] = sign * -1.0 / 64.0;
            v[i] = sign * draw.near(slope(300.0, 7.0, 0.5));
            moving = Some([0.0; 3]);
            stop = false;
        }
        1 => {
            // Friction by angular acceleration: 400 e + 30 slope is 1.0.
            at[2] = -1.0 / 64.0;
            v[2] = draw.near(slope(400.0, 30.0, 1.0));
            moving = Some([0.0; 3]);
        }
        2 => (v[0], v[1]) = beside_axis(draw, 0.1),
        3 => v[2] = draw.about(0.5),
        4 => {
            // Acceleration at its limits.
            let sign = draw.either_sign(1.0);
            if draw.chance(50) {
                at[0] = sign * -1.0 / 64.0;
                v[0] = sign * draw.near(slope(300.0, 7.0, 20.0));
            } else {
                at[2] = sign * -1.0 / 64.0;
                v[2] = sign * draw.near(slope(400.0, 30.0, 100.0));
            }
            moving = Some([0.0; 3]);
        }
        5 => {
            // Twist at its limits.
            (v[0], v[1]) = beside_axis(draw, 10.0);
            v[2] = draw.about(SPIN);
            stop = draw.chance(10);
        }
        6 => {
            // Speed at stop's limit, and beyond what a square can hold.
            let pair = [(0.75, 1.0), (-1.0, 0.75), (1.25, 0.0), (0.0, -1.25)][draw.below(4)];
            (v[0], v[1]) = match draw.below(6) {
                0 => (18_446_744_073_709_551_616.0, 1.0),
                1 => (3.0, -4.0),
                _ => (draw.near(pair.0), pair.1),
            };
            stop = true;
        }
        7 => {
            // Errors at anti-jitter's thresholds.
            at = [draw.about(0.001), draw.about(0.001), draw.about(0.01)];
        }
        8 => {
            // Headings half a turn and more apart.
            p[2] = draw.pick(&[PI, -PI, 2.0 * PI, 3.0 * PI, 100.0, 1e9, 2.5]);
            p[2] = draw.near(p[2]);
        }
        9 => v = std::array::from_fn(|_| draw.special()),
        10 => {
            p = std::array::from_fn(|_| draw.pick(&[-0.0, 0.0, 1e-40, -1e-42]));
            v = std::array::from_fn(|_| draw.pick(&[-0.0, -0.0, 0.0, 1e-40]));
        }
        _ => {
            p = std::array::from_fn(|_| draw.special());
            at = p;
            v = std::array::from_fn(|_| draw.within(2.0));
        }
    }
    let moving = moving.unwrap_or(v);
    Scene {
        sample: [p[0], p[1], p[2], v[0], v[1], v[2]],
        estimate: [at[0], at[1], at[2], moving[0], moving[1], moving[2]],
        stop,
    }
}

/// A sighting at the gate's radius, at its base, or between and beyond them.
pub(crate) fn gate(words: &mut Words, t: f32, draw: &mut Draw) {
    let radius = BASE + 2.0 * t;
    let away = match draw.below(8) {
        0 | 1 => draw.near(BASE),
        2 | 3 => draw.near(radius),
        4 => 0.5 * (BASE + radius),
        5 => radius + 1.0,
        6 => draw.special(),
        _ => 0.25 * BASE,
    };
    let (x, y) = on_axis(draw, away);
    words.put(12, &[0.0, 0.0]);
    words.put(4, &[x, y]);
}

/// Place, heading, velocity or turning of the next sample at its threshold from
/// the estimate, the other errors small.
pub(crate) fn divergence(words: &mut Words, draw: &mut Draw) {
    let (i, limit) = [(0, 1.0), (2, 1.57), (3, 5.0), (5, 10.0)][draw.below(4)];
    for j in 0..6 {
        let beside = words.get(ESTIMATE + j) + draw.within(0.1);
        words.put(NEXT + j, &[beside]);
    }
    let (i, both) = match i {
        0 | 3 => (i + draw.below(2), [i, i + 1]),
        _ => (i, [i, i]),
    };
    for j in both {
        words.put(ESTIMATE + j, &[0.0]);
        words.put(NEXT + j, &[0.0]);
    }
    let off = match draw.below(7) {
        0 => 1.5 * limit,
        1 => f32::NAN,
        // Headings that are near one another, turns apart.
        2 | 3 if i == 2 => draw.pick(&[6.0, 6.2831855, 7.0, 100.0, 5.0, 18.0]),
        _ => draw.near(limit),
    };
    words.put(NEXT + i, &[draw.either_sign(off)]);
    if both[0] != both[1] && draw.chance(10) {
        words.put(NEXT + both[0], &[draw.special(), draw.special()]);
    }
    if both[0] != both[1] && draw.chance(5) {
        words.put(NEXT + both[0], &[f32::INFINITY, f32::NAN]);
    }
}

/// Wheels at, below and above rest.
pub(crate) fn rest(words: &mut Words, draw: &mut Draw) {
    let mut wheels: [f32; 4] = std::array::from_fn(|_| draw.within(49.9));
    let i = draw.below(4);
    match draw.below(8) {
        0 => wheels[i] = f32::NAN,
        1 => wheels[i] = 60.0,
        2 => wheels = std::array::from_fn(|_| draw.within(200.0)),
        3 | 4 | 5 => wheels[i] = draw.about(50.0),
        _ => {}
    }
    words.put(7, &wheels);
}

/// How the sightings of one seeding lie.
#[derive(Clone, Copy)]
pub(crate) enum Seeding {
    AsDrawn,
    /// All at one place.
    Same(f32, f32),
    /// By turns on both sides of 0.0, the first ten so far off, then the others.
    Sides([f32; 2], [f32; 2]),
}

/// Sighting n of those on both sides.
fn side(off: [f32; 2], n: u32) -> f32 {
    let x = off[(n >= 10) as usize];
    if n % 2 == 0 {
        x
    } else {
        -x
    }
}

/// The deviation that the gate works out of them.
fn deviation(off: [f32; 2]) -> f32 {
    let (mut sum, mut squares) = (0.0f32, 0.0f32);
    for n in 0..20 {
        let x = side(off, n);
        sum += x;
        squares += x * x;
    }
    let mean = sum / 20.0;
    (squares / 20.0 - mean * mean).sqrt()
}

/// Places whose deviation is 0.03 or a neighbour of it.
fn at_threshold(draw: &mut Draw) -> [f32; 2] {
    let wanted = draw.near(0.03);
    let mut off = [0.03 + draw.within(0.002), 0.03];
    // Each half of the sightings has half of the variance.
    off[1] = (2.0 * 0.0009 - off[0] * off[0]).sqrt();
    off[1] = f32::from_bits(off[1].to_bits() - 64);
    for _ in 0..128 {
        if deviation(off) == wanted {
            return off;
        }
        off[1] = off[1].next_up();
    }
    [0.03, 0.03]
}

pub(crate) fn seeding(draw: &mut Draw) -> Seeding {
    match draw.below(10) {
        0 => Seeding::Same(1.1, draw.pick(&[1.1, 0.5, -0.0])),
        1 => Seeding::Same(draw.within(4.0), draw.within(4.0)),
        2 => Seeding::Sides(at_threshold(draw), [0.0, 0.01]),
        3 => Seeding::Sides([0.01, 0.0], at_threshold(draw)),
        4 => Seeding::Sides(at_threshold(draw), at_threshold(draw)),
        5 => Seeding::Sides([0.04, 0.04], [draw.within(0.02), 0.01]),
        _ => Seeding::AsDrawn,
    }
}

pub(crate) fn seed(words: &mut Words, how: Seeding, n: u32) {
    match how {
        Seeding::AsDrawn => {}
        Seeding::Same(x, y) => words.put(4, &[x, y]),
        Seeding::Sides(x, y) => words.put(4, &[side(x, n), side(y, n)]),
    }
}
