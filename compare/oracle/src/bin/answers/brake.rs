//! The list of ActiveBrakeController calls, a run for each k.

use crate::words::Writer;
use ateam_controls::Vector4f;
use oracle::draw::Draw;
use oracle::motion::active_brake::{memory, ActiveBrakeController};

pub const CALLS: usize = 180;

/// Speeds at or beside which a rule changes.
const EDGES: [f32; 12] = [
    5.0,
    f32::from_bits(0x409f_ffff),
    f32::from_bits(0x40a0_0001),
    100.0,
    f32::from_bits(0x42c7_ffff),
    f32::from_bits(0x42c8_0001),
    500.0,
    65_536.0,
    0.0625,
    f32::from_bits(0x7980_0000), // 2^116: with the shortest tick its slope overflows
    f32::from_bits(0x797f_ffff),
    f32::from_bits(0x7c80_0000), // 2^122, the same with the longest
];

/// The first calls of each run, a reset after each.
const FIRST: [[f32; 4]; 6] = [
    [500.0, -500.0, f32::NAN, f32::NEG_INFINITY],
    [f32::INFINITY, 5.0, -5.0, 0.0],
    [100.0, -100.0, -0.0, f32::from_bits(1)],
    [
        f32::from_bits(0x409f_ffff),
        f32::from_bits(0x40a0_0001),
        f32::from_bits(0xc09f_ffff),
        f32::from_bits(0xc0a0_0001),
    ],
    [
        f32::from_bits(0x42c7_ffff),
        f32::from_bits(0xc2c7_ffff),
        f32::from_bits(0x42c8_0001),
        f32::from_bits(0xc2c8_0001),
    ],
    [
        f32::from_bits(0x0000_0070),
        f32::from_bits(0x8000_0070),
        f32::MAX,
        f32::MIN,
    ],
];

fn speed(draw: &mut Draw) -> f32 {
    match draw.below(12) {
        0 | 1 => {
            let edge = draw.pick(&EDGES);
            draw.either_sign(edge)
        }
        2 => draw.special(),
        3 => draw.subnormal(),
        4 => draw.any(),
        5 | 6 => draw.within(6.0),
        7 => draw.grid(1600, 0.0625),
        8 => draw.grid(160, 0.0625),
        9 => draw.within(60_000.0),
        _ => draw.within(160.0),
    }
}

pub fn list(seed: u64) -> Writer {
    let mut draw = Draw::new(seed);
    let mut out = Writer::default();
    out.number(64);
    for k in 1..=64 {
        let dt = k as f32 / 4096.0;
        let mut brake = ActiveBrakeController::new();
        out.number(k);
        out.number(CALLS);
        for call in 0..CALLS {
            let first = call < 2 * FIRST.len();
            if (first && call % 2 == 1) || (!first && draw.chance(4)) {
                brake.reset();
                out.number(1);
                out.floats(&[0.0; 8]);
            } else {
                let speeds = if first {
                    FIRST[call / 2]
                } else {
                    std::array::from_fn(|_| speed(&mut draw))
                };
                let currents: [f32; 4] = brake.compute(Vector4f::from_array(speeds), dt).into();
                out.number(0);
                out.floats(&speeds);
                out.floats(&currents);
            }
            let (prev, integrated) = memory(&brake);
            out.floats(&prev);
            out.floats(&integrated);
        }
    }
    out
}
