//! The list of FirstOrderLag calls, a run for each k.

use crate::words::{word, Writer};
use embassy_time::Duration;
use nalgebra::SVector;
use oracle::draw::Draw;
use oracle::model::{seconds, FirstOrderLag, FirstOrderLagParams};
use oracle::motion::control_context::ControlContext;
use oracle::motion::params::controller_params::{ENC_LAG_K, ENC_LAG_T_HORIZON, ENC_LAG_T_SLOPE};

pub const CALLS: usize = 240;

fn new(k: usize) -> (u64, FirstOrderLag<2>) {
    let micros = 15_625 * k as u64 / 64;
    let lag = FirstOrderLag::new_from_horizon(
        FirstOrderLagParams {
            k: SVector::<f32, 2>::new(ENC_LAG_K[0], ENC_LAG_K[1]),
            t_slope: SVector::<f32, 2>::new(ENC_LAG_T_SLOPE[0], ENC_LAG_T_SLOPE[1]),
        },
        None,
        Duration::from_micros(micros),
        ENC_LAG_T_HORIZON,
    );
    // The firmware's own way from dt to this lag gives the same.
    let own = ControlContext::new(k as f32 / 4096.0).enc_lag;
    assert_eq!(own.n_steps(), lag.n_steps());
    assert_eq!(seconds(&own), seconds(&lag));
    (micros, lag)
}

const COAST: [f32; 6] = [
    0.0,
    -0.0,
    1e-3,
    -1e-3,
    0.001953125,
    f32::from_bits(0x8000_0001),
];

fn input(draw: &mut Draw, state: f32) -> f32 {
    match draw.below(16) {
        0 => draw.special(),
        1 => draw.any(),
        2 => draw.subnormal(),
        3 => draw.near(state),
        4 => -state,
        5 => draw.within(1e-3),
        6 => draw.within(1e20),
        7 | 8 => draw.grid(160, 0.0625),
        9 | 10 => draw.within(0.1),
        _ => draw.within(6.0),
    }
}

pub fn list(seed: u64) -> Writer {
    let mut draw = Draw::new(seed);
    let mut out = Writer::default();
    out.number(64);
    for k in 1..=64 {
        let (micros, mut lag) = new(k);
        let (dt, t_min) = seconds(&lag);
        out.number(k);
        out.number(micros as usize);
        out.number(lag.n_steps());
        out.number(word(dt) as usize);
        out.number(word(t_min) as usize);
        out.number(CALLS);
        for call in 0..CALLS {
            let state = *lag.state();
            let spent = !state.x.is_finite() && !state.y.is_finite();
            // Two stretches of small inputs: at long ticks the state swings ever wider.
            let coasting = (10..50).contains(&call) || (120..165).contains(&call);
            let kind = match draw.below(100) {
                _ if call == 9 || call == 119 => 2,
                0..=84 if coasting => 0,
                _ if coasting => 1,
                0..=2 => 2,
                3..=32 if spent => 2,
                3..=61 => 0,
                _ => 1,
            };
            let mut given = [0.0; 2];
            let mut answer = [0.0; 2];
            if kind == 2 {
                lag.reset();
            } else {
                given = if coasting && kind == 0 {
                    std::array::from_fn(|_| draw.pick(&COAST))
                } else {
                    [input(&mut draw, state.x), input(&mut draw, state.y)]
                };
                let v = SVector::<f32, 2>::new(given[0], given[1]);
                if kind == 0 {
                    lag.step(&v);
                } else {
                    answer = lag.invert(&v).into();
                }
            }
            out.number(kind);
            out.floats(&given);
            out.floats(&answer);
            out.floats(&<[f32; 2]>::from(*lag.state()));
        }
    }
    out
}
