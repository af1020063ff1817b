//! Lists of PidController calls, for any number of axes.

use crate::words::Writer;
use nalgebra::{SMatrix, SVector};
use oracle::draw::Draw;
use oracle::motion::params::controller_params::{
    pose_pid_gains, BRAKE_ANTI_JITTER_RADS, BRAKE_KP, BRAKE_MAX_CURRENT_A,
    POSE_PID_ANTI_JITTER_THRESH,
};
use oracle::motion::pid::{memory, PidController};

pub const CALLS: usize = 100;

/// What a run's numbers are drawn from.
#[derive(Clone, Copy, PartialEq)]
enum Style {
    /// The body's gains and anti-jitter, without limits.
    Pose,
    /// The brake's gains, anti-jitter and limits.
    Brake,
    /// Small binary fractions, so that sums are exact and meet thresholds.
    Exact,
    /// Numbers of everyday size.
    Plain,
    /// Anything: infinities, NaN, subnormals, limits out of order.
    Wild,
}

const STYLES: [Style; 8] = [
    Style::Pose,
    Style::Exact,
    Style::Plain,
    Style::Wild,
    Style::Brake,
    Style::Exact,
    Style::Plain,
    Style::Exact,
];

/// Kp, Ki, Kd, Ki_err_min, Ki_err_max; anti-jitter threshold; output limits.
struct Axis {
    gain: [f32; 5],
    thresh: f32,
    limits: [f32; 2],
}

fn axis(draw: &mut Draw, style: Style, n: usize) -> Axis {
    match style {
        Style::Pose => {
            let gains = pose_pid_gains();
            let row = n % 3;
            Axis {
                gain: std::array::from_fn(|c| gains[(row, c)]),
                thresh: POSE_PID_ANTI_JITTER_THRESH[row],
                limits: [0.0, 0.0],
            }
        }
        Style::Brake => Axis {
            gain: [BRAKE_KP, 0.0, 0.0, 0.0, 0.0],
            thresh: BRAKE_ANTI_JITTER_RADS,
            limits: [-BRAKE_MAX_CURRENT_A, BRAKE_MAX_CURRENT_A],
        },
        Style::Exact => Axis {
            gain: [
                draw.grid(16, 0.25),
                draw.grid(16, 0.5),
                draw.pick(&[0.0, 0.5, 1.0, -1.0, 2.0]),
                draw.pick(&[-0.125, -0.0625, -0.001953125, 0.0, -0.0]),
                draw.pick(&[0.125, 0.0625, 0.001953125, 0.0, -0.0]),
            ],
            thresh: draw.pick(&[0.5, 0.25, 2.0, 0.0, -0.0, -1.0]),
            limits: [
                draw.pick(&[-4.0, -1.0, 0.0, -0.0]),
                draw.pick(&[4.0, 1.0, 0.0, -0.0]),
            ],
        },
        Style::Plain => {
            let reach = draw.within(2.0).abs();
            Axis {
                gain: [
                    draw.within(300.0),
                    draw.within(20.0),
                    draw.within(10.0),
                    -reach * 0.75,
                    reach,
                ],
                thresh: draw.within(0.5),
                limits: [-draw.within(60.0).abs(), draw.within(60.0).abs()],
            }
        }
        Style::Wild => {
            let mut wild = || match draw.below(4) {
                0 => draw.special(),
                1 => draw.any(),
                2 => draw.subnormal(),
                _ => draw.within(8.0),
            };
            let mut axis = Axis {
                gain: std::array::from_fn(|_| wild()),
                thresh: wild(),
                limits: [wild(), wild()],
            };
            // One limit in eight is NaN.
            for limit in axis.gain[3..].iter_mut().chain(&mut axis.limits) {
                if draw.below(8) == 0 {
                    *limit = f32::NAN;
                }
            }
            axis
        }
    }
}

/// Setpoint, process variable and derivative for one axis, drawn with its
/// memory in view so that thresholds are met.
fn inputs(draw: &mut Draw, style: Style, a: &Axis, integrated: f32, dt: f32) -> [f32; 3] {
    let unusual = match style {
        Style::Wild => 50,
        _ => 6,
    };
    if draw.chance(unusual) {
        let mut odd = || match draw.below(4) {
            0 | 1 => draw.special(),
            2 => draw.any(),
            _ => draw.subnormal(),
        };
        return [odd(), odd(), odd()];
    }
    let [kp, _, kd, lo_integral, hi_integral] = a.gain;
    match draw.below(8) {
        // The error at the threshold, or beside it.
        0 | 1 => {
            let error = draw.near(a.thresh);
            [draw.either_sign(error), 0.0, draw.within(3.0)]
        }
        // The integral at one of its limits, or beside it.
        2 => {
            let limit = if draw.chance(50) {
                lo_integral
            } else {
                hi_integral
            };
            let error = draw.near((limit - integrated) / dt);
            [error, 0.0, draw.within(3.0)]
        }
        // The output at one of its limits, or beside it, by the proportional part.
        3 => {
            let limit = if draw.chance(50) {
                a.limits[0]
            } else {
                a.limits[1]
            };
            let error = draw.near(limit / kp);
            [0.0, -error, 0.0]
        }
        // The same by the derivative part, without an error.
        4 => {
            let limit = if draw.chance(50) {
                a.limits[0]
            } else {
                a.limits[1]
            };
            [1.5, 1.5, draw.near(limit / kd)]
        }
        // Fractions whose differences are exact.
        5 => [
            draw.grid(64, 0.0625),
            draw.grid(64, 0.0625),
            draw.grid(64, 0.25),
        ],
        // A small error far from the origin.
        6 => {
            let place = draw.within(6.0);
            [place + draw.within(0.02), place, draw.within(0.1)]
        }
        _ => [draw.within(6.0), draw.within(6.0), draw.within(30.0)],
    }
}

pub fn list<const N: usize>(runs: usize, seed: u64) -> Writer {
    let mut draw = Draw::new(seed);
    let mut out = Writer::default();
    out.number(runs);
    for run in 0..runs {
        let style = STYLES[run % STYLES.len()];
        let axes: [Axis; N] = std::array::from_fn(|n| axis(&mut draw, style, n));
        let (jitter, limited) = match style {
            Style::Pose => (true, false),
            Style::Brake => (true, true),
            _ => (
                run / STYLES.len() % 2 == 0 || draw.chance(30),
                draw.chance(70),
            ),
        };
        let gain = SMatrix::<f32, N, 5>::from_fn(|r, c| axes[r].gain[c]);
        let thresh = SVector::<f32, N>::from_fn(|r, _| axes[r].thresh);
        let lo = SVector::<f32, N>::from_fn(|r, _| axes[r].limits[0]);
        let hi = SVector::<f32, N>::from_fn(|r, _| axes[r].limits[1]);
        let mut pid = if jitter {
            PidController::from_gains_matrix_with_anti_jitter(&gain, Some(thresh))
        } else {
            PidController::from_gains_matrix(&gain)
        };
        if limited {
            pid.set_output_limits(Some((lo, hi)));
        }

        out.number(CALLS);
        for a in &axes {
            out.floats(&a.gain);
        }
        out.number(jitter as usize);
        out.floats(&if jitter { thresh.into() } else { [0.0; N] });
        out.number(limited as usize);
        out.floats(&if limited { lo.into() } else { [0.0; N] });
        out.floats(&if limited { hi.into() } else { [0.0; N] });

        let run_dt = (1 + draw.below(64)) as f32 / 4096.0;
        for _ in 0..CALLS {
            let dt = match style {
                Style::Wild if draw.chance(25) => draw.special(),
                _ if draw.chance(2) => draw.pick(&[0.0, -0.0, f32::NAN, -0.001, f32::INFINITY]),
                _ => run_dt,
            };
            let kind = match draw.below(100) {
                0..=2 => 2,
                3..=49 => 0,
                _ => 1,
            };
            if kind == 2 {
                pid.reset();
                out.number(2);
                out.floats(&[0.0; N]);
                out.floats(&[0.0; N]);
                out.floats(&[0.0; N]);
                out.floats(&[0.0]);
                out.floats(&[0.0; N]);
            } else {
                let integrated = memory(&pid).1;
                let drawn: [[f32; 3]; N] =
                    std::array::from_fn(|n| inputs(&mut draw, style, &axes[n], integrated[n], dt));
                let setpoint = SVector::<f32, N>::from_fn(|r, _| drawn[r][0]);
                let process = SVector::<f32, N>::from_fn(|r, _| drawn[r][1]);
                let derivative = match kind {
                    0 => SVector::<f32, N>::zeros(),
                    _ => SVector::<f32, N>::from_fn(|r, _| drawn[r][2]),
                };
                let answer = match kind {
                    0 => pid.calculate(&setpoint, &process, dt),
                    _ => pid.calculate_with_derivative(&setpoint, &process, &derivative, dt),
                };
                out.number(kind);
                out.floats(&<[f32; N]>::from(setpoint));
                out.floats(&<[f32; N]>::from(process));
                out.floats(&<[f32; N]>::from(derivative));
                out.floats(&[dt]);
                out.floats(&<[f32; N]>::from(answer));
            }
            let (prev, integrated) = memory(&pid);
            out.floats(&prev);
            out.floats(&integrated);
        }
    }
    out
}
