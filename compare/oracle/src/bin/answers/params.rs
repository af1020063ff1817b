//! The constants of controller_params.rs: name, then the bits of each float.

use crate::words::word;
use oracle::motion::params::controller_params::*;
use std::fmt::Write;

pub fn text() -> String {
    let mut text = String::new();
    let mut line = |name: &str, values: &[f32]| {
        write!(text, "{name}").unwrap();
        for x in values {
            write!(text, " {:08x}", word(*x)).unwrap();
        }
        text.push('\n');
    };
    let gains = pose_pid_gains();
    for row in 0..3 {
        let values: [f32; 5] = std::array::from_fn(|c| gains[(row, c)]);
        line(&format!("pose_pid_gains[{row}]"), &values);
    }
    line(
        "POSE_PID_ANTI_JITTER_THRESH",
        &<[f32; 3]>::from(POSE_PID_ANTI_JITTER_THRESH),
    );
    line("POSE_ACCEL_GAIN", &<[f32; 2]>::from(POSE_ACCEL_GAIN));
    line("POSE_VEL_GAIN", &<[f32; 2]>::from(POSE_VEL_GAIN));
    line(
        "TRACKING_ERROR_THRESHOLD",
        &<[f32; 4]>::from(TRACKING_ERROR_THRESHOLD),
    );
    line(
        "FRICTION_COMP_GATING",
        &<[f32; 4]>::from(FRICTION_COMP_GATING),
    );
    line("BODY_ACCEL_CLAMP_LINEAR", &[BODY_ACCEL_CLAMP_LINEAR]);
    line("BODY_ACCEL_CLAMP_ANGULAR", &[BODY_ACCEL_CLAMP_ANGULAR]);
    line("BODY_VEL_CLAMP_LINEAR", &[BODY_VEL_CLAMP_LINEAR]);
    line("BODY_VEL_CLAMP_ANGULAR", &[BODY_VEL_CLAMP_ANGULAR]);
    line(
        "STOP_STATE_LINEAR_SPEED_LIMIT",
        &[STOP_STATE_LINEAR_SPEED_LIMIT],
    );
    line("BRAKE_KP", &[BRAKE_KP]);
    line("BRAKE_ANTI_JITTER_RADS", &[BRAKE_ANTI_JITTER_RADS]);
    line("BRAKE_MAX_CURRENT_A", &[BRAKE_MAX_CURRENT_A]);
    line(
        "TRACKING_DIVERGENCE_RECOVERY_REST_WHEEL_VEL",
        &[TRACKING_DIVERGENCE_RECOVERY_REST_WHEEL_VEL],
    );
    line(
        "VISION_SEED_POS_STD_THRESH_M",
        &[VISION_SEED_POS_STD_THRESH_M],
    );
    line("VISION_GATE_BASE_RADIUS_M", &[VISION_GATE_BASE_RADIUS_M]);
    line(
        "VISION_GATE_EXPAND_RATE_M_PER_S",
        &[VISION_GATE_EXPAND_RATE_M_PER_S],
    );
    line("ENC_LAG_K", &ENC_LAG_K);
    line("ENC_LAG_T_SLOPE", &ENC_LAG_T_SLOPE);
    text
}
