//! A firmware `BodyController` driven by tick blocks, with the counts of
//! the last line (docs/RULES.md, 'The lines of drive'). Every number that a tick shows is read from the firmware's
//! own fields or from what it handed to the stand-ins.

use crate::block::Block;
use crate::motion::body_controller::BodyController;
use crate::motion::control_context::{
    ControlContext, TrackingDivergenceState, VisionGateEvent, VisionGateState,
};
use crate::motion::{maneuvers, pid};
use ateam_common_packets::radio::ManeuverCommand;
use ateam_controls::tick;
use ateam_controls::trajectory::Trajectory;
use std::mem::ManuallyDrop;

pub const LETTERS: [char; 8] = ['Q', 'G', 'C', 'S', 'T', 'J', 'F', 'R'];

pub struct Cart {
    pub k: u32,
    pub body: BodyController,
    pub ticks: u32,
    pub counts: [u32; 8],
}

/// One tick's answers.
pub struct Answer {
    /// Index into [`LETTERS`].
    pub outcome: usize,
    /// The twist and the acceleration were clamped; or 11, 12.
    pub result: Result<(bool, bool), u32>,
    pub calls: tick::Calls,
}

impl Cart {
    pub fn new(k: u32) -> Cart {
        Cart {
            k,
            body: BodyController::new(k as f32 / 4096.0),
            ticks: 0,
            counts: [0; 8],
        }
    }

    pub fn tick(&mut self, block: &Block) -> Answer {
        let seeding = matches!(
            self.body.control_context.vision_gate,
            VisionGateState::Seeding { .. }
        );
        let inputs = block.inputs();
        self.body.control_context.robot_model.state = block.predicted();
        self.body.control_context.robot_model.i_inv = inputs.inverse_inertia;
        tick::begin(inputs);
        let sighted = block.flag(0);
        let before = self
            .body
            .tracking_divergence_recovery_active()
            .then(|| copy(&self.body.control_context));
        let result = self.body.control_update(
            block.control(),
            block.sighting(),
            sighted,
            block.wheels(),
            block.gyro(),
            0.0,
            0.0,
            false,
        );
        let calls = tick::calls();
        let taken = calls.measured.is_some_and(|(_, skip_vision)| !skip_vision);
        // A recovery that ends within the tick wipes the gate's event: then it is
        // asked of a copy that only looks.
        let event = match before {
            None => self.body.control_context.last_gate_event,
            Some(mut c) => {
                let _ = c.update_state_estimate(
                    block.sighting(),
                    sighted,
                    block.wheels(),
                    block.gyro(),
                );
                c.last_gate_event
            }
        };
        let outcome = match (sighted, seeding) {
            (false, _) => 0,
            (true, true) if taken => 2,
            (true, true) if event == VisionGateEvent::SeedReset => 3,
            (true, true) => 1,
            (true, false) if event == VisionGateEvent::AcceptJump => 5,
            (true, false) if taken => 4,
            (true, false) if event == VisionGateEvent::FirstReject => 6,
            (true, false) => 7,
        };
        self.ticks += 1;
        self.counts[outcome] += 1;
        let result = result.map_err(|_| if calls.planned.is_some() { 12 } else { 11 });
        Answer {
            outcome,
            result,
            calls,
        }
    }

    /// 0 hold, 1 no vision, 2 keep, 3 new plan, 4 not asked (11).
    pub fn plan(&self, answer: &Answer) -> usize {
        if answer.result == Err(11) {
            4
        } else if answer.calls.planned.is_some() {
            3
        } else if answer.calls.ticked {
            2
        } else if maneuvers::previous_mode(&self.body.maneuver_manager) == 0 {
            0
        } else {
            1
        }
    }

    pub fn line(&self, answer: &Answer) -> String {
        let vision = if self.body.vision_active() { 'V' } else { '-' };
        let recovery = if self.body.tracking_divergence_recovery_active() {
            'B'
        } else {
            'N'
        };
        let rest = match answer.result {
            Ok(_) => {
                let w = self.body.get_wheel_velocities();
                format!(
                    "{:08x} {:08x} {:08x} {:08x}",
                    word(w[0]),
                    word(w[1]),
                    word(w[2]),
                    word(w[3])
                )
            }
            Err(n) => format!("E{n}"),
        };
        let letter = LETTERS[answer.outcome];
        format!("{} {letter} {vision} {recovery} {rest}", self.ticks - 1)
    }

    /// All that a tick answers and leaves, as 96 words; FORMATS.md lists them.
    pub fn record(&self, answer: &Answer) -> [u32; 96] {
        let mut out = self.state();
        let calls = &answer.calls;
        let (measurement, skip_vision) = calls.measured.unwrap();
        out[0] = self.ticks - 1;
        out[1] = answer.outcome as u32;
        out[2] = answer.result.err().unwrap_or(0);
        put(&mut out, 3, measurement.iter());
        out[11] = !skip_vision as u32;
        put(&mut out, 12, calls.predicted.iter());
        out[18] = self.plan(answer) as u32;
        put(&mut out, 19, calls.planned.unwrap_or_default().iter());
        put(
            &mut out,
            25,
            calls.friction_twist.unwrap_or_default().iter(),
        );
        let (vel_clamped, accel_clamped) = answer.result.unwrap_or_default();
        out[45] = vel_clamped as u32;
        out[46] = accel_clamped as u32;
        out
    }

    /// What the controller has, in its words of the 96; the others are 0.
    pub fn state(&self) -> [u32; 96] {
        let mut out = [0; 96];
        let body = &self.body;
        let context = &body.control_context;
        put(&mut out, 28, body.body_twist_out.iter());
        put(&mut out, 31, body.body_accel_out.iter());
        put(&mut out, 34, body.body_accel_out_fric_comp.iter());
        put(&mut out, 37, body.wheel_vel_out.iter());
        put(&mut out, 41, body.wheel_torque_out.iter());
        out[47] = body.wheels_disabled() as u32;
        match &context.vision_gate {
            VisionGateState::Seeding {
                n,
                pos_sum,
                pos_sq_sum,
            } => {
                out[49] = *n;
                put(&mut out, 50, pos_sum.iter());
                put(&mut out, 52, pos_sq_sum.iter());
            }
            VisionGateState::Tracking {
                time_since_last_valid_s,
            } => {
                out[48] = 1;
                out[54] = word(*time_since_last_valid_s);
            }
        }
        out[55] = word(context.time_since_vision_update_s);
        out[56] = context.vision_active() as u32;
        out[57] = (context.tracking_divergence_state == TrackingDivergenceState::Recovering) as u32;
        if let Some(t) = &context.trajectory {
            let (state, accel) = t.sample();
            out[58] = 1;
            put(&mut out, 59, state.iter());
            put(&mut out, 65, accel.iter());
        }
        let (kind, fields) = command(&context.prev_cmd);
        out[68] = kind;
        put(&mut out, 69, fields.iter());
        out[82] = maneuvers::previous_mode(&body.maneuver_manager);
        put(&mut out, 83, context.state_estimate.iter());
        let (prev, integrated) = pid::memory(&context.pose_pid_controller);
        put(&mut out, 89, prev.iter());
        put(&mut out, 92, integrated.iter());
        out
    }

    /// The 96 words of a refused block: the number that its tick would have had,
    /// 8, the refusal, and what a reset call then leaves. Without a cart, zeros.
    pub fn refused(cart: Option<Cart>, refusal: u32) -> [u32; 96] {
        let mut out = [0; 96];
        if let Some(mut cart) = cart {
            cart.body.reset();
            out = cart.state();
            out[0] = cart.ticks;
        }
        out[1] = 8;
        out[2] = refusal;
        out
    }

    pub fn last_line(&self) -> String {
        last_line(self.ticks, &self.counts)
    }
}

/// The context bit by bit: it owns nothing that would have to be freed.
fn copy(context: &ControlContext) -> ManuallyDrop<ControlContext> {
    assert!(!std::mem::needs_drop::<ControlContext>());
    ManuallyDrop::new(unsafe { std::ptr::read(context) })
}

pub fn last_line(ticks: u32, counts: &[u32; 8]) -> String {
    let counts: Vec<String> = counts.iter().map(|n| n.to_string()).collect();
    format!("{ticks} {}", counts.join(" "))
}

/// All NaNs as one.
pub fn word(x: f32) -> u32 {
    if x.is_nan() {
        0x7fc0_0000
    } else {
        x.to_bits()
    }
}

fn put<'a>(out: &mut [u32; 96], at: usize, xs: impl Iterator<Item = &'a f32>) {
    for (to, x) in out[at..].iter_mut().zip(xs) {
        *to = word(*x);
    }
}

/// Mode and fields of a previous command, 0 and zeros if there is none.
fn command(cmd: &Option<ManeuverCommand>) -> (u32, [f32; 13]) {
    let mut fields = [0.0; 13];
    match cmd {
        None => (0, fields),
        Some(ManeuverCommand::GlobalPosition(c)) => {
            fields[..7].copy_from_slice(&[
                c.x,
                c.y,
                c.z,
                c.max_linear_vel,
                c.max_angular_vel,
                c.max_linear_acc,
                c.max_angular_acc,
            ]);
            (2, fields)
        }
        Some(ManeuverCommand::HeadingLine(c)) => (
            3,
            [
                c.global_theta,
                c.start_x,
                c.start_y,
                c.dir_x,
                c.dir_y,
                c.line_velocity,
                c.max_vel_colinear,
                c.max_vel_perp,
                c.max_vel_angular,
                c.max_accel_colinear,
                c.max_accel_perp,
                c.max_accel_angular,
                c.colinear_start_thresh,
            ],
        ),
        Some(other) => panic!("no mode for {other:?}"),
    }
}
