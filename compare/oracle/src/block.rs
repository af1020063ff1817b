//! Tick blocks: 512 bytes, 128 little-endian words (docs/RULES.md, 'The tick block').

use ateam_common_packets::bindings::{
    BasicControl, BodyControlMode, GlobalPositionCommand, HeadingLineCommand,
};
use ateam_common_packets::radio::ManeuverCommand;
use ateam_controls::tick::{Inputs, Sample};
use ateam_controls::{Matrix3f, Matrix3x4f, Matrix4x3f, Vector3f, Vector4f, Vector6f};

pub const BYTES: usize = 512;

pub struct Block {
    pub words: [u32; 128],
}

impl Block {
    /// The block, or refusal 5.
    pub fn read(bytes: &[u8]) -> Result<Block, u32> {
        if bytes.len() != BYTES {
            return Err(5);
        }
        let mut words = [0; 128];
        for (w, b) in words.iter_mut().zip(bytes.chunks_exact(4)) {
            *w = u32::from_le_bytes(b.try_into().unwrap());
        }
        Ok(Block { words })
    }

    pub fn bytes(&self) -> Vec<u8> {
        self.words.iter().flat_map(|w| w.to_le_bytes()).collect()
    }

    /// 1 plus the sum of words 0 to 126, the sum modulo 2^32.
    pub fn check(&self) -> u32 {
        self.words[..127]
            .iter()
            .fold(0u32, |sum, w| sum.wrapping_add(*w))
            .wrapping_add(1)
    }

    pub fn k(&self) -> u32 {
        self.words[105]
    }

    pub fn mode(&self) -> u32 {
        self.words[3]
    }

    pub fn flag(&self, bit: u32) -> bool {
        self.words[2] >> bit & 1 == 1
    }

    /// Refusals 6 to 10, for a drive with this k (or none yet) and this next tick.
    pub fn refusal(&self, k: Option<u32>, next: u32) -> Option<u32> {
        if self.words[127] != self.check() {
            Some(6)
        } else if self.words[0] != 1 {
            Some(7)
        } else if self.words[2] >= 32 || self.words[106..127].iter().any(|w| *w != 0) {
            Some(8)
        } else if !(1..=64).contains(&self.k()) {
            Some(1)
        } else if self.mode() > 3 {
            Some(4)
        } else if k.is_some_and(|k| k != self.k()) {
            Some(9)
        } else if self.words[1] != next {
            Some(10)
        } else {
            None
        }
    }

    pub fn float(&self, at: usize) -> f32 {
        f32::from_bits(self.words[at])
    }

    fn floats<const N: usize>(&self, at: usize) -> [f32; N] {
        std::array::from_fn(|i| self.float(at + i))
    }

    fn sample(&self, at: usize) -> Sample {
        Sample {
            state: Vector6f::from_array(self.floats(at)),
            accel: Vector3f::from_array(self.floats(at + 6)),
        }
    }

    pub fn sighting(&self) -> Vector3f {
        Vector3f::from_array(self.floats(4))
    }

    pub fn wheels(&self) -> Vector4f {
        Vector4f::from_array(self.floats(7))
    }

    pub fn gyro(&self) -> f32 {
        self.float(11)
    }

    pub fn predicted(&self) -> Vector6f {
        Vector6f::from_array(self.floats(12))
    }

    pub fn inputs(&self) -> Inputs {
        Inputs {
            estimator_failed: self.flag(3),
            planner_failed: self.flag(4),
            estimate: Vector6f::from_array(self.floats(18)),
            fresh: self.sample(37),
            next: self.sample(46),
            cosine: self.float(55),
            sine: self.float(56),
            inverse_inertia: Matrix3f::from_row_slice(&self.floats::<9>(57)),
            twist_to_wheel: Matrix4x3f::from_row_slice(&self.floats::<12>(66)),
            accel_to_wheel: Matrix4x3f::from_row_slice(&self.floats::<12>(78)),
            wheel_to_twist: Matrix3x4f::from_row_slice(&self.floats::<12>(90)),
            twist_to_wheel_predicted: Matrix4x3f::zeros(),
            friction_force: Vector3f::from_array(self.floats(102)),
        }
    }

    pub fn control(&self) -> BasicControl {
        let maneuver = match self.mode() {
            2 => {
                let [x, y, z, max_linear_vel, max_angular_vel, max_linear_acc, max_angular_acc] =
                    self.floats(24);
                ManeuverCommand::GlobalPosition(GlobalPositionCommand {
                    x,
                    y,
                    z,
                    max_linear_vel,
                    max_angular_vel,
                    max_linear_acc,
                    max_angular_acc,
                })
            }
            3 => {
                let c: [f32; 13] = self.floats(24);
                ManeuverCommand::HeadingLine(HeadingLineCommand {
                    global_theta: c[0],
                    start_x: c[1],
                    start_y: c[2],
                    dir_x: c[3],
                    dir_y: c[4],
                    line_velocity: c[5],
                    max_vel_colinear: c[6],
                    max_vel_perp: c[7],
                    max_vel_angular: c[8],
                    max_accel_colinear: c[9],
                    max_accel_perp: c[10],
                    max_accel_angular: c[11],
                    colinear_start_thresh: c[12],
                })
            }
            _ => ManeuverCommand::Off,
        };
        let body_control_mode = match self.mode() {
            0 => BodyControlMode::BCM_OFF,
            1 => BodyControlMode::BCM_ESTOP_BRAKE,
            2 => BodyControlMode::BCM_GLOBAL_POSITION,
            3 => BodyControlMode::BCM_HEADING_LINE,
            mode => panic!("mode {mode}"),
        };
        BasicControl {
            body_control_mode,
            halt: self.flag(1),
            stop: self.flag(2),
            maneuver,
        }
    }
}
