//! The part of ateam_common_packets that the firmware's files use. Packets are
//! plain structs; the command's equality is the derived one, kind and fields as
//! floats. Telemetry is written by the firmware and read by nobody.

pub mod bindings {
    #![allow(non_snake_case)]

    use crate::radio::{ManeuverCommand, ManeuverExtendedTelemetry};
    use nalgebra::SVector;

    type Vector3f = SVector<f32, 3>;

    /// The numbers are this stand-in's; the firmware only compares them.
    pub mod BodyControlMode {
        pub type Type = u32;
        pub const BCM_OFF: Type = 0;
        pub const BCM_ESTOP_BRAKE: Type = 1;
        pub const BCM_GLOBAL_POSITION: Type = 2;
        pub const BCM_HEADING_LINE: Type = 3;
    }

    pub mod PivotDirection {
        pub type Type = u32;
        pub const PIVOT_DIRECTION_FORWARD: Type = 0;
        pub const PIVOT_DIRECTION_BACKWARD: Type = 1;
    }

    macro_rules! command {
        ($name:ident, $telemetry:ident, $($field:ident: $t:ty),*) => {
            #[derive(Clone, Copy, Debug, Default, PartialEq)]
            pub struct $name { $(pub $field: $t),* }

            #[derive(Clone, Copy, Debug, Default)]
            pub struct $telemetry { pub cmd_echo: $name }
        };
    }
    command!(GlobalPositionCommand, ExtendedGlobalPositionTelemetry,
        x: f32, y: f32, z: f32,
        max_linear_vel: f32, max_angular_vel: f32, max_linear_acc: f32, max_angular_acc: f32);
    command!(GlobalVelocityCommand, ExtendedGlobalVelocityTelemetry,
        x: f32, y: f32, z: f32, max_linear_acc: f32, max_angular_acc: f32);
    command!(LocalVelocityCommand, ExtendedLocalVelocityTelemetry,
        x: f32, y: f32, z: f32, max_linear_acc: f32, max_angular_acc: f32);
    command!(GlobalAccelerationCommand, ExtendedGlobalAccelerationTelemetry,
        x: f32, y: f32, z: f32);
    command!(LocalAccelerationCommand, ExtendedLocalAccelerationTelemetry,
        x: f32, y: f32, z: f32);
    command!(HeadingPivotCommand, ExtendedHeadingPivotTelemetry,
        max_angular_vel: f32, max_angular_acc: f32, orbit_radius: f32, inset_angle: f32,
        direction: PivotDirection::Type, compute_inset_angle: u8, global_theta: f32);
    command!(PointPivotCommand, ExtendedPointPivotTelemetry,
        max_angular_vel: f32, max_angular_acc: f32, orbit_radius: f32, inset_angle: f32,
        direction: PivotDirection::Type, compute_inset_angle: u8, target_x: f32, target_y: f32);
    command!(HeadingLineCommand, ExtendedHeadingLineTelemetry,
        global_theta: f32, start_x: f32, start_y: f32, dir_x: f32, dir_y: f32, line_velocity: f32,
        max_vel_colinear: f32, max_vel_perp: f32, max_vel_angular: f32,
        max_accel_colinear: f32, max_accel_perp: f32, max_accel_angular: f32,
        colinear_start_thresh: f32);
    command!(PointLineCommand, ExtendedPointLineTelemetry,
        target_x: f32, target_y: f32, start_x: f32, start_y: f32, dir_x: f32, dir_y: f32,
        line_velocity: f32,
        max_vel_colinear: f32, max_vel_perp: f32, max_vel_angular: f32,
        max_accel_colinear: f32, max_accel_perp: f32, max_accel_angular: f32,
        colinear_start_thresh: f32);

    macro_rules! as_vec3f {
        ($($name:ident),*) => {
            $(impl $name {
                pub fn as_vec3f(&self) -> Vector3f {
                    Vector3f::new(self.x, self.y, self.z)
                }
            })*
        };
    }
    as_vec3f!(
        GlobalPositionCommand,
        GlobalVelocityCommand,
        LocalVelocityCommand,
        GlobalAccelerationCommand,
        LocalAccelerationCommand
    );

    /// The mode, the two game states, and the command that goes with the mode.
    #[derive(Clone, Copy, Debug)]
    pub struct BasicControl {
        pub body_control_mode: BodyControlMode::Type,
        pub halt: bool,
        pub stop: bool,
        pub maneuver: ManeuverCommand,
    }

    impl BasicControl {
        pub fn game_state_in_halt(&self) -> u32 {
            self.halt as u32
        }

        pub fn game_state_in_stop(&self) -> u32 {
            self.stop as u32
        }

        pub fn get_maneuver_command(&self) -> ManeuverCommand {
            self.maneuver
        }
    }

    #[derive(Clone, Copy, Debug, Default)]
    pub struct BodyControlTelemetry;

    #[derive(Clone, Copy, Debug, Default)]
    pub struct BodyControlExtendedTelemetry {
        pub _bitfield_align_1: [u8; 0],
        pub _bitfield_1: u8,
        pub _reserved2: [u8; 3],
        pub imu_gyro: [f32; 3],
        pub imu_accel: [f32; 3],
        pub vision_pose: [f32; 3],
        pub body_traj_pos: [f32; 3],
        pub body_traj_vel: [f32; 3],
        pub kf_body_pos_prediction: [f32; 3],
        pub kf_body_vel_prediction: [f32; 3],
        pub kf_body_pos_estimate: [f32; 3],
        pub kf_body_vel_estimate: [f32; 3],
        pub body_vel_u: [f32; 3],
        pub body_accel_u: [f32; 3],
        pub body_accel_u_fric_comp: [f32; 3],
        pub maneuver: ManeuverExtendedTelemetry,
    }

    impl BodyControlExtendedTelemetry {
        pub fn new_bitfield_1(vision_update: u8, _reserved: u32) -> u8 {
            vision_update
        }

        pub fn set_maneuver_telemetry(&mut self, maneuver: ManeuverExtendedTelemetry) {
            self.maneuver = maneuver;
        }
    }

    // Parameters: `apply_command` is left out of the comparison, these only let it build.

    pub mod ParameterName {
        pub type Type = u32;
        pub const KF_PROCESS_STD: Type = 0;
        pub const KF_MEASUREMENT_STD: Type = 1;
        pub const KF_MAX_STATE: Type = 2;
        pub const PHYS_WHEEL: Type = 3;
        pub const PHYS_INERTIA: Type = 4;
        pub const PHYS_MOTOR_MODEL: Type = 5;
        pub const PHYS_FRICTION_MODEL: Type = 6;
        pub const FRICTION_COMP_GATING: Type = 7;
        pub const POSE_CONTROL_GAIN: Type = 8;
        pub const TRAJ_RECOMPUTE_ERROR: Type = 9;
        pub const POSE_FB_PIDII_LINEAR: Type = 10;
        pub const POSE_FB_PIDII_ANGULAR: Type = 11;
    }

    pub mod ParameterDataFormat {
        pub type Type = u32;
        pub const VEC2_F32: Type = 0;
        pub const VEC4_F32: Type = 1;
        pub const VEC5_F32: Type = 2;
        pub const VEC6_F32: Type = 3;
    }

    pub mod ParameterCommandCode {
        pub type Type = u32;
        pub const PCC_READ: Type = 0;
        pub const PCC_WRITE: Type = 1;
        pub const PCC_ACK: Type = 2;
        pub const PCC_NACK_INVALID_NAME: Type = 3;
        pub const PCC_NACK_INVALID_TYPE_FOR_NAME: Type = 4;
    }

    #[derive(Clone, Copy)]
    #[repr(C)]
    pub union ParameterData {
        pub vec2_f32: [f32; 2],
        pub vec4_f32: [f32; 4],
        pub vec5_f32: [f32; 5],
        pub vec6_f32: [f32; 6],
    }

    #[derive(Clone, Copy)]
    pub struct ParameterCommand {
        pub parameter_name: ParameterName::Type,
        pub command_code: ParameterCommandCode::Type,
        pub data_format: ParameterDataFormat::Type,
        pub data: ParameterData,
    }
}

pub mod radio {
    use crate::bindings::*;

    #[derive(Clone, Copy, Debug, PartialEq)]
    pub enum ManeuverCommand {
        Off,
        GlobalPosition(GlobalPositionCommand),
        GlobalVelocity(GlobalVelocityCommand),
        LocalVelocity(LocalVelocityCommand),
        GlobalAcceleration(GlobalAccelerationCommand),
        LocalAcceleration(LocalAccelerationCommand),
        HeadingPivot(HeadingPivotCommand),
        PointPivot(PointPivotCommand),
        HeadingLine(HeadingLineCommand),
        PointLine(PointLineCommand),
    }

    #[derive(Clone, Copy, Debug, Default)]
    pub enum ManeuverExtendedTelemetry {
        #[default]
        Off,
        GlobalPosition(ExtendedGlobalPositionTelemetry),
        GlobalVelocity(ExtendedGlobalVelocityTelemetry),
        LocalVelocity(ExtendedLocalVelocityTelemetry),
        GlobalAcceleration(ExtendedGlobalAccelerationTelemetry),
        LocalAcceleration(ExtendedLocalAccelerationTelemetry),
        HeadingPivot(ExtendedHeadingPivotTelemetry),
        PointPivot(ExtendedPointPivotTelemetry),
        HeadingLine(ExtendedHeadingLineTelemetry),
        PointLine(ExtendedPointLineTelemetry),
    }
}
