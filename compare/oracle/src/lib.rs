//! The firmware's own files, included unchanged from FIRMWARE_SRC. Beside some
//! of them stands a function that reads what the file keeps private.

// control_context.rs asks for the model under its crate's name.
extern crate self as ateam_lib_stm32;

mod aims;
pub mod block;
pub mod cart;
pub mod draw;
pub mod plain;
pub mod world;

/// The text of one of the firmware's files, in place.
macro_rules! firmware {
    ($file:literal) => {
        include!(concat!(env!("FIRMWARE_FOLDER"), "/", $file));
    };
}

#[allow(clippy::all)]
pub mod model {
    firmware!("lib-stm32/src/model/mod.rs");

    /// `dt` and `t_min` in seconds.
    pub fn seconds<const N: usize>(lag: &FirstOrderLag<N>) -> (f32, f32) {
        (lag.dt, lag.t_min)
    }
}

#[allow(clippy::all)]
pub mod motion {
    pub mod pid {
        firmware!("control-board/src/motion/pid.rs");

        /// `prev_error` and `integrated_error`.
        pub fn memory<const N: usize>(pid: &PidController<N>) -> ([f32; N], [f32; N]) {
            (pid.prev_error.into(), pid.integrated_error.into())
        }
    }

    pub mod active_brake {
        firmware!("control-board/src/motion/active_brake.rs");

        /// `prev_error` and `integrated_error` of the brake's PID.
        pub fn memory(brake: &ActiveBrakeController) -> ([f32; 4], [f32; 4]) {
            crate::motion::pid::memory(&brake.pid)
        }
    }

    pub mod params {
        pub mod controller_params {
            firmware!("control-board/src/motion/params/controller_params.rs");
        }
    }

    pub mod control_context {
        firmware!("control-board/src/motion/control_context.rs");
    }

    pub mod body_controller {
        firmware!("control-board/src/motion/body_controller.rs");
    }

    pub mod maneuvers {
        firmware!("control-board/src/motion/maneuvers/mod.rs");

        /// `prev_mode`.
        pub fn previous_mode(manager: &ManeuverManager) -> BodyControlMode::Type {
            manager.prev_mode
        }
    }
}

pub mod parameter_interface {
    use ateam_common_packets::bindings::{ParameterCommand, ParameterName};

    pub trait ParameterInterface {
        fn processes_cmd(&self, param_cmd: &ParameterCommand) -> bool;
        fn has_name(&self, param_name: ParameterName::Type) -> bool;
        fn apply_command(
            &mut self,
            param_cmd: &ParameterCommand,
        ) -> Result<ParameterCommand, ParameterCommand>;
    }
}
