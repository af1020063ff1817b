//! The part of ateam_controls that the firmware's files use: estimator,
//! planners, matrices, friction force, cosine and sine are inputs of the tick
//! (docs/RULES.md, 'The tick block'). They are put into [`tick::INPUTS`] before a tick; what the
//! firmware handed to them is found in [`tick::CALLS`] after it.

use nalgebra::SMatrix;

pub type Vector2f = nalgebra::SVector<f32, 2>;
pub type Vector3f = nalgebra::SVector<f32, 3>;
pub type Vector4f = nalgebra::SVector<f32, 4>;
pub type Vector5f = nalgebra::SVector<f32, 5>;
pub type Vector6f = nalgebra::SVector<f32, 6>;
pub type Vector8f = nalgebra::SVector<f32, 8>;
pub type Matrix3f = SMatrix<f32, 3, 3>;
pub type Matrix3x4f = SMatrix<f32, 3, 4>;
pub type Matrix4x3f = SMatrix<f32, 4, 3>;

#[derive(Clone, Copy, Debug, PartialEq, Eq)]
pub enum ControlsError {
    InvalidInput,
}

/// What goes into a tick beside the firmware's own arguments, and what comes out.
pub mod tick {
    use super::*;
    use std::cell::RefCell;

    /// State (pose, velocity) and acceleration of a trajectory at one moment.
    #[derive(Clone, Copy, Debug, Default)]
    pub struct Sample {
        pub state: Vector6f,
        pub accel: Vector3f,
    }

    #[derive(Clone, Copy, Debug, Default)]
    pub struct Inputs {
        pub estimator_failed: bool,
        pub planner_failed: bool,
        pub estimate: Vector6f,
        /// What planning gives.
        pub fresh: Sample,
        /// What a trajectory gives once its clock has moved on.
        pub next: Sample,
        /// Of the estimate's heading.
        pub cosine: f32,
        pub sine: f32,
        pub inverse_inertia: Matrix3f,
        /// At the estimate's heading.
        pub twist_to_wheel: Matrix4x3f,
        pub accel_to_wheel: Matrix4x3f,
        /// At the sighted heading.
        pub wheel_to_twist: Matrix3x4f,
        /// At the prediction's heading; asked for only with the encoder lag in use.
        pub twist_to_wheel_predicted: Matrix4x3f,
        /// Local.
        pub friction_force: Vector3f,
    }

    #[derive(Clone, Copy, Debug, Default)]
    pub struct Calls {
        /// The estimator's measurement, and whether it was told to skip vision.
        pub measured: Option<(Vector8f, bool)>,
        /// The predicted state as the estimator found it.
        pub predicted: Vector6f,
        /// The seed of a planner that was asked.
        pub planned: Option<Vector6f>,
        /// A trajectory's clock moved on.
        pub ticked: bool,
        /// The local twist that friction was asked for.
        pub friction_twist: Option<Vector3f>,
    }

    thread_local! {
        pub static INPUTS: RefCell<Inputs> = RefCell::default();
        pub static CALLS: RefCell<Calls> = RefCell::default();
    }

    pub fn input<T>(f: impl FnOnce(&Inputs) -> T) -> T {
        INPUTS.with(|i| f(&i.borrow()))
    }

    pub fn note(f: impl FnOnce(&mut Calls)) {
        CALLS.with(|c| f(&mut c.borrow_mut()))
    }

    /// Sets the inputs and forgets the last tick's calls.
    pub fn begin(inputs: Inputs) {
        INPUTS.with(|i| *i.borrow_mut() = inputs);
        CALLS.with(|c| *c.borrow_mut() = Calls::default());
    }

    pub fn calls() -> Calls {
        CALLS.with(|c| *c.borrow())
    }
}

/// Rows (c, -s, 0), (s, c, 0), (0, 0, 1). The angle is the estimate's heading or
/// its negation, told apart by the bits; for the negation, s is negated.
pub fn z_rotation_mat(theta: f32) -> Matrix3f {
    let (heading, c, sine) = tick::input(|i| (i.estimate.z.to_bits(), i.cosine, i.sine));
    let s = if theta.to_bits() == heading {
        sine
    } else if theta.to_bits() == heading ^ 0x8000_0000 {
        -sine
    } else {
        panic!("rotation by an angle that is not the estimate's heading");
    };
    Matrix3f::from_row_slice(&[c, -s, 0.0, s, c, 0.0, 0.0, 0.0, 1.0])
}

pub mod trajectory {
    use super::*;

    pub trait Trajectory {
        fn tick(&mut self, dt: f32);
        fn sample(&self) -> (Vector6f, Vector3f);
    }
}

/// What all three trajectories are here: the sample they give now.
#[derive(Clone, Copy, Debug)]
pub struct Planned {
    pub now: tick::Sample,
}

impl Planned {
    fn from_inputs(seed: Vector6f) -> Result<Planned, ControlsError> {
        tick::note(|c| c.planned = Some(seed));
        if tick::input(|i| i.planner_failed) {
            return Err(ControlsError::InvalidInput);
        }
        Ok(Planned {
            now: tick::input(|i| i.fresh),
        })
    }
}

impl trajectory::Trajectory for Planned {
    fn tick(&mut self, _dt: f32) {
        tick::note(|c| c.ticked = true);
        self.now = tick::input(|i| i.next);
    }

    fn sample(&self) -> (Vector6f, Vector3f) {
        (self.now.state, self.now.accel)
    }
}

macro_rules! planned_trajectory {
    ($name:ident) => {
        #[derive(Clone, Copy, Debug)]
        pub struct $name(pub Planned);

        impl crate::trajectory::Trajectory for $name {
            fn tick(&mut self, dt: f32) {
                self.0.tick(dt)
            }
            fn sample(&self) -> (Vector6f, Vector3f) {
                self.0.sample()
            }
        }
    };
}

pub mod bangbang_trajectory {
    use super::*;

    planned_trajectory!(BangBangTraj3D);

    #[derive(Clone, Copy, Debug, Default)]
    pub struct TrajectoryParams {
        pub max_vel_linear: f32,
        pub max_vel_angular: f32,
        pub max_accel_linear: f32,
        pub max_accel_angular: f32,
    }

    impl BangBangTraj3D {
        pub fn from_target_pose(
            seed: Vector6f,
            _target: Vector3f,
            _params: TrajectoryParams,
        ) -> Result<Self, ControlsError> {
            Planned::from_inputs(seed).map(Self)
        }

        pub fn from_target_twist(
            seed: Vector6f,
            _target: Vector3f,
            _params: TrajectoryParams,
        ) -> Result<Self, ControlsError> {
            Planned::from_inputs(seed).map(Self)
        }
    }
}

pub mod linear_trajectory {
    use super::*;

    planned_trajectory!(LinearTrajectory);

    #[derive(Clone, Copy, Debug, Default)]
    pub struct LinearParams {
        pub max_vel_colinear: f32,
        pub max_vel_perp: f32,
        pub max_vel_angular: f32,
        pub max_accel_colinear: f32,
        pub max_accel_perp: f32,
        pub max_accel_angular: f32,
        pub colinear_start_thresh_linear: f32,
    }

    impl LinearTrajectory {
        pub fn from_line(
            seed: Vector6f,
            _heading: f32,
            _start: Vector2f,
            _direction: Vector2f,
            _line_velocity: f32,
            _params: LinearParams,
        ) -> Result<Self, ControlsError> {
            Planned::from_inputs(seed).map(Self)
        }

        pub fn from_point(
            seed: Vector6f,
            _target_x: f32,
            _target_y: f32,
            _start: Vector2f,
            _direction: Vector2f,
            _line_velocity: f32,
            _params: LinearParams,
        ) -> Result<Self, ControlsError> {
            Planned::from_inputs(seed).map(Self)
        }
    }
}

pub mod pivot_trajectory {
    use super::*;

    planned_trajectory!(PivotTrajectory);

    #[derive(Clone, Copy, Debug, Default)]
    pub enum PivotDirection {
        #[default]
        Forward,
        Backward,
    }

    #[derive(Clone, Copy, Debug, Default)]
    pub struct PivotParams {
        pub max_vel_angular: f32,
        pub max_accel_angular: f32,
        pub orbit_radius: f32,
        pub inset_angle: f32,
        pub compute_inset_angle: bool,
        pub direction: PivotDirection,
    }

    impl PivotTrajectory {
        pub fn from_target_heading(
            seed: Vector6f,
            _heading: f32,
            _params: PivotParams,
        ) -> Result<Self, ControlsError> {
            Planned::from_inputs(seed).map(Self)
        }

        pub fn from_target_point(
            seed: Vector6f,
            _target_x: f32,
            _target_y: f32,
            _params: PivotParams,
        ) -> Result<Self, ControlsError> {
            Planned::from_inputs(seed).map(Self)
        }
    }
}

pub mod robot_model {
    use super::*;

    #[derive(Clone, Copy, Debug, Default)]
    pub struct KalmanFilterParams {
        pub process_noise_std_pos_linear: f32,
        pub process_noise_std_pos_angular: f32,
        pub process_noise_std_vel_linear: f32,
        pub process_noise_std_vel_angular: f32,
        pub measurement_noise_std_vision_pos_linear: f32,
        pub measurement_noise_std_vision_pos_angular: f32,
        pub measurement_noise_std_encoder_vel_angular: f32,
        pub measurement_noise_std_gyro_vel_angular: f32,
        pub max_pos_linear: f32,
        pub max_pos_angular: f32,
        pub max_vel_linear: f32,
        pub max_vel_angular: f32,
    }

    #[derive(Clone, Copy, Debug, Default)]
    pub struct RobotPhysicalParams {
        pub alpha: f32,
        pub beta: f32,
        pub l: f32,
        pub r: f32,
        pub mass: f32,
        pub iz: f32,
        pub motor_torque_constant: f32,
        pub motor_efficiency_factor: f32,
        pub coulomb_friction_coefficient_linear_x: f32,
        pub coulomb_friction_coefficient_linear_y: f32,
        pub coulomb_friction_coefficient_angular: f32,
        pub viscous_friction_coefficient_linear_x: f32,
        pub viscous_friction_coefficient_linear_y: f32,
        pub viscous_friction_coefficient_angular: f32,
    }

    /// The estimator. `state` is the prediction before `kf_update` and the
    /// estimate after it; who runs the tick sets the prediction and `i_inv`.
    pub struct RobotModel {
        pub state: Vector6f,
        pub i_inv: Matrix3f,
        pub a: SMatrix<f32, 6, 6>,
        pub b: SMatrix<f32, 6, 3>,
        pub kf_params: KalmanFilterParams,
        pub physical_params: RobotPhysicalParams,
    }

    impl RobotModel {
        pub fn new(
            _dt: f32,
            kf_params: KalmanFilterParams,
            physical_params: RobotPhysicalParams,
        ) -> Result<RobotModel, ControlsError> {
            Ok(RobotModel {
                state: Vector6f::zeros(),
                i_inv: Matrix3f::zeros(),
                a: SMatrix::zeros(),
                b: SMatrix::zeros(),
                kf_params,
                physical_params,
            })
        }

        pub fn get_state(&self) -> Vector6f {
            self.state
        }

        pub fn kf_set_pose(&mut self, pose: Vector3f) {
            for i in 0..3 {
                self.state[i] = pose[i];
            }
        }

        pub fn kf_set_vel(&mut self, vel: Vector3f) {
            for i in 0..3 {
                self.state[3 + i] = vel[i];
            }
        }

        pub fn kf_update(
            &mut self,
            measurement: Vector8f,
            skip_vision: bool,
            _skip_encoders: bool,
            _skip_gyro: bool,
        ) -> Result<(), ControlsError> {
            tick::note(|c| {
                c.measured = Some((measurement, skip_vision));
                c.predicted = self.state;
            });
            if tick::input(|i| i.estimator_failed) {
                return Err(ControlsError::InvalidInput);
            }
            self.state = tick::input(|i| i.estimate);
            Ok(())
        }

        /// The prediction is an input of the next tick.
        pub fn kf_predict(&mut self, _accel: Vector3f) {}

        pub fn reset(&mut self) {}

        pub fn transform_wheel2twist(&self, _sighted_heading: f32) -> Matrix3x4f {
            tick::input(|i| i.wheel_to_twist)
        }

        pub fn transform_twist2wheel(&self, _heading: f32) -> Matrix4x3f {
            if tick::CALLS.with(|c| c.borrow().measured.is_none()) {
                tick::input(|i| i.twist_to_wheel_predicted)
            } else {
                tick::input(|i| i.twist_to_wheel)
            }
        }

        pub fn transform_accel2wheel(&self, _heading: f32) -> Matrix4x3f {
            tick::input(|i| i.accel_to_wheel)
        }

        pub fn compute_friction_force(&self, twist: Vector3f) -> Vector3f {
            tick::note(|c| c.friction_twist = Some(twist));
            tick::input(|i| i.friction_force)
        }

        pub fn torques_to_currents(&self, _torques: Vector4f) -> Vector4f {
            unimplemented!("left out of the comparison")
        }

        pub fn update_kf_params(&mut self, kf_params: KalmanFilterParams) {
            self.kf_params = kf_params;
        }

        pub fn update_physical_params(
            &mut self,
            physical_params: RobotPhysicalParams,
        ) -> Result<(), ControlsError> {
            self.physical_params = physical_params;
            Ok(())
        }
    }
}
