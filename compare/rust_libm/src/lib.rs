//! Rust's libm 0.2.1, compiled from the folder that LIBM_SRC names.
#![allow(warnings, clippy::all)]

include!(concat!(env!("OUT_DIR"), "/modules.rs"));
pub use self::math::*;
