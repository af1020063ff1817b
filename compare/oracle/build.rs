//! Finds the firmware's folder: FIRMWARE_SRC names the folder that holds
//! control-board/ and lib-stm32/. The files are included where they are.

use std::path::PathBuf;

const FILES: [&str; 6] = [
    "control-board/src/motion/pid.rs",
    "control-board/src/motion/active_brake.rs",
    "control-board/src/motion/params/controller_params.rs",
    "control-board/src/motion/control_context.rs",
    "control-board/src/motion/body_controller.rs",
    "lib-stm32/src/model/mod.rs",
];

fn main() {
    println!("cargo:rerun-if-env-changed=FIRMWARE_SRC");
    let Some(given) = std::env::var_os("FIRMWARE_SRC") else {
        panic!("set FIRMWARE_SRC to the folder that holds control-board/ and lib-stm32/");
    };
    // A build script runs in its package's folder: a relative path is taken from
    // where the command was given, if that is known.
    let given = PathBuf::from(given);
    let here = std::env::var_os("PWD")
        .map(PathBuf::from)
        .unwrap_or_default();
    let folder = match here.join(&given).canonicalize() {
        Ok(folder) => folder,
        Err(e) => panic!("FIRMWARE_SRC={}: {e}", given.display()),
    };
    for file in FILES {
        let path = folder.join(file);
        assert!(path.is_file(), "not found: {}", path.display());
        println!("cargo:rerun-if-changed={}", path.display());
    }
    println!(
        "cargo:rerun-if-changed={}",
        folder.join("control-board/src/motion/maneuvers").display()
    );
    println!("cargo:rustc-env=FIRMWARE_FOLDER={}", folder.display());
}
