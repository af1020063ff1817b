//! Finds Rust's libm 0.2.1: LIBM_SRC names the folder that holds its Cargo.toml. Its files are compiled
//! where they are.

use std::path::Path;

fn main() {
    println!("cargo:rerun-if-env-changed=LIBM_SRC");
    let Some(folder) = std::env::var_os("LIBM_SRC") else {
        panic!("set LIBM_SRC to the folder of Rust's libm 0.2.1");
    };
    // A build script runs in its package's folder: a relative path is taken from where the command was given.
    let here = std::env::var_os("PWD").unwrap_or_default();
    let file = Path::new(&here).join(folder).join("src/math/mod.rs");
    assert!(file.is_file(), "not found: {}", file.display());
    let out = std::env::var_os("OUT_DIR").expect("cargo sets it");
    let modules = format!("#[path = {file:?}]\nmod math;\n");
    std::fs::write(Path::new(&out).join("modules.rs"), modules).expect("OUT_DIR can be written");
}
