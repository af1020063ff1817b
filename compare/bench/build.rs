// Links the archive that `rt lib` writes in crates/float_exports.
fn main() {
    let folder = concat!(
        env!("CARGO_MANIFEST_DIR"),
        "/../../crates/float_exports/out"
    );
    println!("cargo:rustc-link-search=native={folder}");
    println!("cargo:rustc-link-lib=static=float_exports");
    println!("cargo:rerun-if-changed={folder}/libfloat_exports.a");
}
