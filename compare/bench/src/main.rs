// Speed and agreement of the functions that crates/float_exports/out/libfloat_exports.a exports.
mod functions;
mod hypots;
mod random;
mod roots;
mod speed;

fn main() {
    match std::env::args().nth(1).as_deref() {
        None => speed::run(),
        Some("all") => roots::run(),
        Some("hypot") => hypots::run(),
        Some(_) => println!("usage: bench [all | hypot]"),
    }
}
