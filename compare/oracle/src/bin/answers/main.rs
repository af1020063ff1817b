//! `answers DATA` writes the lists of the firmware's answers into the folder
//! DATA, then checks them; `answers --check DATA` only checks.

mod brake;
mod check;
mod lag;
mod params;
mod pid;
mod ticks;
mod words;

use std::io;
use std::path::Path;
use std::process::ExitCode;

fn write(data: &Path) -> io::Result<()> {
    std::fs::create_dir_all(data)?;
    pid::list::<1>(160, 1).save(&data.join("pid1.bin"))?;
    pid::list::<3>(128, 3).save(&data.join("pid3.bin"))?;
    pid::list::<4>(120, 4).save(&data.join("pid4.bin"))?;
    brake::list(64).save(&data.join("brake.bin"))?;
    lag::list(2).save(&data.join("lag.bin"))?;
    std::fs::write(data.join("params.txt"), params::text())?;
    ticks::write(data)
}

fn check(data: &Path) -> io::Result<bool> {
    let reports = [
        ("pid1.bin", check::pid(&data.join("pid1.bin"), 1)?),
        ("pid3.bin", check::pid(&data.join("pid3.bin"), 3)?),
        ("pid4.bin", check::pid(&data.join("pid4.bin"), 4)?),
        ("brake.bin", check::brake(&data.join("brake.bin"))?),
        ("lag.bin", check::lag(&data.join("lag.bin"))?),
        ("ticks.bin", ticks::check(data)?),
    ];
    let mut differences = 0;
    for (name, report) in &reports {
        report.print(name);
        differences += report.differences;
    }
    println!("differences in all: {differences}");
    Ok(differences == 0)
}

fn main() -> ExitCode {
    let args: Vec<String> = std::env::args().skip(1).collect();
    let (only_check, data) = match args.as_slice() {
        [data] if !data.starts_with('-') => (false, data),
        [flag, data] if flag == "--check" => (true, data),
        _ => {
            eprintln!("usage: answers [--check] DATA");
            return ExitCode::from(2);
        }
    };
    let data = Path::new(data);
    let written = if only_check { Ok(()) } else { write(data) };
    match written.and_then(|()| check(data)) {
        Ok(true) => ExitCode::SUCCESS,
        Ok(false) => ExitCode::FAILURE,
        Err(e) => {
            eprintln!("{}: {e}", data.display());
            ExitCode::from(2)
        }
    }
}
