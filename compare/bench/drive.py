#!/usr/bin/env python3
"""Times `drive` beside the firmware's own tick on the same blocks, in one run.

    compare/bench/drive.py FIRMWARE_SRC [ROUNDS]

- the ratio: 400,000 blocks, firmware and drive by turns, the best of ROUNDS (15) each;
- growth: drive's time for a tick at 10^4, 10^5 and 10^6 ticks;
- where drive's time goes, by two variants of it that are built without proof: one puts a byte for
  each tick in the place of its line (what is saved is the text), one leaves the four calls out and
  prints the block's own wheels (what is saved is the tick); the rest is reading and check;
- drive's instructions for a tick, and where those of the variants go, where valgrind is there.
"""
import os, re, shutil, subprocess, sys, tempfile, time
from pathlib import Path

COMPARE = Path(__file__).resolve().parent.parent
TOP = COMPARE.parent
sys.path.insert(0, str(TOP / "tools"))
from build import build
from unproved import Kit

TICKS = 400_000
# file, old text, new text: both keep what the line needs alive.
NO_TEXT = (
    "pass/src/batch.rt",
    "    let len = write_line(line, room);\n",
    "    let len = one_byte(line, room);\n",
    """
fn one_byte(line: Line, out: &mut [u8; LINE]) -> usize {
    match line {
        Line::Tick(t) => match t.ending {
            Ok(v) => {
                out[0] = if v.x + v.y + v.z + v.w > 0.0 { t.action.letter() } else { b'0' };
                1
            }
            Err(_) => write_line(line, out),
        },
        Line::Refused(_) => write_line(line, out),
    }
}
""",
)
NO_TICK = (
    "pass/src/pass.rt",
    "        let mut c = self.driver_of(&b)?;\n        let line = drive_tick(&mut c, &b.inputs)?;\n",
    "        let c = self.in_any_order(&b)?;\n        let line = look_only(&c, &b);\n",
    """
impl Pass {
    // No tick is counted, so that every block but the first comes out of order.
    fn in_any_order(&self, b: &TickBlock) -> Result<BodyController, Refusal> {
        match (self.driver_of(b), self) {
            (Err(Refusal::Order), Pass::Driving(c)) => Ok(*c),
            (found, _) => found,
        }
    }
}

fn look_only(c: &BodyController, b: &TickBlock) -> TickLine {
    TickLine {
        number: b.number,
        action: tick::action::GateAction::NoVision,
        active: c.vision_active(),
        recovering: c.tracking_divergence_recovery_active(),
        ending: Ok(b.inputs.sight.wheel_vel_meas),
    }
}
""",
)


def seconds(command, blocks):
    """Time by the clock, and the processor's time that the program took."""
    with open(blocks, "rb") as given:
        began = time.perf_counter()
        child = subprocess.Popen(command, stdin=given, stdout=subprocess.DEVNULL)
        _, status, used = os.wait4(child.pid, 0)
        taken = time.perf_counter() - began
    child.returncode = os.waitstatus_to_exitcode(status)
    assert child.returncode == 0, command
    return taken, used.ru_utime + used.ru_stime


def best(commands, blocks, rounds):
    """The best of both times of each command, run by turns."""
    times = [[seconds(c, blocks) for c in commands] for _ in range(rounds)]
    return [tuple(map(min, zip(*column))) for column in zip(*times)]


def instructions(command, blocks):
    counted = ["valgrind", "--tool=callgrind", "--callgrind-out-file=/dev/null", *command]
    with open(blocks, "rb") as given:
        run = subprocess.run(counted, stdin=given, stdout=subprocess.DEVNULL, stderr=subprocess.PIPE, text=True, check=True)
    return int(re.search(r"Collected : (\d+)", run.stderr).group(1))


def split(times):
    """Where the time goes, of the whole, without text and without tick."""
    whole, no_text, no_tick = times
    text, tick = whole - no_text, whole - no_tick
    return f"{whole:.0f}; reading and check {whole - text - tick:.0f}, tick {tick:.0f}, text {text:.0f}"


def variant(kit, room, name, edit):
    crates = room / "crates"
    shutil.rmtree(crates, ignore_errors=True)
    shutil.copytree(TOP / "crates", crates, ignore=shutil.ignore_patterns("out", "specs", "proofs", "must-fail", "data", "std*"))
    if edit:
        file, old, new, more = edit
        source = (crates / file).read_text()
        assert source.count(old) == 1, f"{file} has changed"
        (crates / file).write_text(source.replace(old, new) + more)
    kit.build("drive", crates, room / name, checks=False)
    return [room / name]


def main():
    if len(sys.argv) not in (2, 3):
        sys.exit(__doc__)
    os.environ["FIRMWARE_SRC"] = str(Path(sys.argv[1]).resolve())
    rounds = int(sys.argv[2]) if len(sys.argv) == 3 else 15
    # Without the checks that the oracle otherwise keeps in.
    os.environ["CARGO_PROFILE_RELEASE_DEBUG_ASSERTIONS"] = "false"
    os.environ["CARGO_PROFILE_RELEASE_OVERFLOW_CHECKS"] = "false"
    target = Path(os.environ.get("CARGO_TARGET_DIR", COMPARE / "target")) / "bench"
    cargo = ["cargo", "build", "--quiet", "--release", "--offline", "--target-dir", target]
    subprocess.run(cargo + ["--manifest-path", COMPARE / "oracle/Cargo.toml"], check=True)
    room = Path(tempfile.mkdtemp())
    try:
        kit = Kit(room)
        drive = [build("drive")]
        ticks = [target / "release/ticks"]
        for count in (10**4, 10**5, TICKS, 10**6):
            with open(room / str(count), "wb") as out:
                subprocess.run([target / "release/blocks", "1", str(count), "4"], stdout=out, check=True)
        load = os.getloadavg()[0]

        blocks = room / str(TICKS)
        firmware, ours = best([ticks, drive], blocks, rounds)
        print(f"{TICKS} blocks, best of {rounds} by turns (load {load:.1f} on {os.cpu_count()} cores):")
        for what, i in (("clock", 0), ("processor", 1)):
            print(f"  {what}: firmware {firmware[i]:.3f} s, drive {ours[i]:.3f} s, ratio {firmware[i] / ours[i]:.2f}")

        for count in (10**4, 10**5, 10**6):
            ((clock, cpu),) = best([drive], room / str(count), rounds)
            print(f"{count} ticks: {clock * 1e9 / count:.0f} ns for a tick by the clock, {cpu * 1e9 / count:.0f} of processor")
        variants = [variant(kit, room, *v) for v in (("whole", None), ("no_text", NO_TEXT), ("no_tick", NO_TICK))]
        print("ns of processor for a tick: " + split([cpu * 1e9 / TICKS for _, cpu in best(variants, blocks, rounds)]))
        if shutil.which("valgrind"):
            count = 10**4
            whole, *parts = (instructions(it, room / str(count)) / count for it in (drive, *variants))
            print(f"instructions for a tick, over {count} ticks (callgrind): {whole:.0f}; of the variants: " + split(parts))
    finally:
        shutil.rmtree(room)


main()
