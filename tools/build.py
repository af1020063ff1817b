#!/usr/bin/env python3
"""Builds programs of the repository where a source is newer than what was built, or the kit is another.
Prints each program's path, and on standard error what it does. The programs lie in out/, which is not
committed, with what the compiler said."""
import argparse, os, shutil, subprocess, sys, tempfile
from pathlib import Path

from crates import TOP, Failed, below, uses
from unproved import Kit, Unbuilt, answer


def say(words):
    print(words, file=sys.stderr, flush=True)


def is_newer(path, built):
    """Whether a file or folder, or one below it, was changed after that time."""
    if not path.exists():
        return False
    # A folder's time tells what was taken out.
    files = [path] + [Path(at, name) for at, folders, names in os.walk(path) for name in folders + names]
    return any(it.stat().st_mtime_ns > built for it in files)


def is_current(name, program):
    """Whether the program's file is as new as its sources, and built by this kit."""
    if not program.exists():
        return False
    built = program.stat().st_mtime_ns
    crates = [TOP / "crates" / it for it in [*below(name, uses()), name]]
    sources = [TOP / "crates.txt", *(crate / part for crate in crates for part in ("src", "specs", "proofs"))]
    if any(is_newer(it, built) for it in sources):
        return False
    # What was built runs where there is no kit, too.
    kit = program.with_suffix(".kit")
    return not shutil.which("rt") or (kit.exists() and kit.read_text() == answer("version"))


def prove(name, program, log):
    """Proves the libraries below the program and the program, each by its own call of rt, so that each has its line."""
    steps = [*below(name, uses()), name]
    say(f"{name}: to be proved first, which takes minutes; with --unproved it is built in half a minute")
    for number, crate in enumerate(steps, 1):
        say(f"proving {number} of {len(steps)}: {crate}")
        # `rt run` runs what it has built, here on empty input.
        verb = "run" if crate == name else "lib"
        log.write(f"== rt {verb} in crates/{crate}\n")
        log.flush()
        began = log.tell()
        folder = TOP / "crates" / crate
        status = subprocess.run(["rt", verb], cwd=folder, stdin=subprocess.DEVNULL, stdout=log, stderr=log).returncode
        if status:
            log.seek(began)
            # The program's own status shows nothing of its proof.
            if verb == "lib" or f"rt: running out/{name};" not in log.read():
                raise Failed(
                    f"{crate} was not proved (rt {verb} ended with {status}): the compiler's words are in "
                    f"{os.path.relpath(log.name)}; mend it, or run it as it is with --unproved"
                )
    shutil.copy(TOP / "crates" / name / "out" / name, program)


def build_unproved(name, program, log):
    say(f"building {name} without proof, in about half a minute")
    with tempfile.TemporaryDirectory() as room:
        try:
            Kit(Path(room)).build(name, TOP / "crates", program)
        except Unbuilt as it:
            log.write(str(it))
            raise Failed(f"{name} does not compile: the compiler's words are in {os.path.relpath(log.name)}; mend it")


def make(name, program, how):
    """Only a whole build puts the program there, with the time at which it began."""
    if not shutil.which("rt"):
        raise Failed("no rt on the path: install the kit that README.md names, and put its bin/ there")
    kit = answer("version")
    program.parent.mkdir(parents=True, exist_ok=True)
    log = program.with_suffix(".log")
    with tempfile.TemporaryDirectory(dir=program.parent) as room, open(log, "w+", errors="replace") as words:
        made, begun = Path(room, name), os.stat(room)
        how(name, made, words)
        os.utime(made, ns=(begun.st_mtime_ns, begun.st_mtime_ns))
        made.replace(program)
    program.with_suffix(".kit").write_text(kit)


def build(name, proved=True):
    """The program's path, once it is built there. Failed says why it could not be."""
    program = TOP / "out" / name / ("proved" if proved else "unproved")
    try:
        if not is_current(name, program):
            make(name, program, prove if proved else build_unproved)
    except OSError as it:
        raise Failed(
            f"{it.strerror}: {it.filename or program.parent}; see that it is there, and that out/, crates/*/out and "
            f"{tempfile.gettempdir()} can be written and have room"
        )
    return program


def program_name(word):
    """The word, if it names a program."""
    crates = uses()
    programs = [it for it in crates if (TOP / "crates" / it / "src/main.rt").exists()]
    if word in programs:
        return word
    what = "is a library, no program" if word in crates else "is no crate of crates.txt"
    raise argparse.ArgumentTypeError(f"{word} {what}; the programs are {', '.join(programs)}")


def main():
    parser = argparse.ArgumentParser(prog="tools/build.py", description=__doc__, allow_abbrev=False)
    parser.add_argument("--unproved", action="store_true", help="build without proof: nothing is proved then")
    parser.add_argument("names", metavar="NAME", nargs="+", type=program_name, help="a program's crate")
    try:
        given = parser.parse_args()
        for name in given.names:
            print(build(name, proved=not given.unproved), flush=True)
    except Failed as it:
        sys.exit(f"tools/build.py: {it}")
    except KeyboardInterrupt:
        sys.exit(130)


if __name__ == "__main__":
    main()
