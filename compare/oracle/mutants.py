#!/usr/bin/env python3
"""Plants the mistakes of mutants.txt one by one and says which of them the comparison sees.

    [JOBS=N] [ONLY=WORD] compare/oracle/mutants.py FIRMWARE_SRC

For each mistake the crates are copied, the copy is changed, the program that replays ticks (or drive, for
what only the text shows) is built from it without proof, and run on passes of 500 ticks for each k from 1 to 64,
of 6,000 for the powers of two and of none and one, each ended by a refusal; its output is held against the
firmware's. The sample stored beside the program is tried too. Writes MUTANTS.md, and ends with 1 if a
mistake goes unseen. JOBS mistakes are tried at a time (1); with ONLY those alone whose name has WORD, and no
page is written.
"""
import os, queue, shutil, subprocess, sys, tempfile
from concurrent.futures import ThreadPoolExecutor
from pathlib import Path

HERE = Path(__file__).resolve().parent
TOP = HERE.parent.parent
sys.path.insert(0, str(TOP / "tools"))
from unproved import Kit, Unbuilt

REPLAY = "replay_ticks"
# What only the lines show, beside the crates that drive uses and REPLAY doesn't.
TEXT_FILES = {"tick/src/tally.rt"}
REFUSALS = [1, 4, 5, 6, 7, 8, 9, 10]
# k and ticks of each pass; the longer ones let the cameras run out at exactly 0.5, the shortest
# bring many refused blocks.
PASSES = [(k, 500) for k in range(1, 65)] + [(2**i, 6000) for i in range(7)] + [(i, i % 2) for i in range(1, 65)]


def mutants():
    """name, broken words, and the edits: file, old text, new text, text appended."""
    found = []
    for part in (HERE / "mutants.txt").read_text().split("\n== ")[1:]:
        name, words, *lines = part.rstrip("\n").split("\n")
        edits = []
        starts = [i for i, l in enumerate(lines) if l[0] not in "-+"]
        for at, end in zip(starts, starts[1:] + [len(lines)]):
            old = [l[1:] for l in lines[at:end] if l.startswith("-")]
            new = [l[1:] for l in lines[at:end] if l.startswith("+")]
            more = []
            if "MORE" in new:
                new, more = new[: new.index("MORE")], new[new.index("MORE") + 1 :]
            edits.append((lines[at], "\n".join(old), "\n".join(new), "\n".join(more)))
        found.append((name, words, edits))
    return found


def firmware(room):
    """The passes, and the firmware's words and lines for each."""
    target = Path(os.environ.get("CARGO_TARGET_DIR", HERE.parent / "target"))
    build = ["cargo", "build", "--quiet", "--release", "--offline", "--target-dir", target]
    subprocess.run(build + ["--manifest-path", HERE / "Cargo.toml"], check=True)
    sample = []
    for i, (k, ticks) in enumerate(PASSES):
        blocks = room / f"pass{i}"
        refusal = REFUSALS[i // 2 % 8]
        # Blocks of another pass come behind, but not behind a short one.
        more = 0 if refusal == 5 else 3
        draw = [str(word) for word in (5000 + i, ticks + 1, k, refusal, more)]
        with open(blocks, "wb") as out:
            subprocess.run([target / "release" / "blocks"] + draw, stdout=out, check=True)
        answers = []
        for flags in (["--full", "--passes"], []):
            with open(blocks, "rb") as given:
                run = subprocess.run([target / "release" / "ticks"] + flags, stdin=given, capture_output=True, check=True)
                answers.append(run.stdout)
        sample.append((k, blocks, *answers))
    return sample


def place(got, wanted, text):
    """Where the first difference is."""
    at = next((i for i, (a, b) in enumerate(zip(got, wanted)) if a != b), min(len(got), len(wanted)))
    if text:
        return f"line {wanted[:at].count(10)}"
    return f"tick {at // 384}, word {at % 384 // 4}"


def seen_by(kit, program, sample, text):
    """How many passes differ, and where the first one does."""
    count, first = 0, ""
    for k, blocks, words, lines in sample:
        got, wanted = kit.run(program, blocks), lines if text else words
        if got != wanted:
            count += 1
            first = first or f"k {k}, {place(got, wanted, text)}"
    return count, first


def changed(name, edits):
    """The files with the mistake."""
    sources = {}
    for file, old, new, more in edits:
        source = sources.get(file) or (TOP / "crates" / file).read_text()
        if source.count(old) != 1:
            sys.exit(f"{name}: the old text stands {source.count(old)} times in {file}")
        sources[file] = source.replace(old, new) + more
    return sources


def planted(crates, sources):
    """A copy of the crates, with these files changed."""
    shutil.rmtree(crates, ignore_errors=True)
    leave = shutil.ignore_patterns("out", "specs", "proofs", "must-fail", "data", "stdin", "stdout")
    shutil.copytree(TOP / "crates", crates, ignore=leave)
    for file, source in sources.items():
        (crates / file).write_text(source)


def tried(kit, program, name, sources, sample, stored):
    """How many passes see the mistake, where the first does, and how many stored ones."""
    room = kit.room
    planted(room / "crates", sources)
    try:
        kit.build(program, room / "crates", room / "program")
    except Unbuilt as it:
        print(f"{name} ({program}): does not compile\n" + "\n".join(str(it).strip().splitlines()[-9:]), flush=True)
        return 0, "does not compile", None
    count, first = seen_by(kit, room / "program", sample, program == "drive")
    gate = None if program == "drive" else seen_by(kit, room / "program", stored, False)[0]
    print(f"{name} ({program}): {count} of {len(sample)} passes; {first}; stored {gate}", flush=True)
    return count, first, gate


def main():
    if len(sys.argv) != 2:
        sys.exit(__doc__)
    os.environ["FIRMWARE_SRC"] = str(Path(sys.argv[1]).resolve())
    only, jobs = os.environ.get("ONLY", ""), int(os.environ.get("JOBS", "1"))
    room = Path(tempfile.mkdtemp())
    mistakes = [(*it, changed(it[0], it[2])) for it in mutants() if only in it[0]]
    try:
        kits = queue.Queue()
        for job in range(jobs):
            (room / str(job)).mkdir()
            kits.put(Kit(room / str(job)))
        sample = firmware(room)
        words = TOP / "crates" / REPLAY
        stored = [("stored", words / "stdin", (words / "stdout").read_bytes(), b"")]
        of = kits.queue[0]
        text_only = {"drive", *of.own("drive")} - {REPLAY, *of.own(REPLAY)}

        def with_kit(*it):
            kit = kits.get()
            try:
                return tried(kit, *it, sample, stored)
            finally:
                kits.put(kit)

        def row(mistake):
            name, breaks, edits, sources = mistake
            files = list(dict.fromkeys(file for file, *_ in edits))
            text = "letter" in name or all(f.split("/")[0] in text_only or f in TEXT_FILES for f in files)
            return name, breaks, files, *with_kit("drive" if text else REPLAY, name, sources)

        for program in ("drive", REPLAY):
            count, _, gate = with_kit(program, "as it is", {})
            if count or gate:
                sys.exit("the programs differ from the firmware before any mistake is planted")
        with ThreadPoolExecutor(jobs) as pool:
            rows = list(pool.map(row, mistakes))
    finally:
        shutil.rmtree(room)
    if not only:
        report(rows)
    sys.exit(1 if any(count == 0 for _, _, _, count, _, _ in rows) else 0)


def report(rows):
    unseen = sum(count == 0 for _, _, _, count, _, _ in rows)
    gates = [gate for *_, gate in rows if gate is not None]
    out = [
        "# Mistakes planted, and whether the comparison sees them",
        "",
        "`mutants.py FIRMWARE_SRC` makes this page. Each mistake of `mutants.txt` was planted by itself, built without proof",
        f"and run on {len(PASSES)} passes, {sum(ticks for _, ticks in PASSES)} ticks in all: 500 for each k from 1 to 64,"
        " 6,000 for each power of two, and none or",
        "one 64 times; each pass is ended by a refusal, with blocks of another pass behind it.",
        f"`{REPLAY}` is held against `ticks --full`, and `drive` against `ticks` where only the text shows the mistake",
        f"(no entry in the last column). 'Stored' is the sample that `rt ci` replays, `crates/{REPLAY}/stdin`.",
        "",
        f"{len(rows)} mistakes, {len(rows) - unseen} seen, {unseen} not seen; the stored sample alone sees {sum(gates)} of {len(gates)}.",
        "",
        "| mistake | what it breaks | file | passes that differ | first seen at | stored |",
        "|---|---|---|---|---|---|",
    ]
    for name, breaks, files, count, first, gate in rows:
        cells = [name, breaks.replace("|", "\\|"), ", ".join(files).replace("/src/", "/"), str(count), first]
        out.append("| " + " | ".join(cells) + " | " + {None: "", 0: "no", 1: "yes"}[gate] + " |")
    (HERE / "MUTANTS.md").write_text("\n".join(out) + "\n")


main()
