"""What crates.txt says: the libraries that each crate uses."""
from pathlib import Path

TOP = Path(__file__).resolve().parent.parent


class Failed(Exception):
    """Why a program was not built and what to do, for the user."""


def uses(top=TOP):
    """The libraries that each crate of the repository names, by the crate's name."""
    found = {}
    try:
        lines = (top / "crates.txt").read_text().splitlines()
    except OSError as it:
        raise Failed(f"crates.txt cannot be read ({it.strerror}): take it from the repository again")
    for line in lines:
        crate, colon, libraries = line.partition("#")[0].partition(":")
        if colon:
            found[crate.split()[0]] = libraries.split()
    return found


def below(crate, of):
    """The libraries of the repository that a crate uses, directly and not, lowest first."""
    found = []
    for name in of[crate]:
        if name in of:
            found += [it for it in [*below(name, of), name] if it not in found]
    return found
