#!/usr/bin/env python3
"""The stored questions and answers of the test programs, the scripts of the crate `play`, and those of the program
`play` with what they print.

    scripts/questions/stored.py          writes the files
    scripts/questions/stored.py --check  compares them instead

Each of the modules that it asks has `files()`, which gives the text of each stored file by its path in the repository.
A comparison ends with status 0 if all files are as they are computed.
"""

import pathlib
import sys

sys.dont_write_bytecode = True
sys.path.insert(0, str(pathlib.Path(__file__).resolve().parent.parent))

from questions import faults, play_scripts, script_specs, session_vectors, vectors

ROOT = pathlib.Path(__file__).resolve().parents[2]
# Where scripts stand, and what they print.
SCRIPTS = ["crates/*/data/*.script", "scripts/questions/plays/*", "examples/*.script*"]


def files():
    """All stored files."""
    parts = (vectors, session_vectors, faults, script_specs, play_scripts)
    return {path: text for part in parts for path, text in part.files().items()}


def write():
    for path, text in files().items():
        (ROOT / path).parent.mkdir(parents=True, exist_ok=True)
        (ROOT / path).write_bytes(text.encode())


def first_difference(wanted, got):
    """The number of the first line that differs, and the two lines. A line ends with LF alone."""
    pairs = zip([*wanted.split(b"\n"), None], [*got.split(b"\n"), None])
    return next((number, *pair) for number, pair in enumerate(pairs, 1) if pair[0] != pair[1])


def shown(line):
    return "no line" if line is None else repr(line[:200].decode(errors="replace"))


def differences():
    """A line for each stored file that is not as it is computed, and for each script that is not computed."""
    computed = files()
    for path, text in computed.items():
        file = ROOT / path
        stored = file.read_bytes() if file.exists() else b""
        if stored != text.encode():
            number, wanted, got = first_difference(text.encode(), stored)
            yield f"{path}, line {number}: wanted {shown(wanted)}, got {shown(got)}"
    for folder in SCRIPTS:
        for file in sorted(ROOT.glob(folder)):
            if str(file.relative_to(ROOT)) not in computed:
                yield f"{file.relative_to(ROOT)}: the model has no such script"


def check():
    """The status of a comparison, which prints what differs."""
    found = list(differences())
    print("\n".join(found) if found else "the stored files are as computed")
    return 1 if found else 0


def main(words):
    match words:
        case []:
            write()
            return 0
        case ["--check"]:
            return check()
    print(__doc__, file=sys.stderr)
    return 2


if __name__ == "__main__":
    sys.exit(main(sys.argv[1:]))
