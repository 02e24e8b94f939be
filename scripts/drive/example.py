#!/usr/bin/env python3
"""Runs the example of a client against a directory that listens, and compares its lines with those of the model.

    scripts/drive/example.py HOST:PORT PROGRAM

The directory has the keys of `scripts/questions/worked.py --keys` and no names yet. The owner of alice registers a key,
which somebody else then changes. A second run finds the other key, and hers again one epoch later. A third one has
the key of another provider. Prints the first thing that is not so. The status is 0 where all is.
"""

import pathlib
import subprocess
import sys

sys.dont_write_bytecode = True
sys.path.insert(0, str(pathlib.Path(__file__).resolve().parent.parent))

from drive.send_frames import told
from model.formats import BAD_SIGNATURE, ZERO32, RootRefusal, request_frame
from model.sessions import Played
from questions.worked import SIGNING_KEY, TOKEN

NAME, KEY, OTHER_KEY = b"alice", b"k1", b"evil"
# The program is stopped after so many seconds.
SECONDS = "20"


class Pair:
    """A directory that listens, and that of the model with its client and monitors: both are told the same."""

    def __init__(self, address):
        self.address, self.model = address, Played()

    def line(self, *words):
        """The lines that the model prints for the line of a script."""
        words = [word.hex() or "-" if isinstance(word, bytes) else str(word) for word in words]
        return self.model.line(" ".join(words).encode())

    def change(self, key):
        """Somebody who is no client here puts another key to the name."""
        frame = request_frame("change", NAME, key)
        told(self.address, frame)
        self.line("bytes", 1, frame)

    def close(self, epoch):
        """The lines of the monitors in this epoch, which the operator closes. The example tells no root."""
        told(self.address, request_frame("close", TOKEN, epoch))
        _, *steps = self.line("close", epoch)
        return steps


def started(address, program, provider, seconds):
    """The program, which follows for so many seconds."""
    words = [program, address, provider.hex(), NAME.decode(), KEY.hex(), str(seconds)]
    pipes = {"stdout": subprocess.PIPE, "stderr": subprocess.PIPE}
    return subprocess.Popen(["timeout", SECONDS, *words], text=True, **pipes)


def differences(process, wanted):
    """The lines that a program prints next, where they are not these."""
    for line in wanted:
        got = process.stdout.readline().rstrip("\n")
        if got != line:
            yield f"wanted {line!r}, got {got!r}"


def ended(process, status, cause):
    """What is not so at the end of a program, which prints no more lines and has this cause in its errors."""
    out, errors = process.communicate()
    if out or process.returncode != status or cause not in errors or not cause and errors:
        yield f"wanted status {status} and {cause!r}, got {process.returncode}, {out!r} and {errors!r}"


def registers(pair, program):
    """A run that registers the name, and in which somebody else changes the key in the second epoch."""
    process = started(pair.address, program, SIGNING_KEY, 8)
    lines = pair.line("lookup", NAME, 0) + pair.line("watch", NAME, b"")
    yield from differences(process, lines + pair.line("register", NAME, KEY))
    yield from differences(process, pair.close(2))
    pair.change(OTHER_KEY)
    yield from differences(process, pair.close(3))
    yield from ended(process, 0, "")


def finds_other_key(pair, program):
    """A run at whose start the name has another key, and its owner's again after one epoch."""
    process = started(pair.address, program, SIGNING_KEY, 5)
    pair.model.monitors.clear()
    yield from differences(process, pair.line("lookup", NAME, 0) + pair.line("watch", NAME, KEY))
    pair.change(KEY)
    yield from differences(process, pair.close(4))
    yield from ended(process, 0, "")


def has_another_key(pair, program):
    """A run with the key of another provider, which ends at the first root."""
    process = started(pair.address, program, ZERO32, 1)
    yield from differences(process, [f"client refuses root {BAD_SIGNATURE}"])
    yield from ended(process, 1, RootRefusal(BAD_SIGNATURE).text)


def main(address, program):
    pair = Pair(address)
    for run in registers, finds_other_key, has_another_key:
        for line in run(pair, program):
            print(f"{run.__name__}: {line}")
            return 1
    return 0


if __name__ == "__main__":
    if len(sys.argv) != 3:
        sys.exit(__doc__)
    sys.exit(main(*sys.argv[1:]))
