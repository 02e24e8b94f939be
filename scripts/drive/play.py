#!/usr/bin/env python3
"""Compares what `directoryd play` prints, and its status, with the reference model.

    scripts/drive/play.py PROGRAM [--drawn N] [--cuts N] [--seed N]
    scripts/drive/play.py --draw SEED

The first runs the program over every stored script, and over N scripts that are drawn from the seeds SEED, SEED + 1
and so on (300 from seed 1 unless given), each whole and cut at N places (20 unless given); and over the examples, of
which each line is given once what the lines before it print has come. The second writes a drawn script. The last line of
the first is `N passed, M failed`, and the status is 0 where none failed.
"""

import argparse
import multiprocessing
import os
import pathlib
import select
import subprocess
import sys

sys.dont_write_bytecode = True
sys.path.insert(0, str(pathlib.Path(__file__).resolve().parent.parent))

from questions import play_scripts
from questions.play_scripts import printed, scripts, text_of


def difference(program, name, script):
    """What the program does otherwise than the model, or None."""
    wanted = printed(script)
    try:
        run = subprocess.run([program, "play"], input=script, capture_output=True, timeout=60)
    except subprocess.TimeoutExpired:
        return f"{name}: no end after 60 seconds"
    got = run.stdout, run.stderr, run.returncode
    if got == wanted:
        return None
    for wanted_text, got_text in zip(wanted[:2], got[:2]):
        for number, pair in enumerate(zip(wanted_text.split(b"\n") + [None], got_text.split(b"\n") + [None]), 1):
            if pair[0] != pair[1]:
                return f"{name}: line {number}: wanted {str(pair[0])[:100]}, got {str(pair[1])[:100]}"
    return f"{name}: wanted status {wanted[2]}, got {got[2]}"


def wait_for(pipe, wanted):
    """The bytes that a pipe gives within ten seconds, up to as many as are wanted."""
    got = b""
    while len(got) < len(wanted) and select.select([pipe], [], [], 10)[0]:
        more = os.read(pipe.fileno(), len(wanted) - len(got))
        if not more:
            break
        got += more
    return got


def difference_line_by_line(program, name, script):
    """The same, where each line is given once what the lines before it print has come."""
    lines = script.splitlines(True)
    before = b""
    with subprocess.Popen([program, "play"], stdin=subprocess.PIPE, stdout=subprocess.PIPE) as run:
        for number, line in enumerate(lines, 1):
            run.stdin.write(line)
            run.stdin.flush()
            text = printed(b"".join(lines[:number]))[0]
            got = wait_for(run.stdout, text[len(before):])
            if got != text[len(before):]:
                run.kill()
                return f"{name}, line by line: line {number}: got {str(got)[:100]}"
            before = text
        run.stdin.close()
        return None if run.stdout.read() == b"" else f"{name}, line by line: more is written"


def differences(job):
    """What differs in each run of a job: a stored script, or a drawn one with its cuts."""
    program, name, script, cuts = job
    runs = [(name, script), *((f"{name}, its first {cut} bytes", script[:cut]) for cut in cuts)]
    return [difference(program, *run) for run in runs]


def jobs(program, drawn, cuts, seed):
    for name, script in scripts():
        yield program, name, script, []
    for each in range(seed, seed + drawn):
        script = play_scripts.drawn(each)
        yield program, f"scripts/drive/play.py --draw {each}", script, play_scripts.cut_places(each, script, cuts)


def compare(program, drawn, cuts, seed):
    """The status of a comparison, which prints what differs."""
    passed = failed = 0
    with multiprocessing.Pool() as pool:
        for found in pool.imap(differences, jobs(os.path.abspath(program), drawn, cuts, seed)):
            for difference in found:
                passed, failed = (passed + 1, failed) if difference is None else (passed, failed + 1)
                if difference is not None and failed <= 20:
                    print(difference, flush=True)
    for name, of in play_scripts.EXAMPLES.items():
        difference = difference_line_by_line(os.path.abspath(program), name, text_of(of).encode())
        passed, failed = (passed + 1, failed) if difference is None else (passed, failed + 1)
        if difference is not None:
            print(difference, flush=True)
    print(f"{passed} passed, {failed} failed")
    return 1 if failed or not passed else 0


def main():
    parser = argparse.ArgumentParser(usage=__doc__)
    parser.add_argument("program", nargs="?")
    for name, default in ("--drawn", 300), ("--cuts", 20), ("--seed", 1), ("--draw", None):
        parser.add_argument(name, type=int, default=default)
    words = parser.parse_args()
    if words.draw is not None:
        sys.stdout.buffer.write(play_scripts.drawn(words.draw))
        return 0
    if words.program is None:
        parser.error("a program is wanted")
    return compare(words.program, words.drawn, words.cuts, words.seed)


if __name__ == "__main__":
    sys.exit(main())
