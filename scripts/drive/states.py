#!/usr/bin/env python3
"""Runs `directoryd ask --state` that is killed, whose disk is full, whose directory is slow, or that finds another run at
work, and compares the files of the state with what the model of the client remembers.

    scripts/drive/states.py PROGRAM [--kills N] [--seed N]

Runs are killed at each call that changes a file, and at as many other moments as make N (200 unless given). After each
of them, and after each call that fails, another run has to go on as the model does. The last line is `N passed, M
failed`, and the status is 0 where none failed.
"""

import argparse
import contextlib
import functools
import itertools
import os
import pathlib
import random
import re
import shutil
import signal
import socket
import subprocess
import sys
import tempfile
import threading
import time
from concurrent.futures import ThreadPoolExecutor
from dataclasses import replace
from typing import NamedTuple

sys.dont_write_bytecode = True
sys.path.insert(0, str(pathlib.Path(__file__).resolve().parent.parent))

from drive.ask_runs import (
    BEGUN_LINES,
    KEPT_ALARM_OF_2,
    PROVIDER_FILE,
    SECONDS,
    answering,
    asking,
    drawn_runs,
    files_of,
    kept_epochs,
    listening,
    newer_form,
    otherwise,
    paths,
    ran,
)
from drive.liars import Provider, cut, flipped, is_of
from drive.restarts import Log
from model.ask_model import PROVIDER, Asked
from model.formats import SignedPromise, is_final
from model.sessions import SIGNING_KEY

REPOSITORY = pathlib.Path(__file__).resolve().parents[2]
# Kills on one state before another one is begun.
KILLS_OF_A_STATE = 10
# A moment within what follows a reply.
MOMENT = 0.006
AT_ONCE = 8
# Tests that run beside each other.
BESIDE = 4
ANOTHER = "another run has it"
AS_WRITTEN = "not as a run wrote it"
# How many seconds a reply may take, and all those to the words of a run, and how many times as fast a clock runs.
REPLY, WORDS, FAST = 60, 420, 30

# What a client remembers ----------------------------------------------------------------------------------------


class Remembered(NamedTuple):
    # The lines that are printed by then.
    printed: int
    roots: list
    # The lines of promises and of evidence.
    promises: set
    # The lines of alarms.
    alarms: set
    # The line of each name.
    marks: dict


def remembered(printed, roots, kept):
    """The last mark of a name counts."""
    lines = [newer_form(line) for line in kept]
    marks = {name_of(line): line for line in lines if line.startswith("watched ")}
    alarms = {line for line in lines if line.startswith("alarm ")}
    return Remembered(printed, roots, set(lines) - alarms - {line for line in lines if line.startswith("watched ")}, alarms, marks)


def name_of(line):
    """The name in a line of a mark or of an alarm."""
    return line.split(" ")[1]


def expected(provider, state, script):
    """What a client prints in a run, and what it remembers before it, after its beginning, and after each line."""
    roots, kept = files_of(state)
    model = Asked(provider.copied(), [bytes.fromhex(root) for root in roots], kept)
    stages = [remembered(0, roots, kept)]
    stages += [remembered(len(model.text), *model.state()) for _ in model.stages(script)]
    return model.text, stages


def lost(state, before, printed, text, stages, is_told):
    """What is wrong in the files after a run that stopped before its end, or None: FILE had these bytes before, and
    these lines were printed of the text. If it told that it cannot write, the last line need not be kept."""
    if printed != text[: len(printed)]:
        return f"printed {printed}, wanted {text}"
    reached = [place for place, stage in enumerate(stages) if stage.printed <= len(printed)][-1]
    # Of a stage without a line nobody knows whether it is over.
    first = next(place for place in range(reached, -1, -1) if place == 0 or stages[place].printed > stages[place - 1].printed)
    if is_told:
        first = max((place for place in range(first) if stages[place].printed < stages[first].printed), default=0)
    could_be = stages[first : reached + 2]
    roots, kept = files_of(state)
    now = remembered(0, roots, kept)
    whole = "".join(f"{root}\n" for root in stages[-1].roots).encode()
    data = paths(state)[0].read_bytes() if paths(state)[0].exists() else b""
    if not data.startswith(before) or not whole.startswith(data):
        return f"{len(before)} bytes of roots became {len(data)} others"
    if len(roots) < len(stages[first].roots):
        return f"{len(roots)} roots, and {len(stages[first].roots)} were taken"
    needed = set.intersection(*(stage.promises for stage in could_be))
    if not needed <= now.promises:
        return f"promises are lost: {needed - now.promises}, after {printed}"
    known = set.union(*(stage.promises for stage in stages[: reached + 2]))
    if not now.promises <= known:
        return f"promises that nobody gave: {now.promises - known}"
    return lost_of_watches(now, stages[max(first - 1, 0) : reached + 2], stages[first], printed)


def lost_of_watches(now, could_be, told, printed):
    """What is wrong in the alarms and marks, or None. Those of a line are kept once the line is printed, and a mark
    behind its alarms. Where the watching of a name begins is kept before anything is told of it."""
    if not could_be[0].alarms <= now.alarms <= set.union(*(stage.alarms for stage in could_be)):
        return f"alarms are {now.alarms}, after {printed}"
    if not told.marks.keys() <= now.marks.keys():
        return f"it is lost where the watching of {told.marks.keys() - now.marks.keys()} begins, after {printed}"
    for name in set.union(*(set(stage.marks) for stage in could_be), now.marks):
        moved = [stage for stage in could_be if now.marks.get(name) in (stage.marks.get(name), beginning_of(name, stage, could_be))]
        if not moved:
            return f"{name} is watched to {now.marks.get(name)}, after {printed}"
        told = {line for line in moved[0].alarms if name_of(line) == name}
        if not told <= now.alarms:
            return f"alarms are lost: {told - now.alarms}, after {printed}"
    return None


def beginning_of(name, stage, could_be):
    """The line of a mark with nothing watched yet, if the name has no mark in the stage and one in a later one."""
    if name in stage.marks:
        return None
    sinces = [each.marks[name].split(" ")[2] for each in could_be if name in each.marks]
    return f"watched {name} {sinces[0]} {sinces[0]}" if sinces else None


# Runs -------------------------------------------------------------------------------------------------------------


def built(name, folder):
    """A library of this folder."""
    order = '. scripts/drive/library.sh && library "$1" "$2"'
    subprocess.run(["bash", "-c", order, "bash", f"scripts/drive/{name}.c", f"{folder}/{name}.so"], cwd=REPOSITORY, check=True)
    return f"{folder}/{name}.so"


def preloaded(library, **words):
    return {"env": {**os.environ, "LD_PRELOAD": library, **{name: str(word) for name, word in words.items()}}}


def stopped(program, provider, state, script, place=0, seconds=0, **how):
    """A run that is killed so long after the reply of this number, unless it ends before: the lines that it prints, its
    words and its status."""
    pipes = dict.fromkeys(("stdin", "stdout", "stderr"), subprocess.PIPE)
    with answering(provider) as address:
        run = subprocess.Popen(asking(program, state, address), umask=0o022, **pipes, **how)

        def kill(provider, _request, reply):
            if provider.count == place:
                threading.Timer(seconds, run.kill).start()
            return reply

        provider.lie = kill
        output, errors = run.communicate(script, timeout=SECONDS)
    provider.lie = None
    return output.decode().split("\n")[:-1], errors.decode().splitlines(), run.returncode


class Life:
    """A state and its provider, over several runs."""

    def __init__(self, folder, rng):
        self.state, self.rng, self.provider = f"{folder}/state", rng, Provider()
        self.epoch, self.names = 1, []

    def copied(self, folder):
        """The same in another folder."""
        life = Life(folder, random.Random(1))
        life.provider, life.epoch = self.provider.copied(), self.epoch + 10
        for path, other in zip(paths(self.state), paths(life.state)):
            if path.exists():
                shutil.copy2(path, other)
        return life

    def line(self):
        kinds = ["register", "register", "register2", "change", "change", "change2", "close", "close", "close", "close"]
        kind = self.rng.choice([*kinds, "watch", "watch", "watch2", "lookup", "lookup", "head", "head"])
        if kind == "close":
            self.epoch += 1
            return f"close {self.epoch}"
        if kind == "head":
            return kind
        policy, key = self.rng.choice(["open", "open", "final"]), self.rng.choice(["6b31", "6b32"])
        if kind in ("register", "register2") or not self.names:
            self.names.append(f"{len(self.names):04x}")
            return f"register2 {self.names[-1]} 6b31 {policy}" if kind == "register2" else f"register {self.names[-1]} 6b31"
        words = {"lookup": "0", "watch": "6b31", "watch2": f"6b31 {policy}", "change": key, "change2": f"{key} {policy}"}
        return f"{kind} {self.rng.choice(self.names)} {words[kind]}"

    def script(self):
        return "".join(f"{self.line()}\n" for _ in range(self.rng.randrange(4, 9))).encode()

    def run(self, program, script):
        """What the program does otherwise than the model in a run, or None."""
        self.provider.begin()
        return otherwise(program, self.provider, self.provider.copied(), script, self.state)

    def stop(self, program, script, is_end, **how):
        """Whether a run is stopped; and what is wrong after it, or None."""
        self.provider.begin()
        before = paths(self.state)[0].read_bytes() if paths(self.state)[0].exists() else b""
        before = before[: before.rfind(b"\n") + 1]
        text, stages = expected(self.provider, self.state, script)
        printed, errors, status = stopped(program, self.provider, self.state, script, **how)
        if not is_end(errors, status):
            return False, f"status {status}, {errors}"
        wrong = lost(self.state, before, printed, text, stages, errors[-1:] == ["cannot write"])
        if wrong is None:
            wrong = self.run(program, b"head\n" + self.script())
            wrong = wrong and f"the next run: {wrong}"
        return True, wrong


def begun(program, folder):
    """States with a script whose run is to be stopped, how many calls of that change a file at least, and the statuses that
    it may have if it cannot write (3 behind evidence): a new one; one with roots, marks, promises and an alarm, and last
    lines that were cut short; and one that tells evidence."""
    script = b"watch 61 -\nregister 61 6b31\nclose 2\nlookup 61 0\nregister 62 6b31\nwatch 62 -\n"
    yield "a new state", Life(folder, random.Random(1)), script, 16, {1}
    life = Life(folder, random.Random(1))
    life.epoch, life.names = 3, ["61", "62", "63", "66", "67"]
    runs = (
        b"register 61 6b31\nregister 62 6b31\nregister2 66 6b31 open\nregister2 67 6b31 open\nclose 2\n"
        b"watch 61 6b31\nwatch2 66 6b31 open\nwatch2 67 6b31 final\n",
        b"change 61 6b32\nchange2 66 6b31 final\nregister 63 6b31\nclose 3\n",
    )
    wrong = [life.run(program, script) for script in runs]
    for path, rest in zip(paths(life.state), ("5201", "change 50")):
        with open(path, "a") as file:
            file.write(rest)
    assert wrong == [None, None], wrong
    script = b"watch 64 -\nregister 64 6b31\nwatch 61 6b32\nwatch2 66 6b31 final\nclose 9\nregister2 65 6b31 final\nwatch 62 6b31\n"
    yield "a state", life, script, 16, {1}
    os.mkdir(f"{folder}/forked")
    life = Life(f"{folder}/forked", random.Random(1))
    life.epoch, life.names = 3, ["61", "62"]
    wrong = life.run(program, b"register 61 6b31\nregister 62 6b31\nclose 2\nwatch 61 6b31\n")
    fork = life.provider.copied()
    assert [wrong, life.run(program, b"close 3\nhead\n")] == [None, None], wrong
    fork.hub.directory.rotate(3, bytes([5]) * 32)
    life.provider = fork
    yield "a state of a fork", life, b"watch 61 6b32\nregister 63 6b31\nwatch 62 -\n", 6, {1, 3}


def calls(program, library, life, script):
    """How many calls of a run change a file."""
    with tempfile.TemporaryDirectory() as folder, tempfile.TemporaryFile() as count:
        life = life.copied(folder)
        how = preloaded(library, COUNT_TO=count.fileno())
        stopped(program, life.provider, life.state, script, pass_fds=(count.fileno(),), **how)
        count.seek(0)
        return int(count.read() or 0)


def at_each_call(program, library, ways, is_end):
    """Runs that are stopped at each of their calls in turn, in each of these ways."""
    with tempfile.TemporaryDirectory() as folder, ThreadPoolExecutor(BESIDE) as pool:
        for name, life, script, least, statuses in begun(program, folder):
            count = calls(program, library, life, script)
            yield None if least <= count else f"{name}: only {count} calls change a file"
            cases = []
            for way in ways:
                for number in range(1, count + 1):
                    os.mkdir(own := f"{folder}/{name}, {way} at call {number}")
                    cases.append((own, life.copied(own), preloaded(library, FAIL_AT=number, FAIL_WAY=way)))

            def stop(case):
                own, life, how = case
                wrong = life.stop(program, script, functools.partial(is_end, statuses), **how)[1]
                return wrong and f"{os.path.basename(own)}: {wrong}"

            yield from pool.map(stop, cases)


def is_killed(_errors, status):
    return status == -signal.SIGKILL


def kills(program, library, seed, count):
    """Kills at each call, and at other moments."""
    found = list(at_each_call(program, library, ("kill", "torn"), lambda _, *end: is_killed(*end)))
    yield from found
    lives = range(seed, seed + max(count - len(found), 0) // KILLS_OF_A_STATE + 1)
    with ThreadPoolExecutor(BESIDE) as pool:
        for killed in pool.map(lambda each: killed_at_times(program, each), lives):
            yield from killed


def killed_at_times(program, seed):
    """What comes of some kills, each at a moment after some reply."""
    rng, found = random.Random(seed), []
    with tempfile.TemporaryDirectory() as folder:
        life = Life(folder, rng)
        for _ in range(4 * KILLS_OF_A_STATE):
            place, seconds = rng.randrange(1, 16), rng.random() * MOMENT
            is_stopped, wrong = life.stop(program, life.script(), is_killed, place=place, seconds=seconds)
            if is_stopped:
                found.append(wrong and f"a kill {seconds:.4f} seconds after reply {place}, seed {seed}: {wrong}")
                if len(found) == KILLS_OF_A_STATE:
                    return found
    return [*found, f"only {len(found)} runs are killed, seed {seed}"]


def full_disk(program, library):
    """Calls that fail: one alone, or it and all after it, or so that half of a write is written. A line names the file and says
    why."""

    def is_end(wanted, errors, status):
        is_named = any(re.fullmatch(r"state: .*: .* \(os error \d+\)", line) for line in errors[:-1])
        return status in wanted and is_named and errors[-1:] == ["cannot write"]

    return at_each_call(program, library, ("once", "full", "short"), is_end)


# One at a time ------------------------------------------------------------------------------------------------------


@contextlib.contextmanager
def directory(program):
    """The address of a directory that listens."""
    server, address = listening(program, 0)
    try:
        yield address
    finally:
        server.kill()
        server.wait()
        server.stderr.close()


def done(program, state, address, script=b"", *words, **how):
    """What a run does: its output, its errors and its status."""
    run = subprocess.run(asking(program, state, address, *words), input=script, capture_output=True, timeout=SECONDS, **how)
    return run.stdout.decode(), run.stderr.decode(), run.returncode


def bytes_of(state):
    """The bytes of the two files of a state, and None of one that is not there."""
    return [path.read_bytes() if path.exists() else None for path in paths(state)]


def refused_by(state):
    """What a run does whose state another one has."""
    return "", f"state: {state}: {ANOTHER}\ncannot write\n", 1


def different(name, wanted, got):
    return None if got == wanted else f"{name}: wanted {wanted}, got {got}"


def held(program):
    """While a run has FILE, others end, and change nothing."""
    with directory(program) as address, tempfile.TemporaryDirectory() as folder:
        state, pipes = f"{folder}/state", dict.fromkeys(("stdin", "stdout", "stderr"), subprocess.PIPE)
        first = subprocess.Popen(asking(program, state, address), bufsize=0, **pipes)
        timer = threading.Timer(SECONDS, first.kill)
        timer.start()
        first.stdin.write(b"register 61 6b31\n")
        yield different("a run that waits", b"promise 1\n", first.stdout.readline())
        before = bytes_of(state)
        with ThreadPoolExecutor(AT_ONCE - 1) as pool:
            others = list(pool.map(lambda number: done(program, state, address, b"", "register", f"{number:02x}", "6b31"), range(AT_ONCE - 1)))
        yield different("runs beside one that waits", [refused_by(state)] * (AT_ONCE - 1), others)
        yield different("the files beside a run that waits", before, bytes_of(state))
        first.stdin.write(b"register 62 6b31\n")
        first.stdin.close()
        yield different("a run beside others", (b"promise 1\n", 0), (first.stdout.read(), first.wait(SECONDS)))
        timer.cancel()
        first.stdout.close()
        first.stderr.close()
        yield different("a run after it", ("root 1 after 0\n", "", 0), done(program, state, address, b"head\n"))
        yield different("promises of a run beside others", 2, len(files_of(state)[1]))
        # It is locked before it is cut.
        for path in paths(state):
            with open(path, "ab") as file:
                file.write(b"52")
        before = bytes_of(state)
        order = ["flock", state, *asking(program, state, address, "head")]
        run = subprocess.run(order, capture_output=True, timeout=SECONDS)
        yield different("a file that another holds", refused_by(state), (run.stdout.decode(), run.stderr.decode(), run.returncode))
        yield different("a cut file that another holds", before, bytes_of(state))


def eight_at_once(program):
    """Of runs that begin at once, each works, or says that another has FILE."""
    with directory(program) as address, tempfile.TemporaryDirectory() as folder:
        state, made = f"{folder}/state", {}

        def run(number):
            names = [f"{number:02x}{k:02x}" for k in range(5)]
            script = "".join(f"register {name} 6b31\nlookup {name} 0\nwatch {name} -\n" for name in names)
            output, errors, status = done(program, state, address, script.encode())
            if status == 0:
                made.update(dict.fromkeys(names))
                epochs = output.splitlines()
                lines = [line.split(" ")[0] for line in epochs]
                return different("a run at once", ["promise", "absent", "kept"] * 5, lines)
            return different("a run at once", refused_by(state), (output, errors, status))

        for epoch in range(2, 6):
            with ThreadPoolExecutor(AT_ONCE) as pool:
                yield from pool.map(run, range(AT_ONCE * epoch, AT_ONCE * (epoch + 1)))
            done(program, f"{folder}/operator {epoch}", address, b"", "close", str(epoch))
        yield different("runs at once that worked", True, len(made) >= 20)
        output, errors, status = done(program, state, address, b"head\n")
        yield different("a run after runs at once", ("root 5 after 4\n", "", 0), (output, errors, status))
        audit = [program, "audit", "--key", PROVIDER.hex()]
        audited = subprocess.run(audit, input=paths(state)[0].read_bytes(), capture_output=True).stdout.decode().split("\n")
        roots, kept = files_of(state)
        yield different("the roots of runs at once", ["started", *["extended"] * (len(roots) - 1), ""], audited)
        now = remembered(0, roots, kept)
        # A name that is watched has its promise until its next watch.
        names = sorted(SignedPromise.read(bytes.fromhex(line.split(" ")[1])).promise.name.hex() for line in now.promises)
        yield different("promises of runs at once", sorted(made), names)
        yield different("marks of runs at once", sorted(made), sorted(now.marks))


# The files ----------------------------------------------------------------------------------------------------------


def modes_of(state):
    return [oct(path.stat().st_mode & 0o7777) if path.exists() else None for path in paths(state)]


def modes(program):
    """The files are made for their owner alone, and keep the modes that they have."""
    with directory(program) as address, tempfile.TemporaryDirectory() as folder:
        epoch = 1
        for umask in (0o022, 0, 0o077):
            state = f"{folder}/{umask}"
            done(program, state, address, b"", "head", umask=umask)
            yield different(f"modes under the mask {umask:o}", ["0o600", None], modes_of(state))
            done(program, state, address, b"", "register", f"{umask:04x}", "6b31", umask=umask)
            yield different(f"modes under the mask {umask:o}", ["0o600", "0o600"], modes_of(state))
            epoch += 1
            got = done(program, state, address, b"", "close", str(epoch), umask=umask)
            yield different("a closing", (f"root {epoch} after {epoch - 1}\n", "", 0), got)
            yield different("what is kept of a promise that was tested", [], files_of(state)[1])
            yield different(f"modes under the mask {umask:o}, written anew", ["0o600", "0o600"], modes_of(state))
        for umask in (0o022, 0o077):
            for mode in (0o644, 0o640, 0o606):
                state = f"{folder}/{umask} {mode}"
                name = f"{umask:04x}{mode:04x}"
                done(program, state, address, b"", "register", name, "6b31")
                for path in paths(state):
                    path.chmod(mode)
                epoch += 1
                got = done(program, state, address, f"close {epoch}\nregister {name}61 6b31\nwatch {name}61 -\n".encode(), umask=umask)
                yield different("a run on files that are there", (f"root {epoch} after {epoch - 1}\npromise {epoch}\nkept {name}61 {epoch}\n", 0), got[::2])
                yield different(f"what is kept under the mode {mode:o}", 2, len(files_of(state)[1]))
                yield different(f"the mode {mode:o} under the mask {umask:o}", [oct(mode)] * 2, modes_of(state))


class Kept(NamedTuple):
    """The lines of a state of which a run adds nothing: roots of the epochs 1 to 3, and of epoch 2 a mark and a promise,
    with policies an alarm too; or that of a final key alone. And the lines that look-ups would leave."""

    roots: list
    kept: list
    finals: list

    def line(self, word):
        """The line of FILE.kept that begins with this word."""
        (line,) = (line for line in self.kept if line.startswith(f"{word} "))
        return line


KEPT_RUNS = b"register 61 6b31\nclose 2\nwatch 61 6b31\n", b"change 61 6b32\n", b"close 3\n"
POLICY_RUNS = b"register2 61 6b31 open\nclose 2\nwatch2 61 6b31 final\n", b"change2 61 6b31 final\n", b"close 3\n"
FINAL_RUNS = b"register2 61 6b31 final\nclose 2\n", b"close 3\n"
KEPT_WORDS = {KEPT_RUNS: ["change", "watched"], POLICY_RUNS: ["alarm", "change", "watched"], FINAL_RUNS: ["final"]}
OPEN_ALARM = "alarm 61 2 6b31 open"


def final_lines(directory):
    """The lines of FILE.kept for the replies of epochs 2 and 3 that state a final key."""
    replies = {epoch: directory.lookup(b"a", epoch) for epoch in (2, 3)}
    return [f"final 61 {epoch} {reply.write().hex()}" for epoch, reply in replies.items() if is_final(reply.statement())]


def finals_after(runs):
    """Those of a directory of which these runs asked."""
    provider = Provider()
    for script in runs:
        provider.begin()
        Asked(provider).run(script)
    return final_lines(provider.hub.directory)


def kept_state(program, address, folder, runs=KEPT_RUNS):
    """The state that these runs leave."""
    state = f"{folder}/begun"
    for script in runs:
        done(program, state, address, script)
    roots, kept = files_of(state)
    assert len(roots) == 3 and sorted(line.split(" ")[0] for line in kept) == KEPT_WORDS[runs], (roots, kept)
    return Kept(roots, kept, finals_after(runs))


def text_of(lines):
    return "".join(f"{line}\n" for line in lines).encode()


def put(state, roots, kept):
    """Writes the bytes of the two files, unless they are None."""
    for path, data in zip(paths(state), (roots, kept)):
        if data is not None:
            path.write_bytes(data)


HEAD_3 = "root 3 after 2\n"


class Cut(NamedTuple):
    """Bytes of the two files whose last lines were cut short, what is said of them, and what FILE.kept has after a run, which
    prints something."""

    roots: bytes
    kept: bytes
    said: list
    kept_then: bytes
    script: bytes = b"head\n"
    printed: str = HEAD_3


def cut_roots(begun):
    text = text_of(begun.kept)
    for left in range(1, len(begun.roots[2]) + 1):
        roots = text_of(begun.roots[:2]) + begun.roots[2][:left].encode()
        yield Cut(roots, text, [f": {left} bytes cut off"], text)
    both = [": 17 bytes cut off", ".kept: 5 bytes cut off"]
    yield Cut(text_of(begun.roots[:2]) + begun.roots[2][:17].encode(), text + b"watch", both, text)
    yield Cut(text_of(begun.roots), b"change 50", [".kept: 9 bytes cut off"], b"")


def cut_kept(begun):
    """Each line is the last one in turn. Where its beginning is an item too, as that of an alarm before its policy, it is
    dropped all the same."""
    for last in begun.kept:
        then = others = [line for line in begun.kept if line != last]
        if last.startswith("watched "):
            # A promise without a mark is tested, and its reply may state a final key.
            then = [line for line in others if not line.startswith("change ")] + begun.finals
        for left in range(1, len(last) + 1):
            kept = text_of(others) + last[:left].encode()
            yield Cut(text_of(begun.roots), kept, [f".kept: {left} bytes cut off"], text_of(then))


def cut_finals(begun):
    """Where the line of a final key was dropped, the next look-up leaves one again."""
    line, later = begun.finals
    for left in (1, 9, len(line) // 2, len(line) - 1, len(line)):
        for epoch, then in (2, line), (3, later):
            printed = f"present {epoch} 6b31 final\n"
            yield Cut(
                text_of(begun.roots), line[:left].encode(), [f".kept: {left} bytes cut off"], text_of([then]),
                f"lookup 61 {epoch}\n".encode(), printed)


def said_of_alarm(line):
    """What is said of an alarm that an earlier run told, behind FILE."""
    _, name, epoch, *_ = line.split(" ")
    return f".kept: alarm of an earlier run for {name} at epoch {epoch}"


def cut_lines(program):
    """A last line that was cut short is dropped."""
    for runs, cases in (KEPT_RUNS, [cut_roots, cut_kept]), (POLICY_RUNS, [cut_kept]), (FINAL_RUNS, [cut_kept, cut_finals]):
        with directory(program) as address, tempfile.TemporaryDirectory() as folder:
            begun = kept_state(program, address, folder, runs)
            if runs == POLICY_RUNS:
                yield different("an alarm with a policy", OPEN_ALARM, begun.line("alarm"))
            if runs == FINAL_RUNS:
                yield different("a final key", begun.finals[:1], begun.kept)

            def check(case, address=address, folder=folder, whole=text_of(begun.roots)):
                number, cut = case
                state = f"{folder}/{number}"
                put(state, cut.roots, cut.kept)
                # The alarms whose lines are whole are said behind that.
                alarms = [line for line in cut.kept.decode().split("\n")[:-1] if line.startswith("alarm ")]
                said = [*cut.said, *map(said_of_alarm, alarms)]
                words = "".join(f"state: {state}{line}\n" for line in said)
                got = done(program, state, address, cut.script), sorted_kept(bytes_of(state))
                wanted = (cut.printed, words, 0), sorted_kept([whole, cut.kept_then])
                return different(f"{cut.roots[-20:]} and {cut.kept[-20:]}", wanted, got)

            with ThreadPoolExecutor(BESIDE) as pool:
                yield from pool.map(check, enumerate(cut for each in cases for cut in each(begun)))
            yield from cut_first_line(program, address, folder, begun)


def sorted_kept(files):
    """The bytes of FILE, and of FILE.kept the lines, which a run writes in any order."""
    roots, kept = files
    return roots, kept and sorted(kept.split(b"\n"))


def cut_first_line(program, address, folder, begun):
    """Of the first line of FILE nothing is left."""
    for left in (1, 17, len(begun.roots[0])):
        state = f"{folder}/first {left}"
        put(state, begun.roots[0][:left].encode(), None)
        words = f"state: {state}: {left} bytes cut off\nstate: begins at epoch 3\n"
        got = done(program, state, address, b"head\n"), bytes_of(state)
        yield different(f"{left} bytes of the first line", ((HEAD_3, words, 0), [text_of(begun.roots[2:]), None]), got)


class Bad(NamedTuple):
    """Lines of the two files, None for a file that is not there, what is said behind FILE, and the number of the bad line."""

    what: str
    roots: list
    kept: list
    beside: str
    number: int


def bad_items(program):
    """A line that no run wrote is told with the name of its file, and both files stay."""
    with directory(program) as address, tempfile.TemporaryDirectory() as folder:
        begun = kept_state(program, address, folder)
        done(program, f"{folder}/other", address, b"register 62 6b31\n")
        above = files_of(f"{folder}/other")[1]
        with directory(program) as other:
            done(program, f"{folder}/elsewhere", other, b"register 61 6b31\nrotate 2 %s\n" % (b"05" * 32))
        (_, foreign), _ = files_of(f"{folder}/elsewhere")
        cases = [*bad_roots(begun, foreign), *bad_kept(begun), *lines_above(begun, above), *without_roots(begun)]
        for count, (what, roots, kept, beside, number) in enumerate(cases):
            state = f"{folder}/{count}"
            put(state, None if roots is None else text_of(roots), None if kept is None else text_of(kept))
            before = bytes_of(state)
            words = f"state: {state}{beside}: {AS_WRITTEN}\nline {number}: bad item\n"
            got = done(program, state, address, b"watch 61 6b31\n"), bytes_of(state)
            if roots is None:
                # FILE may be there, and empty.
                got[1][0] = got[1][0] or None
            yield different(what, (("", words, 1), before), got)


def bad_finals(program):
    """A line is no item whose reply does not state a final key for its name under FILE's root of its epoch, or if FILE has
    no such root. Of two for one name the first counts."""
    with tempfile.TemporaryDirectory() as folder:
        provider = Provider()
        begun, script = f"{folder}/begun", b"register2 61 6b31 final\nregister2 62 6b31 open\nclose 2\nclose 3\nlookup 61 2\nlookup 62 0\n"
        provider.begin()
        ran(program, provider, script, begun)
        roots, kept = files_of(begun)
        replies = {(name, epoch): provider.hub.directory.lookup(name, epoch).write().hex() for name in (b"a", b"b", b"c") for epoch in (2, 3)}
        line, later = final_lines(provider.hub.directory)
        yield different("what is kept of a final key", [line], kept)
        cases = [(roots, [later, bad]) for bad in bad_final_lines(line, replies)] + [(some, [line]) for some in (roots[:1], roots[2:])]
        for count, (some, lines) in enumerate(cases):
            state = f"{folder}/{count}"
            put(state, text_of(some), text_of(lines))
            before = bytes_of(state)
            provider.begin()
            words = [f"state: {state}.kept: {AS_WRITTEN}", f"line {len(lines)}: bad item"]
            got = ran(program, provider, b"head\n", state), bytes_of(state)
            yield different(f"the line {lines[-1][:30]}, {count}", (([], words, 1), before), got)
        put(f"{folder}/two", text_of(roots), text_of([line, later]))
        provider.begin()
        got = ran(program, provider, b"head\n", f"{folder}/two"), files_of(f"{folder}/two")[1]
        yield different("two lines of a name", (([HEAD_3.strip()], [], 0), [line]), got)


def bad_final_lines(line, replies):
    """Lines made of a good one that are no items."""
    reply = line.split(" ")[3]
    altered = [flipped(bytes.fromhex(reply), at).hex() for at in range(len(reply) // 2)]
    return [
        "final", "final 61", "final 61 2", "final 61 2 ", f"final 61 2 {reply} ", f"final 61 2 {reply} 2", f"final 61  {reply}", f"final  2 {reply}",
        f"final 6 2 {reply}", f"final {'61' * 256} 2 {reply}", f"final 61 x {reply}", f"final 61 02 {reply}", f"final 61 18446744073709551616 {reply}",
        f"Final 61 2 {reply}", f"final 61 2 {reply.upper()}", line[:-1], line[:-2], f"{line}00", changed_digit(line), f"final 61 2 {'00' * 10701}",
        # Of another epoch, or another name, or not of a final key.
        f"final 61 3 {reply}", f"final 61 1 {reply}", f"final 61 4 {reply}", f"final 61 0 {reply}", f"final 62 2 {reply}",
        f"final 61 2 {replies[b'a', 3]}", f"final 62 2 {replies[b'b', 2]}", f"final 63 2 {replies[b'c', 2]}",
        # With one byte altered.
        *[f"final 61 2 {each}" for each in altered],
    ]


def bad_roots(begun, foreign):
    unlinked = {1: begun.roots[0][2:], 2: begun.roots[2], 3: foreign}
    for number, root in enumerate(begun.roots, 1):
        for bad in (root[:-2], root + "00", root[:-1], f"{root[:-1]}g", "x", changed_digit(root), unlinked[number]):
            roots = [*begun.roots[: number - 1], bad, *begun.roots[number:]]
            yield Bad(f"root {number} is {bad[:10]}..", roots, begun.kept, "", number)
            yield Bad(f"root {number} is {bad[:10]}.. alone", roots, None, "", number)


def bad_kept(begun):
    for bad in bad_lines(begun.line("change")):
        for number in (1, 2, 3):
            kept = [begun.line("watched"), begun.line("change")]
            kept.insert(number - 1, bad)
            yield Bad(f"line {number} of what is kept is {bad[:20]}", begun.roots, kept, ".kept", number)


def bad_lines(promise):
    """Lines that are no items, some of them made of a line with a promise."""
    assert with_policy(promise, None) == promise
    return [
        "x", "watched", "watched 61", "watched 6 2", "watched 6g 2", "watched 61 ", "watched 61 x", "watched 61 1 2 3", "watched  2",
        f"watched {'61' * 256} 2", "watched 61 -1", "watched 61 18446744073709551616", "watch 61 2", f"promises {promise[7:]}",
        f"change  {promise[7:]}", promise[:-2], promise[:-1], f"{promise}00", f"{promise[:-1]}g", changed_digit(promise), "promise", "change ",
        "watched 61 1 x", "watched 61 1 ", "watched 61 -1 2", "alarm", "alarm 61", "alarm 61 2", "alarm 61 2 ", "alarm 6 2 6b31",
        "alarm 61 x 6b31", "alarm 61 2 6b3", "alarm 61 2 none", "alarm 61 2 absent 2", "alarm 61 18446744073709551616 6b31",
        f"alarm {'61' * 256} 2 6b31", f"alarm 61 2 {'61' * 2049}", "alarm 61 2 6b31 ", "alarm 61 2 6b31 Open", "alarm 61 2 absent open",
        "alarm 61 2 6b3 open", "alarm 61 2 6b31 open final", f"alarm 61 2 {'61' * 2049} final", "{", "{}", '{"first":"","kind":"fork","second":""}',
        *[line.replace("change", word) for line in (with_policy(promise, 0), with_policy(promise, 3)) for word in ("promise", "change")],
    ]


def with_policy(line, policy):
    """The line of a promise that has this byte for its policy, and its signature."""
    word, data = line.split(" ")
    promise = replace(SignedPromise.read(bytes.fromhex(data)).promise, policy=policy)
    return f"{word} {SignedPromise.signed(promise, SIGNING_KEY).write().hex()}"


def lines_above(begun, above):
    """What is above FILE's last root: marks, and these promises."""
    mark, promise = begun.line("watched"), begun.line("change")
    for bad in ("watched 61 4", "watched 61 18446744073709551615", "watched 7a 4", "watched 61 1 4", "watched 61 4 4"):
        for kept in ([mark, bad], [mark, bad, promise, mark]):
            yield Bad(f"a mark above the head: {bad}", begun.roots, kept, ".kept", 2)
    for bad in ("watched 61 3", *above):
        yield Bad(f"above the head: {bad[:20]}", begun.roots[:2], [promise, mark, bad], ".kept", 3)


def without_roots(begun):
    """FILE.kept without FILE."""
    for kept in (begun.kept, [begun.line("watched")], [begun.line("change")]):
        for roots in (None, []):
            yield Bad(f"FILE is {roots}, and FILE.kept is there", roots, kept, "", 1)


def changed_digit(line):
    """With another digit in the middle of the last word."""
    place = (len(line) + line.rfind(" ") + 1) // 2
    return f"{line[:place]}{'0' if line[place] != '0' else '1'}{line[place + 1:]}"


def beginnings(program):
    """FILE is made at the beginning, and FILE.kept once there is something to keep."""
    with directory(program) as address, tempfile.TemporaryDirectory() as folder:
        state = f"{folder}/state"
        for data, mode in (None, "0o600"), (b"", "0o640"):
            put(state, data, None)
            if data is not None:
                os.chmod(state, 0o640)
            wanted = ("root 1 after 0\n", "state: begins at epoch 1\n", 0), [mode, None]
            yield different(f"FILE is {data}", wanted, (done(program, state, address, b"head\n"), modes_of(state)))
            yield different("the roots", 1, len(files_of(state)[0]))
            os.remove(state)
        got = done(program, f"{folder}/none/state", address, b"head\n")
        words = f"state: {folder}/none/state: No such file or directory (os error 2)\ncannot write\n"
        yield different("a folder that is not there", ("", words, 1), got)
        done(program, state, address, b"head\n")
        for name, path in ("FILE", f"{folder}/other"), ("FILE.kept", f"{state}.kept"):
            os.mkdir(path)
            words = f"state: {path}: Is a directory (os error 21)\ncannot read\n"
            yield different(f"{name} is a folder", ("", words, 1), done(program, path.removesuffix(".kept"), address, b"head\n"))
    with tempfile.TemporaryDirectory() as folder:
        state, provider = f"{folder}/state", Provider(cut(1, 1))
        got = ran(program, provider, b"head\n", state), bytes_of(state)
        yield different("no reply", (([], ["no reply"], 1), [b"", None]), got)
        provider = Provider()
        yield otherwise(program, provider, provider.copied(), b"head\n", state)


def old_states(program, seed):
    """States as they were written before lines were appended, and before alarms and evidence were kept: promises and
    then marks of the older form, readable by all."""
    for each in range(seed, seed + 20):
        with tempfile.TemporaryDirectory() as folder:
            state, provider = f"{folder}/state", Provider()
            model = Asked(provider)
            for script, _ in drawn_runs(random.Random(each)):
                model = Asked(provider, *([bytes.fromhex(line) for line in lines] if number == 0 else lines for number, lines in enumerate(files_of(state))))
                provider.begin()
                model.run(script)
                roots, kept = model.state()
                put(state, text_of(roots), text_of(map(older_form_of, filter(is_of_older_states, kept))))
            provider.begin()
            yield otherwise(program, provider, provider.copied(), b"head\nregister 7a 6b31\nclose 99\nwatch 61 6b31\n", state)


def is_of_older_states(line):
    """Whether it is a mark, or a promise of version 1."""
    return line.startswith(("watched ", "promise 5001", "change 5001"))


def older_form_of(line):
    """A mark with its last epoch alone."""
    return re.sub("^(watched [0-9a-f]+) [0-9]+ ", "\\1 ", line)


def left_over(program):
    """What a run that was killed left beside FILE.kept is not used."""
    with tempfile.TemporaryDirectory() as folder:
        state, provider = f"{folder}/state", Provider()
        pathlib.Path(f"{state}.kept.new").write_text("watched 61 9\n" * 100)
        for script in (b"register 61 6b31\nclose 2\n", b"watch 61 6b31\n"):
            provider.begin()
            yield otherwise(program, provider, provider.copied(), script, state)


# Memory -----------------------------------------------------------------------------------------------------------------


class Watched(NamedTuple):
    """Runs over a state, and the words of one more: how it may end, in the order of where memory runs out, and what it
    says on standard error where it does not."""

    runs: list
    words: list
    ends: list
    said: list


# More than a run makes.
MOST_ALLOCATIONS = 10_000

# Before the state is read; up to where the new epoch is told; and behind that.
NO_MEMORY = Watched(
    [b"register 61 6b31\nclose 2\nwatch 61 6b31\n", b"close 3\n"],
    ["watch", "61", "6b31", "--after=2"],
    [([], 1), (["stale 2"], 3), (["kept 61 3"], 1), (["kept 61 3"], 0)],
    [],
)
# The same with policies, and up to where an alarm is told again, which the owner answered with a change.
NO_MEMORY_BEHIND_ALARM = Watched(
    POLICY_RUNS,
    ["watch2", "61", "6b31", "final", "--after=2"],
    [([], 1), (["stale 2"], 3), ([OPEN_ALARM, "stale 2"], 3), ([OPEN_ALARM, "kept 61 3"], 3)],
    [KEPT_ALARM_OF_2],
)


def no_memory(program, library):
    """Wherever memory runs out once the state was read, and before the new epoch is told, it is told that the last epoch
    is not late enough."""
    for case in NO_MEMORY, NO_MEMORY_BEHIND_ALARM:
        found = list(ends_without_memory(program, library, case))
        yield different("memory that runs out", None, next((end for end in found if end not in case.ends), None))
        ends = [end for end, _ in itertools.groupby(found) if end in case.ends]
        yield different("the order of them", sorted(ends, key=case.ends.index), ends)


def ends_without_memory(program, library, case):
    """What the last run prints, and its status, where each of its allocations fails in turn, and then where none does."""
    with tempfile.TemporaryDirectory() as folder:
        begun, provider = f"{folder}/begun", Provider()
        for script in case.runs:
            provider.begin()
            ran(program, provider, script, begun)
        for place in range(1, MOST_ALLOCATIONS):
            state, other = f"{folder}/{place}", provider.copied()
            for old, new in zip(paths(begun), paths(state)):
                shutil.copy(old, new)
            other.begin()
            # The library's count goes where nobody reads it.
            output, errors, status = ran(program, other, b"", state, case.words, **preloaded(library, FAIL_NTH=place))
            yield output, status
            said = [line.replace(state, "FILE") for line in errors]
            if (output, said, status) == (case.ends[-1][0], case.said, case.ends[-1][1]):
                return


# The order of calls ---------------------------------------------------------------------------------------------------


def logged(program, provider, library, folder, script):
    """The calls of a run that concern its files and its lines, each by two words: what it does, and to what."""
    log, state = Log(f"{folder}/log", library), f"{os.path.realpath(folder)}/state"
    things = {state: "FILE", f"{state}.kept": "KEPT", f"{state}.kept.new": "NEW", os.path.dirname(state): "FOLDER"}
    provider.begin()
    printed, errors, status = ran(program, provider, script, state, **log.how)
    log.file.close()
    found = []
    for call in log.calls():
        what = "sync" if call.name in ("fsync", "fdatasync") else call.name
        if call.name == "write" and call.descriptor == 1:
            found.append("print")
        elif call.path in things:
            found.append(f"{what} {things[call.path]}")
    return found, status


def ordered(program, library):
    """A line is printed once its roots and promises are on the disk, and so are the entries of the files: of FILE, and of
    FILE.kept if it is there, at the beginning, or else once there is something to keep."""
    adds, keeps, marks = ["write FILE", "sync FILE"], ["write KEPT", "sync KEPT"], ["print", "write KEPT", "sync KEPT"]
    anew, entry = ["write NEW", "sync NEW", "rename KEPT", "sync FOLDER"], ["sync FOLDER"]
    both = [*entry, *entry]
    runs = [
        ("a beginning", b"head\n", [*entry, *adds, "print"]),
        ("nothing new", b"head\nlookup 61 0\nhistory 0 1\n", [*entry, *["print"] * 3]),
        ("a registration", b"register 61 6b31\n", [*entry, *entry, *keeps, "print"]),
        ("two lines", b"register 62 6b31\nlookup 61 0\nregister 63 6b31\n", [*both, *keeps, "print", "print", *keeps, "print"]),
        ("a watch", b"watch 61 -\n", [*both, *keeps, *marks, *anew]),
        ("no more to watch", b"watch 61 -\nhead\n", [*both, "print", "print"]),
        ("a closing", b"close 2\n", [*both, *adds, "print", *anew]),
        ("a change and a closing", b"change 61 6b32\nclose 3\nchange 62 6b32\n", [*both, *keeps, "print", *adds, "print", *keeps, "print"]),
        ("two names", b"watch 61 6b31\nwatch 62 6b31\n", [*both, *marks, *keeps, *marks, *anew]),
    ]
    with tempfile.TemporaryDirectory() as folder:
        provider = Provider()

        def calls(name, script, wanted, status=0):
            found, ended = logged(program, provider, library, folder, script)
            # What goes over in one call or several is the same.
            found = [call for place, call in enumerate(found) if not call.startswith("write ") or found[place - 1 : place] != [call]]
            return different(f"the calls of {name}", (wanted, status), (found, ended))

        for run in runs:
            yield calls(*run)
        forked = provider.copied()
        provider.hub.directory.rotate(4, bytes([5]) * 32)
        yield calls("a root and a promise", b"head\nregister 64 6b31\n", [*both, *adds, "print", *keeps, "print"])
        yield calls("an alarm", b"watch 63 6b32\n", [*both, *keeps, *marks, *anew], 3)
        provider = forked
        provider.hub.directory.close(4)
        yield calls("evidence", b"head\n", [*both, *keeps, "print", "print"], 3)


def dripping(provider, listener):
    """Answers a connection with one byte of the reply after another: each in time, and all of them in twice the time."""
    with contextlib.suppress(ConnectionError), listener.accept()[0] as peer:
        reply = provider.hub.bytes(0, peer.recv(65536))
        for byte in reply:
            time.sleep(2 * REPLY / FAST / len(reply))
            peer.send(bytes([byte]))


def slow_to_answer(_provider, request, reply):
    """Each look-up takes a quarter of its time."""
    if is_of(request, "lookup"):
        time.sleep(REPLY / FAST / 4)
    return reply


def slow(program, library):
    """A directory that does not answer in time is given up, and what was found before is told and kept."""
    how = preloaded(library, FAST=FAST)
    with socket.create_server(("127.0.0.1", 0)) as listener:
        threading.Thread(target=dripping, args=(Provider(), listener), daemon=True).start()
        words = [program, "ask", "--provider", PROVIDER_FILE, "127.0.0.1:%d" % listener.getsockname()[1], "head"]
        run = subprocess.run(words, capture_output=True, timeout=SECONDS, **how)
    yield different("a reply of many bytes", (b"", b"no reply\n", 1), (run.stdout, run.stderr, run.returncode))
    with tempfile.TemporaryDirectory() as folder:
        provider, state = Provider(slow_to_answer), f"{folder}/state"
        ran(program, provider, "\n".join(BEGUN_LINES).encode(), state)
        for epoch in range(3, 53):
            provider.hub.directory.close(epoch)
        output, errors, status = ran(program, provider, b"", state, ("watch", "61", "6b31"), **how)
        # As many replies come in time.
        last = 2 + len(output)
        yield different("replies that take too long together", (kept_epochs(3, last), ["no reply"], 1), (output, errors, status))
        yield None if 2 * WORDS / REPLY < len(output) <= 4 * WORDS / REPLY else f"{len(output)} replies came before the end"
        output, errors, status = ran(program, provider, b"", state, ("watch", "61", "6b31"))
        yield different("the next run", (kept_epochs(last + 1, 52), [], 0), (output, errors, status))
        # Lines may take longer together.
        script = b"lookup 61 52\n" * 30
        output, errors, status = ran(program, provider, script, state, **how)
        yield different("lines of input", (30, [], 0), (len(output), errors, status))


def main():
    parser = argparse.ArgumentParser(usage=__doc__)
    parser.add_argument("program")
    for name, default in ("--kills", 200), ("--seed", 1):
        parser.add_argument(name, type=int, default=default)
    words = parser.parse_args()
    program = os.path.abspath(words.program)
    with tempfile.TemporaryDirectory() as folder:
        names = "fail_disk", "sync_order", "fail_nth", "fast_clock"
        fail_disk, sync_order, fail_nth, fast_clock = (built(name, folder) for name in names)
        runs = {
            "kills": lambda: kills(program, fail_disk, words.seed, words.kills),
            "full disk": lambda: full_disk(program, fail_disk),
            "order": lambda: ordered(program, sync_order),
            "held": lambda: held(program),
            "eight at once": lambda: eight_at_once(program),
            "modes": lambda: modes(program),
            "cut lines": lambda: cut_lines(program),
            "bad items": lambda: bad_items(program),
            "bad final lines": lambda: bad_finals(program),
            "beginnings": lambda: beginnings(program),
            "old states": lambda: old_states(program, words.seed),
            "left over": lambda: left_over(program),
            "no memory": lambda: no_memory(program, fail_nth),
            "slow": lambda: slow(program, fast_clock),
        }
        found = {name: list(run()) for name, run in runs.items()}
    failures = [(name, difference) for name, differences in found.items() for difference in differences if difference is not None]
    for name in runs:
        for difference in [difference for each, difference in failures if each == name][:5]:
            print(f"{name}: {difference}")
    print(f"{sum(map(len, found.values())) - len(failures)} passed, {len(failures)} failed")
    return 1 if failures else 0


if __name__ == "__main__":
    sys.exit(main())
