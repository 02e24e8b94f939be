#!/usr/bin/env python3
"""Has a program write files as those in version1, into a new folder.

    scripts/drive/make_old_files.py PROGRAM FOLDER

Those were written so by a program of version 1, and are not written again: old_files.py opens them. The program
writes journals, states, evidence and roots, and answers what is asked of them; what is asked is drawn here.
"""

import os
import pathlib
import random
import shutil
import subprocess
import sys
import tempfile

sys.dont_write_bytecode = True
sys.path.insert(0, str(pathlib.Path(__file__).resolve().parent.parent))

from drive.old_files import (
    KEY_WORDS,
    Owner,
    Section,
    Server,
    audited,
    copied,
    frame_of,
    listening,
    opened_by,
    record_ends,
    reopened,
    run_lines,
    served,
)
from model.formats import BROKEN, FORK, LINK, MAX_EPOCH, SKIP, ZERO32, frame, read_list, split_frames
from model.sessions import SALT_KEY, SIGNING_KEY, TOKEN, VUF_KEY, Hub, keyed_directory
from questions import session_scripts

# Journals -------------------------------------------------------------------------------------------------------

# The short scripts whose directory keeps some record.
WORKED = [
    "two_epochs", "promises", "changes", "greatest_epoch", "limits_of_names_and_keys", "half_messages", "two_sessions",
    "alarm", "change_by_another_session", "old_epochs", "only_the_operator_closes", "rotations", "rotations_in_frames",
]


class Noting(Hub):
    """A hub that keeps the frames that it answers, of all its sessions."""

    def __init__(self, directory, token):
        super().__init__(directory, token)
        self.asked = []

    def answer(self, kind, body):
        self.asked.append(frame(kind, body))
        return super().answer(kind, body)


def worked(name):
    """The frames of a worked script, in the order in which they are answered."""
    hub = Noting(keyed_directory(1, ZERO32, SIGNING_KEY, VUF_KEY, SALT_KEY), TOKEN)
    for line in session_scripts.SCRIPTS[name]():
        command, *words = line.split(" ")
        if command in ("#", "watch", "end"):
            continue
        session, data = (int(words[0]), bytes.fromhex(words[1])) if command == "bytes" else (0, frame_of(line))
        if session not in hub.feeds:
            hub.open(session)
        hub.bytes(session, data)
    return b"".join(hub.asked)


VERBS_DRAWN = ["register"] * 30 + ["change"] * 30 + ["close"] * 10 + ["rotate"] * 4 + ["history"] * 4 + ["lookup"] * 8
VERBS_DRAWN += ["promise"] * 5 + ["head"]
NAMES_DRAWN = [b"name %d" % number for number in range(88)] + [b"\0", b"n" * 255]


class Drawing:
    """Commands that are drawn, most of which a directory accepts."""

    def __init__(self, rng):
        self.rng = rng
        self.epoch, self.shown, self.waiting = 1, set(), set()

    def name_to_change(self):
        return self.rng.choice(sorted(self.shown - self.waiting) or NAMES_DRAWN)

    def command(self, number):
        rng, verb, name = self.rng, self.rng.choice(VERBS_DRAWN), self.rng.choice(NAMES_DRAWN)
        key = b"\xff" * 512 if rng.randrange(30) == 0 else b"key %d" % number
        match verb:
            case "register" | "change":
                name = name if verb == "register" else self.name_to_change()
                self.waiting.add(name)
                return f"{verb} {name.hex()} {key.hex()}"
            case "close" | "rotate":
                step = rng.randrange(4)
                if step:
                    self.epoch, self.shown, self.waiting = self.epoch + step, self.shown | self.waiting, set()
                return f"{verb} {self.epoch}" + (f" {rng.randbytes(32).hex()}" if verb == "rotate" else "")
            case "history":
                return f"history {rng.randrange(self.epoch + 2)} {rng.choice([0, 1, 2, 65])}"
            case "lookup":
                return f"lookup {name.hex()} {rng.choice([0, self.epoch, rng.randrange(self.epoch + 1)])}"
            case "promise":
                return f"promise {name.hex()}"
        return "head"


def questions_of(journal, rng, is_whole):
    """What is asked of the directory that a journal opens to, and how it goes on."""
    directory = reopened(journal)
    shown, waiting, epochs = directory.last().bindings, directory.waiting, [page.epoch for page in directory.pages]
    names = sorted({*shown, *waiting})
    promises, looks, old_looks = (len(waiting), 10, 10) if is_whole else (3, 1, 0)
    yield "head"
    if is_whole:
        yield "history 0 64"
    yield from (f"promise {name.hex()}" for name in sorted(waiting)[:promises])
    yield from (f"lookup {name.hex()} 0" for name in rng.sample(names, min(len(names), looks)))
    yield from sorted({f"lookup {rng.choice(names).hex()} {rng.choice(epochs)}" for _ in range(old_looks) if names})
    yield "register 6f6c64 6e6577"
    yield from (f"change {name.hex()} 6e6577" for name in rng.sample(sorted(shown), min(len(shown), 1)))
    yield from [f"close {min(epochs[-1] + 1, MAX_EPOCH)}", "head", "lookup 6f6c64 0"]


def cut_places(journal, rng):
    """Places in the start, between records, and in records of each kind; and the end."""
    ends = record_ends(journal)
    records = list(zip(ends, ends[1:]))
    places = [0, 1, 61, 105, 106, ends[len(ends) // 3], ends[2 * len(ends) // 3], len(journal) - 1, len(journal)]
    for kind, insides in (b"O", (1, 20, 35, -1)), (b"C", (1, 8)), (b"K", (1, 9, 40)):
        for inside in insides:
            start, end = rng.choice([(start, end) for start, end in records if journal.startswith(kind, start)])
            places.append((start if inside > 0 else end) + inside)
    return sorted(set(places))


def make_journals(program, folder):
    rng = random.Random(1)
    found = []
    for name in WORKED:
        file = folder / f"{name}.journal"
        words = [program, "serve", *KEY_WORDS, "--journal", file]
        subprocess.run(words, input=worked(name), capture_output=True, check=True)
        found.append(Section(f"{file.name} {file.stat().st_size}", list(questions_of(file.read_bytes(), rng, True))))
    # Three starts, each with salts of its own.
    drawing, file = Drawing(rng), folder / "drawn.journal"
    for start in 0, 100, 200:
        served(program, file, [drawing.command(number) for number in range(start, start + 100)])
    journal = file.read_bytes()
    for place in cut_places(journal, rng):
        questions = list(questions_of(journal[:place], rng, place == len(journal)))
        found.append(Section(f"{file.name} {place}", questions))
    for section in found:
        name, size = section.head.split(" ")
        section.lines[:] = opened_by(program)((folder / name).read_bytes()[: int(size)], section.lines)
    write_sections(folder / "journals.txt", found)


def write_sections(file, found):
    file.write_text("".join(section.text() for section in found), encoding="ascii")


# States, evidence and roots -------------------------------------------------------------------------------------

FORKED = f"rotate 5 {'07' * 32}"
# Runs that go on from each state, by lines or by words.
GOING_ON = {
    "quiet": [
        ["promise 61", "watch 61 6b31", "history 1 64"],
        ["close 6", "watch 61 6b31", "lookup 63 0", "watch 62 6576", "change 63 6b36"],
        "settle 62",
        ["watch 62 6576", "rotate 9 " + "05" * 32, "watch 61 6b32", "lookup 63 6"],
        "watch 63 6b33",
    ],
    "caught": [
        ["promise 61", "watch 62 6576", "close 6", "lookup 63 0", "watch 61 6b31", "watch 62 6576", "history 1 64"],
        "settle 62",
        ["register 65 6b35", "change 62 6b31", "watch 63 6b33", "rotate 9 " + "05" * 32, "lookup 62 6", "promise 65"],
        "watch 62 6b31",
        ["watch 61 6b31", "change 61 6b33", "close 10", "watch 63 6576", "head"],
    ],
    "broken": [["lookup 63 0", "watch 61 6b31", "promise 63"], "settle 61", ["register 63 6b37", "close 7", "lookup 63 0"]],
}


def make_states(program, folder):
    """An owner asks a directory; somebody else changes a key; and the operator goes on from old copies of the journal."""
    with tempfile.TemporaryDirectory() as story:
        story = pathlib.Path(story)
        journal, owner, other = story / "journal", Owner(program, story / "owner"), Owner(program, story / "other")
        with Server(program, journal) as server:
            registered = ["register 61 6b31", "register 62 6b31", "close 2", "watch 61 6b31", "watch 62 6b31"]
            owner.asks(server.address, [*registered, "lookup 61 0", "close 3"])
            other.asks(server.address, ["change 62 6576", "close 4"])
            owner.asks(server.address, ["watch 61 6b31", "watch 62 6b31"])
            fourth = journal.read_bytes()
            owner.asks(server.address, ["close 5"])
            fifth = journal.read_bytes()
            other.asks(server.address, ["register 64 6b34"])
            owner.asks(server.address, ["register 63 6b33", "change 61 6b32", "promise 64"])
        keep(folder, "quiet", owner, journal)
        roots = [served_roots(program, journal)]
        # What is closed behind an old copy, and the evidence that the owner then has.
        for closings, kind in ([FORKED, "close 9"], LINK), (["close 9"], SKIP), ([FORKED], FORK):
            roots.append(make_evidence(program, folder, owner, story / kind, fourth, closings, kind))
        keep(folder, "caught", owner, journal)
        with copied(folder, "quiet") as copies:
            victim = Owner(program, copies / "quiet")
            make_evidence(program, folder, victim, story / BROKEN, fifth, ["close 6"], BROKEN)
            keep(folder, "broken", victim, story / BROKEN)
    make_roots(program, folder, roots)
    for state, asked in GOING_ON.items():
        with listening(program, folder, state) as (owner, address):
            found = [going_on(owner, address, each) for each in asked]
        write_sections(folder / f"{state}.runs", found)


def going_on(owner, address, asked):
    is_words = isinstance(asked, str)
    return Section("words" if is_words else "lines", run_lines(owner, address, [asked] if is_words else asked, is_words))


def keep(folder, state, owner, journal):
    """Stores a state, and the journal of its directory."""
    shutil.copy(owner.state, folder / state)
    shutil.copy(owner.state.with_name(f"{owner.state.name}.kept"), folder / f"{state}.kept")
    shutil.copy(journal, folder / f"{state}.journal")


def make_evidence(program, folder, owner, journal, copy, closings, kind):
    """The evidence of an owner whose directory goes on from an old copy of its journal. Returns that one's roots."""
    journal.write_bytes(copy)
    with Server(program, journal) as server:
        Owner(program, journal.with_name(f"operator of {kind}")).asks(server.address, closings)
        printed, _ = owner.asks(server.address, ["head"], is_words=True)
    line, *_ = [line for line in printed if f'"kind":"{kind}"' in line]
    (folder / f"{kind}.json").write_text(f"{line}\n")
    return served_roots(program, journal)


def served_roots(program, journal):
    """The signed roots of the directory of a journal."""
    [(_, body)], _, _ = split_frames(served(program, journal, ["history 0 64"]).stdout)
    return [root.write() for root in read_list(body)]


def make_roots(program, folder, roots):
    """Roots for an auditor who begins with epoch 2: the directory's own, those of others under its key, and altered ones."""
    own, linked, skipping, _ = roots
    cut, altered = own[4][:-1], own[4][:-1] + bytes([own[4][-1] ^ 1])
    lines = [own[1], own[2], own[4], own[3], own[4], own[0], own[2], linked[4], linked[5], skipping[4], cut, altered, own[4]]
    text = "".join(f"{line.hex()}\n" for line in lines)
    (folder / "roots.txt").write_text(text)
    (folder / "audited.txt").write_bytes(audited(program)(SIGNING_KEY, text.encode()))


def main(program, folder):
    folder = pathlib.Path(folder)
    folder.mkdir()
    make_journals(os.path.abspath(program), folder)
    make_states(os.path.abspath(program), folder)


if __name__ == "__main__":
    if len(sys.argv) != 3:
        sys.exit(__doc__)
    main(*sys.argv[1:])
