#!/usr/bin/env python3
"""Opens the files that a program of version 1 wrote, and compares what comes of them with what is stored.

    scripts/drive/old_files.py PROGRAM journals    `serve` opens each journal, or a beginning of it, answers, and goes on
    scripts/drive/old_files.py PROGRAM states      `ask` goes on from each state, at a directory that `listen` opens
    scripts/drive/old_files.py PROGRAM evidence    `judge` reads the evidence, and `audit` the signed roots
    scripts/drive/old_files.py model               all of it by the model in place of the program

The files are in version1, whose README.md says what each of them is. Prints what is not so. The status is 0 where all
is.
"""

import contextlib
import os
import pathlib
import shutil
import subprocess
import sys
import tempfile
from typing import NamedTuple

sys.dont_write_bytecode = True
sys.path.insert(0, str(pathlib.Path(__file__).resolve().parent.parent))

from drive.liars import Provider
from model.ask_model import Asked
from model.formats import (
    BROKEN,
    FORK,
    LINK,
    SKIP,
    ZERO32,
    Cursor,
    Fault,
    KeyedVuf,
    count_records,
    frame,
    read_front,
    request_frame,
    salts,
    sha256,
    split_frames,
    take_later_record,
    take_start_record,
)
from model.sessions import (
    SALT_KEY,
    SIGNING_KEY,
    TOKEN,
    VUF_KEY,
    Hub,
    Recorded,
    audit,
    command_of,
    judge_file,
    open_journal,
    request_of,
)

FOLDER = pathlib.Path(__file__).resolve().parent / "version1"
SECONDS = 60
KEYS = ["--sign-key", SIGNING_KEY, "--vuf-key", VUF_KEY, "--salt-key", SALT_KEY, "--token", TOKEN]
KEY_WORDS = [word if isinstance(word, str) else word.hex() for word in KEYS]

# Stored text ----------------------------------------------------------------------------------------------------


class Section(NamedTuple):
    """A line of a stored text, and the lines below it, which begin with four spaces."""

    head: str
    lines: list

    def text(self):
        return "".join([f"{self.head}\n", *(f"    {line}\n" for line in self.lines)])


def sections(file):
    found = []
    for line in (FOLDER / file).read_text(encoding="ascii").splitlines():
        if line.startswith("    "):
            found[-1].lines.append(line[4:])
        else:
            found.append(Section(line, []))
    return found


def difference(what, wanted, got):
    """The first line that is otherwise, or None."""
    for number, pair in enumerate(zip([*wanted, None], [*got, None]), 1):
        if pair[0] != pair[1]:
            return f"{what}, line {number}: wanted {str(pair[0])[:150]}, got {str(pair[1])[:150]}"
    return None if len(wanted) == len(got) else f"{what}: wanted {len(wanted)} lines, got {len(got)}"


# Journals -------------------------------------------------------------------------------------------------------


def frame_of(question):
    """The frame of a line of a script."""
    return request_frame(*request_of(*command_of(question.encode())))


def served(program, journal, questions):
    """What `serve` does on the file of a journal."""
    words = [program, "serve", *KEY_WORDS, "--journal", journal]
    return subprocess.run(words, input=b"".join(map(frame_of, questions)), capture_output=True, timeout=SECONDS)


def record_ends(journal):
    """Where the whole records at the front of a journal end."""
    cursor, ends = Cursor(journal), []
    with contextlib.suppress(Fault):
        while True:
            read_front(take_later_record if ends else take_start_record, cursor)
            ends.append(cursor.at)
    return ends


def taken_size(journal):
    return (record_ends(journal) or [0])[-1]


def journal_lines(said, questions, output, appended):
    """What is said of a journal, each question with the frame that answers it, and the bytes behind the records that were
    taken."""
    found, rest, _ = split_frames(output)
    frames = [frame(kind, body).hex() for kind, body in found]
    lines = [f"{question} = {reply}" for question, reply in zip(questions, frames)]
    more = [f"{len(found)} replies, and {rest.hex()}"] if rest or len(found) != len(questions) else []
    return [*said, *lines, *more, f"appended {appended.hex()}"]


def opened_by(program):
    """Opens the bytes of a journal by the program."""

    def lines_of(journal, questions):
        taken = taken_size(journal)
        with tempfile.TemporaryDirectory() as folder:
            file = pathlib.Path(folder, "journal")
            file.write_bytes(journal)
            run = served(program, file, questions)
            after = file.read_bytes()
        lines = journal_lines(run.stderr.decode().splitlines(), questions, run.stdout, after[taken:])
        return lines if (run.returncode, after[:taken]) == (0, journal[:taken]) else [*lines, f"status {run.returncode}"]

    return lines_of


def opened_by_model(journal, questions):
    directory = reopened(journal)
    hub = Hub(directory, TOKEN)
    hub.open(0)
    cut = len(journal) - taken_size(journal)
    said = f"journal: {count_records(journal)} records taken" + (f", {cut} bytes cut off" if cut else "")
    return journal_lines([said], questions, hub.bytes(0, b"".join(map(frame_of, questions))), directory.journal)


def reopened(journal):
    """The model's directory of a journal, which keeps the bytes of new records; or a new one, if the start was cut."""
    new_salts = salts(SALT_KEY, count_records(journal))
    found = open_journal(journal, sha256, KeyedVuf(VUF_KEY), SIGNING_KEY, new_salts)
    if found is None:
        return Recorded(1, ZERO32, sha256, KeyedVuf(VUF_KEY), SIGNING_KEY, new_salts)
    directory, _ = found
    directory.__class__, directory.journal = Recorded, b""
    return directory


def journals(open_bytes):
    """For each opening what is otherwise, or None."""
    for section in sections("journals.txt"):
        name, size = section.head.split(" ")
        questions = [line.partition(" = ")[0] for line in section.lines if " = " in line]
        lines = open_bytes((FOLDER / name).read_bytes()[: int(size)], questions)
        yield difference(section.head, section.lines, lines)


# States ---------------------------------------------------------------------------------------------------------

STATES = "quiet", "caught", "broken"


class Server:
    """A directory that listens, and goes on from a journal."""

    def __init__(self, program, journal):
        words = [program, "listen", *KEY_WORDS, "--journal", journal, "127.0.0.1:0"]
        self.process = subprocess.Popen(words, stderr=subprocess.PIPE, text=True)
        said = [self.process.stderr.readline() for _ in range(2)]
        self.address = said[1].removeprefix("listening on ").strip() or "none"

    def __enter__(self):
        return self

    def __exit__(self, *_):
        self.process.kill()
        self.process.wait()
        self.process.stderr.close()


class Owner:
    """Runs of `ask` over a state, beside which stands the file of the provider's key."""

    def __init__(self, program, state):
        self.program, self.state = program, state
        self.provider = state.with_name("provider")
        self.provider.write_text(f"provider {SIGNING_KEY.hex()}\n")

    def asks(self, address, lines, is_words=False):
        """The lines that a run prints, and its status."""
        order = [self.program, "ask", "--provider", self.provider, "--state", self.state, address]
        words, script = (lines[0].split(" "), "") if is_words else ([], "\n".join(lines))
        run = subprocess.run([*order, *words], input=script, capture_output=True, text=True, timeout=SECONDS)
        return run.stdout.splitlines(), run.returncode

    def files(self):
        """The roots of the state, and the other lines."""
        kept = self.state.with_name(f"{self.state.name}.kept")
        return [file.read_text().splitlines() if file.exists() else [] for file in (self.state, kept)]


class ModelOwner:
    """The same by the model, which asks a provider."""

    def __init__(self, roots, kept):
        self.roots, self.kept = roots, kept

    def asks(self, provider, lines, is_words=False):
        provider.begin()
        model = Asked(provider, [bytes.fromhex(root) for root in self.roots], self.kept)
        model.run("\n".join(lines).encode(), lines[0].split(" ") if is_words else ())
        self.roots, self.kept = model.state()
        return model.text, model.status

    def files(self):
        return self.roots, self.kept


def run_lines(owner, address, asked, is_words):
    """What a run is asked and prints, its status, the roots that are new in its state, and the other lines there, which
    come in any order."""
    before, _ = owner.files()
    printed, status = owner.asks(address, asked, is_words)
    roots, kept = owner.files()
    new = roots[len(before) :] if roots[: len(before)] == before else ["others"]
    named = [("ask", asked), ("print", printed), ("status", [status]), ("root", new), ("keep", sorted(set(kept)))]
    return [f"{name} {line}" for name, lines in named for line in lines]


def runs(state, owner, address):
    """For each run that goes on from a state what is otherwise, or None."""
    for number, section in enumerate(sections(f"{state}.runs"), 1):
        asked = [line.removeprefix("ask ") for line in section.lines if line.startswith("ask ")]
        is_words = {"lines": False, "words": True}[section.head]
        lines = run_lines(owner, address, asked, is_words)
        yield difference(f"{state}, run {number}", section.lines, lines)


@contextlib.contextmanager
def copied(folder, state):
    """A folder with copies of a state's files and of the journal of its directory."""
    with tempfile.TemporaryDirectory() as copies:
        for name in state, f"{state}.kept", f"{state}.journal":
            shutil.copy(folder / name, copies)
        yield pathlib.Path(copies)


@contextlib.contextmanager
def listening(program, folder, state):
    """The owner of copies of a state, and the address of its directory."""
    with copied(folder, state) as copies, Server(program, copies / f"{state}.journal") as server:
        yield Owner(program, copies / state), server.address


def states(program):
    """For each run what is otherwise, or None."""
    for state in STATES:
        with listening(program, FOLDER, state) as (owner, address):
            yield from runs(state, owner, address)


def states_by_model():
    for state in STATES:
        provider = Provider()
        provider.hub.directory = reopened((FOLDER / f"{state}.journal").read_bytes())
        roots, kept = ((FOLDER / name).read_text().splitlines() for name in (state, f"{state}.kept"))
        yield from runs(state, ModelOwner(roots, kept), provider)


# Evidence -------------------------------------------------------------------------------------------------------

KINDS = FORK, LINK, SKIP, BROKEN
VERDICTS = [(SIGNING_KEY, (0, b"evidence\n")), (VUF_KEY, (3, b"no evidence\n"))]


def judged(program):
    """Judges a file by the program: status and output."""

    def verdict(key, file):
        run = subprocess.run([program, "judge", "--key", key.hex(), file], capture_output=True, timeout=SECONDS)
        return run.returncode, run.stdout

    return verdict


def audited(program):
    """Audits the lines of roots by the program."""

    def output(key, lines):
        words = [program, "audit", "--key", key.hex()]
        return subprocess.run(words, input=lines, capture_output=True, timeout=SECONDS).stdout

    return output


def judged_by_model(key, file):
    return judge_file(key.hex().encode(), file.read_bytes())


def audited_by_model(key, lines):
    return audit(key.hex().encode(), lines)


def evidence(judge_one, audit_all):
    """For each judgement, and for the audit, what is otherwise, or None."""
    for kind in KINDS:
        for key, wanted in VERDICTS:
            got = judge_one(key, FOLDER / f"{kind}.json")
            yield None if got == wanted else f"{kind}.json: wanted {wanted}, got {got}"
    found = audit_all(SIGNING_KEY, (FOLDER / "roots.txt").read_bytes()).decode().splitlines()
    yield difference("roots.txt", (FOLDER / "audited.txt").read_text().splitlines(), found)


def main(words):
    match words:
        case ["model"]:
            found = [*journals(opened_by_model), *states_by_model(), *evidence(judged_by_model, audited_by_model)]
        case [program, "journals"]:
            found = list(journals(opened_by(os.path.abspath(program))))
        case [program, "states"]:
            found = list(states(os.path.abspath(program)))
        case [program, "evidence"]:
            program = os.path.abspath(program)
            found = list(evidence(judged(program), audited(program)))
        case _:
            print(__doc__, file=sys.stderr)
            return 2
    failures = [each for each in found if each is not None]
    print("\n".join([*failures, f"{len(found) - len(failures)} passed, {len(failures)} failed"]))
    return 1 if failures else 0


if __name__ == "__main__":
    sys.exit(main(sys.argv[1:]))
