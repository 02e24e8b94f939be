"""The answers of the program `faults` by the reference model.

A question is VERB ARGUMENTS DEVICES PIECE INPUT: what is run, how its reader or its writer fails, the most bytes of
a read and of a write, and the bytes that the reader gives. VERB and ARGUMENTS are one of

    write TEXT, tell LINE             writes a text, or the fault of a line
    read MOST, lines                  writes what it reads at once, or the first 130 bytes of each line
    root HASH NONCE, prove INDEX HASH NONCE, audit KEY, judge KEY FILE
    play                              what a script prints, before a read that may wait
    serve, sessions                   one session, or one and then another one that asks for the head

and DEVICES one of `never`, `read-fails`, `read-interrupted`, `read-interrupted-twice`, `write-fails`,
`write-takes-nothing`, `write-interrupted` and `write-interrupted-twice`. PIECE is at most 8,192. A session asks for
4,096 bytes at once, and its reader gives no more; the other verbs read through a buffer of PIECE bytes. The answer
is the output of a run without a failure, and then a row for runs that ended alike while the first call failed, the
second, and so on to a run that ended before that call: COUNT FAULT WRITTEN, and the epoch that the next session was
told.

`directory MESSAGE..` and `hub PIECE FRAMES` ask a directory whose keeper fails at its first call, its second, and so
on. The answer is what is replied without a failure, and in each of these runs.

`piece FRAMES` tells how many bytes of replies a piece brings to a session; where memory ran out once it was taken,
then `14`, and how many an empty piece brings behind it.

`crowd ..` and `reports ..` answer many connections at once: see crowd_answers.py.

`journal PIECE COUNT MESSAGE..` runs a directory over the first COUNT messages, with a journal whose writer takes at
most PIECE bytes a call and fails at its first call, its second, and so on. What is written then is opened. The answer
is the journal without a failure, and then a row for runs that left the same: COUNT, and `nothing` or `after N`, where
the opened directory answers the other messages as the stopped one does, and as one after the first N messages. It
would be `other` if there were no such N.
"""

import itertools
from typing import NamedTuple

from model import crowd_answers, sessions
from model.answers import BadQuestion, Lines, told, told_text
from model.formats import (
    REFUSED,
    ROOTS,
    ZERO32,
    KeyedVuf,
    ProgramFault,
    byte_sum,
    count_records,
    lines_of,
    prove_text,
    read_request,
    root_text,
    salts,
    sha256,
    u8,
)

# Devices -------------------------------------------------------------------------------------------------


class How(NamedTuple):
    """How many calls in a row fail, of the reader and of the writer, and whether they are only interrupted."""

    reads: int
    writes: int
    interrupted: bool


DEVICES = {
    "never": How(0, 0, False),
    "read-fails": How(1, 0, False),
    "read-interrupted": How(1, 0, True),
    "read-interrupted-twice": How(2, 0, True),
    "write-fails": How(0, 1, False),
    "write-takes-nothing": How(0, 1, False),
    "write-interrupted": How(0, 1, True),
    "write-interrupted-twice": How(0, 2, True),
}
READS, WRITES = list(DEVICES)[1:4], list(DEVICES)[4:]


class Failed(Exception):
    """A call failed."""


class Calls:
    """The calls of a device, of which so many fail, from the one of this number on."""

    def __init__(self, first, count, interrupted):
        self.made, self.first, self.count, self.interrupted = 0, first, count, interrupted

    def call(self):
        """A call, which is made again where it was interrupted."""
        while self.first <= self.made < self.first + self.count:
            self.made += 1
            if not self.interrupted:
                raise Failed
        self.made += 1

    def have_failed(self):
        return self.count > 0 and self.made > self.first


# Runs ----------------------------------------------------------------------------------------------------


class Read(NamedTuple):
    """A read, and the epoch of the head once its bytes are answered."""

    head: int = None


class Program(NamedTuple):
    """What is done in order: reads, and texts that are written. The fault is that of a run with good devices."""

    steps: list
    head: int = None
    fault: str = None


def cut_up(data, most):
    return [data[at : at + most] for at in range(0, len(data), most)]


def ended(program, piece, how, first):
    """How a run ends whose devices fail from this call on: the fault, how many bytes are written, and the
    epoch of the head; and whether a call failed."""
    reader, writer = Calls(first, how.reads, how.interrupted), Calls(first, how.writes, how.interrupted)
    written, head, fault = 0, program.head, program.fault
    for step in program.steps:
        device, fault_of_step = (reader, "cannot read") if isinstance(step, Read) else (writer, "cannot write")
        try:
            if device is reader:
                reader.call()
                head = step.head
            else:
                for part in cut_up(step, piece):
                    writer.call()
                    written += len(part)
        except Failed:
            fault = fault_of_step
            break
    return (fault or "ok", written, head), reader.have_failed() or writer.have_failed()


def rows(program, piece, how):
    """The rows of a sweep."""
    counted, first, has_failed = [], 0, True
    while has_failed:
        end, has_failed = ended(program, piece, how, first)
        first += 1
        if counted and counted[-1][1] == end:
            counted[-1][0] += 1
        else:
            counted.append([1, end])
    for count, (fault, written, head) in counted:
        yield f"{count} {fault} {written}" + (f" next {head}" if head is not None else "") + ";"


def by_lines(data, piece, texts, fault=None):
    """Writes the texts of each line once it is read whole. If the last line has no LF, a read that finds the end
    tells that it is whole, and the next one that no line follows. A line without texts ends the run with the fault."""
    steps, done = [], 0
    for at in range(0, len(data), piece):
        whole = data[: at + piece].count(b"\n")
        steps += [Read(), *sum(texts[done:whole], [])]
        if whole > len(texts):
            return Program(steps, fault=fault)
        done = whole
    return Program([*steps, Read(), *sum(([*text, Read()] for text in texts[done:]), [])], fault=fault)


def by_ready_lines(data, piece, texts, fault=None):
    """The same, but what lines print is written together if one read made them whole, before the next read. A line
    whose beginning came with a read before is written by itself."""
    steps, done = [], 0
    for at in range(0, len(data), piece):
        whole = data[: at + piece].count(b"\n")
        ready = done + 1 if data[:at] and not data[:at].endswith(b"\n") else done
        groups = texts[done : min(ready, whole)], texts[ready:whole]
        steps += [Read(), *(b"".join(sum(group, [])) for group in groups)]
        if whole > len(texts):
            return Program(steps, fault=fault)
        done = whole
    return Program([*steps, Read(), *sum(([*text, Read()] for text in texts[done:]), [])], fault=fault)


def by_all_lines(data, piece, text):
    """Reads all lines, and then writes a text."""
    return Program([*by_lines(data, piece, [[] for _ in lines_of(data)]).steps, text])


def played_by_lines(script, piece):
    """Plays a script: what lines print is written before a read that may wait."""
    run, texts = sessions.Played(), []
    for number, line in enumerate(lines_of(script), 1):
        try:
            texts.append(["".join(f"{told}\n" for told in run.line(line)).encode()])
        except sessions.NotACommand:
            return by_ready_lines(script, piece, texts, f"line {number}: not a command")
    return by_ready_lines(script, piece, texts)


# The provider --------------------------------------------------------------------------------------------

SIGNING_KEY, VUF_KEY, SALT_KEY, TOKEN = (bytes([k]) * 32 for k in (1, 2, 0, 4))


class LossyDirectory(sessions.Directory):
    """A directory whose record of this number is not kept. Nothing is changed then, and no salt is used."""

    def __init__(self, lost):
        super().__init__(1, ZERO32, sha256, KeyedVuf(VUF_KEY), SIGNING_KEY, salts(SALT_KEY))
        self.records, self.lost = 0, lost

    def keep(self):
        self.records += 1
        if self.records - 1 == self.lost:
            raise sessions.DirectoryRefusal(19)

    def let_wait(self, name, *binding):
        self.keep()
        return super().let_wait(name, *binding)

    def turn(self, epoch, nonce):
        if epoch > self.head().epoch:
            self.keep()
        return super().turn(epoch, nonce)


def new_recorded():
    return sessions.Recorded(1, ZERO32, sha256, KeyedVuf(VUF_KEY), SIGNING_KEY, salts(SALT_KEY))


def replied(directory, requests):
    return b"".join(reply_bytes(*reply) for reply in directory.run(requests))


def new_hub(lost=None):
    hub = sessions.Hub(LossyDirectory(lost), TOKEN)
    hub.open(1)
    return hub


def reply_bytes(kind, value):
    """A reply, or the number of its refusal."""
    if kind == REFUSED:
        return u8(value)
    return b"".join(root.write() for root in value) if kind == ROOTS else value.write()


def stops(journal, ends, piece):
    """How many bytes of a journal are written where a call fails: each call in turn, and at the end none. Each record
    is written by calls of its own."""
    starts = [0, *dict.fromkeys(ends)]
    for start, end in itertools.pairwise(starts):
        yield from range(start, end, piece)
    yield len(journal)


def left_by(data, asked, beginnings):
    """What the bytes that were written open to."""
    found = sessions.open_journal(data, sha256, KeyedVuf(VUF_KEY), SIGNING_KEY, salts(SALT_KEY, count_records(data)))
    if found is None:
        return "nothing"
    return f"after {beginnings.index(replied(found[0], asked))}"


# Answers -------------------------------------------------------------------------------------------------

MOST_PIECE = 8192
SESSION_READ = 4096  # the most bytes that a session asks for at once


class Sweeps(Lines):
    """Answers questions. The method of a verb takes the words, and gives the program of devices, piece and input."""

    def verb(self, subject, words):
        if subject in ("crowd", "directory", "hub", "journal", "piece", "reports"):
            return getattr(self, subject)
        of = getattr(self, f"of_{subject}", None)
        if of is None:
            raise BadQuestion
        return lambda words: self.sweep(of(words), words, told if subject in ("serve", "sessions") else told_text)

    def sweep(self, of, words, told):
        how, piece, data = DEVICES.get(words.word()), words.number(MOST_PIECE), words.bytes()
        if how is None:
            raise BadQuestion
        try:
            program = of(data, piece)
        except ProgramFault as fault:
            program = Program([], fault=fault.text)
        whole = b"".join(step for step in program.steps if not isinstance(step, Read))
        return [told(whole), *rows(program, piece, how)]

    def of_write(self, words):
        text = words.bytes()
        return lambda data, piece: Program([text])

    def of_tell(self, words):
        line = words.number()
        return lambda data, piece: Program([b"line %d: index repeated\n" % line])

    def of_read(self, words):
        most = words.number(4096)

        def program(data, piece):
            steps = [[Read(), *cut_up(part, most)] for part in cut_up(data, piece)]
            return Program([*sum(steps, []), Read()])

        return program

    def of_lines(self, words):
        return lambda data, piece: by_lines(data, piece, [[line[:130], b"\n"] for line in lines_of(data)])

    def of_root(self, words):
        order = self.root_order(words)
        return lambda data, piece: by_all_lines(data, piece, root_text(*order, data).encode())

    def of_prove(self, words):
        index, order = words.text(), self.root_order(words)
        return lambda data, piece: by_all_lines(data, piece, prove_text(*order, index, data).encode())

    def root_order(self, words):
        return {"sum": byte_sum, "sha256": sha256}[words.word()], words.optional(words.text)

    def of_audit(self, words):
        key = words.text()

        def program(data, piece):
            answers = sessions.audit(key, data).splitlines(keepends=True)
            return by_lines(data, piece, [[answer] for answer in answers])

        return program

    def of_judge(self, words):
        key, file = words.text(), words.bytes()
        return lambda data, piece: Program([sessions.judge_file(key, file)[1]])

    def of_play(self, words):
        return played_by_lines

    def of_serve(self, words):
        return lambda data, piece: self.served(data, piece, lambda hub: None)

    def of_sessions(self, words):
        return lambda data, piece: self.served(data, piece, lambda hub: hub.directory.head().epoch)

    def served(self, data, piece, head):
        hub, steps = new_hub(), []
        start = head(hub)
        for part in cut_up(data, min(piece, SESSION_READ)):
            output = hub.bytes(1, part)
            steps += [Read(head(hub)), output]
        return Program([*steps, Read(head(hub))], head=start)

    def crowd(self, words):
        return crowd_answers.answer(words)

    def reports(self, words):
        return crowd_answers.answer(words, has_reports=True)

    def directory(self, words):
        requests = [read_request(message[0], message[1:]) for message in words.all_bytes()]
        return self.losses(lambda lost: b"".join(reply_bytes(*r) for r in LossyDirectory(lost).run(requests)))

    def hub(self, words):
        piece, frames = words.number(4096), words.bytes()

        def output(lost):
            hub = new_hub(lost)
            return b"".join(hub.bytes(1, part) for part in cut_up(frames, piece))

        return self.losses(output)

    def piece(self, words):
        return [str(len(new_hub(None).bytes(1, words.bytes())))]

    def journal(self, words):
        piece, count = words.number(4096), words.number(1000)
        requests = [read_request(message[0], message[1:]) for message in words.all_bytes()]
        run, asked = requests[:count], requests[count:]
        beginnings, ends = [], []
        for size in range(len(run) + 1):
            directory = new_recorded()
            directory.run(run[:size])
            ends.append(len(directory.journal))
            beginnings.append(replied(directory, asked))
        journal = directory.journal[: ends[-1]]
        lefts = [left_by(journal[:size], asked, beginnings) for size in stops(journal, ends, piece)]
        rows = [f"{len(list(same))} {left};" for left, same in itertools.groupby(lefts)]
        return [told(journal), *rows]

    def losses(self, output):
        """What is replied without a lost record, and with each one lost in turn."""
        whole, lost = output(None), 0
        answers = [told(whole)]
        while (one := output(lost)) != whole:
            answers.append(told(one))
            lost += 1
        return answers
