"""The questions of the program `vectors`: a subject at a time, each with the reason in a note before it.

They are the same in each run. Cases of few bytes are written out; where many are wanted, they come from a random
number generator that is seeded by the subject's words. The subject `in a few lines` is short, so that
drive/fail_alloc.sh can make each of its allocations fail. What a question means stands at its verb in
model/answers.py.
"""

import random

from model.answers import Answers
from model.formats import ROOTS, ZERO32, request_frame, write_list
from questions import (
    altered_questions,
    byte_questions,
    frame_questions,
    journal_questions,
    policy_questions,
    reply_questions,
    root_questions,
    tree_questions,
)
from questions.values import KEY, index, joined, run
from questions.writing import Questions, subjects

SUBJECTS, subject = subjects()


@subject("in a few lines: trees, chains, frames and items")
def of_few_lines(q, rng):
    items = [(index(first), run(first)) for first in (0x40, 0x41, 0xC0)]
    q.ask("trees new", ZERO32)
    for item in items:
        q.ask("trees with", *item)
    q.ask("trees copy")
    q.ask("trees from", ZERO32, *joined(items[:2]))
    q.ask("trees more", *joined(items[1:]))
    q.ask("trees renew", run(0xA0))
    q.ask("trees count")
    third, seventh, ninth, twelfth = roots = root_questions.chain_of(3, 7, 9, 12)
    q.ask("chains start", KEY, third.write())
    q.ask("chains extend", seventh.write())
    q.ask("chains take", ninth.write())
    q.ask("chains take-list", write_list(roots))
    q.ask("chains head")
    q.ask("chains compare", KEY, write_list(roots[:3]), write_list(roots[1:]))
    q.ask("frames new")
    stream = request_frame("lookup", 2, b"a") + request_frame("head")
    for piece in [stream[:9], stream[9:], b""]:
        q.ask("frames feed", piece)
    q.ask("frames answer", ROOTS, write_list(roots[:2]))
    lines = b"".join(b"%s %s\n" % (i.hex().encode(), commitment.hex().encode()) for i, commitment in items)
    q.ask("items root", "sha256", "none", lines)
    q.ask("items prove", "sha256", "none", index(0x42).hex().encode(), lines)


@subject("questions that are none")
def of_bad_questions(q, rng):
    for line in [
        "nothing here", "bits", "bits nothing", "bits bit 00 3", "bits bit 00*32 256", "bits bit 00*32 x",
        "bits bit 00*32",
        "bits name 0", "bits name 0g", "bits name $none", "let two 0001", "bits name $two/0/3",
        "bits name $two/2/1",
        "bits name $two/1/2", "let a-b 00", "roots write-list 00", "chains room",
        "chains room-bytes 01*32 00 0000", "trees joined 00*32 256 00*32 00*32",
        "stand-ins value 00*32 -", "frames request 256 -", "text fault nothing",
    ]:
        q.lines.append(line)


PARTS = (
    byte_questions, root_questions, tree_questions, reply_questions, frame_questions, journal_questions,
    altered_questions, policy_questions,
)


def questions():
    """The lines of the stored questions."""
    q = Questions()
    for text, of in [*(each for part in PARTS for each in part.SUBJECTS), *SUBJECTS]:
        q.subject(text)
        of(q, random.Random(text))
    return q.lines[1:]


def files():
    """The stored files, by their paths in the repository."""
    lines = questions()
    told = Answers().answers(lines)
    return {
        "crates/vectors/stdin": "".join(f"{line}\n" for line in lines),
        "crates/vectors/stdout": "".join(f"{line}\n" for line in told),
    }
