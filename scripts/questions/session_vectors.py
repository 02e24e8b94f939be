"""The questions of the program `session_vectors`: a subject at a time, each group with a note before it.

They are the same in each run. The subjects `in a few lines` are short, so that drive/fail_alloc.sh can make each of
their allocations fail. Values that questions hand in, such as roots and replies, are made by the model: honest
ones by its directory, and others as somebody who cheats would make them. What a question means stands at its verb
in model/session_answers.py. The scripts are those of session_scripts.py.
"""

import random

from model.formats import ZERO32, bound_record, request_frame, start_record, turned_record
from model.session_answers import HUB_TOKEN, REFUSALS, SessionAnswers
from model.sessions import SALT_KEY, SIGNING_KEY, VUF_KEY
from questions import (
    client_questions,
    directory_questions,
    evidence_questions,
    finality_questions,
    opening_questions,
    piece_questions,
    policy_session_questions,
    session_scripts,
)
from questions.providers import KEYED, cheats, lets, message, roots, written
from questions.writing import Questions, subjects

SUBJECTS, subject = subjects()
for part in (directory_questions, client_questions, evidence_questions, opening_questions):
    SUBJECTS += part.SUBJECTS


@subject("in a few lines: directories, hubs, clients, monitors, auditors and evidence")
def of_few_lines(q, rng):
    q.ask("directory new", 1, ZERO32, SIGNING_KEY, VUF_KEY, SALT_KEY)
    q.ask("directory register", b"a", b"k")
    q.ask("directory close", 2)
    q.ask("directory change", b"a", b"l")
    q.ask("directory promise", b"a")
    q.ask("directory close", 5)
    q.ask("directory lookup", b"a", 0)
    q.ask("directory history", 0, 64)
    records = bound_record("register", ZERO32, b"a", b"k") + turned_record(2)
    records += bound_record("change", ZERO32, b"a", b"l")
    q.ask("directory open", SIGNING_KEY, VUF_KEY, SALT_KEY, start_record(1, ZERO32, SIGNING_KEY, VUF_KEY) + records)
    q.ask("directory register", b"b", b"k")
    q.ask("directory close", 3)
    q.ask("directory rotate", 4, HUB_TOKEN)
    q.ask("directory replay rotate", 6, ZERO32)
    requests = [("register", b"a", b"k"), ("close", HUB_TOKEN, 2), ("lookup", 2, b"a")]
    q.ask("directory run", 1, ZERO32, *(message(*request) for request in requests))
    stream = b"".join(request_frame(*request) for request in requests)
    q.ask("hub new", 1, ZERO32)
    q.ask("hub open", 1)
    for piece in [stream[:20], stream[20:]]:
        q.ask("hub bytes", 1, piece)
    q.ask("hub end", 1)
    q.ask("hub run", 1, ZERO32, "open", 1, "bytes", 1, stream, "end", 1)
    q.ask("serve run", 1, "none", stream)
    a = KEYED.page(1)
    b = KEYED.page(2, a, {b"a": b"k"})
    c = KEYED.page(5, b, {b"a": b"l"})
    lets(q, a=a, b=b, c=c)
    ra, rb, rc = (page.reply(b"a").write() for page in (a, b, c))
    promise = a.promise(b"a", b"k")
    q.ask("client start", SIGNING_KEY, written(a))
    q.ask("client keep", promise)
    q.ask("client update", roots(b, c))
    q.ask("client look", b"a", 0, rc)
    q.ask("client due", b"a", rb)
    q.ask("client put-aside")
    q.ask("client start", SIGNING_KEY, written(a))
    q.ask("client update", roots(b, c))
    q.ask("client reconcile")
    q.ask("monitor new", b"a", "none")
    q.ask("monitor expect", b"k", promise)
    for reply in [ra, rb, rc]:
        q.ask("monitor step", reply)
    q.ask("auditor new")
    for page in [a, b, c, KEYED.page(2)]:
        q.ask("auditor observe", SIGNING_KEY, written(page))
    key = q.let("key", SIGNING_KEY.hex().encode())
    kind, parts = next(cheats())
    q.ask("auditor judge", SIGNING_KEY, kind, *parts)
    q.ask("evidence json", kind, *parts)
    text = evidence_questions.json_of(kind, *parts)
    q.ask("evidence read", text)
    q.ask("evidence judge", key, text)
    q.ask("evidence audit", key, b"".join(written(page).hex().encode() + b"\n" for page in (a, b, KEYED.page(2))))


@subject("refusals that no question leads to")
def of_refusals(q, rng):
    for name in REFUSALS:
        q.ask("text refusal", name)


SHORT_SCRIPTS = ("alarm", "half_messages", "two_epochs")


@subject("in a few lines: scripts")
def of_short_scripts(q, rng):
    for name in SHORT_SCRIPTS:
        q.ask("script", name)


@subject("scripts")
def of_scripts(q, rng):
    for name in sorted(set(session_scripts.SCRIPTS) - set(SHORT_SCRIPTS)):
        q.ask("script", name)
    q.ask("script", "no_such_script")


def questions():
    q = Questions()
    later = piece_questions.SUBJECTS + policy_session_questions.SUBJECTS + finality_questions.SUBJECTS
    for place, (text, of) in enumerate(SUBJECTS + later):
        q.subject(text)
        of(q, random.Random(place + 1))
    return q.lines[1:]


FOLDER = "crates/session_vectors"


def files():
    """The stored files, by their paths in the repository."""
    scripts = session_scripts.texts()
    lines = questions()
    told = SessionAnswers(scripts).answers(lines)
    stored = {f"{session_scripts.FOLDER}/{name}.script": text for name, text in scripts.items()}
    stored[f"{FOLDER}/stdin"] = "".join(f"{line}\n" for line in lines)
    stored[f"{FOLDER}/stdout"] = "".join(f"{line}\n" for line in told)
    return stored
