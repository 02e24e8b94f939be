"""Questions of `session_vectors` on bindings with a policy."""

from dataclasses import replace

from model.formats import (
    BROKEN,
    FINAL,
    OPEN,
    POLICIES,
    ZERO32,
    Opening,
    SignedRoot,
    Statement,
    bound_record,
    frame,
    request_frame,
    sha256,
    turned_record,
)
from model.session_answers import HUB_TOKEN
from model.sessions import SALT_KEY, SIGNING_KEY, VUF_KEY
from questions.evidence_questions import json_of, json_parts
from questions.opening_questions import ask_open, recorded, start
from questions.providers import BOTH, KEYED, SUMS, folded, lets, message, roots, written
from questions.values import changed_at, run
from questions.writing import subjects

SUBJECTS, subject = subjects()

WORDS = POLICIES.values()
BAD_POLICIES = 0, 3, 255
KEPT_OPEN, KEPT_FINAL = Statement(b"k", OPEN), Statement(b"k", FINAL)
STATEMENTS = Statement(b"k"), KEPT_OPEN, KEPT_FINAL, Statement(b"l", FINAL)


@subject("in a few lines: bindings with a policy")
def of_few_lines(q, rng):
    q.ask("directory new", 1, ZERO32, SIGNING_KEY, VUF_KEY, SALT_KEY)
    q.ask("directory register2", b"a", b"k", OPEN)
    q.ask("directory close", 2)
    q.ask("directory change2", b"a", b"l", FINAL)
    q.ask("directory promise", b"a")
    q.ask("directory close", 5)
    q.ask("directory lookup", b"a", 0)
    q.ask("directory change", b"a", b"m")
    records = bound_record("register", ZERO32, b"a", b"k", OPEN) + turned_record(2)
    records += bound_record("change", ZERO32, b"a", b"l", FINAL)
    q.ask("directory open", SIGNING_KEY, VUF_KEY, SALT_KEY, start() + records)
    q.ask("directory register2", b"b", b"k", FINAL)
    q.ask("directory close", 3)
    q.ask("directory replay register2", run(0x10), b"c", b"k", "open")
    requests = [("register2", OPEN, b"a", b"k"), ("close", HUB_TOKEN, 2), ("change2", FINAL, b"a", b"k"), ("lookup", 2, b"a")]
    q.ask("directory run", 1, ZERO32, *(message(*request) for request in requests))
    stream = b"".join(request_frame(*request) for request in requests)
    q.ask("hub run", 1, ZERO32, "open", 1, "bytes", 1, stream, "end", 1)
    a = KEYED.page(1)
    b = KEYED.page(2, a, {b"a": KEPT_OPEN})
    lets(q, a=a, b=b)
    promise = a.promise(b"a", b"k", policy=OPEN)
    q.ask("client start", SIGNING_KEY, written(a))
    q.ask("client keep", promise)
    q.ask("client update", roots(b))
    q.ask("client look", b"a", 0, b.reply(b"a").write())
    q.ask("client due", b"a", b.reply(b"a").write())
    q.ask("client start", SIGNING_KEY, written(a))
    q.ask("client update", roots(b))
    q.ask("monitor new2", b"a", b"l", "final")
    q.ask("monitor expect2", b"k", "open", promise)
    for page in (a, b):
        q.ask("monitor step", page.reply(b"a").write())
    broken = [a.promise(b"a", b"k", policy=FINAL), written(b), b.reply(b"a").write()]
    q.ask("auditor judge", SIGNING_KEY, BROKEN, *broken)
    q.ask("evidence json", BROKEN, *json_parts(BROKEN, broken))


@subject("a directory: bindings with a policy, and each refusal in its order")
def of_calls(q, rng):
    q.ask("directory new", 1, ZERO32, SIGNING_KEY, VUF_KEY, SALT_KEY)

    def asked(name, key):
        for verb in ("register", "change"):
            for policy in (OPEN, FINAL, *BAD_POLICIES):
                q.ask(f"directory {verb}2", name, key, policy)
            q.ask(f"directory {verb}", name, key)

    q.note("lengths, then the policy, then whether the latest page has the name")
    for name, key in [(b"", b"k"), (b"n" * 256, b""), (b"a", b""), (b"a", b"k" * 2049)]:
        for verb in ("register2", "change2"):
            q.ask(f"directory {verb}", name, key, 3)
    q.ask("directory change2", b"a", b"k", 3)
    q.ask("directory change2", b"a", b"k", OPEN)
    q.note("an open binding and a final one, and one without a policy: while they wait, on the page, and once changed")
    names = {b"open": OPEN, b"final": FINAL}
    for name, policy in names.items():
        q.ask("directory register2", name, b"k1", policy)
        q.ask("directory promise", name)
    q.ask("directory register", b"none", b"k1")
    for epoch in (2, 3):
        for name in [*names, b"none"]:
            asked(name, b"k%d" % epoch)
            q.ask("directory promise", name)
        q.ask("directory close", epoch)
        for name in [*names, b"none", b"other"]:
            for page in range(epoch + 1):
                q.ask("directory lookup", name, page)
    for name in [*names, b"none"]:
        q.ask("directory change", name, b"k9")
        q.ask("directory change2", name, b"k9", FINAL)
    q.note("an open one that becomes final; until the page that has it, another change is refused as the second one")
    q.ask("directory register2", b"later", b"k", OPEN)
    for epoch, policy in [(4, OPEN), (5, FINAL), (6, FINAL)]:
        q.ask("directory close", epoch)
        q.ask("directory change2", b"later", b"k", policy)
        q.ask("directory change", b"later", b"k")
    q.note("under another nonce it stays final")
    q.ask("directory rotate", 7, run(0x20))
    q.ask("directory lookup", b"final", 0)
    q.ask("directory change", b"final", b"k")
    q.ask("directory history", 0, 64)


@subject("a directory by the sum of bytes: policies of two names of one index")
def of_indices(q, rng):
    q.ask("directory-sum new", 1, ZERO32, SIGNING_KEY, SALT_KEY)
    q.ask("directory-sum register2", b"ab", b"k", FINAL)
    for policy in (OPEN, 3):
        q.ask("directory-sum register2", b"ba", b"k", policy)
    q.ask("directory-sum close", 2)
    for name in (b"ab", b"ba"):
        q.ask("directory-sum register2", name, b"k", OPEN)
        q.ask("directory-sum change2", name, b"k", OPEN)
        q.ask("directory-sum change", name, b"k")
        q.ask("directory-sum lookup", name, 0)


@subject("a directory: records with a policy carried out once more, and journals that have some")
def of_journals(q, rng):
    q.ask("directory new", 1, ZERO32, SIGNING_KEY, VUF_KEY, SALT_KEY)
    for verb, name, word in [
        ("register2", b"a", "open"), ("register2", b"b", "final"), ("register2", b"a", "final"), ("change2", b"b", "open"),
    ]:
        q.ask(f"directory replay {verb}", run(0x10), name, b"k", word)
        q.ask("directory promise", name)
    q.ask("directory replay turn", 2)
    for verb, name, *word in [("change", b"b"), ("change2", b"b", "final"), ("change2", b"a", "final"), ("change", b"a")]:
        q.ask(f"directory replay {verb}", run(0x20), name, b"l", *word)
    for name in (b"a", b"b"):
        q.ask("directory lookup", name, 0)
    directory = recorded(nonce=run(0xA0))
    for verb, *words in [
        ("register2", b"a", b"k", OPEN), ("register", b"b", b"k"), ("close", 2), ("change2", b"a", b"l", FINAL),
        ("change", b"b", b"l"), ("rotate", 3, ZERO32), ("change2", b"b", b"m", OPEN),
    ]:
        getattr(directory, verb)(*words)
    journal = q.let("journal", directory.journal)
    q.note("a journal cut to each length")
    for size in range(106, len(journal) + 1):
        ask_open(q, journal[:size])
    for name in (b"a", b"b"):
        q.ask("directory promise", name)
        for epoch in range(4):
            q.ask("directory lookup", name, epoch)
    q.ask("directory close", 4)
    q.ask("directory change", b"a", b"m")
    q.ask("directory lookup", b"b", 0)
    q.note("followed by what the directory refuses, and by parts of records")
    final = [bound_record("change", run(1), b"a", b"m"), bound_record("change", run(1), b"a", b"m", OPEN)]
    others = [bound_record("register", run(1), b"a", b"m", OPEN), bound_record("change", run(1), b"c", b"m", OPEN)]
    new = bound_record("register", run(1), b"c", b"m", FINAL)
    for more in [*final, *others, new, new[:-1], b"O", b"O\3", b"O\4", b"O\5", b"O\3\1", b"O\3\2", b"O\4\0", b"O\4\3"]:
        ask_open(q, journal + more)
    q.note("each byte up to the name changed, in a record before others and in the last one")
    for place in range(41):
        for mask in (1, 2):
            ask_open(q, start() + changed_at(new, place, new[place] ^ mask) + turned_record(2))
            ask_open(q, start() + changed_at(new, place, new[place] ^ mask)[: place + 1])


@subject("sessions: requests with a policy")
def of_sessions(q, rng):
    requests = [
        ("register2", 0, b"a", b"k"), ("register2", FINAL, b"a", b"k"), ("register2", OPEN, b"b", b"k"), ("change2", 9, b"", b""),
        ("close", HUB_TOKEN, 2), ("change", b"a", b"l"), ("change2", OPEN, b"a", b"l"), ("change2", FINAL, b"b", b"l"),
        ("promise", b"b"), ("close", HUB_TOKEN, 3), ("lookup", 0, b"a"), ("lookup", 2, b"b"), ("lookup", 0, b"b"),
        ("change", b"b", b"m"), ("history", 0, 64),
    ]
    stream = b"".join(request_frame(*request) for request in requests)
    q.ask("directory run", 1, ZERO32, *(message(*request) for request in requests))
    q.ask("hub run", 1, ZERO32, "open", 1, "bytes", 1, stream, "end", 1)
    q.ask("hub seen", 1, ZERO32, "open", 1, "bytes", 1, stream, "end", 1)
    q.ask("hub seen-sum", 1, ZERO32, "open", 1, "bytes", 1, stream, "end", 1)
    q.ask("serve run", 1, "none", stream)
    q.note("bodies of other forms, and kinds beside them")
    bodies = [b"", b"\1", b"\1\0\1a\0", b"\1\0\1a\0\1k\0", b"\3\0\1a\0\1k"]
    frames = b"".join(frame(kind, body) for kind in (9, 10, 11, 12) for body in bodies)
    q.ask("hub run", 1, ZERO32, "open", 1, "bytes", 1, frames, "end", 1)
    q.note("commands of all kinds, of which many are refused")
    for count in (20, 200):
        q.ask("hub run", 1, ZERO32, "open", 1, "bytes", 1, b"".join(commands(rng, count)), "end", 1)


def commands(rng, count):
    """Frames of commands about few names, of which many are refused."""
    epoch = 1
    for _ in range(count):
        name, key, policy = rng.choice([b"a", b"b", b"c"]), b"k%d" % rng.randrange(3), rng.choice([OPEN, OPEN, OPEN, FINAL, 3])
        request = rng.choice([
            ("register", name, key), ("change", name, key), ("register2", policy, name, key), ("change2", policy, name, key),
            ("promise", name), ("lookup", rng.choice([0, epoch]), name), ("close", HUB_TOKEN, epoch + 1),
        ])
        epoch += request[0] == "close"
        yield request_frame(*request)


@subject("clients: policies that are looked up, promised, kept and broken")
def of_clients(q, rng):
    for provider in BOTH:
        client = provider.client
        a = provider.page(3)
        pages = {found: provider.page(7, a, {b"a": found}) for found in STATEMENTS}
        lets(q, a=a)
        q.note("each promise beside each page: kept only where the key and the policy are those that were promised")
        for promised in STATEMENTS:
            for found, page in pages.items():
                q.ask(f"{client} start", SIGNING_KEY, written(a))
                q.ask(f"{client} keep", a.promise(b"a", promised.key, policy=promised.policy))
                q.ask(f"{client} update", roots(page))
                q.ask(f"{client} due", b"a", page.reply(b"a").write())
                q.ask(f"{client} look", b"a", 0, page.reply(b"a").write())
        q.ask(f"{client} due-epoch", b"a")
        q.note("a promise whose policy is none, and an altered one")
        promise = a.promise(b"a", b"k", policy=FINAL)
        for policy in (*BAD_POLICIES, OPEN):
            q.ask(f"{client} keep", changed_at(promise, 74, policy))
        q.ask(f"{client} keep", promise)
        q.note("a reply with another policy, and in the other version")
        page = pages[KEPT_OPEN]
        q.ask(f"{client} start", SIGNING_KEY, written(a))
        q.ask(f"{client} update", roots(page))
        for policy in (None, FINAL, OPEN):
            q.ask(f"{client} look", b"a", 7, replace(page.reply(b"a"), end=Opening(ZERO32, b"k", policy)).write())
        q.ask(f"{client} look-next", b"a", 3, page.reply(b"a").write())


@subject("clients by the sum of bytes that are reconciled: looks with a policy")
def of_reconciled_looks(q, rng):
    q.note("one key of one name: in both versions, and under both policies, behind salts that make the sums equal")
    page = SUMS.page(3, None, {b"a": KEPT_FINAL})
    lets(q, page=page)
    salts = {None: bytes(31) + b"\3", OPEN: bytes(31) + b"\1", FINAL: ZERO32}
    looks = {policy: replace(page.reply(b"a"), end=Opening(salt, b"k", policy)).write() for policy, salt in salts.items()}
    for one in looks.values():
        for other in looks.values():
            q.ask("client-sum start", SIGNING_KEY, written(page))
            q.ask("client-sum look", b"a", 3, other)
            q.ask("client-sum put-aside")
            q.ask("client-sum start", SIGNING_KEY, written(page))
            q.ask("client-sum look", b"a", 3, one)
            q.ask("client-sum reconcile")


@subject("monitors: keys with a policy")
def of_monitors(q, rng):
    a = KEYED.page(1)
    pages = {found: KEYED.page(2, a, {b"a": found}) for found in STATEMENTS}
    replies = {found: page.reply(b"a").write() for found, page in pages.items()}
    lets(q, a=a)
    q.note("each expectation beside each page")
    for found, page in pages.items():
        for expected in ["none", *STATEMENTS]:
            q.ask("client start", SIGNING_KEY, written(page))
            ask_new(q, expected)
            q.ask("monitor expected", 2)
            q.ask("monitor step", replies[found])
    q.note("names, keys and policies that are none")
    q.ask("client start", SIGNING_KEY, written(a))
    for name, key, word in [(b"", b"k", "open"), (b"a", b"", "open"), (b"a", b"k" * 2049, "final"), (b"a", b"k", "none")]:
        q.ask("monitor new2", name, key, word)
    q.note("each promise beside each change that is expected: only the key and the policy that were promised are")
    for promised in STATEMENTS:
        promise = q.let("promise", a.promise(b"a", promised.key, policy=promised.policy))
        for asked in STATEMENTS:
            q.ask("client start", SIGNING_KEY, written(a))
            q.ask("monitor new", b"a", "none")
            ask_expect(q, asked, promise)
            q.ask("monitor expected", 2)
            q.ask("monitor update", roots(pages[promised]))
            for reply in (a.reply(b"a").write(), replies[promised]):
                q.ask("monitor step", reply)
    q.note("one change after another, in both versions")
    b = pages[KEPT_OPEN]
    c = KEYED.page(4, b, {b"a": Statement(b"l")})
    d = KEYED.page(5, c, {b"a": Statement(b"l", FINAL)})
    q.ask("client start", SIGNING_KEY, written(b))
    q.ask("client update", roots(c, d))
    ask_new(q, KEPT_OPEN)
    ask_expect(q, Statement(b"l"), b.promise(b"a", b"l"))
    ask_expect(q, Statement(b"l", FINAL), c.promise(b"a", b"l", policy=FINAL))
    ask_expect(q, Statement(b"l", FINAL), c.promise(b"a", b"l", policy=FINAL))
    for epoch in range(1, 7):
        q.ask("monitor expected", epoch)
    for page in (b, c, d):
        q.ask("monitor step", page.reply(b"a").write())


def ask_new(q, expected):
    if expected == "none" or expected.policy is None:
        return q.ask("monitor new", b"a", expected if expected == "none" else expected.key)
    return q.ask("monitor new2", b"a", expected.key, POLICIES[expected.policy])


def ask_expect(q, expected, promise):
    if expected.policy is None:
        return q.ask("monitor expect", expected.key, promise)
    return q.ask("monitor expect2", expected.key, POLICIES[expected.policy], promise)


@subject("evidence: promises with a policy that were not kept")
def of_evidence(q, rng):
    a = KEYED.page(7)
    key = q.let("key", SIGNING_KEY.hex().encode())
    lets(q, a=a)
    for promised in STATEMENTS:
        promise = q.let("promise", a.promise(b"a", promised.key, policy=promised.policy))
        for found in [*STATEMENTS, None]:
            page = KEYED.page(8, a, {} if found is None else {b"a": found})
            parts = [promise, written(page), page.reply(b"a").write()]
            q.ask("auditor judge", SIGNING_KEY, BROKEN, *parts)
            q.ask("evidence judge", key, json_of(BROKEN, *json_parts(BROKEN, parts)))
    page = KEYED.page(8, a, {b"a": KEPT_OPEN})
    promise, reply = a.promise(b"a", b"k", policy=FINAL), page.reply(b"a").write()
    q.note("read, written, and with bytes that are no policy")
    for changed in (promise, changed_at(promise, 74, 3)):
        for shown in (reply, changed_at(reply, reply.index(b"\4\1", 180) + 1, 3)):
            q.ask("evidence read", json_of(BROKEN, changed, written(page) + shown))
            q.ask("evidence json", BROKEN, changed, written(page) + shown)
            q.ask("auditor judge", SIGNING_KEY, BROKEN, changed, written(page), shown)
    q.note("of the greatest length")
    name, stated = b"a" * 255, Statement(b"k" * 2048, FINAL)
    page, reply = folded(KEYED, name, Opening(run(1), stated.key, OPEN), [ZERO32] * 256)
    body = replace(page.body, epoch=8, previous_epoch=7, previous_hash=sha256(a.body.write()))
    root, reply = SignedRoot.signed(body, SIGNING_KEY).write(), replace(reply, body=body).write()
    q.ask("auditor judge", SIGNING_KEY, BROKEN, a.promise(name, stated.key, policy=FINAL), root, reply)
    q.ask("auditor judge", SIGNING_KEY, BROKEN, a.promise(name, stated.key, policy=OPEN), root, reply)
