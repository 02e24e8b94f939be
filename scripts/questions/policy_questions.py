"""Questions on bindings with a policy: texts, replies, promises, requests and records."""

from dataclasses import replace

from model.formats import (
    FINAL,
    OPEN,
    POLICIES,
    PROMISE,
    PROOF,
    REQUEST_KINDS,
    ZERO32,
    KeyedVuf,
    Opening,
    PlainVuf,
    Reply,
    SignedPromise,
    accept,
    bound_record,
    byte_sum,
    commitment_text,
    request_body,
    request_frame,
    response_body,
    sha256,
    turned_record,
)
from questions.altered_questions import none_is_taken
from questions.journal_questions import SALT, journal_of
from questions.reply_questions import Tables
from questions.values import (
    BODY,
    KEY,
    LONG_KEY,
    LONG_NAME,
    OTHER_KEY,
    PROMISE_OF_ALICE,
    beginnings,
    changed_at,
    flipped,
    number32,
    run,
    spoiled,
)
from questions.writing import subjects

SUBJECTS, subject = subjects()

BAD_POLICIES = 0, 3, 255
PROMISE_2 = replace(PROMISE_OF_ALICE, policy=FINAL)
WORDS = POLICIES.values()


@subject("bindings with a policy that can be followed by hand: hashes are sums, and the value of a name is the name")
def of_worked_policies(q, rng):
    q.note("commitments of the name a and the key ab; the root of the one binding; and replies of 189 bytes")
    index = byte_sum(b"a").hex()
    for policy, word in POLICIES.items():
        q.ask("nodes commit2", ZERO32, b"a", b"ab", word)
        item = f"{index} {byte_sum(commitment_text(ZERO32, b'a', b'ab', policy)).hex()}\n"
        q.ask("items root", "sum", "none", item.encode())
        table = Tables(byte_sum, PlainVuf(), ZERO32, {b"a": (ZERO32, b"ab", policy)})
        q.ask("replies make", table.body().write(), b"a", "present2", ZERO32, b"ab", word, b"")
        q.ask("replies accept-sum", table.body().write(), b"a", table.reply(b"a").write())
    q.note("lengths, and bytes that are no policy")
    for name, key in [(b"n", b"k"), (LONG_NAME, b"k"), (b"n", LONG_KEY), (LONG_NAME, LONG_KEY)]:
        q.ask("nodes commit2", run(0x20), name, key, "final")
    table = Tables(byte_sum, PlainVuf(), ZERO32, {b"a": (ZERO32, b"ab")})
    body = table.body()
    q.let("body", body.write())

    def reply(salt, key, policy=None):
        return Reply(body, b"a", Opening(salt, key, policy), ()).write()

    q.note("under the root of the key ab in version 1: other keys and salts in either version, of one sum")
    texts = {
        "ab": reply(ZERO32, b"ab"), "p": reply(ZERO32, b"\x60a", OPEN), "f": reply(ZERO32, b"\x5fa", FINAL),
        "s": reply(number32(2), b"\x5fb"), "o": reply(ZERO32, b"\x5fb", OPEN), "t": reply(number32(1), b"\x5fa", OPEN),
    }
    for name, text in texts.items():
        q.let(name, text)
        q.ask("replies read", text)
        q.ask("replies accept-sum", body.write(), b"a", text)
    for one in texts.values():
        for other in texts.values():
            q.ask("replies compare-sum", body.write(), b"a", one, other)
    q.note("cut to each length, one byte more, and other bytes in the place of the policy and of the end")
    text = texts["p"]
    for data in [*beginnings(text), text + b"\0"]:
        q.ask("replies read", data)
    for place, byte in [(150, policy) for policy in (*BAD_POLICIES, FINAL)] + [(149, end) for end in (1, 2, 3, 5)]:
        q.ask("replies read", changed_at(text, place, byte))
        q.ask("replies accept-sum", body.write(), b"a", changed_at(text, place, byte))
    q.note("what they state")
    for name, text in texts.items():
        for key in (b"ab", b"\x5fa", b"\x5fb"):
            q.ask("replies binds", key, text)
            for word in WORDS:
                q.ask("replies binds2", key, word, text)
    q.note("the longest has 10,682 bytes")
    for key, many in [(2048, 256), (2049, 256), (2048, 257)]:
        longest = Reply(body, b"\xff" * 256, Opening(ZERO32, b"\xff" * key, FINAL), (number32(1),) * many).write()
        for data in [longest, longest[:-1], longest + b"\0"]:
            q.ask("replies read", data)
    q.ask("replies make", body.write(), b"\xff" * 256, "present2", ZERO32, b"\xff" * 2048, "final", number32(1) * 256)


@subject("in a few lines: bindings with a policy")
def of_few_lines(q, rng):
    q.ask("nodes commit2", ZERO32, b"a", b"k", "open")
    q.ask("frames new")
    stream = request_frame("register2", OPEN, b"a", b"k") + request_frame("change2", FINAL, b"a", b"l")
    for piece in [stream[:9], stream[9:]]:
        q.ask("frames feed", piece)
    for word in ("register2", "change2"):
        q.ask("frames request", REQUEST_KINDS[word], request_body(word, OPEN, b"a", b"k"))
    q.ask("frames answer", PROMISE, SignedPromise.signed(PROMISE_2, KEY).write())
    q.ask("roots signed-promise", SignedPromise.signed(PROMISE_2, KEY).write())
    bindings = {b"a": (run(0x20), b"k", OPEN), b"b": (run(0x40), b"k", FINAL)}
    table = Tables(sha256, KeyedVuf(KEY), ZERO32, bindings)
    text = q.let("text", table.reply(b"a").write())
    q.ask("replies accept", table.body().write(), b"a", text)
    q.ask("replies accepted", table.body().write(), b"a", text)
    q.ask("replies compare", table.body().write(), b"a", text, text)
    q.ask("journal register2", 200, SALT, b"a", b"k", "open")
    q.ask("journal records", journal_of(bound_record("register", SALT, b"a", b"k", OPEN), turned_record(2)))


@subject("a reply with a policy by SHA-256: cut within its end, and each bit of that flipped")
def of_altered_policies(q, rng):
    vuf = KeyedVuf(OTHER_KEY)
    bindings = {b"alice": (run(0x20), b"k1", FINAL), b"bob": (run(0x40), b"k2", OPEN), b"trent": (run(0x60), b"k3")}
    table = Tables(sha256, vuf, run(0xA0), bindings)
    body = table.body(7, 3, run(0x40))
    q.let("body", body.write())
    for name in [*bindings, b"dave"]:
        text = q.let(name.decode(), table.reply(name, body).write())
        q.ask("replies accept", body.write(), name, text)
        q.ask("replies accepted", body.write(), name, text)
    text = table.reply(b"alice", body).write()

    def taken(data):
        return accept(sha256, vuf, body, b"alice", data)

    end = text[180 : text.index(b"k1") + 2]
    front, back = text[:180], text[180 + len(end) :]
    assert end.startswith(b"\4\2")
    altered = [front + other + back for other in [*beginnings(end), *flipped(end)]]
    for data in none_is_taken(taken, altered):
        q.ask("replies accept", body.write(), b"alice", data)
    q.note("the same key in the other version, and under the other policy")
    for policy in (None, OPEN):
        other = replace(table.reply(b"alice", body), end=Opening(run(0x20), b"k1", policy)).write()
        q.ask("replies accept", body.write(), b"alice", other)
        q.ask("replies compare", body.write(), b"alice", text, other)


@subject("promises with a policy")
def of_policy_promises(q, rng):
    text = q.let("promise", PROMISE_2.write())
    for form in ("promise", "signed-promise"):
        q.note(f"{form}: each policy, bytes that are none, and other versions")
        whole = text if form == "promise" else SignedPromise.signed(PROMISE_2, KEY).write()
        for policy in (OPEN, FINAL, *BAD_POLICIES):
            q.ask(f"roots {form}", changed_at(whole, 74, policy))
            q.ask("roots front", form, changed_at(whole, 74, policy) + b"\1")
        for version in (0, 1, 3):
            q.ask(f"roots {form}", changed_at(whole, 1, version))
        for data in [*beginnings(whole)[70:], whole + b"\0"]:
            q.ask(f"roots {form}", data)
    q.ask("roots front", "promise", changed_at(text, 74, 3)[:75])
    q.ask("roots promise", replace(PROMISE_2, epoch=0).write())
    q.note("names and keys of the greatest lengths, and of one byte more")
    q.let("name", LONG_NAME)
    q.let("key", LONG_KEY)
    for name, key in [(LONG_NAME, LONG_KEY), (LONG_NAME + b"\0", b"k"), (b"n", LONG_KEY + b"\0"), (b"", b"k"), (b"n", b"")]:
        promise = replace(PROMISE_2, name=name, key=key)
        q.ask("roots promise", promise.write())
        q.ask("roots signed-promise", SignedPromise(promise, b"\xab" * 256).write())
    for _ in range(20):
        q.ask("roots signed-promise", spoiled(rng, SignedPromise.signed(PROMISE_2, KEY).write()))


@subject("requests and responses with a policy")
def of_policy_frames(q, rng):
    q.let("name", LONG_NAME)
    q.let("key", LONG_KEY)
    q.note("any byte is read as a policy; and with the last byte away, or one more")
    for word, kind in [("register2", 10), ("change2", 11)]:
        for policy in (OPEN, FINAL, *BAD_POLICIES):
            body = request_body(word, policy, b"a", b"k")
            q.ask("frames request", kind, body)
            q.ask("frames request", kind, body + b"\0")
            q.ask("frames request", kind, body[:-1])
        for name, key in [(b"", b""), (LONG_NAME, LONG_KEY), (LONG_NAME + b"\0", LONG_KEY + b"\0")]:
            q.ask("frames request", kind, request_body(word, FINAL, name, key))
        for body in [b"", b"\1", b"\1\0", b"\1\0\0", b"\1\0\0\0", b"\1\0\0\0\0", b"\1\0\1\0\0", b"\1\xff\xff\0\0"]:
            q.ask("frames request", kind, body)
        q.note("as long as a frame may be, and a byte longer")
        for name, key in [(65530, 0), (65531, 0), (0, 65530), (0, 65531), (1, 65529), (1, 65530)]:
            q.ask("frames request", kind, request_body(word, OPEN, b"\7" * name, b"\7" * key))
    q.note("kinds beside them")
    for kind in [9, 12, 13, 138, 139]:
        q.ask("frames request", kind, request_body("register2", OPEN, b"a", b"k"))
    q.note("promises and proofs, whole, cut, and with another policy")
    promise = SignedPromise.signed(PROMISE_2, KEY)
    reply = Reply(BODY, b"v", Opening(run(0x20), b"k", OPEN), (run(0x40),))
    for kind, value, place in [(PROMISE, promise, 74), (PROOF, reply, 150)]:
        body = response_body(kind, value)
        for data in [body, body[:-1], body + b"\0", *(changed_at(body, place, policy) for policy in (*BAD_POLICIES, OPEN))]:
            q.ask("frames response", kind, data)
            q.ask("frames answer", kind, data)
    q.note("a stream with both kinds")
    stream = request_frame("register2", FINAL, b"a", b"k") + request_frame("change2", 7, b"a", b"")
    q.ask("frames new")
    for piece in [stream[:7], stream[7:20], stream[20:]]:
        q.ask("frames feed", piece)


@subject("records with a policy")
def of_policy_records(q, rng):
    q.note("a room for none, for all but a byte of one, for one, for all but a byte of two, for two, and for more")
    for verb in ("register2", "change2"):
        for word in WORDS:
            for room in [0, 1, 2, 3, 40, 41, 42, 81, 82, 83]:
                q.ask(f"journal {verb}", room, SALT, b"a", b"k", word)
        for name, key in [(b"n" * 255, b"k" * 2048), (b"\0", b"\xff" * 256)]:
            size = len(bound_record("register", SALT, name, key, OPEN))
            for room in [size - 1, size, 2 * size - 1, 2 * size]:
                q.ask(f"journal {verb}", room, SALT, name, key, "open")
    q.note("in a journal, cut to each length; and followed by others")
    registered, changed = bound_record("register", SALT, b"a", b"k", OPEN), bound_record("change", SALT, b"a", b"k", FINAL)
    whole = q.let("journal", journal_of(registered, turned_record(2), changed))
    for size in range(106, len(whole) + 1):
        q.ask("journal records", whole[:size])
    for more in [b"\0", b"O", b"O\3", b"O\4", b"O\5", b"O\3\1", b"O\3\3", registered, registered[:-1], turned_record(3)]:
        q.ask("journal records", whole + more)
    q.note("each byte of a record changed; bytes that are no policy; lengths")
    for place in range(len(registered)):
        for mask in (1, 2):
            q.ask("journal records", journal_of(changed_at(registered, place, registered[place] ^ mask), turned_record(2)))
    for policy in BAD_POLICIES:
        q.ask("journal records", journal_of(changed_at(registered, 2, policy), turned_record(2)))
    for name, key in [(b"", b"k"), (b"n" * 255, b"k"), (b"n" * 256, b"k"), (b"n", b""), (b"n", b"k" * 2048), (b"n", b"k" * 2049)]:
        q.ask("journal records", journal_of(bound_record("change", SALT, name, key, FINAL), turned_record(2)))
