"""Questions on honest bytes that were cut, altered or spliced: none is accepted."""

from dataclasses import replace

from model.formats import (
    Chain,
    KeyedVuf,
    ListRefusal,
    Opening,
    Other,
    Refusal,
    RootRefusal,
    SignedRoot,
    accept,
    read_list,
    sha256,
    u16,
    write_list,
)
from questions.reply_questions import Tables
from questions.root_questions import chain_of
from questions.values import BODY, KEY, OTHER_KEY, beginnings, changed_at, flipped, joined, raised, run, signed, spliced
from questions.writing import subjects

SUBJECTS, subject = subjects()


def none_is_taken(take, altered):
    """The bytes, each of which is refused."""
    for data in altered:
        try:
            take(data)
        except (Refusal, ListRefusal):
            continue
        raise AssertionError(data.hex())
    return altered


def is_read(read, data):
    try:
        read(data)
    except RootRefusal:
        return False
    return True


def parts_of(reply):
    """A reply in its parts, up to each sibling."""
    data, sizes = reply.write(), [2, 8, 8, 32, 32, 32, 32, 2, len(reply.value), 1]
    sizes += {Opening: [32, 2, 0], Other: [32, 32]}.get(type(reply.end), [])
    if isinstance(reply.end, Opening):
        sizes[-1] = len(reply.end.key)
    sizes += [2] + [32] * len(reply.siblings)
    assert sum(sizes) == len(data)
    cuts = [sum(sizes[:k]) for k in range(len(sizes) + 1)]
    return [data[a:b] for a, b in zip(cuts, cuts[1:])]


@subject("a reply by SHA-256: each beginning, each byte raised by 1, each bit flipped, and splices")
def of_altered_replies(q, rng):
    vuf = KeyedVuf(OTHER_KEY)
    bindings = {b"alice": (run(0x20), b"k1"), b"bob": (run(0x40), b"k2"), b"trent": (run(0x60), b"k3")}
    table, later = (Tables(sha256, vuf, run(nonce), bindings) for nonce in (0xA0, 0xB0))
    one, two = table.body(7, 3, run(0x40)), later.body(9, 7, run(0x60))
    bodies = {"one": q.let("one", one.write()), "two": q.let("two", two.write())}
    good = table.reply(b"alice", one)
    text = q.let("alice", good.write())
    q.ask("replies accept", bodies["one"], b"alice", text)

    def taken(data):
        return accept(sha256, vuf, one, b"alice", data)

    for altered in (beginnings(text), raised(text), flipped(text)):
        for data in none_is_taken(taken, altered):
            q.ask("replies accept", bodies["one"], b"alice", data)
    q.note("the first parts of one reply and the others of another: of other names, and under a later body")
    others = [
        (b"bob", table.reply(b"bob", one)), (b"trent", table.reply(b"trent", one)), (b"dave", table.reply(b"dave", one)),
        (b"alice", later.reply(b"alice", two)), (b"bob", later.reply(b"bob", two)),
    ]
    for n, (name, other) in enumerate(others):
        q.let(f"other{n}", other.write())
        mixed = list(dict.fromkeys(spliced(parts_of(good), parts_of(other))))
        for asked in dict.fromkeys([b"alice", name]):
            for word, body in (("one", one), ("two", two)):
                for data in none_is_taken(lambda data: accept(sha256, vuf, body, asked, data), mixed):
                    q.ask("replies accept", bodies[word], asked, data)


@subject("a reply with two siblings, by SHA-256: each byte raised by 1, and lengths that it may not have")
def of_two_siblings(q, rng):
    vuf = KeyedVuf(OTHER_KEY)
    bindings = {b"alice": (run(0x20), b"k1"), b"bob": (run(0x40), b"k2"), b"frank": (run(0x60), b"k3")}
    table = Tables(sha256, vuf, run(0xA0), bindings)
    body = table.body(7, 3, run(0x40))
    good = table.reply(b"alice", body)
    assert len(good.siblings) == 2
    bound, text = q.let("body", body.write()), q.let("alice", good.write())
    q.ask("replies accept", bound, b"alice", text)
    value, key, siblings = 146, 213, 217
    lengths = [(value, 0), (value, 257), (value, 65535), (key, 0), (key, 2049), (key, 65535)]
    lengths += [(siblings, count) for count in (0, 1, 3, 257, 65535)]
    altered = raised(text) + [changed_at(text, place, *u16(number)) for place, number in lengths]
    for data in none_is_taken(lambda data: accept(sha256, vuf, body, b"alice", data), altered):
        q.ask("replies accept", bound, b"alice", data)


def parts_of_root(root):
    data, cuts = root.write(), [0, 2, 10, 18, 50, 82, 114, 146, 148, 180]
    return [data[a:b] for a, b in zip(cuts, cuts[1:])]


@subject("a signed root: each beginning, each byte raised by 1, each bit flipped, lengths, and splices")
def of_altered_roots(q, rng):
    one, other = (signed(body) for body in (BODY, replace(BODY, epoch=9, root=run(0x30))))
    text = q.let("root", one.write())
    q.let("other", other.write())
    q.ask("chains start", KEY, text)

    def taken(data):
        return Chain.start(sha256, KEY, SignedRoot.read(data))

    mixed = spliced(parts_of_root(one), parts_of_root(other))
    lengths = [changed_at(text, 146, *u16(number)) for number in (0, 31, 33, 257, 65535)]
    for altered in (beginnings(text), raised(text), flipped(text), lengths, mixed):
        for data in none_is_taken(taken, dict.fromkeys(altered)):
            q.ask(*(["chains start", KEY] if is_read(SignedRoot.read, data) else ["roots root"]), data)


@subject("a list of roots: each beginning, each byte raised by 1, counts, lengths, and splices")
def of_altered_lists(q, rng):
    roots, others = chain_of(3, 7, 9), chain_of(3, 7, 9, nonces=[run(1), run(2), run(3)])
    text = q.let("list", write_list(roots))
    q.let("others", write_list(others))
    q.ask("chains start", KEY, roots[0].write())

    def taken(data):
        chain = Chain.start(sha256, KEY, roots[0])
        chain.take_list(read_list(data))

    counts = [u16(count) + text[2:] for count in [0, 1, 2, 4, 64, 65, 256, 65535]]
    lengths = [changed_at(text, 148, *u16(number)) for number in (0, 31, 33, 257, 65535)]
    first, *more = ([u16(3), *joined(map(parts_of_root, listed))] for listed in (roots, others))
    for altered in (beginnings(text), raised(text), counts, lengths, spliced(first, *more)):
        for data in none_is_taken(taken, altered):
            q.ask("chains take-list" if is_read(read_list, data) else "roots list", data)
    q.ask("chains head")
