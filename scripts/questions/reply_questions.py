"""Questions on replies to look-ups: worked by hand, honest, and crafted."""

from dataclasses import replace

from model.formats import (
    POLICIES,
    ZERO32,
    Accepted,
    Body,
    Empty,
    KeyedVuf,
    Opening,
    Other,
    PlainVuf,
    Present,
    Reply,
    Tree,
    byte_sum,
    commitment_text,
    empty_text,
    leaf_text,
    sha256,
    u16,
)
from questions.values import (
    KEY,
    LONG_KEY,
    LONG_NAME,
    OTHER_KEY,
    beginnings,
    changed_at,
    index,
    number32,
    path_words,
    run,
    spoiled,
)
from questions.writing import subjects

SUBJECTS, subject = subjects()

# Replies -----------------------------------------------------------------------------------------------------


class Tables:
    """What a tree has at each name: the salt, the key, and perhaps a policy."""

    def __init__(self, digest, vuf, nonce, bindings):
        self.digest, self.vuf, self.bindings = digest, vuf, bindings
        items = [
            (digest(vuf.value(name)), digest(commitment_text(salt, name, key, *policy)))
            for name, (salt, key, *policy) in bindings.items()
        ]
        self.tree = Tree(digest, nonce, items)

    def body(self, epoch=1, previous=0, previous_hash=ZERO32):
        return Body(epoch, previous, self.tree.root(), previous_hash, self.tree.nonce, self.vuf.public)

    def reply(self, name, body=None):
        """The honest reply."""
        value = self.vuf.value(name)
        i = self.digest(value)
        siblings, end = self.tree.path(i)
        if isinstance(end, Present):
            # Where another name has this index, its leaf is shown as that of another index, and refused.
            end = Opening(*self.bindings[name]) if name in self.bindings else Other(i, end.commitment)
        return Reply(body or self.body(), value, end, tuple(siblings))


@subject("replies that can be followed by hand: hashes are sums, and the value of a name is the name")
def of_worked_replies(q, rng):
    table = Tables(byte_sum, PlainVuf(), ZERO32, {b"a": (ZERO32, b"ab")})
    body, good = table.body(), table.reply(b"a")
    q.let("body", body.write())
    leaf_of_a = Other(number32(0x61), number32(0x16B))

    def reply(value, end, *siblings):
        return Reply(body, value, end, tuple(number32(sibling) for sibling in siblings)).write()

    q.note("made by the provider: 188 bytes; and others that it would not make")
    q.ask("replies make", body.write(), b"a", "present", ZERO32, b"ab", b"")
    q.ask("replies make", body.write(), b"a", "empty", number32(0xD3))
    q.ask("replies make", body.write(), b"b", *path_words(leaf_of_a), b"")
    ab = q.let("ab", good.write())
    ba = q.let("ba", reply(b"a", Opening(ZERO32, b"ba")))
    absent = q.let("absent", reply(b"a", Empty(), 0xD3))
    q.note("one binding of a: the key ab, and the key ba, whose commitment has the same sum")
    for text in [ab, ba]:
        q.ask("replies read", text)
        q.ask("replies accept-sum", body.write(), b"a", text)
    q.note("absence by an empty node: with the sibling that leads there, and with another")
    for sibling in [0xD3, 0xD4]:
        q.ask("replies accept-sum", body.write(), b"a", reply(b"a", Empty(), sibling))
    q.note("absence by the leaf of another index, of this very index, and of one that is not on the way")
    far = reply(b"a", Other(index(0x80), number32(0x16B)), 0xD3)
    for name, text in [(b"b", reply(b"b", leaf_of_a)), (b"a", reply(b"a", leaf_of_a)), (b"a", far)]:
        q.ask("replies accept-sum", body.write(), name, text)
    q.note("cut to each length, and one byte more")
    for data in beginnings(ab):
        q.ask("replies read", data)
    q.ask("replies read", ab + b"\0")
    q.ask("replies read", ab + ab)
    q.ask("replies accept-sum", body.write(), b"a", ab[:187])
    q.ask("replies accept-sum", body.write(), b"a", ab + b"\0")
    q.note("under another body, also where more is wrong")
    for other in [replace(body, epoch=2), replace(body, vuf_key=number32(1)), replace(body, root=number32(0x11A))]:
        for text in [ab, reply(b"b", Empty())]:
            q.ask("replies accept-sum", other.write(), b"a", text)
    q.note("the first refusal that applies: the value, then the index, then its beginning, then the way")
    for text in [
        reply(b"b", leaf_of_a), reply(b"b", Other(number32(0x62), ZERO32)), reply(b"b", Empty()),
        reply(b"a", leaf_of_a, 0xD4), reply(b"a", Other(index(0x80), ZERO32), 0xD4),
        reply(b"a", Other(index(0x80), ZERO32)), reply(b"a", Opening(ZERO32, b"a")),
        reply(b"a", Opening(KEY, b"ab")),
        reply(b"a", Opening(ZERO32, b"ab"), 0), reply(b"a", Empty()),
    ]:
        q.ask("replies accept-sum", body.write(), b"a", text)
    q.note("compared: the same, two commitment texts of one digest, or two node texts")
    for one, other in [(ab, ab), (ab, ba), (ba, ab), (absent, ab), (ab, absent), (absent, absent), (ba, absent)]:
        q.ask("replies compare-sum", body.write(), b"a", one, other)
    q.note("the first that is refused is told")
    for one, other in [(ab[:187], ab), (ab, ab + b"\0"), (ab[:187], ab + b"\0"), (ab + b"\0", ab[:187])]:
        q.ask("replies compare-sum", body.write(), b"a", one, other)
    q.ask("replies compare-sum", replace(body, epoch=2).write(), b"a", ab, ab)
    q.ask("replies compare-sum", body.write(), b"b", ab, ab)
    q.note("where each value is accepted: two indices, two names, two bodies")
    of_b = q.let("ofb", reply(b"b", leaf_of_a))
    other_body = replace(body, epoch=2)
    later = replace(good, body=other_body).write()
    for words in [
        (body, b"a", ab, body, b"a", of_b), (body, b"a", of_b, body, b"a", ab), (body, b"a", ab, body, b"b", of_b),
        (body, b"b", of_b, body, b"a", ab), (body, b"a", ab, other_body, b"a", later),
        (body, b"a", ab, body, b"b", ab),
        (other_body, b"a", later, body, b"a", ba), (body, b"a", ab, body, b"a", ab),
        (body, b"a", ab, body, b"a", ba),
        (body, b"a", ab, body, b"a", ab[:187]), (other_body, b"a", ab, body, b"a", ab[:187]),
    ]:
        q.ask("replies same-any", *(word.write() if isinstance(word, Body) else word for word in words))
    q.note("two names on one index: bc is bound, cb is not; beside it zz, and c, which is not bound either")
    pair = Tables(byte_sum, PlainVuf(), ZERO32, {b"bc": (ZERO32, b"k"), b"zz": (ZERO32, b"k")})
    body = q.let("body", pair.body().write())
    for name in [b"bc", b"cb", b"zz", b"c"]:
        text = q.let(name.decode(), pair.reply(name).write())
        q.ask("replies accept-sum", body, name, text)


@subject("as many siblings as an index has bits")
def of_tall_replies(q, rng):
    table = Tables(byte_sum, PlainVuf(), ZERO32, {b"b": (ZERO32, b"k1"), b"c": (ZERO32, b"k2")})
    body = q.let("body", table.body().write())
    for name in [b"b", b"c", b"a", b"A"]:
        text = q.let(name.decode(), table.reply(name).write())
        made = Reply.read(text)
        q.ask("replies make", body, made.value, *path_words_of(made.end), b"".join(made.siblings))
        q.ask("replies read", text)
        q.ask("replies accept-sum", body, name, text)
        q.ask("replies accept-sum", body, name, text[:-1])
        q.ask("replies accept-sum", body, name, changed_at(text, len(text) - 1, 1))
        q.ask("replies accept-sum", body, name, text + ZERO32)
    q.note("the longest has 10,681 bytes; 256 siblings and no more")
    for key, value, many in [(2048, 256, 256), (1, 1, 256), (2048, 256, 0), (2049, 256, 256), (2048, 257, 256),
                             (2048, 256, 257), (2048, 256, 255)]:
        end = Opening(ZERO32, b"\xff" * key)
        reply = Reply(table.body(), b"\xff" * value, end, (number32(1),) * many).write()
        q.ask("replies read", reply)
        q.ask("replies read", reply[:-1])
        q.ask("replies read", reply + b"\0")
        if key <= 2048 and value <= 256 and many <= 256:
            q.ask("replies make", body, b"\xff" * value, "present", ZERO32, b"\xff" * key, number32(1) * many)
            q.ask("replies make", body, b"\xff" * value, "empty", number32(1) * many)
            q.ask("replies make", body, b"\xff" * value, "other", KEY, OTHER_KEY, number32(1) * many)


@subject("replies as a provider makes them, by SHA-256, in a tree of three names")
def of_honest_replies(q, rng):
    vuf = KeyedVuf(OTHER_KEY)
    bindings = {b"alice": (run(0x20), b"k1"), b"bob": (run(0x40), b"k2"), b"trent": (run(0x60), b"k3")}
    table = Tables(sha256, vuf, run(0xA0), bindings)
    made = table.body(7, 3, run(0x40))
    body = q.let("body", made.write())
    replies = {}
    for name in [b"alice", b"dave", b"heidi", b"bob", b"trent"]:
        reply = table.reply(name, made)
        text = replies[name] = q.let(name.decode(), reply.write())
        q.ask("replies read", text)
        q.ask("replies accept", body, name, text)
        q.ask("replies accepted", body, name, text)
        q.ask("replies make", body, reply.value, *path_words_of(reply.end), b"".join(reply.siblings))
        q.ask("replies binds", b"k1", text)
        q.ask("replies binds", b"k2", text)
    q.note("for another name, and another body")
    q.ask("replies accept", body, b"alic", replies[b"alice"])
    q.ask("replies accepted", body, b"bob", replies[b"alice"])
    q.ask("replies accept", replace(made, epoch=8).write(), b"alice", replies[b"alice"])
    q.ask("replies binds", b"k1", replies[b"alice"] + b"\0")
    q.ask("replies binds", b"k1", replies[b"alice"][:378])
    q.ask("replies binds", b"k", replies[b"alice"])
    q.ask("replies binds", b"k11", replies[b"alice"])
    q.note("two replies: of one name, of two names, under two bodies; refused ones")
    later = replace(made, epoch=8)
    other = replace(table.reply(b"alice"), body=later).write()
    for words in [
        (body, b"alice", replies[b"alice"], body, b"alice", replies[b"alice"]),
        (body, b"alice", replies[b"alice"], body, b"bob", replies[b"bob"]),
        (body, b"dave", replies[b"dave"], body, b"heidi", replies[b"heidi"]),
        (body, b"alice", replies[b"alice"], later.write(), b"alice", other),
        (body, b"alice", replies[b"bob"], body, b"alice", replies[b"alice"] + b"\0"),
        (body, b"alice", replies[b"alice"], body, b"alice", replies[b"alice"] + b"\0"),
    ]:
        q.ask("replies same", *words)
    for one, two in [(b"alice", b"alice"), (b"bob", b"alice"), (b"alice", b"bob")]:
        q.ask("replies compare", body, b"alice", replies[one], replies[two])
    q.note("the lengths of value and key and the number of siblings, beyond their limits; an end of another kind")
    alice = replies[b"alice"]
    value, end, key, siblings = 146, 180, 213, 217
    for place, number in [(value, 0), (value, 31), (value, 33), (value, 257), (value, 65535), (key, 0), (key, 1),
                          (key, 3), (key, 2049), (siblings, 0), (siblings, 4), (siblings, 6), (siblings, 257)]:
        q.ask("replies read", changed_at(alice, place, *u16(number)))
    for kind in [0, 2, 3, 4, 255]:
        q.ask("replies read", changed_at(alice, end, kind))
    q.note("one byte changed in each part")
    for place in [
        0, 1, 9, 17, 18, 49, 50, 82, 114, 145, 147, 148, 179, 181, 212, 214, 215, 216, 218, 219, 250, 251, 378,
    ]:
        q.ask("replies accept", body, b"alice", changed_at(alice, place, alice[place] ^ 1))
    q.note("ends and siblings of other replies")
    good = table.reply(b"alice", made)
    for reply in [
        replace(good, siblings=good.siblings[:-1]), replace(good, siblings=(*good.siblings, KEY)),
        replace(good, siblings=tuple(reversed(good.siblings))), replace(good, siblings=()),
        replace(good, end=Empty()), replace(good, end=Other(KEY, KEY)),
        replace(good, end=Opening(run(0x20), b"k2")),
        replace(good, end=Opening(run(0x40), b"k1")), replace(good, end=Other(sha256(good.value), KEY)),
        replace(good, value=vuf.value(b"bob")), replace(good, value=b"v"), replace(good, value=good.value + b"\0"),
        replace(good, body=replace(made, nonce=KEY)),
    ]:
        q.ask("replies accept", body, b"alice", reply.write())
        q.ask("replies compare", body, b"alice", alice, reply.write())
    q.note("names and keys of the greatest lengths")
    long = Tables(sha256, vuf, ZERO32, {LONG_NAME: (KEY, LONG_KEY), b"a": (KEY, b"k")})
    q.let("name", LONG_NAME)
    q.let("key", LONG_KEY)
    text = q.let("long", long.reply(LONG_NAME).write())
    q.ask("replies accept", long.body().write(), LONG_NAME, text)
    q.ask("replies accepted", long.body().write(), LONG_NAME, text)
    q.ask("replies binds", LONG_KEY, text)
    q.ask("replies binds", LONG_KEY[:2047], text)
    for n in range(12):
        q.ask("replies accept", body, b"alice", spoiled(rng, alice))


def path_words_of(end):
    if not isinstance(end, Opening):
        return [type(end).__name__.lower(), *end]
    words = [end.salt, end.key]
    return ["present", *words] if end.policy is None else ["present2", *words, POLICIES[end.policy]]


@subject("replies of a tree of hundreds of names")
def of_many_replies(q, rng):
    bindings = {b"name%d" % n: (number32(n), b"key%d" % n) for n in range(300)}
    table = Tables(sha256, KeyedVuf(KEY), run(0x20), bindings)
    body = q.let("body", table.body().write())
    for n in [0, 1, 9, 10, 99, 100, 127, 128, 255, 256, 299, 300, 1000]:
        name = b"name%d" % n
        q.ask("replies accept", body, name, table.reply(name).write())


# Crafted ways: under one root, by sums, of which each text has the root's sum.

CRAFTED_NAME, CRAFTED_NONCE = b"a", b"\xb0" * 32
CRAFTED_INDEX, CRAFTED_OTHER = number32(0x54AB), number32(0x54AA)
CRAFTED_COMMITMENT = byte_sum(commitment_text(ZERO32, CRAFTED_NAME, b"ab"))
ENDINGS = {
    "ab": Opening(ZERO32, b"ab"), "ba": Opening(ZERO32, b"ba"), "empty": Empty(),
    "other": Other(CRAFTED_OTHER, b"\1" + CRAFTED_COMMITMENT[1:]),
}


def of_sum(number, is_turned):
    """32 bytes of this sum, as great as may be from the front on, or from the back."""
    data = bytes(min(255, max(0, number - 255 * k)) for k in range(32))
    return data[::-1] if is_turned else data


def crafted_value(ending):
    """Two values of one sum."""
    return (b"\x54\x56" if ending == "ba" else b"\x55\x55") + b"\x55" * 253


def crafted_reply(root, ending, level, turn):
    """The reply with this end at this level, whose texts all have the root's sum; the sibling of one level has
    its bytes turned. None where there is no such."""
    end = ENDINGS[ending]
    accepted = Accepted(CRAFTED_NAME, Reply(crafted_body(root), b"", end, (ZERO32,) * level), CRAFTED_INDEX)
    text = accepted.end_text(byte_sum)
    if level == 0 and sum(text) != root or level == 256 and ending == "other":
        return None
    siblings = []
    for k in range(level):
        below = sum(u16(sum(text) if k == level - 1 else root))
        siblings.append(of_sum(root - below, k == turn))
    return Reply(crafted_body(root), crafted_value(ending), end, tuple(siblings))


def crafted_body(root):
    return Body(1, 0, number32(root), ZERO32, CRAFTED_NONCE, ZERO32)


@subject("crafted ways under one root, by sums: each two come to a collision or the same")
def of_crafted_replies(q, rng):
    leaf = sum(leaf_text(CRAFTED_NONCE, CRAFTED_INDEX, 0, CRAFTED_COMMITMENT))
    for root in [leaf, sum(empty_text(CRAFTED_NONCE, ZERO32, 0))]:
        body = q.let("body", crafted_body(root).write())
        names = []
        for ending in ENDINGS:
            for level in [0, 1, 255, 256]:
                turns = [256, 0, 254] if ending in ("ab", "empty") else [256]
                for turn in [turn for turn in turns if turn == 256 or turn < level]:
                    reply = crafted_reply(root, ending, level, turn)
                    if reply is not None:
                        names.append(f"{ending}{level}.{turn}")
                        q.let(names[-1], reply.write())
        for one in names:
            for other in rng.sample(names, 2):
                q.ask("replies same-any", body, b"a", q.named[one], body, b"a", q.named[other])
