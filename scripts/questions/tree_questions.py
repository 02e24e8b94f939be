"""Questions on trees, their paths and the programs `root` and `prove`, which make trees of items."""

from model.answers import REFUSALS
from model.formats import ZERO32, Empty, Other, Present, Tree, climb, end_text, sha256, u16, with_one
from questions.values import KEY, TOP, an_index, changed_at, index, joined, number32, path_words, run
from questions.writing import subjects

SUBJECTS, subject = subjects()

# Trees -------------------------------------------------------------------------------------------------------


def ask_from(q, nonce, *words):
    """Asks for the tree of these items, and for their root without a tree."""
    q.ask("trees from", nonce, *words)
    q.ask("trees bare", nonce, *words)


@subject("small trees")
def of_small_trees(q, rng):
    low, middle, high, last = index(0), index(0x40), index(0x80), index(last=1)
    q.note("no index: the empty node")
    q.ask("trees new", ZERO32)
    q.ask("trees count")
    for i in [low, high]:
        q.ask("trees get", i)
        q.ask("trees path", i)
    ask_from(q, ZERO32)
    q.ask("trees count")
    q.ask("trees more")
    q.ask("trees count")
    q.note("put in one by one: how many digests each takes")
    for i, commitment in [
        (low, ZERO32), (middle, ZERO32), (high, ZERO32), (high, number32(1)), (index(0x20), ZERO32),
    ]:
        q.ask("trees with", i, commitment)
        q.ask("trees count")
        q.ask("trees copy")
        q.ask("trees path", i)
        q.ask("trees path", index(0xC0))
        q.ask("trees get", i)
    q.note("an index put into a copy of a tree of one: at most 4 digests")
    ask_from(q, ZERO32, low, ZERO32)
    q.ask("trees copy")
    q.ask("trees with", high, ZERO32)
    q.ask("trees count")
    q.ask("trees root")
    q.note("in any order, and with other nonces")
    for nonce in [ZERO32, run(0xA0)]:
        ask_from(q, nonce, *joined((i, ZERO32) for i in (high, low, middle)))
        q.ask("trees count")
        ask_from(q, nonce, *joined([(low, run(0x20)), (middle, run(0xA0)), (run(0xC0), run(0x40))]))
        for i in [low, middle, high, run(0xC0), index(0xFF)]:
            q.ask("trees path", i)
    q.note("an index that stands twice")
    ask_from(q, ZERO32, middle, ZERO32, low, ZERO32, middle, number32(1))
    q.ask("trees more", low, ZERO32, low, ZERO32)
    q.ask("trees root")
    q.note("many at once: how many digests, by what was there")
    for old, changes in [
        ([0x00, 0x40], []), ([], [0x00, 0x40, 0x80]), ([0x40], [0x00, 0x80]),
        ([0x00, 0x40, 0x80], [0x00, 0x40, 0x80]),
        ([0x00, 0x40, 0x80], [0x00, 0x80]), ([0x00, 0x40, 0x80], [0x80]), ([0x00, 0x80], [0x40]),
        ([0x00, 0x40], [0x20]),
        ([0x00], [0x20]), ([0x00, 0x40], [0x80, 0xC0]),
    ]:
        ask_from(q, ZERO32, *joined((index(first), ZERO32) for first in old))
        q.ask("trees more", *joined((index(first), number32(1)) for first in changes))
        q.ask("trees count")
        for first in changes[:1]:
            q.ask("trees get", index(first))
    q.note("the same items under another nonce: one digest for each node")
    for firsts in [[], [0x61], [0x00, 0x80], [0x00, 0x20, 0x40, 0x80, 0xC0]]:
        ask_from(q, ZERO32, *joined((index(first), number32(first)) for first in firsts))
        for nonce in [index(0x01), index(0x01), ZERO32]:
            q.ask("trees renew", nonce)
            q.ask("trees count")
            q.ask("trees path", index(0x40))
    q.note("two indices that differ in the last bit alone: 256 siblings")
    ask_from(q, ZERO32, low, ZERO32)
    q.ask("trees with", last, number32(7))
    q.ask("trees count")
    for i in [low, last, index(last=2), high]:
        q.ask("trees get", i)
    for i in [low, last]:
        q.ask("trees path", i)
    q.note("ways of 256 siblings: the text at some levels, and the root that they lead to")
    ones = [number32(1)] * 256
    siblings = q.let("ones", b"".join(ones))
    for i, end in [(low, Present(ZERO32)), (last, Empty()), (last, Other(low, ZERO32)), (run(0x55), Present(KEY))]:
        for level in [0, 1, 254, 255, 256]:
            q.ask("trees climb", ZERO32, i, level, *path_words(end), siblings)
        root = sha256(climb(sha256, i, 0, ones, end_text(ZERO32, i, 256, end)))
        q.ask("trees leads", root, ZERO32, i, *path_words(end), siblings)
        q.ask("trees leads", root, ZERO32, i, *path_words(end), siblings[32:])
        q.ask("trees leads", root, ZERO32, i, *path_words(end), changed_at(siblings, 8191, 2))
    q.ask("trees path", index(last=3))
    q.ask("trees path", index(0, 1))


@subject("ends, ways and what leads where")
def of_ways(q, rng):
    nonce, i, j, c = q.let("nonce", run(0xA0)), run(0x00), run(0x20), run(0x40)
    for level in [0, 1, 11, 255, 256]:
        q.ask("trees end-text", nonce, i, level, "present", c)
        q.ask("trees end-text", nonce, i, level, "empty")
        q.ask("trees end-text", nonce, i, level, "other", j, c)
    for level in [0, 3, 4, 7, 8, 254, 255]:
        q.ask("trees joined", index(0x10, last=1), level, run(0x60), run(0x80))
    items = [(index(first), number32(first)) for first in (0x00, 0x40, 0x48, 0x4C, 0x80)]
    tree = Tree(sha256, nonce, items)
    for i in [index(0x00), index(0x4C), index(0x4E), index(0x60), index(0xC0), index(0x44)]:
        path = tree.path(i)
        siblings = q.let("siblings", b"".join(path.siblings))
        end = path_words(path.end)
        q.ask("trees leads", tree.root(), nonce, i, *end, siblings)
        q.note("another root, nonce, index, end; siblings turned, one less or more")
        q.ask("trees leads", nonce, nonce, i, *end, siblings)
        q.ask("trees leads", tree.root(), ZERO32, i, *end, siblings)
        q.ask("trees leads", tree.root(), nonce, index(0x10), *end, siblings)
        q.ask("trees leads", tree.root(), nonce, i, "empty", siblings)
        q.ask("trees leads", tree.root(), nonce, i, "present", ZERO32, siblings)
        q.ask("trees leads", tree.root(), nonce, i, *end, b"".join(reversed(path.siblings)))
        q.ask("trees leads", tree.root(), nonce, i, *end, siblings[32:])
        q.ask("trees leads", tree.root(), nonce, i, *end, siblings + ZERO32)
        for level in range(len(path.siblings) + 1):
            q.ask("trees climb", nonce, i, level, *end, siblings)


@subject("a tree with a leaf at each level")
def of_tall_trees(q, rng):
    items = [(ZERO32, ZERO32)] + [(with_one(ZERO32, place), number32(place)) for place in range(256)]
    ask_from(q, ZERO32, *joined(items))
    q.ask("trees count")
    for place in range(0, 256, 15):
        q.ask("trees path", items[place + 1][0])
    q.note("the same from one leaf, by changes of every other")
    ask_from(q, ZERO32, *items[0])
    for changes in [items[2::2], items[1::2]]:
        q.ask("trees more", *joined(changes))
        q.ask("trees count")
    q.ask("trees get", ZERO32)


def spread_item(number):
    """An item whose index begins with the two bytes of a number that is spread by a product."""
    return u16(number * 0x9E37 % 65536) + bytes(30), number32(number)


@subject("trees of hundreds of items")
def of_wide_trees(q, rng):
    items = [spread_item(number) for number in range(1000)]
    q.let("z", bytes(30))
    q.let("y", ZERO32)
    q.note("one by one, then at once, and all at once")
    q.ask("trees new", ZERO32)
    for item in items[:60]:
        q.ask("trees with", *item)
    q.ask("trees count")
    q.ask("trees more", *joined(items[60:300]))
    q.ask("trees count")
    tree = Tree(sha256, ZERO32, items[:300])
    for i, _ in [*items[:300:60], (index(0x12, 0x34, 0x56), b""), (b"\xff" * 32, b"")]:
        path = tree.path(i)
        q.ask("trees path", i)
        q.ask("trees get", i)
        q.ask("trees leads", tree.root(), ZERO32, i, *path_words(path.end), b"".join(path.siblings))
    q.note("four of each hundred again, with other commitments, and some new ones between them")
    q.ask("trees more", *joined((i, number32(7)) for i, _ in items[3:700:25]))
    q.ask("trees count")
    q.note("a thousand")
    ask_from(q, ZERO32, *joined((i, ZERO32) for i, _ in items))
    q.ask("trees count")
    for i, _ in items[5::199]:
        q.ask("trees get", i)
    for item in [spread_item(1000), spread_item(1001)]:
        q.ask("trees with", *item)
        q.ask("trees count")
    q.ask("trees copy")
    q.note("under another nonce, and a change of the new tree")
    q.ask("trees renew", run(0xA0))
    q.ask("trees count")
    q.ask("trees path", items[5][0])
    q.ask("trees with", *spread_item(1002))
    q.ask("trees count")


@subject("roots without a tree, of items that begin alike")
def of_bare_roots(q, rng):
    q.let("y", ZERO32)
    q.note("pairs that differ in the last bit alone")
    starts = [u16(number * 0x9E37 % 65536) + bytes(29) for number in range(200)]
    q.ask("trees bare", run(0), *joined((start + bytes([bit]), ZERO32) for start in starts for bit in (0, 1)))
    q.note("all in one prefix of 200 bits, and one beside it")
    q.let("x", bytes(25))
    near = [(bytes(25) + u16(number * 0x9E37 % 65536) + bytes(5), number32(number)) for number in range(600)]
    q.ask("trees bare", run(0), *joined(near))
    q.ask("trees bare", run(0), *joined([*near, (index(0x80), ZERO32)]))
    q.note("as many as a row begins with, and one more")
    for count in [255, 256, 257, 258]:
        q.ask("trees bare", ZERO32, *joined(spread_item(number) for number in range(count)))


def near_item(rng):
    """An item of seven bits in three bytes of its index, or of one bit and the last, so that many begin alike."""
    if rng.randrange(16):
        i = index(rng.choice([0, 1, 0x40, 0x80, 0xC1]), 0, rng.choice([0, 1, 0x80, 0x81]), 0, rng.randrange(4))
    else:
        i = with_one(ZERO32, rng.choice([0, 1, 63, 64, 128, 192, 254]))[:31] + rng.choice([b"\0", b"\1"])
    return i, number32(rng.randrange(256))


@subject("changes put in at once and one by one, by indices that begin alike")
def of_changed_trees(q, rng):
    for start in range(8):
        q.ask("trees new", number32(start))
        held = {}
        for step in range(6):
            listed = dict(near_item(rng) for _ in range(rng.choice([0, 1, 2, 3, 5, 7])))
            if step % 2:
                q.ask("trees more", *joined(listed.items()))
                q.ask("trees count")
            for i, commitment in listed.items() if not step % 2 else ():
                q.ask("trees with", i, commitment)
                q.ask("trees count")
            held |= listed
            asked, _ = near_item(rng)
            q.ask("trees get", asked)
            q.ask("trees path", rng.choice([asked, *held]))
        q.ask("trees from", number32(start), *joined(held.items()))
        q.ask("trees count")
    for many in [0, 1, 2, 9, 30]:
        items = dict((an_index(rng), rng.randbytes(32)) for _ in range(many))
        q.ask("trees from", run(0), *joined(items.items()))
        q.ask("trees count")
        for i in list(items)[:4]:
            q.ask("trees path", i)


# Items and texts -----------------------------------------------------------------------------------------------


@subject("digits, and faults of programs")
def of_texts(q, rng):
    for data in [ZERO32, run(0xF0), run(0x00), b"\xff" * 32]:
        q.ask("text digits", data)
    digits = q.let("digits", run(0xA0).hex().encode())
    mixed = run(0xC0).hex().replace("c", "C").replace("e", "E").encode()
    for text in [
        digits, digits.upper(), mixed, digits[1:], digits + b"0", b"g" + digits[1:], digits[:63] + b"G", b"",
        digits[:63] + b" ", b"0x" + digits[2:], digits[:63] + b"\n", b"\xc3\xa9" * 32, digits * 2, digits[:62],
        b"/" + digits[1:], b":" + digits[1:], b"@" + digits[1:], b"`" + digits[1:],
    ]:
        q.ask("text hex32", text)
        q.ask("text option-hex", text)
        q.ask("text hex32-or-zeros", text)
    q.ask("text hex32", b"\xff" * 64)
    q.ask("text hex32-or-zeros", "none")
    for name in ["bad-hex", "not-evidence", "bad-record", "other-keys", "cannot-read", "cannot-write", "cannot-listen", "out-of-memory"]:
        q.ask("text fault", name)
    for number in [1, 2, 9, 10, 99, 2**32, TOP]:
        q.ask("text fault", "bad-item", number)
        q.ask("text fault", "index-repeated", number)
        q.ask("text fault", "not-a-command", number)
    for name in REFUSALS:
        q.ask("text refusal", name)


def item_line(i, commitment=ZERO32):
    return f"{i.hex()} {commitment.hex()}\n".encode()


def digits_of(i):
    return i.hex().encode()


MIXED = b"""\
C0c1C2c3C4c5C6c7C8c9CAcbCCcdCEcfD0d1D2d3D4d5D6d7D8d9DAdbDCddDEdf 404142434445464748494A4b4C4d4E4f505152535455565758595A5b5C5d5E5f
0000000000000000000000000000000000000000000000000000000000000000 202122232425262728292A2b2C2d2E2f303132333435363738393A3b3C3d3E3f
4000000000000000000000000000000000000000000000000000000000000000 a0A1a2A3a4A5a6A7a8A9aaABacADaeAFb0B1b2B3b4B5b6B7b8B9baBBbcBDbeBF
"""


@subject("items: the programs `root` and `prove`")
def of_items(q, rng):
    zero, middle, high = (item_line(index(first)) for first in (0x00, 0x40, 0x80))
    q.let("zero", zero)
    q.note("roots of small trees, by sums and by SHA-256; the last line may lack its end")
    for data in [b"", zero, zero + high, zero + middle + high, zero + middle, high + zero + middle]:
        for digest in ["sum", "sha256"]:
            q.ask("items root", digest, "none", data)
            q.ask("items root", digest, "none", data[:-1])
    q.ask("items root", "sum", digits_of(run(0xA0)), b"")
    q.ask("items root", "sum", digits_of(run(0xA0)), zero + middle + high)
    q.note("paths in them")
    for first, data in [
        (0x00, b""), (0x00, zero), (0xC0, zero + high), (0x00, zero + middle + high), (0x80, zero + middle),
    ]:
        for digest in ["sum", "sha256"]:
            q.ask("items prove", digest, "none", digits_of(index(first)), data)
    q.note("digits of both cases, and a nonce")
    q.let("mixed", MIXED)
    nonce = q.let("nonce", digits_of(run(0xA0)))
    for digest in ["sum", "sha256"]:
        for given in ["none", nonce, nonce.upper()]:
            q.ask("items root", digest, given, MIXED)
            for i in [run(0xC0), ZERO32, index(0x40), index(0xFF), index(0x20)]:
                q.ask("items prove", digest, given, digits_of(i).upper(), MIXED)
    q.note("lines that are no items, as the first and as the second")
    for bad in [
        b"0" * 64 + b"\t" + b"0" * 64, b"0" * 64 + b"  " + b"0" * 64, b"0" * 64 + b" " + b"0" * 64 + b" ",
        b"0" * 64 + b" " + b"0" * 64 + b"\r", b"0" * 64 + b" " + b"0" * 63 + b"g", b"0" * 129,
        b"0" * 64 + b" " + b"0" * 63,
        b"0" * 64 + b" " + b"0" * 65, b"0" * 63 + b" " + b"0" * 65, b"0" * 63 + b" ", b"0" * 1000, b"", b"x",
        b" " * 129,
        b"g" + b"0" * 63 + b" " + b"0" * 64, b"\xff" * 129, b"0" * 100000,
    ]:
        q.ask("items root", "sum", "none", bad + b"\n" + zero)
        q.ask("items root", "sum", "none", zero + bad + b"\n" + zero)
        q.ask("items prove", "sum", "none", digits_of(ZERO32), zero + bad)
    q.note("the first faulty line is told: bad, or an index that stands before")
    fa = item_line(index(0xFA))
    for data in [
        zero + zero, fa + zero + fa.upper(), zero + zero + b"x\n", zero + b"x\n" + zero,
        zero + middle + middle + zero,
        b"x\n" + zero + zero, zero + middle + high + zero + b"x\n", zero + item_line(ZERO32, KEY),
    ]:
        q.ask("items root", "sum", "none", data)
        q.ask("items root", "sha256", "none", data)
        q.ask("items prove", "sum", "none", digits_of(ZERO32), data)
    q.note("bad hex is told before anything is read")
    for text in [nonce[1:], nonce + b"0", b"g" + nonce[1:], b""]:
        q.ask("items root", "sum", text, b"x\n")
        q.ask("items prove", "sum", text, digits_of(ZERO32), b"x\n")
        q.ask("items prove", "sum", "none", text, zero + zero)
        q.ask("items prove", "sum", nonce, text, zero)
    q.note("two indices that differ in bit 255 alone")
    pair = item_line(index(last=1)) + zero
    for i in [ZERO32, index(last=1), index(last=2), index(0x80)]:
        q.ask("items prove", "sum", "none", digits_of(i), pair)
        q.ask("items prove", "sha256", nonce, digits_of(i), pair)
    q.note("hundreds of items, and a thousand; one of them again at the end")
    many = [item_line(u16(number * 0x9E37 % 65536) + bytes(30)) for number in range(1000)]
    q.let("t", zero[4:])
    data = q.let("many", b"".join(many))
    for size in [300, 1000]:
        part = data[: 130 * size]
        for digest in ["sum", "sha256"]:
            q.ask("items root", digest, "none", part)
            q.ask("items prove", digest, "none", many[77][:64], part)
        q.ask("items prove", "sha256", "none", many[999][:64], part)
        q.ask("items prove", "sum", "none", digits_of(index(0x12, 0x34, 0x56)), part)
        q.ask("items root", "sum", "none", part + many[size // 2])
        q.ask("items root", "sum", "none", part + b"x")
