"""Questions on indices, names, readers, digests, node texts and the stand-ins."""

from model.formats import (
    ZERO32,
    KeyedSign,
    KeyedVuf,
    counted,
    empty_text,
    interior_text,
    leaf_text,
    sha256,
    u16,
    u32,
    with_one,
)
from questions.values import KEY, OTHER_KEY, TOP, an_index, index, run
from questions.writing import subjects

SUBJECTS, subject = subjects()

# Bits, names and readers -------------------------------------------------------------------------------


@subject("bits of indices")
def of_bits(q, rng):
    q.note("10100101 00111100, zeros, 10000001: each bit")
    whole = q.let("whole", index(0xA5, 0x3C, last=0x81))
    for k in range(256):
        q.ask("bits bit", whole, k)
    q.note("prefixes: none, within a byte, at its end, all, and more than there are")
    for n in [0, 1, 7, 8, 9, 10, 11, 248, 255, 256, 257, 1000]:
        q.ask("bits cut", whole, n)
        q.ask("bits cut", b"\xff" * 32, n)
    q.note("one bit set, which may be set already")
    for k in [0, 1, 8, 15, 254, 255]:
        q.ask("bits with-one", whole, k)
        q.ask("bits with-one", ZERO32, k)
    q.note("two indices that differ in one bit: they agree up to there, and no further")
    for other, n in [
        (index(0x25, 0x3C, last=0x81), 0), (index(0xA4, 0x3C, last=0x81), 7),
        (index(0xA5, 0xBC, last=0x81), 8), (index(0xA5, 0x3C, last=0x80), 255),
    ]:
        q.ask("bits agree", whole, other, n)
        q.ask("bits agree", whole, other, n + 1)
        q.ask("bits agree", other, whole, 256)
    q.ask("bits agree", whole, whole, 256)
    q.ask("bits agree", whole, whole, 1000)
    q.ask("bits agree", whole, index(0xA5, 0x3C, last=0x80), 1000)
    q.note("the order is that of byte strings")
    rising = [ZERO32, index(last=1), b"\0" + b"\xff" * 31, index(1), b"\x80" * 32, b"\xff" * 32]
    for one, other in zip(rising, rising[1:]):
        q.ask("bits order", one, other)
        q.ask("bits order", other, one)
        q.ask("bits order", one, one)
    for one, other in zip(rising[:2], rising[1:]):
        for words in [(one, other), (other, one), (one, one)]:
            q.ask("bits order-hash", *words)
    for verb, most in [("name", 255), ("key", 2048), ("small", 256)]:
        longest = b"\x80" * most
        for one, other in [
            (b"a", b"b"), (b"a", b"aa"), (b"b", b"aa"), (b"\x7f", b"\x80"), (longest[:-1], longest),
            (longest, longest[:-1] + b"\x81"), (longest, b"\x81"),
        ]:
            for words in [(one, other), (other, one), (one, one)]:
                q.ask(f"bits order-{verb}", *words)
    q.note("both kinds of 32 bytes keep theirs")
    for data in [ZERO32, index(1, last=2), run(0xE8)]:
        q.ask("bits hash", data)
        q.ask("bits index", data)
    for _ in range(20):
        i, k = an_index(rng), rng.randrange(256)
        other = bytes(a ^ b for a, b in zip(i, with_one(ZERO32, k)))
        q.ask("bits bit", i, k)
        q.ask("bits cut", i, rng.choice([k, 0, 256, 257]))
        q.ask("bits agree", i, other, rng.choice([k, k + 1, 256, 300]))
        q.ask("bits with-one", i, k)
        q.ask("bits order", i, rng.choice([i, other]))


@subject("names, keys and small values at their limits")
def of_sizes(q, rng):
    for verb, most in [("name", 255), ("key", 2048), ("small", 256)]:
        for size in [0, 1, 2, most - 1, most, most + 1, 255, 256, 257, 2047, 2049, 65535, 65536]:
            q.ask(f"bits {verb}", b"\7" * size)
        q.ask(f"bits {verb}", b"alice")
        q.ask(f"bits {verb}", b"\0")
        q.ask(f"bits {verb}", run(0, most))


@subject("readers of bytes from the front")
def of_readers(q, rng):
    q.note("one thing after another")
    q.ask("bits read", run(1, 17) + b"\0" + counted(b"ab") + counted(b"c"),
          "u8", "u16", "u32", "u64", "three", "counted", "end", "name", "end")
    q.note("a refusal leaves the cursor where it was")
    q.ask("bits read", b"\0\2\7", "u32", "u64", "array", "hash", "counted", "name", "key", "small", "end",
          "u16", "u16", "u8", "u8", "end", "end")
    q.ask("bits read", b"\1\2\3\4\5", "array", "array", "three", "u16", "u8", "end")
    q.ask("bits read", b"\x09" * 40, "hash", "hash", "u64", "end")
    q.note("a copy goes on from the same place")
    q.ask("bits read", b"\1\2\3", "u8", "copy", "u16", "copy", "end", "u8")
    q.note("nothing to read")
    for what in ["u8", "u16", "u32", "u64", "three", "array", "hash", "name", "key", "small", "counted", "end"]:
        q.ask("bits read", b"", what)
        q.ask("bits read", b"\0", what)
    q.note("numbers at their limits")
    q.ask("bits read", b"\xff" * 15, "u8", "u16", "u32", "u64", "end")
    q.ask("bits read", b"\x80" + bytes(14), "u64", "u32", "u16", "u8", "end")
    q.note("counted bytes: the count is tested before the bytes are looked for")
    for size in [0, 1, 2, 5, 6, 256, 65535]:
        q.ask("bits read", u16(size) + b"\7" * size + b"\1", "counted", "u16")
        q.ask("bits read", u16(size), "counted", "u16", "end")
    for what, most in [("name", 255), ("key", 2048), ("small", 256)]:
        for size in [0, 1, most, most + 1, 65535]:
            q.ask("bits read", u16(size) + b"\7" * size + b"\1", what, "u8", "end")
            q.ask("bits read", u16(size) + b"\7" * (size - 1), what, "u16")
    kinds = ["u8", "u16", "u32", "u64", "name", "three", "end", "hash", "array", "key", "small", "counted", "copy"]
    for _ in range(30):
        data = rng.choice([
            counted(rng.randbytes(rng.randrange(4))) + rng.randbytes(rng.randrange(3)),
            rng.randbytes(rng.randrange(12)),
        ])
        q.ask("bits read", data, *(rng.choice(kinds) for _ in range(5)))


@subject("texts that are written")
def of_written(q, rng):
    q.ask("bits text")
    q.ask("bits text", "u8", 1, "slice", b"\2\3\4", "slice", b"", "u8", 5)
    q.ask("bits text", "u16", 0x0102, "u32", 0x03040506, "u64", 0x0708090A0B0C0D0E,
          "counted", b"\x2a\x2b", "counted", b"")
    q.ask("bits text", "u8", 255, "u16", 65535, "u32", 2**32 - 1, "u64", TOP)
    q.ask("bits text", "u8", 0, "u16", 0, "u32", 0, "u64", 0)
    q.note("a text may have 2,400 bytes")
    q.ask("bits text", "slice", b"\7" * 2400)
    q.ask("bits text", "slice", b"\7" * 2399, "u8", 8)
    q.ask("bits text", "counted", run(0, 2398))
    q.ask("bits text", *(word for n in range(100) for word in ("u64", n * n)))


# Digests, node texts and stand-ins -----------------------------------------------------------------------


def message(first, size):
    """Bytes of which each is 7 above the one before."""
    return bytes((first + 7 * k) % 256 for k in range(size))


@subject("digests")
def of_digests(q, rng):
    q.note("NIST's examples for SHA-256, of one block and of two; no bytes; a thousand bytes")
    two = b"abcdbcdecdefdefgefghfghighijhijkijkljklmklmnlmnomnopnopq"
    for text in [b"abc", two, b"", b"a" * 1000]:
        q.ask("nodes sha256", text)
        q.ask("nodes sum", text)
    q.ask("nodes sha256", b"abc", two, b"", b"abc")
    q.note("lengths about the ends of blocks")
    q.let("m", message(0, 375))
    for size in [1, 54, 55, 56, 57, 63, 64, 65, 118, 119, 120, 127, 128, 129, 183, 184, 256]:
        q.ask("nodes sha256", message(size, size))
    q.note("sums, up to 65,535 and past it")
    q.ask("nodes sum", b"", b"\1\2\3", b"\xff\xff", b"\xff" * 257, b"\xff" * 258, b"\xff" * 65536)
    q.note("many texts at once, in eights and with up to seven left over: the digests joined, and their number")
    many = [bytes([n % 251]) * (n % 102) for n in range(300)]
    for size in [*range(18), 300]:
        q.ask("nodes all", *many[:size])
        q.ask("nodes all-eight", *many[:size])
        q.ask("nodes all-sum", *many[:size])
    for verb in ["all", "all-eight"]:
        for size in range(1, 18):
            q.ask(f"nodes {verb}", *(message(k, 64) for k in range(size)))
        q.ask(f"nodes {verb}", *(message(k, 64) for k in range(40)))
        q.ask(f"nodes {verb}", *(message(k, 101) for k in range(41)))
    q.ask("nodes all-sum", *(u32(n) for n in range(300)))
    q.note("four messages of two blocks at once: each length in each lane, and 64 bytes in each")
    q.ask("nodes four", *(message(size, size) for size in (56, 64, 101, 119)))
    for turn in range(64):
        q.ask("nodes four", *(message(size, size) for size in (56 + (turn + lane) % 64 for lane in range(4))))
    for turn in range(0, 64, 4):
        q.ask("nodes four", *(message(56 + (turn + lane) % 64, 64) for lane in range(4)))
    for _ in range(8):
        q.ask("nodes four", *(rng.randbytes(rng.randrange(56, 120)) for _ in range(4)))
    q.note("and eight")
    for turn in range(0, 64, 2):
        q.ask("nodes eight", *(message(size, size) for size in (56 + (turn + lane) % 64 for lane in range(8))))
    for turn in range(0, 64, 8):
        q.ask("nodes eight", *(message(56 + (turn + lane) % 64, 64) for lane in range(8)))
    q.note("a kind, a key and a text")
    q.ask("nodes keyed", ord("K"), run(0), b"abc")
    q.ask("nodes keyed", 0, ZERO32, b"")
    q.ask("nodes keyed", 255, b"\xff" * 32, b"\7" * 2400)


@subject("texts of nodes and commitments")
def of_nodes(q, rng):
    nonce, ones = q.let("nonce", run(0)), b"\xff" * 32
    q.note("an empty node has the prefix of its level, and zeros behind it")
    for level in [0, 1, 8, 11, 255, 256]:
        q.ask("nodes empty", nonce, ones, level)
        q.ask("nodes empty", ZERO32, index(0x80), level)
        q.ask("nodes leaf", nonce, run(0x20), level, run(0x40))
        q.ask("nodes leaf", ZERO32, index(0x80), level, ZERO32)
    q.ask("nodes interior", run(0x60), run(0x80))
    q.ask("nodes interior", ZERO32, ZERO32)
    q.note("digests and sums of these texts")
    for texts in [
        [empty_text(nonce, ones, 11), leaf_text(nonce, run(0x20), 256, run(0x40)), interior_text(run(0x60), run(0x80))],
        [empty_text(ZERO32, ZERO32, 0), empty_text(ZERO32, index(0x80), 1), leaf_text(ZERO32, ZERO32, 0, ZERO32),
         leaf_text(ZERO32, index(0x80), 1, ZERO32), interior_text(ZERO32, ZERO32)],
        [interior_text(sha256(b"a"), sha256(b"b"))],
    ]:
        for verb in ["sha256", "sum", "all", "all-sum"]:
            q.ask(f"nodes {verb}", *texts)
    q.note("name a and key ab; alice and k1; the shortest and the longest name and key")
    q.ask("nodes commit", ZERO32, b"a", b"ab")
    q.ask("nodes commit", ZERO32, b"a", b"ba")
    q.ask("nodes commit", run(0x20), b"alice", b"k1")
    q.ask("nodes commit", nonce, b"\0", b"\xff")
    q.let("name", run(0, 255))
    q.let("key", bytes(k % 251 for k in range(2048)))
    q.ask("nodes commit", run(0xA0), run(0, 255), q.named["key"])
    for name, key in [(1, 2048), (255, 1), (254, 255), (128, 256), (2, 2047)]:
        q.ask("nodes commit", KEY, b"\7" * name, b"\10" * key)
    q.note("a byte more in the name or in the key is another text")
    q.ask("nodes commit", KEY, b"ab", b"c")
    q.ask("nodes commit", KEY, b"a", b"bc")


@subject("values and signatures of the stand-ins")
def of_stand_ins(q, rng):
    low, high = KEY, OTHER_KEY
    long_name = b"\xff" * 255
    alice = q.let("alice", KeyedVuf(high).value(b"alice"))
    q.note("the value of a name, and its index")
    for key, name in [(high, b"alice"), (low, b"alice"), (high, long_name), (ZERO32, b"\0")]:
        q.ask("stand-ins value", key, name)
    for value in [b"a", alice, b"", b"\xff" * 256, b"\xff" * 300]:
        q.ask("stand-ins index", value)
    q.note("one value is accepted, under its key alone, whatever key the checker has")
    for secret, key, name, value in [
        (high, high, b"alice", alice), (ZERO32, high, b"alice", alice), (high, low, b"alice", alice),
        (high, high, b"bob", alice), (high, high, b"alice", KeyedVuf(high).value(b"bob")),
        (high, high, b"alice", b""), (high, high, b"alice", alice[:31]), (high, high, b"alice", alice + b"\0"),
        (high, high, long_name, KeyedVuf(high).value(long_name)),
        (high, high, b"alice", alice[:31] + bytes([alice[31] ^ 1])),
    ]:
        q.ask("stand-ins accepts", secret, key, name, value)
    q.note("plain: the value is the name")
    for name in [b"a", b"\7" * 255]:
        q.ask("stand-ins plain-value", name)
        for value in [name, name[:-1], name + b"\0", b"b"]:
            q.ask("stand-ins plain-accepts", OTHER_KEY, name, value)
    q.note("signatures")
    signature = q.let("signature", KeyedSign(low).sign(b"alice"))
    for text in [b"alice", b"", b"\xff" * 1000, b"\7" * 10681]:
        q.ask("stand-ins sign", low, text)
    for secret, key, text, given in [
        (low, low, b"alice", signature), (ZERO32, low, b"alice", signature), (low, ZERO32, b"alice", signature),
        (low, low, b"alic", signature), (low, low, b"alice", KeyedSign(low).sign(b"bob")),
        (low, low, b"alice", b""), (low, low, b"alice", signature[:31]), (low, low, b"alice", signature + b"\0"),
        (low, low, b"", KeyedSign(low).sign(b"")), (low, low, b"\7" * 10681, KeyedSign(low).sign(b"\7" * 10681)),
        (low, low, b"alice", signature[:31] + bytes([signature[31] ^ 128])),
    ]:
        q.ask("stand-ins verify", secret, key, text, given)
