"""Values that many questions share."""

from dataclasses import replace

from model.formats import MAX_EPOCH, ZERO32, Body, Promise, SignedRoot

KEY, OTHER_KEY = bytes([1]) * 32, bytes([2]) * 32
TOP = MAX_EPOCH


def run(first, size=32):
    """Bytes that rise by one."""
    return bytes((first + k) % 256 for k in range(size))


def index(*first, last=0):
    """An index that begins with these bytes and ends with this one; the others are zero."""
    return bytes(first) + bytes(31 - len(first)) + bytes([last])


def number32(number):
    return number.to_bytes(32, "big")


def joined(items):
    return [part for item in items for part in item]


def signed(body, key=KEY):
    return SignedRoot.signed(body, key)


def changed_at(data, place, *values):
    return data[:place] + bytes(values) + data[place + len(values) :]


def path_words(end):
    return [type(end).__name__.lower(), *end]


def spoiled(rng, data):
    """The bytes with one changed, taken away, put in or added."""
    at = rng.randrange(len(data))
    return rng.choice([
        data[:at] + bytes([data[at] ^ 1 << rng.randrange(8)]) + data[at + 1:],
        data[:at],
        data[:at] + rng.randbytes(1) + data[at:],
        data + rng.randbytes(1),
    ])


def beginnings(data):
    """Each proper beginning."""
    return [data[:size] for size in range(len(data))]


def raised(data):
    """With each byte in turn replaced by its value plus 1."""
    return [changed_at(data, at, (byte + 1) % 256) for at, byte in enumerate(data)]


def flipped(data):
    """With each bit in turn flipped."""
    return [changed_at(data, at, byte ^ 1 << bit) for at, byte in enumerate(data) for bit in range(8)]


def spliced(one, other):
    """Of two values in their parts: the first parts of the one and the other parts of the other, at each boundary,
    both ways; those that are neither."""
    pairs = [(one, other), (other, one)]
    mixed = [b"".join(a[:at] + b[at:]) for a, b in pairs for at in range(1, min(len(a), len(b)))]
    return [data for data in mixed if data not in (b"".join(one), b"".join(other))]


def an_index(rng):
    """An index of few bits, so that many begin alike."""
    return rng.choice([
        rng.randbytes(32),
        rng.choice([b"\0", b"\xff", b"\x80", b"\x01"]) * 32,
        bytes(31) + rng.randbytes(1),
        rng.choice([b"\0", b"\xf0"]) + bytes(30) + rng.choice([b"\0", b"\1", b"\2"]),
    ])


BODY = Body(7, 3, run(0x20), run(0x40), run(0x60), run(0x80))
FIRST_BODY = Body(1, 0, run(0x20), ZERO32, ZERO32, run(0x80))
PROMISE_OF_ALICE = Promise(7, run(0x20), run(0x40), b"alice", b"k1")
LONG_NAME, LONG_KEY = run(0, 255), bytes(k % 251 for k in range(2048))
LONGEST_PROMISE = replace(PROMISE_OF_ALICE, name=LONG_NAME, key=LONG_KEY)
