"""The lower half of the reference model: every byte form and every check, by Python's standard library alone.

It shares no code with the directory. docs/FORMATS.md describes the same forms: limits, refusals, readers, digests,
stand-ins, trees, roots, chains, replies, frames, evidence and items. A client in another language can be written
beside it, function by function. All numbers are big-endian.
"""

import hashlib
import struct
from bisect import bisect_left
from dataclasses import dataclass
from typing import NamedTuple

# Numbers and counted bytes -----------------------------------------------------------------------


def u8(number):
    return number.to_bytes(1, "big")


def u16(number):
    return number.to_bytes(2, "big")


def u32(number):
    return number.to_bytes(4, "big")


def u64(number):
    return number.to_bytes(8, "big")


def counted(data):
    """Bytes behind their length in two bytes."""
    return u16(len(data)) + data


ZERO32 = bytes(32)

# Limits ------------------------------------------------------------------------------------------

MAX_NAME = 255
MAX_KEY = 2048
MAX_SMALL = 256  # a signature, or a value of a name
MAX_SIBLINGS = 256
MAX_ROOTS = 64  # of a root list
MAX_FRAME = 65536  # kind and body
MAX_EPOCH = 2**64 - 1

# What a binding of version 2 promises. One of version 1 has no policy, which is neither of these.

OPEN, FINAL = 1, 2
POLICIES = {OPEN: "open", FINAL: "final"}

# Refusals ----------------------------------------------------------------------------------------


class Refusal(Exception):
    """Why a call is refused: a number and its text."""

    texts = {}

    def __init__(self, number):
        super().__init__(number)
        self.number = number

    @property
    def text(self):
        return self.texts[self.number]


class Fault(Refusal):
    """Bytes that are not of a form."""

    texts = {
        1: "the bytes end before the value does",
        2: "bytes are left after the value",
        3: "a length or a number is outside of its limits",
    }


SHORT, TRAILING, OUT_OF_RANGE = 1, 2, 3


class RootRefusal(Refusal):
    """A root, a promise or a list of roots that is not taken."""

    texts = {
        1: "the bytes are not of the form",
        2: "the signature does not verify",
        3: "the epoch is not above that of the head of the chain",
        4: "the root does not name the head of the chain as the root before it",
        5: "out of memory",
    }


MALFORMED, BAD_SIGNATURE, NOT_LATER, BAD_LINK = 1, 2, 3, 4


class ListRefusal(Exception):
    """Why a list of roots is not taken: a word and, for `evidence`, the evidence."""

    texts = {
        "bad signature": "the signature of a root does not verify",
        "before start": "a root is of an epoch before the first one of the chain",
        "ahead": "a root names a later epoch than the head's as the one before",
        "evidence": "a root is evidence with a root of the chain",
    }

    def __init__(self, why, evidence=None):
        super().__init__(why)
        self.why, self.evidence = why, evidence

    @property
    def text(self):
        return self.texts[self.why]


class ReplyRefusal(Refusal):
    """A reply to a look-up that is not accepted."""

    texts = {
        1: "the bytes do not begin with a reply",
        2: "more bytes follow the reply",
        3: "the reply is under another signed root",
        4: "the value is not accepted for the name",
        5: "the leaf that should show absence is that of the name's own index",
        6: "the leaf that should show absence is not on the way of the name's index",
        7: "the siblings do not lead from the root to the end",
    }


class FeedRefusal(Refusal):
    """A piece of a stream that is not taken."""

    texts = {1: "the stream had a length that no frame has"}


class ReadRefusal(Refusal):
    """A frame that is no request or no response."""

    texts = {
        2: "no message is of this kind",
        3: "the body is not of the form of its kind",
    }


BAD_KIND, BAD_BODY = 2, 3

# Readers -----------------------------------------------------------------------------------------


class Cursor:
    """Reads from the front of bytes. A refused call leaves the cursor where it was."""

    def __init__(self, data, at=0):
        self.data, self.at = data, at

    def copied(self):
        return Cursor(self.data, self.at)

    def left(self):
        return len(self.data) - self.at

    def take(self, count):
        if self.left() < count:
            raise Fault(SHORT)
        self.at += count
        return self.data[self.at - count : self.at]

    def number(self, size):
        return int.from_bytes(self.take(size), "big")

    def u8(self):
        return self.number(1)

    def u16(self):
        return self.number(2)

    def u32(self):
        return self.number(4)

    def u64(self):
        return self.number(8)

    def hash32(self):
        return self.take(32)

    def counted(self, least, most):
        """Bytes behind their length, which is tested before the bytes are taken."""
        ahead = self.copied()
        size = ahead.u16()
        if not least <= size <= most:
            raise Fault(OUT_OF_RANGE)
        data = ahead.take(size)
        self.at = ahead.at
        return data

    def name(self):
        return self.counted(1, MAX_NAME)

    def key(self):
        return self.counted(1, MAX_KEY)

    def small(self):
        return self.counted(1, MAX_SMALL)

    def policy(self):
        """The byte of a policy that there is, which is tested before anything behind it is read."""
        ahead = self.copied()
        policy = ahead.u8()
        if policy not in POLICIES:
            raise Fault(OUT_OF_RANGE)
        self.at = ahead.at
        return policy

    def end(self):
        if self.left():
            raise Fault(TRAILING)


def read_front(read, cursor):
    """The value at the front, by the reader of a form. A refusal leaves the cursor where it was."""
    ahead = cursor.copied()
    value = read(ahead)
    cursor.at = ahead.at
    return value


def read_whole(read, data):
    """The value that these bytes are, with nothing left over."""
    cursor = Cursor(data)
    value = read(cursor)
    cursor.end()
    return value


def read_form(read, data):
    """The same, where every fault is refused as malformed: roots, promises and lists."""
    try:
        return read_whole(read, data)
    except Fault:
        raise RootRefusal(MALFORMED) from None


def sized(data, most):
    """A name, a key or a small value: from 1 to so many bytes."""
    if not 1 <= len(data) <= most:
        raise Fault(OUT_OF_RANGE)
    return data


# Digests -----------------------------------------------------------------------------------------


def sha256(data):
    """The SHA-256 of FIPS 180-4."""
    return hashlib.sha256(data).digest()


def byte_sum(data):
    """For tests: 30 zero bytes, and the sum of all bytes modulo 65,536."""
    return bytes(30) + u16(sum(data) % 65536)


# Stand-ins for a verifiable function and for signatures, which give no security --------------------


def keyed_digest(kind, key, data):
    return sha256(u8(kind) + key + data)


class KeyedSign:
    """A signature is `SHA-256(53 || key || message)`; the public key is the secret one."""

    def __init__(self, key):
        self.public = key

    def sign(self, message):
        return keyed_digest(0x53, self.public, message)

    @staticmethod
    def verify(key, message, signature):
        return KeyedSign(key).sign(message) == signature


class KeyedVuf:
    """The value of a name is `SHA-256(56 || key || name)`; the public key is the secret one."""

    def __init__(self, key):
        self.public = key

    def value(self, name):
        return keyed_digest(0x56, self.public, name)

    @staticmethod
    def accepts(key, name, value):
        return KeyedVuf(key).value(name) == value


class PlainVuf:
    """For tests: the value of a name is the name, under any key."""

    public = ZERO32

    @staticmethod
    def value(name):
        return name

    @staticmethod
    def accepts(_key, name, value):
        return name == value


def index_of(digest, value):
    """The index of a name is the digest of its value."""
    return digest(value)


# Salts: ChaCha20 with a block counter of 64 bits and a stream number of 64 bits --------------------


def quarter_round(s, a, b, c, d):
    for x, y, z, turn in ((a, b, d, 16), (c, d, b, 12), (a, b, d, 8), (c, d, b, 7)):
        s[x] = (s[x] + s[y]) & 0xFFFFFFFF
        s[z] ^= s[x]
        s[z] = (s[z] << turn | s[z] >> (32 - turn)) & 0xFFFFFFFF


def chacha20_block(key, number, stream=0):
    words = [*struct.unpack("<4I", b"expand 32-byte k"), *struct.unpack("<8I", key)]
    words += [*struct.unpack("<4I", struct.pack("<2Q", number, stream))]
    s = list(words)
    for _ in range(10):
        for column in range(4):
            quarter_round(s, column, column + 4, column + 8, column + 12)
        for k in range(4):
            quarter_round(s, k, (k + 1) % 4 + 4, (k + 2) % 4 + 8, (k + 3) % 4 + 12)
    return struct.pack("<16I", *((x + y) & 0xFFFFFFFF for x, y in zip(s, words)))


def salts(key, stream=0):
    """The salts in order, 32 bytes each."""
    number = 0
    while True:
        block = chacha20_block(key, number, stream)
        yield block[:32]
        yield block[32:]
        number += 1


# Bits of an index --------------------------------------------------------------------------------


def bit(index, k):
    """Bit k is bit `7 - k % 8` of byte `k / 8`, so bit 0 is the greatest."""
    return index[k // 8] >> (7 - k % 8) & 1


def cut(index, n):
    """The prefix of n bits: the first n bits, the others zero."""
    number = int.from_bytes(index, "big")
    dropped = 256 - min(n, 256)
    return (number >> dropped << dropped).to_bytes(32, "big")


def agree(one, other, n):
    return cut(one, n) == cut(other, n)


def with_one(prefix, k):
    return (int.from_bytes(prefix, "big") | 1 << (255 - k)).to_bytes(32, "big")


# Node and commitment texts -------------------------------------------------------------------------


def empty_text(nonce, index, level):
    """45, nonce, the prefix of so many bits, level: 69 bytes."""
    return b"E" + nonce + cut(index, level) + u32(level)


def leaf_text(nonce, index, level, commitment):
    """4C, nonce, index, level, commitment: 101 bytes."""
    return b"L" + nonce + index + u32(level) + commitment


def interior_text(zero, one):
    """The hashes of the children of bit 0 and of bit 1: 64 bytes."""
    return zero + one


def versioned(policy):
    """01 for a text without a policy, or 02 and the policy."""
    return b"\x01" if policy is None else b"\x02" + u8(policy)


def commitment_text(salt, name, key, policy=None):
    """43, 01, salt, counted name, counted key: 38 bytes and the two. With a policy 43, 02, policy, and the same from
    the salt on."""
    return b"C" + versioned(policy) + salt + counted(name) + counted(key)


# The tree ------------------------------------------------------------------------------------------


class Present(NamedTuple):
    """The leaf of the index, with this commitment."""

    commitment: bytes


class Empty(NamedTuple):
    """No leaf."""


class Other(NamedTuple):
    """The leaf of another index."""

    index: bytes
    commitment: bytes


def end_text(nonce, index, level, end):
    """The text of the node at the end of an index's path."""
    if isinstance(end, Present):
        return leaf_text(nonce, index, level, end.commitment)
    if isinstance(end, Empty):
        return empty_text(nonce, index, level)
    return leaf_text(nonce, end.index, level, end.commitment)


def joined_text(index, level, below, sibling):
    """The interior text at a level, of the hash below on the index's side and of the sibling."""
    return interior_text(sibling, below) if bit(index, level) else interior_text(below, sibling)


def climb(digest, index, level, siblings, text):
    """The text of the node at a level on an index's way, whose end has this text."""
    for k in reversed(range(level, len(siblings))):
        text = joined_text(index, k, digest(text), siblings[k])
    return text


def leads(digest, root, index, siblings, text):
    """Whether the way goes from the root to this text. Siblings are from the root down."""
    return digest(climb(digest, index, 0, siblings, text)) == root


class Path(NamedTuple):
    siblings: list
    end: tuple


class Tree:
    """A tree over a nonce and a map from index to commitment. A changed tree is a new one.

    The node of a prefix with no item is an empty node, with one its leaf, with more an interior node.
    """

    def __init__(self, digest, nonce, items=(), nodes=()):
        self.digest, self.nonce, self.items = digest, nonce, dict(items)
        self.rows = sorted(self.items)
        self.nodes = dict(nodes)

    def changed(self, changes):
        """The tree with these items put in. Nodes with no change below them are as before."""
        changes = dict(changes)
        nodes = dict(self.nodes)
        for index in changes:
            for level in range(257):
                nodes.pop((level, cut(index, level)), None)
        return Tree(self.digest, self.nonce, self.items | changes, nodes)

    def renewed(self, nonce):
        """The tree of the same items under another nonce. No node is as before."""
        return Tree(self.digest, nonce, self.items)

    def split(self, low, high, level):
        """Where the rows of bit 1 begin, of rows that agree in so many bits."""
        return bisect_left(self.rows, 1, low, high, key=lambda index: bit(index, level))

    def node(self, low, high, prefix, level):
        """The hash of the node of a prefix of so many bits, over rows low to below high."""
        place = level, prefix
        if place not in self.nodes:
            self.nodes[place] = self.digest(self.node_text(low, high, prefix, level))
        return self.nodes[place]

    def node_text(self, low, high, prefix, level):
        if low == high:
            return empty_text(self.nonce, prefix, level)
        if high - low == 1:
            index = self.rows[low]
            return leaf_text(self.nonce, index, level, self.items[index])
        middle = self.split(low, high, level)
        zero = self.node(low, middle, prefix, level + 1)
        return interior_text(zero, self.node(middle, high, with_one(prefix, level), level + 1))

    def root(self):
        return self.node(0, len(self.rows), ZERO32, 0)

    def path(self, index):
        """The siblings on the way of an index, and what stands at its end."""
        low, high, siblings = 0, len(self.rows), []
        while high - low > 1:
            level = len(siblings)
            middle, prefix = self.split(low, high, level), cut(index, level)
            if bit(index, level):
                siblings.append(self.node(low, middle, prefix, level + 1))
                low = middle
            else:
                siblings.append(self.node(middle, high, with_one(prefix, level), level + 1))
                high = middle
        if low == high:
            return Path(siblings, Empty())
        other = self.rows[low]
        commitment = self.items[other]
        return Path(siblings, Present(commitment) if other == index else Other(other, commitment))

    def places(self):
        """The level and prefix of each node."""
        self.root()
        return set(self.nodes)


def made_count(before, changes):
    """How many nodes are made for some changes: each below which an item was put in, and each beside these
    where the old tree had none."""
    old, new = before.places(), before.changed(changes).places()
    return sum(
        (level, prefix) not in old or any(agree(index, prefix, level) for index, _ in changes)
        for level, prefix in new
    )


# Roots and promises --------------------------------------------------------------------------------


@dataclass(frozen=True)
class Body:
    """The body of a root, 146 bytes: 52, 01, epoch, previous epoch, root, previous hash, nonce, VUF key."""

    epoch: int
    previous_epoch: int
    root: bytes
    previous_hash: bytes
    nonce: bytes
    vuf_key: bytes

    def write(self):
        hashes = self.root + self.previous_hash + self.nonce + self.vuf_key
        return b"R\x01" + u64(self.epoch) + u64(self.previous_epoch) + hashes

    @staticmethod
    def take(cursor):
        """Well formed only where the previous epoch is below the epoch and, where it is 0, the previous hash
        is zero."""
        if cursor.take(2) != b"R\x01":
            raise Fault(OUT_OF_RANGE)
        body = Body(cursor.u64(), cursor.u64(), *(cursor.hash32() for _ in range(4)))
        if body.epoch <= body.previous_epoch:
            raise Fault(OUT_OF_RANGE)
        if body.previous_epoch == 0 and body.previous_hash != ZERO32:
            raise Fault(OUT_OF_RANGE)
        return body

    @staticmethod
    def read(data):
        return read_form(Body.take, data)


@dataclass(frozen=True)
class SignedRoot:
    """A body and its counted signature, which covers the body's bytes."""

    body: Body
    signature: bytes

    @property
    def epoch(self):
        return self.body.epoch

    def write(self):
        return self.body.write() + counted(self.signature)

    @staticmethod
    def take(cursor):
        return SignedRoot(Body.take(cursor), cursor.small())

    @staticmethod
    def read(data):
        return read_form(SignedRoot.take, data)

    @staticmethod
    def signed(body, key):
        return SignedRoot(body, KeyedSign(key).sign(body.write()))

    def verifies(self, key):
        return KeyedSign.verify(key, self.body.write(), self.signature)


def write_list(roots):
    """A list of at most 64 signed roots behind their number in two bytes."""
    return u16(len(roots)) + b"".join(root.write() for root in roots)


def take_list(cursor):
    count = cursor.u16()
    if count > MAX_ROOTS:
        raise Fault(OUT_OF_RANGE)
    return [SignedRoot.take(cursor) for _ in range(count)]


def read_list(data):
    return read_form(take_list, data)


@dataclass(frozen=True)
class Promise:
    """50, 01, epoch, hash of the root's body, index, counted name, counted key: at most 2,381 bytes. With a policy 50,
    02, and the policy behind the index."""

    epoch: int
    body_hash: bytes
    index: bytes
    name: bytes
    key: bytes
    policy: int | None = None

    def write(self):
        version, *policy = versioned(self.policy)
        hashes = self.body_hash + self.index + bytes(policy)
        return b"P" + u8(version) + u64(self.epoch) + hashes + counted(self.name) + counted(self.key)

    @staticmethod
    def take(cursor):
        """The epoch is at least 1."""
        front = cursor.take(2)
        if front not in (b"P\x01", b"P\x02"):
            raise Fault(OUT_OF_RANGE)
        epoch, body_hash, index = cursor.u64(), cursor.hash32(), cursor.hash32()
        policy = cursor.policy() if front == b"P\x02" else None
        promise = Promise(epoch, body_hash, index, cursor.name(), cursor.key(), policy)
        if epoch == 0:
            raise Fault(OUT_OF_RANGE)
        return promise

    def statement(self):
        """What the next page has to state of the name."""
        return Statement(self.key, self.policy)

    @staticmethod
    def read(data):
        return read_form(Promise.take, data)


@dataclass(frozen=True)
class SignedPromise:
    """A promise body and its counted signature."""

    promise: Promise
    signature: bytes

    def write(self):
        return self.promise.write() + counted(self.signature)

    @staticmethod
    def take(cursor):
        return SignedPromise(Promise.take(cursor), cursor.small())

    @staticmethod
    def read(data):
        return read_form(SignedPromise.take, data)

    @staticmethod
    def signed(promise, key):
        return SignedPromise(promise, KeyedSign(key).sign(promise.write()))

    def verifies(self, key):
        return KeyedSign.verify(key, self.promise.write(), self.signature)


# Chains ----------------------------------------------------------------------------------------------

FORK, LINK, SKIP = "fork", "link", "skip"


@dataclass(frozen=True)
class RootEvidence:
    """Two roots of one provider that cannot both be honest: a fork, a link or a skip."""

    kind: str
    a: SignedRoot
    b: SignedRoot

    def holds(self, digest, key):
        """Both verify under the key, and stand as the kind says."""
        a, b = self.a.body, self.b.body
        stands = {
            FORK: a.epoch == b.epoch and a != b,
            LINK: b.previous_epoch == a.epoch and b.previous_hash != digest(a.write()),
            SKIP: b.previous_epoch < a.epoch < b.epoch,
        }
        return self.a.verifies(key) and self.b.verifies(key) and stands[self.kind]


# Where a root stands to a chain: one of these words, or evidence.
KNOWN, NEXT, AHEAD, BEFORE_START = "known", "next", "ahead", "before start"


def linked(digest, a, b):
    """Whether b names a as the root before it, and comes later."""
    names = b.body.previous_epoch == a.epoch and b.body.previous_hash == digest(a.body.write())
    return names and b.epoch > a.epoch


class Chain:
    """Signed roots that verify under one key, where each names the one before."""

    def __init__(self, digest, key, roots):
        self.digest, self.key, self.roots = digest, key, list(roots)

    @staticmethod
    def verified(key, signed):
        """Whether a root or a promise verifies, by the signatures that the chain is of."""
        return signed.verifies(key)

    @classmethod
    def start(cls, digest, key, root):
        if not cls.verified(key, root):
            raise RootRefusal(BAD_SIGNATURE)
        return cls(digest, key, [root])

    def copy(self):
        return type(self)(self.digest, self.key, self.roots)

    def first(self):
        return self.roots[0]

    def head(self):
        return self.roots[-1]

    def at(self, epoch):
        """The root of this epoch, or None."""
        return next((root for root in self.roots if root.epoch == epoch), None)

    def after(self, epoch):
        """The first root above this epoch, or None."""
        return next((root for root in self.roots if root.epoch > epoch), None)

    def extend(self, root):
        """Appends the next root. Refused 2, 3 or 4, the first that applies."""
        if not self.verified(self.key, root):
            raise RootRefusal(BAD_SIGNATURE)
        if root.epoch <= self.head().epoch:
            raise RootRefusal(NOT_LATER)
        if not linked(self.digest, self.head(), root):
            raise RootRefusal(BAD_LINK)
        self.roots.append(root)

    def place(self, root):
        """Where a root stands: a word, or evidence. Refused 2 where it does not verify."""
        if not self.verified(self.key, root):
            raise RootRefusal(BAD_SIGNATURE)
        if root.epoch > self.head().epoch:
            return place_above(self.digest, self.head(), root)
        if root.epoch < self.first().epoch:
            return place_below(self.digest, self.first(), root)
        held = self.at(root.epoch)
        if held is None:
            return RootEvidence(SKIP, root, self.after(root.epoch))
        return KNOWN if held.body == root.body else RootEvidence(FORK, held, root)

    def take(self, root):
        """Places a root, and appends it if it is the next one."""
        place = self.place(root)
        if place == NEXT:
            self.roots.append(root)
        return place

    def take_list(self, roots):
        """Takes all roots of a list, or none."""
        taken = self.copy()
        for root in roots:
            try:
                place = taken.take(root)
            except RootRefusal:
                raise ListRefusal("bad signature") from None
            if isinstance(place, RootEvidence):
                raise ListRefusal("evidence", place)
            if place in (BEFORE_START, AHEAD):
                raise ListRefusal(place)
        self.roots = taken.roots


def place_above(digest, head, root):
    """Where a root of a later epoch than the head's stands."""
    previous = root.body.previous_epoch
    if previous < head.epoch:
        return RootEvidence(SKIP, head, root)
    if previous > head.epoch:
        return AHEAD
    return NEXT if root.body.previous_hash == digest(head.body.write()) else RootEvidence(LINK, head, root)


def place_below(digest, first, root):
    """Where a root of an epoch before the first one stands."""
    previous = first.body.previous_epoch
    if previous < root.epoch:
        return RootEvidence(SKIP, root, first)
    if previous == root.epoch and first.body.previous_hash != digest(root.body.write()):
        return RootEvidence(LINK, root, first)
    return BEFORE_START


EQUAL = "equal"


class Collision(NamedTuple):
    """Two different byte strings of one digest."""

    x: bytes
    y: bytes


def compare_chains(one, other):
    """Compares two chains of one key from the later first epoch to the earlier head: `EQUAL`, evidence, or a
    collision of two bodies."""
    start = max(one.first().epoch, other.first().epoch)
    end = min(one.head().epoch, other.head().epoch)
    if end < start:
        lower, upper = sorted((one, other), key=lambda chain: chain.first().epoch)
        place = place_above(one.digest, lower.head(), upper.first())
        return place if isinstance(place, RootEvidence) else EQUAL
    ones, others = ({root.epoch: root for root in chain.roots} for chain in (one, other))
    both = [epoch for epoch in ones if start <= epoch <= end and epoch in others]
    same = [epoch for epoch in both if ones[epoch].body == others[epoch].body]
    top = max(same, default=start - 1)
    # Below a body that both hold, the previous hashes are walked down to two bodies of one hash.
    apart = [epoch for epoch in both if epoch < top and ones[epoch].body != others[epoch].body]
    if apart:
        x, y = ones[max(apart)], others[max(apart)]
        return Collision(x.body.write(), y.body.write())
    above = [epoch for epoch in {*ones, *others} if top < epoch <= end and epoch >= start]
    if not above:
        return EQUAL
    epoch = min(above)
    if epoch in ones and epoch in others:
        return RootEvidence(FORK, ones[epoch], others[epoch])
    holder, lacking = (one, other) if epoch in ones else (other, one)
    return RootEvidence(SKIP, holder.at(epoch), lacking.after(epoch))


# Replies to a look-up ----------------------------------------------------------------------------------


class Statement(NamedTuple):
    """The key that a name has, and its policy, None in version 1. In its place None states absence."""

    key: bytes
    policy: int | None = None


class Opening(NamedTuple):
    """The leaf of the asked name, opened: the salt and the key of its commitment, and the policy if it is of version 2."""

    salt: bytes
    key: bytes
    policy: int | None = None


@dataclass(frozen=True)
class Reply:
    """The body of a root, the counted value, the end, and the counted siblings from the root down."""

    body: Body
    value: bytes
    end: tuple  # Opening, Empty or Other
    siblings: tuple

    def write(self):
        siblings = u16(len(self.siblings)) + b"".join(self.siblings)
        return self.body.write() + counted(self.value) + write_end(self.end) + siblings

    @staticmethod
    def take(cursor):
        body, value, end = Body.take(cursor), cursor.small(), take_end(cursor)
        count = cursor.u16()
        if count > MAX_SIBLINGS:
            raise Fault(OUT_OF_RANGE)
        return Reply(body, value, end, tuple(cursor.hash32() for _ in range(count)))

    @staticmethod
    def read(data):
        """Refused 2 where a reply begins the bytes and more follow, else 1."""
        cursor = Cursor(data)
        try:
            reply = Reply.take(cursor)
        except Fault:
            raise ReplyRefusal(1) from None
        if cursor.left():
            raise ReplyRefusal(2)
        return reply

    def statement(self):
        """What it states of the name, or None for absence."""
        return Statement(self.end.key, self.end.policy) if isinstance(self.end, Opening) else None


def write_end(end):
    if isinstance(end, Opening):
        front = b"\x01" if end.policy is None else b"\x04" + u8(end.policy)
        return front + end.salt + counted(end.key)
    return b"\x02" if isinstance(end, Empty) else b"\x03" + end.index + end.commitment


def take_end(cursor):
    kind = cursor.u8()
    if kind == 1:
        return Opening(cursor.hash32(), cursor.key())
    if kind == 2:
        return Empty()
    if kind == 3:
        return Other(cursor.hash32(), cursor.hash32())
    if kind == 4:
        policy = cursor.policy()
        return Opening(cursor.hash32(), cursor.key(), policy)
    raise Fault(OUT_OF_RANGE)


class Accepted(NamedTuple):
    """A reply that was accepted for a name."""

    name: bytes
    reply: Reply
    index: bytes

    def statement(self):
        return self.reply.statement()

    def end_text(self, digest):
        """The text of the node at the end of its way."""
        end, nonce = self.reply.end, self.reply.body.nonce
        if isinstance(end, Opening):
            end = Present(digest(self.opened_text()))
        return end_text(nonce, self.index, len(self.reply.siblings), end)

    def opened_text(self):
        end = self.reply.end
        return commitment_text(end.salt, self.name, end.key, end.policy)

    def texts(self, digest):
        """The node texts on its way, from the root down."""
        texts = [self.end_text(digest)]
        for k, sibling in reversed(list(enumerate(self.reply.siblings))):
            texts.append(joined_text(self.index, k, digest(texts[-1]), sibling))
        return texts[::-1]


def check(digest, vuf, body, name, reply):
    """Accepts a reply for a name under the body of a root, or refuses it 3 to 7, the first that applies."""
    if reply.body != body:
        raise ReplyRefusal(3)
    if not vuf.accepts(body.vuf_key, name, reply.value):
        raise ReplyRefusal(4)
    accepted = Accepted(name, reply, index_of(digest, reply.value))
    level = len(reply.siblings)
    if isinstance(reply.end, Other):
        if reply.end.index == accepted.index:
            raise ReplyRefusal(5)
        if not agree(reply.end.index, accepted.index, level):
            raise ReplyRefusal(6)
    if not leads(digest, body.root, accepted.index, reply.siblings, accepted.end_text(digest)):
        raise ReplyRefusal(7)
    return accepted


def check_count(reply):
    """How many digests a reply takes that is checked to its end: value, commitment, siblings and root."""
    return len(reply.siblings) + 2 + isinstance(reply.end, Opening)


def accept(digest, vuf, body, name, data):
    """Reads a reply and checks it."""
    return check(digest, vuf, body, name, Reply.read(data))


NOT_COMPARABLE, SAME, TWO_VALUES = "not comparable", "same", "two values"


def same_or_collision(digest, first, second):
    """Compares two accepted replies: a word, or a collision."""
    if first.name != second.name or first.reply.body != second.reply.body:
        return NOT_COMPARABLE
    if first.statement() == second.statement():
        return SAME
    if first.index != second.index:
        return TWO_VALUES
    for x, y in zip(first.texts(digest), second.texts(digest)):
        if x != y:
            return Collision(x, y)
    return Collision(first.opened_text(), second.opened_text())


def opened(end, salt, key, policy=None):
    """The end of a reply from that of a path: where the leaf is the name's, its salt, key and policy."""
    return Opening(salt, key, policy) if isinstance(end, Present) else end


# Journal records ---------------------------------------------------------------------------------------

VERBS = {"register": 1, "change": 2}
VERBS_2 = {"register": 3, "change": 4}


def start_record(epoch, nonce, signing_key, vuf_key):
    """4e, 01, epoch, nonce, the two public keys: 106 bytes. The first record, and only there."""
    return b"N\x01" + u64(epoch) + nonce + signing_key + vuf_key


def bound_record(verb, salt, name, key, policy=None):
    """4f, the verb, salt, counted name, counted key: 38 bytes, and those of name and key. With a policy it stands behind
    the verb, which is then one of version 2."""
    front = u8(VERBS[verb]) if policy is None else u8(VERBS_2[verb]) + u8(policy)
    return b"O" + front + salt + counted(name) + counted(key)


def turned_record(epoch):
    """43, epoch: 9 bytes."""
    return b"C" + u64(epoch)


def rotated_record(epoch, nonce):
    """4b, epoch, nonce: 41 bytes."""
    return b"K" + u64(epoch) + nonce


def take_start_record(cursor):
    if cursor.take(2) != b"N\x01":
        raise Fault(OUT_OF_RANGE)
    return cursor.u64(), cursor.hash32(), cursor.hash32(), cursor.hash32()


def take_later_record(cursor):
    """A verb, a salt, a name, a key and a policy or None; `turn` and an epoch; or `rotate`, an epoch and a nonce."""
    kind = cursor.u8()
    if kind == 0x43:
        return "turn", cursor.u64()
    if kind == 0x4B:
        return "rotate", cursor.u64(), cursor.hash32()
    verbs, verbs_2 = ({byte: verb for verb, byte in some.items()} for some in (VERBS, VERBS_2))
    if kind != 0x4F or (byte := cursor.u8()) not in verbs | verbs_2:
        raise Fault(OUT_OF_RANGE)
    policy = cursor.policy() if byte in verbs_2 else None
    return (verbs | verbs_2)[byte], cursor.hash32(), cursor.name(), cursor.key(), policy


def count_records(data):
    """How many whole records begin the bytes: a start, and then others."""
    cursor, count = Cursor(data), 0
    try:
        while True:
            read_front(take_later_record if count else take_start_record, cursor)
            count += 1
    except Fault:
        return count


def is_cut_start(data):
    """Whether more bytes, at least one, make a start of these."""
    return len(data) < 106 and b"N\x01".startswith(data[:2])


def is_cut_record(data):
    """Whether more bytes, at least one, make a record of a command of these."""
    for head, size in (b"C", 9), (b"K", 41):
        if data[:1] == head:
            return len(data) < size
    fronts = [b"C", b"O\x01", b"O\x02", *(b"O" + bytes([verb, policy]) for verb in VERBS_2.values() for policy in POLICIES)]
    front = next((front for front in fronts if front.startswith(data[: len(front)])), None)
    if front is None:
        return False
    rest = data[len(front) + 32 :]
    for most in (MAX_NAME, MAX_KEY):
        if not any(u16(size).startswith(rest[:2]) for size in range(1, most + 1)):
            return False
        end = 2 + int.from_bytes(rest[:2], "big")
        if len(rest) < max(end, 2):
            return True
        rest = rest[end:]
    return False


# Requests, responses and frames ------------------------------------------------------------------------


def frame(kind, body):
    """The length of kind and body in four bytes, the kind, the body."""
    return u32(1 + len(body)) + u8(kind) + body


# The fields of each kind of request: numbers by their size, `counted` bytes of any length, 32 bytes. A policy is any byte.
REQUESTS = {
    0x01: ("register", "counted", "counted"),
    0x02: ("change", "counted", "counted"),
    0x03: ("promise", "counted"),
    0x04: ("lookup", "u64", "counted"),
    0x05: ("history", "u64", "u16"),
    0x06: ("head",),
    0x07: ("close", "hash32", "u64"),
    0x08: ("rotate", "hash32", "u64", "hash32"),
    0x0A: ("register2", "u8", "counted", "counted"),
    0x0B: ("change2", "u8", "counted", "counted"),
}
REQUEST_KINDS = {fields[0]: kind for kind, fields in REQUESTS.items()}
BINDING = "register", "change", "register2", "change2"
WRITERS = {"counted": counted, "u64": u64, "u16": u16, "u8": u8, "hash32": bytes}


def take_field(cursor, form):
    return cursor.counted(0, 65535) if form == "counted" else getattr(cursor, form)()


def read_request(kind, body):
    """The word of a request and its fields. Refused 2 for a kind that is none, 3 for a body of another form."""
    if kind not in REQUESTS:
        raise ReadRefusal(BAD_KIND)
    word, *forms = REQUESTS[kind]
    try:
        return (word, *read_whole(lambda cursor: [take_field(cursor, form) for form in forms], body))
    except Fault:
        raise ReadRefusal(BAD_BODY) from None


def bind_request(verb, name, key, policy=None):
    """The word and the fields of a request to register a name or to change its key, with the policy if there is one."""
    return (verb, name, key) if policy is None else (f"{verb}2", policy, name, key)


def request_body(word, *fields):
    forms = REQUESTS[REQUEST_KINDS[word]][1:]
    return b"".join(WRITERS[form](field) for form, field in zip(forms, fields))


def request_frame(word, *fields):
    return frame(REQUEST_KINDS[word], request_body(word, *fields))


def request_fits(word, *fields):
    """Whether the frame has a length that a frame may have."""
    return 1 + len(request_body(word, *fields)) <= MAX_FRAME


PROMISE, PROOF, ROOTS, ROOT, REFUSED = 0x81, 0x82, 0x83, 0x84, 0xFF
# The number with which a change of a final binding is refused.
FINAL_BINDING = 25


def take_code(cursor):
    return cursor.u8()


RESPONSES = {
    PROMISE: SignedPromise.take,
    PROOF: Reply.take,
    ROOTS: take_list,
    ROOT: SignedRoot.take,
    REFUSED: take_code,
}


def read_response(kind, body):
    """What a response holds: a signed promise, a reply, a list of roots, a root, or the code of a refusal."""
    if kind not in RESPONSES:
        raise ReadRefusal(BAD_KIND)
    try:
        return read_whole(RESPONSES[kind], body)
    except Fault:
        raise ReadRefusal(BAD_BODY) from None


def response_body(kind, value):
    if kind == REFUSED:
        return u8(value)
    return write_list(value) if kind == ROOTS else value.write()


def response_frame(kind, value):
    return frame(kind, response_body(kind, value))


def split_frames(stream):
    """The whole frames at the front of a stream as (kind, body), the rest, and whether the rest begins with a
    length that no frame has."""
    found = []
    while len(stream) >= 4:
        size = int.from_bytes(stream[:4], "big")
        if not 1 <= size <= MAX_FRAME:
            return found, stream, True
        if len(stream) < 4 + size:
            break
        found.append((stream[4], stream[5 : 4 + size]))
        stream = stream[4 + size :]
    return found, stream, False


WAIT, FAILED = "waits", "failed"


class Feed:
    """A stream that comes in pieces. A bad length fails it once the frames before are taken."""

    def __init__(self):
        self.rest, self.failed = b"", False

    def feed(self, piece):
        if self.failed:
            raise FeedRefusal(1)
        self.rest += piece

    def ready(self):
        found, _, bad = split_frames(self.rest)
        return bool(self.failed or found or bad)

    def next(self):
        """The next frame as (kind, body), or `WAIT`, or `FAILED`."""
        if self.failed:
            return FAILED
        if len(self.rest) < 4:
            return WAIT
        size = int.from_bytes(self.rest[:4], "big")
        if not 1 <= size <= MAX_FRAME:
            self.failed = True
            return FAILED
        if len(self.rest) < 4 + size:
            return WAIT
        kind, body = self.rest[4], self.rest[5 : 4 + size]
        self.rest = self.rest[4 + size :]
        return kind, body


# Evidence ------------------------------------------------------------------------------------------------

BROKEN, BROKEN_FINAL = "broken-promise", "broken-final"


@dataclass(frozen=True)
class BrokenPromise:
    """A promise, the next root, and a reply under it that does not state the promised key with its policy."""

    promise: SignedPromise
    root: SignedRoot
    proof: bytes

    kind = BROKEN

    def holds(self, digest, vuf, key):
        promise, body = self.promise.promise, self.root.body
        if not (self.promise.verifies(key) and self.root.verifies(key)):
            return False
        if (body.previous_epoch, body.previous_hash) != (promise.epoch, promise.body_hash):
            return False
        try:
            accepted = accept(digest, vuf, body, promise.name, self.proof)
        except ReplyRefusal:
            return False
        return accepted.index == promise.index and accepted.statement() != promise.statement()


@dataclass(frozen=True)
class BrokenFinal:
    """Replies for one name under two roots, of which the first states a key with Final, and the later anything else."""

    name: bytes
    root: SignedRoot
    proof: bytes
    later_root: SignedRoot
    later_proof: bytes

    kind = BROKEN_FINAL

    def holds(self, digest, vuf, key):
        if not (self.root.verifies(key) and self.later_root.verifies(key) and self.root.epoch < self.later_root.epoch):
            return False
        try:
            accepted = accept(digest, vuf, self.root.body, self.name, self.proof)
            later = accept(digest, vuf, self.later_root.body, self.name, self.later_proof)
        except ReplyRefusal:
            return False
        if accepted.index != later.index or not is_final(accepted.statement()):
            return False
        return later.statement() != accepted.statement()


def is_final(statement):
    """Whether a key is stated that is never to change."""
    return statement is not None and statement.policy == FINAL


def judge(digest, vuf, key, evidence):
    """Whether evidence holds against the provider of this key."""
    if isinstance(evidence, RootEvidence):
        return evidence.holds(digest, key)
    return evidence.holds(digest, vuf, key)


def evidence_parts(evidence):
    """The two byte strings of evidence."""
    if isinstance(evidence, RootEvidence):
        return evidence.a.write(), evidence.b.write()
    if evidence.kind == BROKEN_FINAL:
        first = counted(evidence.name) + evidence.root.write() + evidence.proof
        return first, evidence.later_root.write() + evidence.later_proof
    return evidence.promise.write(), evidence.root.write() + evidence.proof


def evidence_json(evidence):
    """One compact object: first, kind, second."""
    first, second = evidence_parts(evidence)
    return f'{{"first":"{first.hex()}","kind":"{evidence.kind}","second":"{second.hex()}"}}'


# Items: the programs `root` and `prove` --------------------------------------------------------------------


class ProgramFault(Exception):
    """Why a program stops: the line that it writes to standard error. Its status is 1."""

    status = 1

    def __init__(self, text):
        super().__init__(text)
        self.text = text


BAD_HEX = "bad hex"


def lines_of(data):
    """The lines of an input, without their LF; the last may lack it."""
    lines = data.split(b"\n")
    return lines if lines[-1] else lines[:-1]


def hex32(text):
    """The 32 bytes that 64 hexadecimal digits of either case give, or None."""
    if len(text) != 64 or not all(digit in b"0123456789abcdefABCDEF" for digit in text):
        return None
    return bytes.fromhex(text.decode())


def option_hex32(text):
    value = hex32(text)
    if value is None:
        raise ProgramFault(BAD_HEX)
    return value


def hex32_or_zeros(text):
    """Zeros where the option is not given."""
    return ZERO32 if text is None else option_hex32(text)


def item_of(line):
    """`INDEX COMMITMENT`, 64 digits each and one space, or None."""
    if len(line) != 129 or line[64:65] != b" ":
        return None
    index, commitment = hex32(line[:64]), hex32(line[65:])
    return None if index is None or commitment is None else (index, commitment)


def read_items(data):
    """The items of an input. The first faulty line is the one told."""
    items = {}
    for number, line in enumerate(lines_of(data), 1):
        item = item_of(line)
        if item is None:
            raise ProgramFault(f"line {number}: bad item")
        if item[0] in items:
            raise ProgramFault(f"line {number}: index repeated")
        items[item[0]] = item[1]
    return items


def root_line(root):
    return f"root {root.hex()}\n"


def root_text(digest, nonce, data):
    """What `root` writes for this nonce (a text or None) and this input."""
    nonce = hex32_or_zeros(nonce)
    return root_line(Tree(digest, nonce, read_items(data)).root())


def prove_text(digest, nonce, index, data):
    """What `prove` writes for this nonce (a text or None), this index (a text) and this input."""
    nonce, index = hex32_or_zeros(nonce), option_hex32(index)
    tree = Tree(digest, nonce, read_items(data))
    siblings, end = tree.path(index)
    word = type(end).__name__.lower()
    lines = [f"level {len(siblings)}", " ".join([word, *(part.hex() for part in end)])]
    lines += [f"sibling {sibling.hex()}" for sibling in siblings]
    return "".join(f"{line}\n" for line in lines) + root_line(tree.root())
