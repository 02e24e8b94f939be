"""The checks of a client by the proved library, for Python: include/coniks.h says what each call means.

    cc -shared -o libconiks.so -Wl,--whole-archive crates/coniks/out/libconiks.a -Wl,--no-whole-archive

makes the shared library that `Library` loads. client.py is a program over it.
"""

import ctypes
import hashlib
import json
from bisect import bisect_left, bisect_right
from ctypes import POINTER, byref, c_bool, c_char_p, c_size_t, c_uint8, c_uint16, c_uint64

FORK, LINK, SKIP = 16, 17, 18
KEPT, BROKEN, OTHER_INDEX = 0, 19, 20
SAME, TWO_VALUES, COLLISION = 0, 21, 22
CHANGED = 23
OPEN, FINAL = 1, 2
PROMISED, PROOF, ROOTS, ROOT, REFUSED = 129, 130, 131, 132, 255
SHORT_FRAME = 28
TEXT_LEN = 2400
MAX_ROOTS = 64

# The kinds of evidence, as docs/FORMATS.md names them.
KINDS = {FORK: "fork", LINK: "link", SKIP: "skip", BROKEN: "broken-promise", CHANGED: "broken-final"}


class Part(ctypes.Structure):
    _fields_ = [("start", c_size_t), ("len", c_size_t)]

    def of(self, data):
        return data[self.start : self.start + self.len]


class Root(ctypes.Structure):
    _fields_ = [("epoch", c_uint64), ("previous_epoch", c_uint64), ("body", Part), ("vuf_key", Part), ("signature", Part)]


class Reply(ctypes.Structure):
    _fields_ = [("epoch", c_uint64), ("body", Part), ("vuf_key", Part), ("value", Part)]


class Promise(ctypes.Structure):
    _fields_ = [
        ("epoch", c_uint64),
        ("body_hash", Part),
        ("promise", Part),
        ("signature", Part),
        ("name", Part),
        ("key", Part),
        ("policy", c_uint8),
    ]


class Lens(ctypes.Structure):
    _fields_ = [("one", c_size_t), ("other", c_size_t)]


class Binding(ctypes.Structure):
    _fields_ = [("is_present", c_bool), ("policy", c_uint8), ("key", Part)]


class Frame(ctypes.Structure):
    _fields_ = [("kind", c_uint8), ("body", Part)]


class Refused(Exception):
    """The number of a refusal."""


class BadSignature(Exception):
    """A root or a promise does not verify under the provider's key."""


class NotAsked(Exception):
    """What came is not what was asked for, as a promise of another key."""


class Caught(Exception):
    """The provider signed what no honest provider signs: the kind, and the two byte strings that show it."""

    def json(self):
        """The evidence as docs/FORMATS.md has it. Whoever has the provider's public key can judge it."""
        kind, first, second = self.args
        return json.dumps({"first": first.hex(), "kind": KINDS[kind], "second": second.hex()}, separators=(",", ":"))


BYTES = [c_char_p, c_size_t]
WRITTEN = [*BYTES, POINTER(c_size_t)]
CALLS = {
    "coniks_read_root": (c_uint8, [*BYTES, POINTER(Root)]),
    "coniks_follows": (c_uint8, [*BYTES, *BYTES]),
    "coniks_evidence": (c_uint8, [*BYTES, *BYTES]),
    "coniks_read_reply": (c_uint8, [*BYTES, POINTER(Reply)]),
    "coniks_check": (c_uint8, [*BYTES, *BYTES, *BYTES, c_bool, POINTER(Binding)]),
    "coniks_compare": (c_uint8, [*BYTES, *BYTES, *BYTES, *BYTES, c_bool, c_bool, *BYTES, *BYTES, POINTER(Lens)]),
    "coniks_read_promise": (c_uint8, [*BYTES, POINTER(Promise)]),
    "coniks_test_promise": (c_uint8, [*BYTES, *BYTES, *BYTES, c_bool]),
    "coniks_test_final": (c_uint8, [*BYTES, *BYTES, *BYTES, *BYTES, *BYTES, c_bool, c_bool]),
    "coniks_write_put": (c_uint8, [c_bool, *BYTES, *BYTES, c_uint8, *WRITTEN]),
    "coniks_write_promise": (c_uint8, [*BYTES, *WRITTEN]),
    "coniks_write_lookup": (c_uint8, [*BYTES, c_uint64, *WRITTEN]),
    "coniks_write_history": (c_uint8, [c_uint64, c_uint16, *WRITTEN]),
    "coniks_write_head": (c_uint8, WRITTEN),
    "coniks_write_turn": (c_uint8, [*BYTES, c_uint64, *BYTES, *WRITTEN]),
    "coniks_read_frame": (c_uint8, [*BYTES, POINTER(Frame)]),
    "coniks_read_roots": (c_uint8, [*BYTES, POINTER(Part), c_size_t, POINTER(c_size_t)]),
    "coniks_read_refused": (c_uint8, [*BYTES, POINTER(c_uint8)]),
    "coniks_keyed_verifies": (c_bool, [*BYTES, *BYTES, *BYTES]),
    "coniks_keyed_accepts": (c_bool, [*BYTES, *BYTES, *BYTES]),
}


def with_lengths(texts):
    return [word for text in texts for word in (text, len(text))]


class Library:
    """The calls of coniks.h. What is read comes back as bytes, and a refusal as `Refused`."""

    def __init__(self, path):
        self.calls = ctypes.CDLL(path)
        for name, (result, words) in CALLS.items():
            call = getattr(self.calls, name)
            call.restype, call.argtypes = result, words

    def read_root(self, root):
        parts = Root()
        self.asked(self.calls.coniks_read_root(root, len(root), byref(parts)))
        return parts

    def follows(self, earlier, later):
        self.asked(self.calls.coniks_follows(*with_lengths([earlier, later])))

    def evidence(self, one, other):
        """`FORK`, `LINK` or `SKIP`, or 0 for nothing."""
        kind = self.calls.coniks_evidence(*with_lengths([one, other]))
        if kind == 1:
            raise Refused(kind)
        return kind

    def read_reply(self, reply):
        parts = Reply()
        self.asked(self.calls.coniks_read_reply(reply, len(reply), byref(parts)))
        return parts

    def check(self, body, name, reply, value_is_accepted):
        """The key of the name and its policy, or None if it is bound to none."""
        binding = Binding()
        self.asked(self.calls.coniks_check(*with_lengths([body, name, reply]), value_is_accepted, byref(binding)))
        return (binding.key.of(reply), binding.policy) if binding.is_present else None

    def compare(self, body, name, first, second, first_is_accepted, second_is_accepted):
        """`SAME` or `TWO_VALUES`; or `COLLISION`, and two texts with one SHA-256 value."""
        one, other, lens = ctypes.create_string_buffer(TEXT_LEN), ctypes.create_string_buffer(TEXT_LEN), Lens()
        words = [*with_lengths([body, name, first, second]), first_is_accepted, second_is_accepted]
        answer = self.calls.coniks_compare(*words, one, TEXT_LEN, other, TEXT_LEN, byref(lens))
        if answer not in (SAME, TWO_VALUES, COLLISION):
            raise Refused(answer)
        return (answer, one.raw[: lens.one], other.raw[: lens.other]) if answer == COLLISION else answer

    def read_promise(self, promise):
        parts = Promise()
        self.asked(self.calls.coniks_read_promise(promise, len(promise), byref(parts)))
        return parts

    def test_promise(self, promise, root, reply, value_is_accepted):
        """`KEPT`, `BROKEN` or `OTHER_INDEX`."""
        answer = self.calls.coniks_test_promise(*with_lengths([promise, root, reply]), value_is_accepted)
        if answer not in (KEPT, BROKEN, OTHER_INDEX):
            raise Refused(answer)
        return answer

    def test_final(self, name, root, reply, later_root, later_reply, is_accepted, later_is_accepted):
        """`CHANGED`, or 0."""
        words = with_lengths([name, root, reply, later_root, later_reply])
        answer = self.calls.coniks_test_final(*words, is_accepted, later_is_accepted)
        if answer not in (0, CHANGED):
            raise Refused(answer)
        return answer

    def write_put(self, is_change, name, key, policy=0):
        return self.written(self.calls.coniks_write_put, is_change, *with_lengths([name, key]), policy)

    def write_promise(self, name):
        return self.written(self.calls.coniks_write_promise, name, len(name))

    def write_lookup(self, name, epoch=0):
        return self.written(self.calls.coniks_write_lookup, name, len(name), epoch)

    def write_history(self, start, count=MAX_ROOTS):
        return self.written(self.calls.coniks_write_history, start, count)

    def write_head(self):
        return self.written(self.calls.coniks_write_head)

    def write_turn(self, token, epoch, nonce=b""):
        return self.written(self.calls.coniks_write_turn, token, len(token), epoch, nonce, len(nonce))

    def written(self, call, *words):
        """The frame that a call writes."""
        frame, size = ctypes.create_string_buffer(TEXT_LEN), c_size_t()
        self.asked(call(*words, frame, TEXT_LEN, byref(size)))
        return frame.raw[: size.value]

    def read_frame(self, data):
        """The kind and the body of the frame in front, or None if more has to come."""
        frame = Frame()
        answer = self.calls.coniks_read_frame(data, len(data), byref(frame))
        if answer == SHORT_FRAME:
            return None
        self.asked(answer)
        return frame.kind, frame.body.of(data)

    def read_roots(self, data):
        parts, count = (Part * MAX_ROOTS)(), c_size_t()
        self.asked(self.calls.coniks_read_roots(data, len(data), parts, MAX_ROOTS, byref(count)))
        return [part.of(data) for part in parts[: count.value]]

    def read_refused(self, body):
        """The number with which the directory refuses."""
        number = c_uint8()
        self.asked(self.calls.coniks_read_refused(body, len(body), byref(number)))
        return number.value

    def keyed_verifies(self, key, message, signature):
        return self.calls.coniks_keyed_verifies(*with_lengths([key, message, signature]))

    def keyed_accepts(self, key, name, value):
        return self.calls.coniks_keyed_accepts(*with_lengths([key, name, value]))

    @staticmethod
    def asked(answer):
        if answer:
            raise Refused(answer)


class Client:
    """What a user keeps of a provider: a chain of roots, the promises that are still to be tested, the first look at each
    final name, and evidence. A real client stores all of it. `scheme` has `verifies(key, message, signature)` and
    `accepts(key, name, value)`, as `Keyed` has. Where roots and replies come from is the caller's."""

    def __init__(self, library, scheme, key, root):
        self.library, self.scheme, self.key = library, scheme, key
        self.verify(root)
        self.roots, self.promises, self.finals, self.evidence = [root], [], {}, []

    def epoch(self, root):
        return self.library.read_root(root).epoch

    def body(self, root):
        return self.library.read_root(root).body.of(root)

    def last(self):
        """The epoch of the last root."""
        return self.epoch(self.roots[-1])

    def after(self, epoch):
        """The first root above an epoch, or None."""
        at = bisect_right(self.roots, epoch, key=self.epoch)
        return self.roots[at] if at < len(self.roots) else None

    def verify(self, root):
        parts = self.library.read_root(root)
        if not self.scheme.verifies(self.key, parts.body.of(root), parts.signature.of(root)):
            raise BadSignature
        return parts

    def verify_promise(self, promise):
        parts = self.library.read_promise(promise)
        if not self.scheme.verifies(self.key, parts.promise.of(promise), parts.signature.of(promise)):
            raise BadSignature
        return parts

    def take(self, root):
        self.take_list([root])

    def take_list(self, roots):
        """Takes each root that is next. One that the chain has changes nothing. Where another one comes, none of the list
        is taken: raises `BadSignature`, `Caught`, or `Refused` if it is no root, ahead of the chain or before its start."""
        chain = list(self.roots)
        for root in roots:
            if self.is_next(chain, root):
                chain.append(root)
        self.roots = chain

    def is_next(self, chain, root):
        """Whether a root is the next one of a chain, which else has it."""
        parts = self.verify(root)
        beside = chain[min(bisect_left(chain, parts.epoch, key=self.epoch), len(chain) - 1)]
        if self.body(beside) == parts.body.of(root):
            return False
        try:
            self.library.follows(chain[-1], root)
        except Refused:
            pair = sorted([beside, root], key=self.epoch)
            if kind := self.library.evidence(*pair):
                self.catch(kind, *pair)
            raise
        return True

    def catch(self, kind, first, second):
        """Keeps evidence, and raises it."""
        self.evidence.append(Caught(kind, first, second))
        raise self.evidence[-1] from None

    def look(self, name, reply, root=None):
        """The key and policy of a name that a reply states, or None: under a root of the chain, if none is given the last.
        Raises `Caught` if a key that was final is another one."""
        root = root or self.roots[-1]
        found = self.library.check(self.body(root), name, reply, self.is_accepted(name, reply))
        if name in self.finals:
            first, later = sorted([self.finals[name], (root, reply)], key=lambda shown: self.epoch(shown[0]))
            is_later = self.epoch(first[0]) < self.epoch(later[0])
            if is_later and self.library.test_final(name, *first, *later, True, True) == CHANGED:
                counted = len(name).to_bytes(2, "big") + name
                self.catch(CHANGED, counted + b"".join(first), b"".join(later))
        elif found and found[1] == FINAL:
            self.finals[name] = root, reply
        return found

    def is_accepted(self, name, reply):
        """Whether the value of a reply is accepted for the name, under the key of the body that it is of."""
        parts = self.library.read_reply(reply)
        return self.scheme.accepts(parts.vuf_key.of(reply), name, parts.value.of(reply))

    def keep(self, promise, name, key, policy=0):
        """Keeps a promise until it is tested. It has to be of this, and over a root of the chain."""
        parts = self.verify_promise(promise)
        root = self.after(parts.epoch - 1)
        if (parts.name.of(promise), parts.key.of(promise), parts.policy) != (name, key, policy) or root is None:
            raise NotAsked
        if self.epoch(root) != parts.epoch or hashlib.sha256(self.body(root)).digest() != parts.body_hash.of(promise):
            raise NotAsked
        self.promises.append(promise)

    def due(self):
        """The promises that can be tested: each with its name, and the root to look that up at."""
        for promise in list(self.promises):
            parts = self.library.read_promise(promise)
            if root := self.after(parts.epoch):
                yield promise, parts.name.of(promise), root

    def test(self, promise, root, reply):
        """What a reply at the root shows of a promise that is due: `KEPT`, and it is dropped, or `OTHER_INDEX`. Raises
        `Caught` if it was broken."""
        name = self.library.read_promise(promise).name.of(promise)
        answer = self.library.test_promise(promise, root, reply, self.is_accepted(name, reply))
        if answer in (KEPT, BROKEN):
            self.promises.remove(promise)
        if answer == BROKEN:
            self.catch(BROKEN, promise, root + reply)
        return answer


class Watch:
    """The watch of an owner over a name: each root of a client's chain in turn, from the last one on. What is expected is
    a key and its policy, or None."""

    def __init__(self, client, name, expected):
        self.client, self.name = client, name
        self.watched, self.expected = client.last() - 1, [(0, expected)]

    def expect(self, promise):
        """Expects what a promise for the name says, which the client keeps, from the promise's next root on. That root
        must not be watched yet, and each promise is of a later epoch than the one before."""
        parts = self.client.library.read_promise(promise)
        is_late = parts.epoch < self.watched or parts.epoch <= self.expected[-1][0]
        if parts.name.of(promise) != self.name or is_late:
            raise NotAsked
        self.expected.append((parts.epoch, (parts.key.of(promise), parts.policy)))

    def next(self):
        """The root to look the name up at, or None if all are watched."""
        return self.client.after(self.watched)

    def step(self, reply):
        """The epoch that is watched now, whether the name is as expected in it, and what was found."""
        root = self.next()
        found = self.client.look(self.name, reply, root)
        self.watched = self.client.epoch(root)
        expected = [what for after, what in self.expected if after < self.watched][-1]
        return self.watched, found == expected, found


class Keyed:
    """The stand-ins that the directory of this repository runs with. They give no security."""

    def __init__(self, library):
        self.verifies, self.accepts = library.keyed_verifies, library.keyed_accepts
