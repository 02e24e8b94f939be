"""Directories that may lie to those who ask them.

    Provider   a directory that answers frames, of which a lie may alter what is sent
    LIES       lies that are drawn from. Each is made of a place, the number of the reply with which it begins, and a seed

A lie gets the provider, the request and the honest reply, and returns the bytes that are sent.
"""

import copy
import itertools
import random
from dataclasses import replace

from model.formats import (
    BINDING,
    FINAL,
    MAX_ROOTS,
    OPEN,
    POLICIES,
    PROMISE,
    REFUSED,
    REQUESTS,
    REQUEST_KINDS,
    ROOT,
    ROOTS,
    ZERO32,
    Feed,
    SignedPromise,
    SignedRoot,
    bind_request,
    frame,
    read_request,
    read_response,
    request_frame,
    response_frame,
    sha256,
    split_frames,
    u32,
    write_list,
)
from model.sessions import SALT_KEY, SIGNING_KEY, TOKEN, VUF_KEY, Hub, keyed_directory

OTHER_KEY = bytes([9]) * 32
EVIL = b"ev"


class Provider:
    """A directory that answers frames, of which a lie may alter what is sent. The same one serves a connection and
    the model."""

    def __init__(self, lie=None):
        self.hub = Hub(keyed_directory(1, ZERO32, SIGNING_KEY, VUF_KEY, SALT_KEY), TOKEN)
        self.hub.open(0)
        # A lie may note something.
        self.lie, self.noted, self.runs = lie, set(), -1
        self.begin()

    def begin(self):
        """Begins the connection of a run. The first run is number 1."""
        self.count, self.is_cut, self.rest = 0, False, b""
        self.hub.feeds[0] = Feed()
        self.runs += 1

    def copied(self):
        """Another one that answers alike."""
        directory = self.hub.directory
        drawn, directory.salts = directory.salts, None
        other = copy.deepcopy(self)
        directory.salts, other.hub.directory.salts = itertools.tee(drawn)
        return other

    def answer(self, request):
        """The bytes that are sent for the frame of a request. The connection may then be cut."""
        reply = self.hub.bytes(0, request)
        self.count += 1
        return reply if self.lie is None else self.lie(self, request, reply)

    def frame(self, request):
        """The next frame, as the model of the client gets it, or None where no whole one comes."""
        if not self.is_cut:
            self.rest += self.answer(request)
        found, _, bad = split_frames(self.rest)
        if bad or not found:
            return None
        self.rest = self.rest[5 + len(found[0][1]) :]
        return found[0]

    def serve(self, connection):
        with connection:
            stream = b""
            while not self.is_cut and (piece := connection.recv(65536)):
                found, _, _ = split_frames(stream + piece)
                size = sum(5 + len(body) for _, body in found)
                for kind, body in found:
                    if not self.is_cut:
                        connection.sendall(self.answer(frame(kind, body)))
                stream = (stream + piece)[size:]


def is_of(request, *commands):
    """Whether the frame of a request is of one of these commands."""
    return request[4] in [REQUEST_KINDS[command] for command in commands]


def words_of(request):
    """The words of the frame of a request."""
    return read_request(request[4], request[5:])[1:]


def flipped(reply, at):
    """With another last bit of the byte at a place."""
    return reply[:at] + bytes([reply[at] ^ 1]) + reply[at + 1 :]


# Replies that no directory sends -------------------------------------------------------------------------------


def altered(place, seed):
    """Alters one byte behind the length of the reply of this number, or takes one away at its end."""

    def lie(provider, _request, reply):
        if provider.count != place:
            return reply
        rng = random.Random(seed)
        body = bytearray(reply[4:])
        match rng.randrange(4):
            case 0:
                body[rng.randrange(len(body))] ^= 1 << rng.randrange(8)
            case 1:
                body[rng.randrange(min(len(body), 12))] ^= 1 << rng.randrange(8)
            case 2:
                body[0] = rng.choice([0x81, 0x82, 0x83, 0x84, 0xFF, rng.randrange(256)])
            case 3:
                body = body[:-1] or bytearray(1)
        return u32(len(body)) + bytes(body)

    return lie


def cut(place, seed):
    """Cuts the connection within the reply of this number."""

    def lie(provider, _request, reply):
        if provider.count != place:
            return reply
        provider.is_cut = True
        return reply[: random.Random(seed).randrange(len(reply))]

    return lie


def bad_length(place, seed):
    """Sends a length that no frame has, or one that is longer than what comes."""

    def lie(provider, _request, reply):
        if provider.count != place:
            return reply
        provider.is_cut = True
        size = random.Random(seed).choice([0, 65537, 2**32 - 1, 60000])
        return u32(size) + reply[4:]

    return lie


# Replies of another time ----------------------------------------------------------------------------------------


def replayed(place, _seed):
    """From this reply on, answers each request of a kind by the first reply to one of that kind."""
    seen = {}

    def lie(provider, request, reply):
        first = seen.setdefault(request[4], reply)
        return first if provider.count >= place else reply

    return lie


def promised_before(place, seed):
    """From this reply on, promises are over older roots: those that were given before, or others."""
    given, rng = {}, random.Random(seed)

    def lie(provider, request, reply):
        [(kind, body)], _, _ = split_frames(reply)
        if kind != PROMISE:
            return reply
        signed = read_response(kind, body)
        before = given.setdefault((signed.promise.name, signed.promise.statement()), signed)
        if provider.count < place:
            return reply
        return frame(PROMISE, rng.choice([before, over(provider, rng.choice(provider.hub.directory.pages), signed)]).write())

    return lie


def over(provider, page, signed):
    """A promise of the same over the root of another page."""
    directory = provider.hub.directory
    promise = replace(signed.promise, epoch=page.epoch, body_hash=directory.digest(page.root.body.write()))
    return SignedPromise.signed(promise, directory.signing_key)


def older_head(place, seed):
    """From this reply on, often an older root is the latest."""
    rng = random.Random(seed)

    def lie(provider, request, reply):
        if provider.count < place or not is_of(request, "head") or rng.randrange(3) == 0:
            return reply
        return frame(ROOT, rng.choice(provider.hub.directory.pages).root.write())

    return lie


def older_among(place, seed):
    """From this reply on, a list of roots often has one more that is older than was asked for, in front or elsewhere."""
    rng = random.Random(seed)

    def lie(provider, request, reply):
        if provider.count < place or not is_of(request, "history") or rng.randrange(3) == 0:
            return reply
        return with_older(provider, request, reply, rng.choice([0, 0, 1]), rng)

    return lie


def with_older(provider, request, reply, at, rng=None):
    """A list of roots with one more that is older than was asked for: the directory's first, or any."""
    start, count = words_of(request)
    older = [page.root for page in provider.hub.directory.pages if page.epoch < start]
    [(kind, body)], _, _ = split_frames(reply)
    if kind != ROOTS or not older:
        return reply
    roots = read_response(kind, body)
    if not 1 <= len(roots) < count:
        return reply
    return frame(ROOTS, write_list([*roots[:at], rng.choice(older) if rng else older[0], *roots[at:]]))


def roots_altered(place, seed):
    """From this reply on, a list of roots often lacks some, is turned round, or has a root of another history."""
    rng = random.Random(seed)

    def lie(provider, request, reply):
        if provider.count < place or not is_of(request, "history") or rng.randrange(3) == 0:
            return reply
        return with_roots(reply, rng.choice([
            lambda _: [],
            lambda roots: roots[rng.randrange(2) :],
            lambda roots: roots[: rng.randrange(len(roots) + 1)],
            lambda roots: [root for root in roots if rng.randrange(4)],
            lambda roots: roots[::-1],
            lambda roots: rng.sample(roots, len(roots)),
            lambda roots: [*roots, *roots[-1:]],
            lambda roots: [*roots, root_behind(roots[-1] if roots else provider.hub.directory.head())],
            lambda roots: with_other(roots, rng.randrange(len(roots) or 1)),
        ]))

    return lie


def with_roots(reply, change):
    """The reply with other roots, if it is a list of roots."""
    [(kind, body)], _, _ = split_frames(reply)
    if kind != ROOTS:
        return reply
    return frame(ROOTS, write_list(change(read_response(kind, body))[:MAX_ROOTS]))


def root_behind(last):
    """A root that may follow this one, under another nonce than the directory's next one."""
    names = {"previous_epoch": last.epoch, "previous_hash": sha256(last.body.write())}
    return SignedRoot.signed(replace(last.body, epoch=last.epoch + 1, nonce=OTHER_KEY, **names), SIGNING_KEY)


def with_other(roots, at):
    """Roots of which one has another nonce, and names the same root as before."""
    others = [SignedRoot.signed(replace(root.body, nonce=OTHER_KEY), SIGNING_KEY) for root in roots[at : at + 1]]
    return [*roots[:at], *others, *roots[at + 1 :]]


# What other sessions and the directory do meanwhile ------------------------------------------------------------------


def robbed(place, seed):
    """From this reply on, keys are changed behind their owners' backs now and then, often before an epoch ends."""
    rng = random.Random(seed)

    def lie(provider, request, reply):
        if provider.count >= place and rng.randrange(2) == 0:
            rob(provider, rng.choice([b"a", b"a", b"b"]))
        return reply

    return lie


def rob(provider, name):
    """A false key is put in the place of a name's, also of a final one, unless another change waits."""
    directory = provider.hub.directory
    if name in directory.last().bindings and name not in directory.waiting:
        directory.let_wait(name, EVIL, None, None)


def finals_changed(place, seed):
    """From this reply on, a final binding becomes another one now and then."""
    rng = random.Random(seed)

    def lie(provider, _request, reply):
        directory = provider.hub.directory
        bound = directory.last().bindings.get(b"a")
        is_pinned = bound is not None and bound.policy == FINAL and b"a" not in directory.waiting
        if provider.count >= place and is_pinned and rng.randrange(2) == 0:
            key, policy = rng.choice([(EVIL, None), (EVIL, FINAL), (b"k1", OPEN), (b"k1", None)])
            directory.let_wait(b"a", key, None, policy)
        return reply

    return lie


def closed_between(place, seed):
    """From this reply on, epochs end before and behind a reply to a look-up of the latest epoch."""
    rng = random.Random(seed)

    def lie(provider, request, reply):
        if provider.count < place or not is_of(request, "lookup") or words_of(request)[0] != 0:
            return reply
        close(provider, rng.randrange(3))
        reply = provider.hub.bytes(0, request)
        close(provider, rng.randrange(3))
        return reply

    return lie


def closed_around(place, seed):
    """From this reply on, epochs end now and then before and behind any reply."""
    rng = random.Random(seed)

    def lie(provider, request, reply):
        if provider.count < place or rng.randrange(2) == 0:
            return reply
        close(provider, rng.randrange(3))
        reply = provider.hub.bytes(0, request)
        close(provider, rng.randrange(3))
        return reply

    return lie


def close(provider, epochs=1):
    """Somebody else closes some epochs."""
    for _ in range(epochs):
        provider.hub.directory.close(provider.hub.directory.head().epoch + 1)


def out_of_memory(place, seed):
    """From this reply on, memory runs out now and then."""
    rng = random.Random(seed)

    def lie(provider, request, reply):
        is_out = provider.count >= place and rng.randrange(3) == 0 and is_of(request, "lookup", "head", "history")
        return response_frame(REFUSED, 14) if is_out else reply

    return lie


def held_up(place, seed):
    """From this reply on, look-ups of one epoch fail now and then: memory runs out, or a bit is wrong."""
    rng = random.Random(seed)

    def lie(provider, request, reply):
        if provider.count < place or not is_of(request, "lookup") or words_of(request)[0] == 0 or rng.randrange(2):
            return reply
        return rng.choice([response_frame(REFUSED, 14), flipped(reply, rng.randrange(5, len(reply)))])

    return lie


# Other histories ------------------------------------------------------------------------------------------------------


def forked(place, seed):
    """From this reply on, all roots are those of another history, under the provider's key or another one."""

    def lie(provider, request, reply):
        if provider.count == place:
            rng = random.Random(seed)
            key = rng.choice([SIGNING_KEY, SIGNING_KEY, OTHER_KEY])
            provider.hub.directory = fork(provider.hub.directory, key, rng)
            provider.hub.feeds[0] = Feed()
            return provider.hub.bytes(0, request)
        return reply

    return lie


def fork(directory, key, rng):
    """A directory with the same epochs, whose first page from some place on has another nonce."""
    other = keyed_directory(1, rng.choice([ZERO32, bytes([7]) * 32]), key, VUF_KEY, SALT_KEY)
    for page in directory.pages[1:]:
        other.rotate(page.epoch, bytes([rng.randrange(2)]) * 32)
    return other


def gone_back(place, seed):
    """With this reply, the directory begins anew under the same keys, and somebody else registers names."""

    def lie(provider, request, reply):
        if provider.count != place:
            return reply
        rng = random.Random(seed)
        begin_anew(provider, rng.choice([b"a", b"b"]), rng.randrange(3))
        return provider.hub.bytes(0, request)

    return lie


def begin_anew(provider, name, epochs):
    """The directory begins anew at epoch 1, somebody else registers a name, and some epochs are closed."""
    provider.hub.directory = keyed_directory(1, ZERO32, SIGNING_KEY, VUF_KEY, SALT_KEY)
    provider.hub.directory.register(name, EVIL)
    close(provider, epochs)


def forgetful(_place, _seed):
    """Drops all that waits before each closing, so that no promise is kept."""

    def lie(provider, _request, reply):
        provider.hub.directory.waiting = {}
        return reply

    return lie


def promised_twice(_place, _seed):
    """Drops what waits before each change, so that two changes of one epoch are promised."""

    def lie(provider, request, reply):
        if not is_of(request, "change", "change2"):
            return reply
        provider.hub.directory.waiting.pop(words_of(request)[-2], None)
        return provider.hub.bytes(0, request)

    return lie


def of_another_policy(place, seed):
    """From this reply on, often takes a key with another policy than was asked for, or in the other version."""
    rng = random.Random(seed)

    def lie(provider, request, reply):
        if provider.count < place or not is_of(request, *BINDING) or rng.randrange(3) == 0:
            return reply
        name, key = words_of(request)[-2:]
        verb, directory = REQUESTS[request[4]][0].removesuffix("2"), provider.hub.directory
        if reply[4] == PROMISE:
            directory.waiting.pop(name, None)
        policy = rng.choice([None, *POLICIES])
        return provider.hub.bytes(0, request_frame(*bind_request(verb, name, key, policy)))

    return lie


# Drawn ----------------------------------------------------------------------------------------------------------------


def nothing(_place, _seed):
    """No lie."""
    return None


def from_run(first, lie):
    """A lie that is told from the run of this number on."""
    return lie and (lambda provider, request, reply: reply if provider.runs < first else lie(provider, request, reply))


def begun(epochs, lie):
    """Some epochs end before the first reply of all. Then this is the lie, if there is one."""

    def later(provider, request, reply):
        if (provider.runs, provider.count) == (1, 1):
            close(provider, epochs)
            reply = provider.hub.bytes(0, request)
        return reply if lie is None else lie(provider, request, reply)

    return later


def both(one, other):
    """A lie about what another one says, from the same reply on."""

    def make(place, seed):
        first, second = one(place, seed), other(place, seed + 1)
        return lambda provider, request, reply: second(provider, request, first(provider, request, reply))

    make.__name__ = f"{one.__name__} and {other.__name__}"
    return make


LIES = [
    nothing, altered, altered, altered, cut, bad_length, replayed, forked, forgetful,
    promised_before, promised_twice, of_another_policy, older_head, older_head, older_among, roots_altered, roots_altered, closed_between, gone_back, robbed, held_up, out_of_memory, finals_changed, finals_changed,
    *[both(robbed, other) for other in (altered, older_head, older_among, roots_altered, closed_between, gone_back, held_up, out_of_memory)],
    *[both(held_up, other) for other in (promised_before, promised_twice, forgetful, forked, older_among)],
    *[both(finals_changed, other) for other in (altered, closed_between, held_up, out_of_memory)],
]
