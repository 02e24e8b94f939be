"""What a provider signs and shows, whatever it likes: for the questions of `session_vectors`."""

from dataclasses import replace

from model.formats import (
    BROKEN,
    FORK,
    LINK,
    MAX_EPOCH,
    SKIP,
    ZERO32,
    Body,
    Empty,
    KeyedVuf,
    Opening,
    Other,
    PlainVuf,
    Promise,
    Reply,
    SignedPromise,
    SignedRoot,
    Statement,
    Tree,
    byte_sum,
    climb,
    commitment_text,
    end_text,
    index_of,
    leaf_text,
    opened,
    request_frame,
    sha256,
    write_list,
)
from model.session_answers import HUB_TOKEN
from model.sessions import SALT_KEY, SIGNING_KEY, VUF_KEY, keyed_directory
from questions.values import run

OTHER_KEY = bytes([9]) * 32
TOP = MAX_EPOCH


def started(epoch=1, nonce=ZERO32):
    """The directory of the program."""
    return keyed_directory(epoch, nonce, SIGNING_KEY, VUF_KEY, SALT_KEY)


def message(*request):
    """The kind and the body of a request."""
    return request_frame(*request)[4:]


def closing(epoch, token=HUB_TOKEN):
    return request_frame("close", token, epoch)


def stated(value):
    """What a binding states, which is given as that or as a key without a policy."""
    return value if isinstance(value, Statement) else Statement(value)


class Page:
    """A signed root, and the bindings that its tree has."""

    def __init__(self, provider, root, bindings, tree):
        self.provider, self.root, self.bindings, self.tree = provider, root, bindings, tree

    @property
    def body(self):
        return self.root.body

    @property
    def epoch(self):
        return self.root.epoch

    def reply(self, name):
        """The honest reply to a look-up."""
        index = self.provider.index_of(name)
        siblings, end = self.tree.path(index)
        if name in self.bindings:
            end = opened(end, ZERO32, *stated(self.bindings[name]))
        return Reply(self.body, self.provider.vuf.value(name), end, tuple(siblings))

    def promise(self, name, key, signing_key=SIGNING_KEY, **changes):
        """A promise over this root, with these fields in place of the honest ones."""
        body_hash = self.provider.digest(self.body.write())
        promise = Promise(self.epoch, body_hash, self.provider.index_of(name), name, key)
        return SignedPromise.signed(replace(promise, **changes), signing_key).write()


class Provider:
    """Makes pages under a digest and a verifiable function. `client` is the subject of its clients."""

    def __init__(self, digest, vuf, client):
        self.digest, self.vuf, self.client = digest, vuf, client

    def index_of(self, name):
        return index_of(self.digest, self.vuf.value(name))

    def commitment(self, name, key, policy=None):
        return self.digest(commitment_text(ZERO32, name, key, policy))

    def page(self, epoch, before=None, bindings=None, items=None, signing_key=SIGNING_KEY, nonce=ZERO32, **changes):
        """The page of an epoch behind another one, with more items in its tree, and a body changed in these
        fields."""
        bindings = bindings or {}
        rows = {self.index_of(name): self.commitment(name, *stated(value)) for name, value in bindings.items()}
        tree = Tree(self.digest, nonce, rows | (items or {}))
        previous, previous_hash = 0, ZERO32
        if before:
            previous, previous_hash = before.epoch, self.digest(before.body.write())
        body = replace(Body(epoch, previous, tree.root(), previous_hash, nonce, self.vuf.public), **changes)
        return Page(self, SignedRoot.signed(body, signing_key), bindings, tree)

    def pages(self, epochs, **changes):
        """Pages one behind the other."""
        pages = []
        for epoch in epochs:
            pages.append(self.page(epoch, pages[-1] if pages else None, **changes))
        return pages


KEYED = Provider(sha256, KeyedVuf(VUF_KEY), "client")
SUMS = Provider(byte_sum, PlainVuf, "client-sum")
BOTH = KEYED, SUMS


def roots(*pages):
    return write_list([page.root for page in pages])


def written(page):
    return page.root.write()


def long_signature(page, size):
    """The root with a signature of this size, which does not verify."""
    return replace(page.root, signature=bytes(size)).write()


def lets(q, **pages):
    """Names roots."""
    for name, page in pages.items():
        q.let(name, written(page))


def folded(provider, name, end, siblings):
    """A page with a reply of these siblings, whose root is what they lead to."""
    index = provider.index_of(name)
    if isinstance(end, Opening):
        commitment = provider.digest(commitment_text(end.salt, name, end.key, end.policy))
        text = leaf_text(ZERO32, index, len(siblings), commitment)
    else:
        text = end_text(ZERO32, index, len(siblings), end)
    page = provider.page(1, root=provider.digest(climb(provider.digest, index, 0, siblings, text)))
    return page, Reply(page.body, provider.vuf.value(name), end, tuple(siblings))


def replace_nonce(page, nonce):
    """The page with another nonce in its body."""
    root = SignedRoot.signed(replace(page.body, nonce=nonce), SIGNING_KEY)
    return Page(page.provider, root, page.bindings, page.tree)


def cheats(provider=KEYED):
    """Evidence of each kind that holds: the kind, and the parts."""
    a, b, c = provider.pages([3, 7, 9])
    promised = b.promise(b"a", b"k9")
    yield FORK, [written(b), written(provider.page(7, a, nonce=run(1)))]
    yield LINK, [written(b), written(provider.page(9, provider.page(7, a, nonce=run(1))))]
    yield SKIP, [written(b), written(provider.page(9, a))]
    yield SKIP, [written(provider.page(8, b)), written(c)]
    for bindings in [{}, {b"a": b"k1"}, {b"b": b"k9", b"c": b"k"}]:
        page = provider.page(8, b, bindings)
        yield BROKEN, [promised, written(page), page.reply(b"a").write()]


def wrong_replies(provider, name, good):
    """Replies that are refused for their leaf, for the way of their leaf, and for their siblings."""
    index = provider.index_of(name)
    far = bytes(byte ^ 255 for byte in index)
    ends = [(Other(index, run(2)), good.siblings), (Other(far, run(2)), (ZERO32,)), (Empty(), (run(3),))]
    return [replace(good, end=end, siblings=siblings).write() for end, siblings in ends]
