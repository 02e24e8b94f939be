"""The upper half of the reference model: all that holds state.

    Directory   pages, what waits for the next page, and the salts
    Recorded    a directory with the bytes of its journal; and open_journal
    Hub         sessions whose commands go to one directory
    Client      the chain, the looks and the promises of one user
    Monitor     what the owner of a name expects of each epoch
    Auditor     one chain for each provider
    read_evidence, judge_file, audit
    played      the text that a script prints

The byte forms, the tree, chains, replies, frames and evidence are those of formats.py. A refused call raises
`Refusal` and changes nothing.
"""

import json
import re
from dataclasses import replace
from typing import NamedTuple

from model import formats

MAX_SESSIONS = 1024

# Refusals ----------------------------------------------------------------------------------------


class DirectoryRefusal(formats.Refusal):
    """A command that a directory refuses."""

    texts = {
        4: "the name has no byte, or more than 255",
        5: "the key has no byte, or more than 2,048",
        6: "the latest epoch has the name",
        7: "the latest epoch lacks the name",
        8: "an operation on the name waits for the next epoch",
        9: "another name has the index of this one",
        10: "there is no such epoch",
        11: "the epoch is not above the latest",
        13: "no operation on the name waits",
        15: "no root is asked for, or more than 64",
        25: "the binding of the name in the latest epoch is final",
        26: "the policy is neither open nor final",
    }


class JournalRefusal(formats.Refusal):
    """A journal that is not opened."""

    texts = {1: "bad record", 2: "other keys"}


class HubRefusal(formats.Refusal):
    """An event of a session that a hub refuses."""

    texts = {
        16: "1,024 sessions are open",
        17: "the session is open",
        18: "the session is not open",
    }


class ClientRefusal(formats.Refusal):
    """What a client refuses itself. What it passes on of a root or a reply has that one's own refusal."""

    texts = {
        20: "the chain has no such root",
        21: "the root contradicts the chain",
        23: "no promise for the name is kept",
    }

    def __init__(self, number, evidence=None):
        super().__init__(number)
        self.evidence = evidence


class MonitorRefusal(formats.Refusal):
    """A change that a monitor does not expect."""

    texts = {24: "the promise is not one of this change, or comes too late"}


# The directory ----------------------------------------------------------------------------------


class Binding(NamedTuple):
    """What a page has of a name. One of version 1 has no policy."""

    key: bytes
    salt: bytes
    policy: int | None = None


class Page(NamedTuple):
    """The bindings of an epoch by name, their tree, and the signed root."""

    bindings: dict
    tree: formats.Tree
    root: formats.SignedRoot

    @property
    def epoch(self):
        return self.root.epoch


class Directory:
    """A directory that places names by `digest` and `vuf`, signs with a key, and takes salts from a stream."""

    def __init__(self, epoch, nonce, digest, vuf, signing_key, salts):
        if epoch == 0:
            raise DirectoryRefusal(11)
        self.digest, self.vuf, self.signing_key, self.salts = digest, vuf, signing_key, salts
        self.waiting, self.indices = {}, {}
        body = formats.Body(epoch, 0, formats.ZERO32, formats.ZERO32, nonce, vuf.public)
        self.pages = [self.page_of(body, {}, formats.Tree(digest, nonce))]

    def page_of(self, body, bindings, tree):
        """The page of these bindings. The root of the body is that of the tree."""
        root = formats.SignedRoot.signed(replace(body, root=tree.root()), self.signing_key)
        return Page(bindings, tree, root)

    def last(self):
        return self.pages[-1]

    def head(self):
        return self.last().root

    def head_hash(self):
        """What the next root names, and what promises are over."""
        return self.digest(self.head().body.write())

    def index_of(self, name):
        return formats.index_of(self.digest, self.vuf.value(name))

    def register(self, name, key, salt=None):
        return self.bind("register", name, key, None, salt)

    def register2(self, name, key, policy, salt=None):
        return self.bind("register", name, key, policy, salt)

    def change(self, name, key, salt=None):
        return self.bind("change", name, key, None, salt)

    def change2(self, name, key, policy, salt=None):
        return self.bind("change", name, key, policy, salt)

    def bind(self, verb, name, key, policy, salt):
        """Registers or changes a name, with a policy (any byte) or with none."""
        check_lengths(name, key)
        if policy is not None and policy not in formats.POLICIES:
            raise DirectoryRefusal(26)
        bound = self.last().bindings.get(name)
        if verb == "register" and bound is not None:
            raise DirectoryRefusal(6)
        if verb == "change" and bound is None:
            raise DirectoryRefusal(7)
        if verb == "change" and bound.policy == formats.FINAL:
            raise DirectoryRefusal(25)
        if name in self.waiting:
            raise DirectoryRefusal(8)
        if self.indices.get(self.index_of(name), name) != name:
            raise DirectoryRefusal(9)
        return self.let_wait(name, key, salt, policy)

    def let_wait(self, name, key, salt, policy):
        """Lets a binding wait for the next page. Only this draws a salt, and only where none is given."""
        self.waiting[name] = Binding(key, next(self.salts) if salt is None else salt, policy)
        self.indices[self.index_of(name)] = name
        return self.promise(name)

    def promise(self, name):
        check_lengths(name)
        if name not in self.waiting:
            raise DirectoryRefusal(13)
        key, _, policy = self.waiting[name]
        promise = formats.Promise(self.head().epoch, self.head_hash(), self.index_of(name), name, key, policy)
        return formats.SignedPromise.signed(promise, self.signing_key)

    def close(self, epoch):
        """Adds a page under the nonce of the last one."""
        return self.turn(epoch, self.last().root.body.nonce)

    def rotate(self, epoch, nonce):
        """Adds a page under another nonce."""
        return self.turn(epoch, nonce)

    def turn(self, epoch, nonce):
        """Adds a page: the bindings of the last one, overwritten by what waits."""
        last = self.last()
        if epoch <= last.epoch:
            raise DirectoryRefusal(11)
        commitments = {
            self.index_of(name): self.digest(formats.commitment_text(salt, name, key, policy))
            for name, (key, salt, policy) in self.waiting.items()
        }
        before = replace(last.root.body, previous_epoch=last.epoch, previous_hash=self.head_hash())
        body = replace(before, epoch=epoch, nonce=nonce)
        tree = last.tree if nonce == last.root.body.nonce else last.tree.renewed(nonce)
        page = self.page_of(body, last.bindings | self.waiting, tree.changed(commitments))
        self.pages.append(page)
        self.waiting = {}
        return self.head()

    def page(self, epoch):
        """The page of an epoch, where 0 asks for the latest."""
        if epoch == 0:
            return self.last()
        for page in self.pages:
            if page.epoch == epoch:
                return page
        raise DirectoryRefusal(10)

    def lookup(self, name, epoch):
        check_lengths(name)
        page = self.page(epoch)
        value = self.vuf.value(name)
        index = formats.index_of(self.digest, value)
        siblings, end = page.tree.path(index)
        if name in page.bindings:
            key, salt, policy = page.bindings[name]
            end = formats.opened(end, salt, key, policy)
        elif isinstance(end, formats.Present):
            # Another name has this index. Its leaf is shown as it is, which is no proof of absence.
            end = formats.Other(index, end.commitment)
        return formats.Reply(page.root.body, value, end, tuple(siblings))

    def history(self, start, count):
        if not 1 <= count <= formats.MAX_ROOTS:
            raise DirectoryRefusal(15)
        return [page.root for page in self.pages if page.epoch >= start][:count]

    def answer(self, request):
        """The kind and the value of the response to a request. Who may close an epoch is not asked here."""
        try:
            match request:
                case "register", name, key:
                    return formats.PROMISE, self.register(name, key)
                case "change", name, key:
                    return formats.PROMISE, self.change(name, key)
                case "register2", policy, name, key:
                    return formats.PROMISE, self.register2(name, key, policy)
                case "change2", policy, name, key:
                    return formats.PROMISE, self.change2(name, key, policy)
                case "promise", name:
                    return formats.PROMISE, self.promise(name)
                case "lookup", epoch, name:
                    return formats.PROOF, self.lookup(name, epoch)
                case "history", start, count:
                    return formats.ROOTS, self.history(start, count)
                case "head",:
                    return formats.ROOT, self.head()
                case "close", _, epoch:
                    return formats.ROOT, self.close(epoch)
                case "rotate", _, epoch, nonce:
                    return formats.ROOT, self.rotate(epoch, nonce)
        except DirectoryRefusal as refusal:
            return formats.REFUSED, refusal.number

    def run(self, requests):
        return [self.answer(request) for request in requests]


def check_lengths(name, key=b"k"):
    if not 1 <= len(name) <= formats.MAX_NAME:
        raise DirectoryRefusal(4)
    if not 1 <= len(key) <= formats.MAX_KEY:
        raise DirectoryRefusal(5)


def keyed_directory(epoch, nonce, signing_key, vuf_key, salt_key):
    """A directory of the program."""
    return Directory(epoch, nonce, formats.sha256, formats.KeyedVuf(vuf_key), signing_key, formats.salts(salt_key))


def summed_directory(epoch, nonce, signing_key, salt_key):
    """A directory by the sum of bytes, in which the value of a name is the name."""
    return Directory(epoch, nonce, formats.byte_sum, formats.PlainVuf, signing_key, formats.salts(salt_key))


# Journals ---------------------------------------------------------------------------------------


class Recorded(Directory):
    """A directory that writes a journal."""

    def __init__(self, epoch, nonce, digest, vuf, signing_key, salts):
        super().__init__(epoch, nonce, digest, vuf, signing_key, salts)
        self.journal = formats.start_record(epoch, nonce, signing_key, vuf.public)

    def bind(self, verb, name, key, policy, salt):
        promise = super().bind(verb, name, key, policy, salt)
        self.journal += formats.bound_record(verb, self.waiting[name].salt, name, key, policy)
        return promise

    def close(self, epoch):
        root = super().close(epoch)
        self.journal += formats.turned_record(epoch)
        return root

    def rotate(self, epoch, nonce):
        root = super().rotate(epoch, nonce)
        self.journal += formats.rotated_record(epoch, nonce)
        return root


def open_journal(data, digest, vuf, signing_key, salts):
    """The directory after the whole records that begin the bytes, and how many bytes these have. None where
    the bytes are a start that was cut short."""
    cursor = formats.Cursor(data)
    try:
        epoch, nonce, *keys = formats.read_front(formats.take_start_record, cursor)
    except formats.Fault:
        if formats.is_cut_start(data):
            return None
        raise JournalRefusal(1) from None
    if epoch == 0:
        raise JournalRefusal(1)
    if keys != [signing_key, vuf.public]:
        raise JournalRefusal(2)
    directory = Directory(epoch, nonce, digest, vuf, signing_key, salts)
    while (record := next_record(cursor)) is not None:
        replay(directory, *record)
    if not formats.is_cut_record(data[cursor.at :]):
        raise JournalRefusal(1)
    return directory, cursor.at


def next_record(cursor):
    """The record of a command, if a whole one comes next."""
    try:
        return formats.read_front(formats.take_later_record, cursor)
    except formats.Fault:
        return None


def replay(directory, verb, *words):
    """Carries out a record once more. Whatever the directory refuses is a bad record."""
    try:
        if verb == "turn":
            directory.close(*words)
        elif verb == "rotate":
            directory.rotate(*words)
        else:
            salt, name, key, policy = words
            directory.bind(verb, name, key, policy, salt)
    except DirectoryRefusal:
        raise JournalRefusal(1) from None


# The hub ----------------------------------------------------------------------------------------


class Hub:
    """Sessions whose streams are requests to one directory, and the token of its operator."""

    def __init__(self, directory, token):
        self.directory, self.token, self.feeds = directory, token, {}

    def open(self, session):
        if len(self.feeds) >= MAX_SESSIONS:
            raise HubRefusal(16)
        if session in self.feeds:
            raise HubRefusal(17)
        self.feeds[session] = formats.Feed()
        return b""

    def bytes(self, session, piece):
        """Hands a piece to its session. Returns the frames that answer the messages that are whole now."""
        feed = self.feed_of(session)
        if feed.failed:
            return b""
        feed.feed(piece)
        output = b""
        while (got := feed.next()) != formats.WAIT:
            if got == formats.FAILED:
                return output + formats.response_frame(formats.REFUSED, 1)
            output += formats.response_frame(*self.answer(*got))
        return output

    def end(self, session):
        self.feed_of(session)
        del self.feeds[session]
        return b""

    def feed_of(self, session):
        if session not in self.feeds:
            raise HubRefusal(18)
        return self.feeds[session]

    def answer(self, kind, body):
        """The kind and the value of the response to a frame."""
        try:
            request = formats.read_request(kind, body)
        except formats.Refusal as refusal:
            return formats.REFUSED, refusal.number
        if request[0] in ("close", "rotate") and request[1] != self.token:
            return formats.REFUSED, 12
        return self.directory.answer(request)

    def run(self, events):
        """Handles events: a verb, a session and perhaps a piece. Returns the output of each session that was
        open or is opened, ascending by number."""
        outputs = {session: b"" for session in self.feeds}
        for verb, session, *piece in events:
            try:
                output = getattr(self, verb)(session, *piece)
            except HubRefusal:
                continue
            outputs[session] = outputs.get(session, b"") + output
        return sorted(outputs.items())


class SeenHub(Hub):
    """A hub that keeps a line for each reply to a session: what its users see. Of a look-up this is what the map of
    the page has, and not what the reply shows."""

    def __init__(self, directory, token):
        super().__init__(directory, token)
        self.seen, self.names, self.session = {}, set(), None

    def open(self, session):
        output = super().open(session)
        self.seen.setdefault(session, [])
        return output

    def bytes(self, session, piece):
        self.session, feed = session, self.feed_of(session)
        had_failed = feed.failed
        output = super().bytes(session, piece)
        if feed.failed and not had_failed:
            self.seen[session].append(response_line(formats.REFUSED, 1))
        return output

    def answer(self, kind, body):
        response = super().answer(kind, body)
        try:
            line = self.line(formats.read_request(kind, body), response)
        except formats.Refusal:
            line = response_line(*response)
        self.seen[self.session].append(line)
        return response

    def line(self, request, response):
        """The line for the response to a request, whose name is kept if a page can have it."""
        command, *words = request
        names = {
            "register": words[:1], "change": words[:1], "register2": words[1:2], "change2": words[1:2], "promise": words,
            "lookup": words[1:],
        }.get(command, [])
        self.names.update(name for name in names if 1 <= len(name) <= formats.MAX_NAME)
        return response_line(*response) if response[0] != formats.PROOF else self.found(*words)

    def found(self, epoch, name):
        """What the page of an epoch has at a name. No reply shows its absence where another name has its index."""
        directory = self.directory
        page = directory.page(epoch)
        if name in page.bindings:
            key, _, policy = page.bindings[name]
            return f"present {page.epoch} {statement_text(formats.Statement(key, policy))}"
        if directory.index_of(name) in map(directory.index_of, page.bindings):
            return "client refuses proof 5"
        return f"absent {page.epoch}"

    def indices_differ(self):
        return len(set(map(self.directory.index_of, self.names))) == len(self.names)


def serve_directory(signing_key, vuf_key, salt_key, token, epoch, nonce, stream):
    """The output of one session of a new directory. Keys, token and nonce are texts; the nonce may be None."""
    signing_key, vuf_key, salt_key, token = map(formats.option_hex32, (signing_key, vuf_key, salt_key, token))
    hub = Hub(keyed_directory(epoch, formats.hex32_or_zeros(nonce), signing_key, vuf_key, salt_key), token)
    hub.open(1)
    return hub.bytes(1, stream)


# The client -------------------------------------------------------------------------------------


class Look(NamedTuple):
    """What was asked, and the reply that was accepted."""

    name: bytes
    epoch: int
    accepted: formats.Accepted


class RootFeed:
    """A list of roots in pieces: how many roots are to come, or None, and the bytes that were not taken yet."""

    def __init__(self):
        self.left, self.bytes, self.failed = None, b"", False

    def done(self):
        return self.left == 0 and not self.bytes and not self.failed

    def take(self, piece):
        if self.failed:
            raise formats.RootRefusal(formats.MALFORMED)
        self.bytes += piece

    def cut(self, size):
        """The first bytes, or None while fewer have come."""
        if len(self.bytes) < size:
            return None
        front, self.bytes = self.bytes[:size], self.bytes[size:]
        return front

    def next(self):
        """The first root, once it is whole, or None. Also one that is malformed is looked at only then."""
        if self.left is None:
            count = self.cut(2)
            if count is None:
                return None
            self.left = int.from_bytes(count, "big")
        if self.left > formats.MAX_ROOTS or (self.left == 0 and self.bytes):
            raise formats.RootRefusal(formats.MALFORMED)
        if self.left == 0 or len(self.bytes) < 148:
            return None
        root = self.cut(148 + int.from_bytes(self.bytes[146:148], "big"))
        if root is None:
            return None
        self.left -= 1
        return formats.SignedRoot.read(root)


class Client:
    """A user of the provider that has a key: its chain, the looks that were accepted, the promises to test. The kind
    of the chain says which signatures verify."""

    def __init__(self, key, root, digest, vuf, kind=formats.Chain):
        self.digest, self.vuf = digest, vuf
        self.chain = kind.start(digest, key, formats.SignedRoot.read(root))
        self.looks, self.promises = [], []

    @property
    def key(self):
        return self.chain.key

    def head(self):
        return self.chain.head()

    def update(self, roots):
        """Takes a list of roots whole or not at all."""
        try:
            self.chain.take_list(formats.read_list(roots))
        except formats.ListRefusal as refusal:
            if refusal.evidence is not None:
                raise ClientRefusal(21, refusal.evidence) from None
            raise formats.RootRefusal(LIST_REFUSALS[refusal.why]) from None

    def update_from(self, feed, piece):
        """Takes each root that a piece makes whole, before the next one is looked at."""
        feed.take(piece)
        try:
            while (root := feed.next()) is not None:
                self.update(formats.write_list([root]))
        except formats.Refusal:
            feed.failed = True
            raise

    def take_pieces(self, feed, pieces):
        """Takes pieces up to the first that is refused."""
        for piece in pieces:
            self.update_from(feed, piece)

    def look(self, name, epoch, reply):
        """What a reply states of a name at an epoch (0: the head's). The look is kept."""
        return self.look_under(self.head() if epoch == 0 else self.chain.at(epoch), name, reply)

    def look_next(self, name, epoch, reply):
        """The first epoch of the chain after this one, and the look there."""
        root = self.chain.after(epoch)
        found = self.look_under(root, name, reply)
        return root.epoch, found

    def look_under(self, root, name, reply):
        if root is None:
            raise ClientRefusal(20)
        accepted = formats.accept(self.digest, self.vuf, root.body, name, reply)
        self.looks.append(Look(name, root.epoch, accepted))
        return accepted.statement()

    def read_promise(self, promise):
        """A signed promise over a root of the chain."""
        signed = formats.SignedPromise.read(promise)
        if not self.chain.verified(self.key, signed):
            raise formats.RootRefusal(formats.BAD_SIGNATURE)
        root = self.chain.at(signed.promise.epoch)
        if root is None or self.digest(root.body.write()) != signed.promise.body_hash:
            raise ClientRefusal(20)
        return signed

    def keep_promise(self, promise):
        self.promises.append(self.read_promise(promise))

    def tested(self, name):
        """The promise of a name that is tested next: of the least epoch, and of equals the first kept."""
        of_name = [signed for signed in self.promises if signed.promise.name == name]
        return min(of_name, key=lambda signed: signed.promise.epoch, default=None)

    def due_epoch(self, name):
        """The epoch whose reply tests a promise of a name, or None."""
        signed = self.tested(name)
        root = signed and self.chain.after(signed.promise.epoch)
        return root and root.epoch

    def due(self, name, reply):
        """Tests a promise of a name: `KEPT`, `OTHER_INDEX`, or how it was broken."""
        signed = self.tested(name)
        if signed is None:
            raise ClientRefusal(23)
        root = self.chain.after(signed.promise.epoch)
        if root is None:
            raise ClientRefusal(20)
        accepted = formats.accept(self.digest, self.vuf, root.body, name, reply)
        if accepted.index != signed.promise.index:
            return OTHER_INDEX
        if accepted.statement() != signed.promise.statement():
            return formats.BrokenPromise(signed, root, reply)
        self.promises = [other for other in self.promises if other is not signed]
        return KEPT

    def finality(self, name):
        """How a final binding of a name was changed, or None: the first look that states Final and has a look at a later
        epoch, with its index and another statement, and the first such look, both in order of acceptance."""
        looks = [look for look in self.looks if look.name == name]
        for look in looks:
            stated = look.accepted.statement()
            if stated is None or stated.policy != formats.FINAL:
                continue
            for later in looks:
                is_later = look.epoch < later.epoch and look.accepted.index == later.accepted.index
                if is_later and later.accepted.statement() != stated:
                    return formats.BrokenFinal(name, *self.shown(look), *self.shown(later))
        return None

    def shown(self, look):
        """The root of a look, and the reply."""
        return self.chain.at(look.epoch), look.accepted.reply.write()


KEPT, OTHER_INDEX, AGREE = "kept", "other index", "agree"
LIST_REFUSALS = {
    "bad signature": formats.BAD_SIGNATURE,
    formats.BEFORE_START: formats.NOT_LATER,
    formats.AHEAD: formats.BAD_LINK,
}


def reconcile(one, other):
    """Compares the chains of two clients of one provider, then their looks in order of acceptance: `AGREE`,
    evidence, a collision, or `TWO_VALUES`."""
    compared = formats.compare_chains(one.chain, other.chain)
    if compared != formats.EQUAL:
        return compared
    for look in one.looks:
        for also in other.looks:
            if (look.name, look.epoch) == (also.name, also.epoch):
                answer = formats.same_or_collision(one.digest, look.accepted, also.accepted)
                if answer != formats.SAME:
                    return answer
    return AGREE


# The monitor ------------------------------------------------------------------------------------


class Change(NamedTuple):
    """What is expected above the epoch of its promise."""

    epoch: int
    statement: formats.Statement


class Alarm(NamedTuple):
    """What was found at an epoch in place of what is expected."""

    epoch: int
    found: formats.Statement | None


class Monitor:
    """Watches a name through a client. `start` is the key that is expected at first, in version 1, None for absence."""

    def __init__(self, client, name, start):
        self.client, self.name = client, name
        self.start = None if start is None else formats.Statement(start)
        self.changes, self.watched = [], 0

    @classmethod
    def new2(cls, client, name, key, policy):
        """One that expects a key with its policy at first."""
        return cls.from_start(client, name, formats.Statement(key, policy))

    @classmethod
    def from_start(cls, client, name, start):
        """One that expects a statement at first, None for absence."""
        monitor = cls(client, name, None)
        monitor.start = start
        return monitor

    def update(self, roots):
        self.client.update(roots)

    def update_from(self, feed, piece):
        self.client.update_from(feed, piece)

    def expected(self, epoch):
        """What the change with the greatest promise epoch below this one expects, else what was at the start."""
        before = [change for change in self.changes if change.epoch < epoch]
        return before[-1].statement if before else self.start

    def expect_change(self, key, promise):
        """Expects a key that was promised in version 1."""
        self.expect(formats.Statement(key), promise)

    def expect_change2(self, key, policy, promise):
        """Expects a key that was promised with its policy."""
        self.expect(formats.Statement(key, policy), promise)

    def expect(self, statement, promise):
        """Expects what was promised. Promise epochs ascend, and none above them was watched."""
        signed = self.client.read_promise(promise)
        promised = signed.promise
        if (promised.name, promised.statement()) != (self.name, statement):
            raise MonitorRefusal(24)
        if self.watched > promised.epoch or any(promised.epoch <= change.epoch for change in self.changes):
            raise MonitorRefusal(24)
        self.client.promises.append(signed)
        self.changes.append(Change(promised.epoch, statement))

    def next_epoch(self):
        """The first epoch of the chain that was not watched, or None."""
        root = self.client.chain.after(self.watched)
        return root and root.epoch

    def step(self, reply):
        """Watches the next epoch: `KEPT` or an alarm."""
        epoch = self.next_epoch()
        if epoch is None:
            raise ClientRefusal(20)
        found = self.client.look(self.name, epoch, reply)
        self.watched = epoch
        return KEPT if found == self.expected(epoch) else Alarm(epoch, found)


# The auditor ------------------------------------------------------------------------------------

STARTED, EXTENDED = "started", "extended"


class Auditor:
    """One chain for each provider, by its key, of a kind that says which signatures verify."""

    def __init__(self, digest, kind=formats.Chain):
        self.digest, self.kind, self.chains = digest, kind, {}

    def observe(self, key, root):
        """Where a root stands to its provider's chain, which starts with it or takes it as the next one."""
        root = formats.SignedRoot.read(root)
        if key not in self.chains:
            self.chains[key] = self.kind.start(self.digest, key, root)
            return STARTED
        place = self.chains[key].take(root)
        return EXTENDED if place == formats.NEXT else place

    def compare(self, key, root):
        """The same without a change. A root that may follow is ahead, and so is one of a new provider."""
        root = formats.SignedRoot.read(root)
        if key not in self.chains:
            formats.Chain.start(self.digest, key, root)  # refused where the signature does not verify
            return formats.AHEAD
        place = self.chains[key].place(root)
        return formats.AHEAD if place == formats.NEXT else place


# Evidence that is read, and the programs `judge` and `audit` -------------------------------------------

NOT_EVIDENCE = "not an evidence file"


def evidence_of(kind, first, second):
    """The evidence of a kind and two byte strings. A proof is taken as it is."""
    if kind == formats.BROKEN:
        return formats.BrokenPromise(formats.SignedPromise.read(first), *root_and_proof(formats.Cursor(second)))
    if kind == formats.BROKEN_FINAL:
        cursor = formats.Cursor(first)
        try:
            name = cursor.counted(1, formats.MAX_NAME)
        except formats.Fault:
            raise formats.RootRefusal(formats.MALFORMED) from None
        return formats.BrokenFinal(name, *root_and_proof(cursor), *root_and_proof(formats.Cursor(second)))
    return formats.RootEvidence(kind, formats.SignedRoot.read(first), formats.SignedRoot.read(second))


def root_and_proof(cursor):
    """A signed root, and what follows it."""
    try:
        root = formats.SignedRoot.take(cursor)
    except formats.Fault:
        raise formats.RootRefusal(formats.MALFORMED) from None
    return root, cursor.take(cursor.left())


def hex_bytes(text):
    """The bytes of a text in hexadecimal digits of either case."""
    if not re.fullmatch("([0-9a-fA-F]{2})*", text):
        raise ValueError(text)
    return bytes.fromhex(text)


def json_value(file):
    """The value of a JSON text. Of a key that is given twice, the last counts."""

    def refuse(word):
        raise ValueError(word)

    return json.loads(file.decode(), parse_constant=refuse)


def read_evidence(file):
    try:
        value = json_value(file)
        if not isinstance(value, dict) or sorted(value) != ["first", "kind", "second"]:
            raise ValueError
        if not all(isinstance(text, str) for text in value.values()):
            raise ValueError
        if value["kind"] not in (formats.FORK, formats.LINK, formats.SKIP, formats.BROKEN, formats.BROKEN_FINAL):
            raise ValueError
        evidence = evidence_of(value["kind"], hex_bytes(value["first"]), hex_bytes(value["second"]))
        for proof in proofs_of(evidence):
            formats.Reply.read(proof)
    except (ValueError, formats.Refusal):
        raise formats.ProgramFault(NOT_EVIDENCE) from None
    return evidence


def proofs_of(evidence):
    """The proofs that evidence has."""
    if evidence.kind == formats.BROKEN_FINAL:
        return [evidence.proof, evidence.later_proof]
    return [evidence.proof] if evidence.kind == formats.BROKEN else []


def judge_file(key, file):
    """The status and the line of `judge`. The key is a text."""
    key = formats.option_hex32(key)
    if formats.judge(formats.sha256, formats.KeyedVuf(key), key, read_evidence(file)):
        return 0, b"evidence\n"
    return 3, b"no evidence\n"


def audit(key, data):
    """What `audit` writes of signed roots, one a line. The key is a text."""
    key = formats.option_hex32(key)
    auditor = Auditor(formats.sha256)
    return b"".join(audited_line(auditor, key, line).encode() + b"\n" for line in formats.lines_of(data))


def audited_line(auditor, key, line):
    try:
        observed = auditor.observe(key, hex_bytes(line.decode("latin-1")))
    except ValueError:
        return f"refused {formats.MALFORMED}"
    except formats.Refusal as refusal:
        return f"refused {refusal.number}"
    return formats.evidence_json(observed) if isinstance(observed, formats.RootEvidence) else observed


# The play script --------------------------------------------------------------------------------

SIGNING_KEY, VUF_KEY, SALT_KEY, TOKEN = bytes([1]) * 32, bytes([2]) * 32, formats.ZERO32, formats.ZERO32


class NotACommand(Exception):
    """A line of a script that is no command."""


def number(least, most):
    """The reader of a decimal word in these bounds."""

    def read(word):
        if not re.fullmatch(b"0|[1-9][0-9]*", word) or not least <= int(word) <= most:
            raise NotACommand
        return int(word)

    return read


def hex_word(word):
    """The bytes of a word, of which `-` has none."""
    if word == b"-":
        return b""
    if not re.fullmatch(b"([0-9a-fA-F]{2})+", word):
        raise NotACommand
    return bytes.fromhex(word.decode())


def nonce_word(word):
    """The bytes of a word of 64 digits."""
    nonce = hex_word(word)
    if len(nonce) != 32:
        raise NotACommand
    return nonce


def policy_word(word):
    """The policy of its name."""
    for policy, name in formats.POLICIES.items():
        if word == name.encode():
            return policy
    raise NotACommand


EPOCH, COUNT, SESSION = number(0, formats.MAX_EPOCH), number(0, 2**16 - 1), number(1, 2**32 - 1)

COMMANDS = {
    b"register": (hex_word, hex_word),
    b"change": (hex_word, hex_word),
    b"register2": (hex_word, hex_word, policy_word),
    b"change2": (hex_word, hex_word, policy_word),
    b"promise": (hex_word,),
    b"lookup": (hex_word, EPOCH),
    b"history": (EPOCH, COUNT),
    b"head": (),
    b"close": (EPOCH,),
    b"rotate": (EPOCH, nonce_word),
    b"watch": (hex_word, hex_word),
    b"watch2": (hex_word, hex_word, policy_word),
    b"bytes": (SESSION, hex_word),
    b"end": (SESSION,),
}


def command_of(line):
    """The command of a line and what its words say. Words are parted by one space."""
    command, *words = line.split(b" ")
    readers = COMMANDS.get(command)
    if readers is None or len(words) != len(readers):
        raise NotACommand
    return command.decode(), [read(word) for read, word in zip(readers, words)]


def request_of(command, words):
    """The request of a command that goes through session 0, whose name and key have to fit in a frame."""
    if any(isinstance(word, bytes) and len(word) >= 2**16 for word in words):
        raise NotACommand
    if command == "lookup":
        words = words[1], words[0]
    elif command in ("close", "rotate"):
        words = TOKEN, *words
    elif command in ("register2", "change2"):
        words = words[2], words[0], words[1]
    if not formats.request_fits(command, *words):
        raise NotACommand
    return command, *words


class Played:
    """A run of a script: a hub, a client, an auditor, and monitors in the order of their lines."""

    def __init__(self):
        self.hub = Hub(keyed_directory(1, formats.ZERO32, SIGNING_KEY, VUF_KEY, SALT_KEY), TOKEN)
        self.hub.open(0)
        self.client = self.new_client()
        self.auditor = Auditor(formats.sha256)
        self.auditor.observe(SIGNING_KEY, self.client.head().write())
        self.monitors = []

    def ask(self, *request):
        """The kind and the value of the response to a request through session 0."""
        (response,) = responses(self.hub.bytes(0, formats.request_frame(*request)))
        return response

    def new_client(self):
        """A client that starts at the head."""
        _, root = self.ask("head")
        return Client(SIGNING_KEY, root.write(), formats.sha256, formats.KeyedVuf(VUF_KEY))

    def line(self, line):
        """The lines that a line of the script prints."""
        if line == b"" or line.startswith(b"#"):
            return []
        command, words = command_of(line)
        match command:
            case "watch" | "watch2":
                return self.watch(*words)
            case "end":
                return self.end(*words)
            case "bytes":
                return self.piece(*words) + self.new_epochs()
        return [self.asked(command, words), *self.new_epochs()]

    def asked(self, command, words):
        """The line for a command that goes through session 0."""
        kind, value = self.ask(*request_of(command, words))
        if kind == formats.PROOF:
            name, epoch = words
            found = self.client.look(name, epoch, value.write())
            return looked_line(self.client.looks[-1].epoch, found)
        if kind == formats.PROMISE and command != "promise":
            self.hand_out(value, *words)
        return response_line(kind, value)

    def hand_out(self, promise, name, key, policy=None):
        """Gives a promise to each monitor of its name."""
        for monitor in self.monitors:
            if monitor.name == name:
                monitor.expect(formats.Statement(key, policy), promise.write())

    def piece(self, session, piece):
        """The lines for a piece of a session, which is opened if it is not open."""
        if session not in self.hub.feeds:
            try:
                self.hub.open(session)
            except HubRefusal:
                return []
        output = self.hub.bytes(session, piece)
        return [f"{session}: {response_line(*response)}" for response in responses(output)]

    def end(self, session):
        if session in self.hub.feeds:
            self.hub.end(session)
        return []

    def watch(self, name, key, policy=None):
        if not 1 <= len(name) <= formats.MAX_NAME or len(key) > formats.MAX_KEY or (not key and policy is not None):
            raise NotACommand
        client = self.new_client()
        monitor = Monitor(client, name, key or None) if policy is None else Monitor.new2(client, name, key, policy)
        self.monitors.append(monitor)
        return self.steps(monitor)

    def new_epochs(self):
        """Lets client, auditor and monitors take the roots that are new, then each monitor watch them."""
        while self.client.head() != self.hub.directory.head():
            _, roots = self.ask("history", self.client.head().epoch + 1, formats.MAX_ROOTS)
            for taker in [self.client, *self.monitors]:
                taker.update(formats.write_list(roots))
            for root in roots:
                assert self.auditor.observe(SIGNING_KEY, root.write()) == EXTENDED
        return [line for monitor in self.monitors for line in self.steps(monitor)]

    def steps(self, monitor):
        """The lines for the epochs that a monitor has not watched."""
        printed = []
        while (epoch := monitor.next_epoch()) is not None:
            _, reply = self.ask("lookup", epoch, monitor.name)
            printed.append(step_line(monitor.name.hex(), epoch, monitor.step(reply.write())))
        return printed


def responses(output):
    """The kind and the value of each frame of an output."""
    feed = formats.Feed()
    feed.feed(output)
    while (got := feed.next()) != formats.WAIT:
        yield got[0], formats.read_response(*got)


def response_line(kind, value):
    if kind == formats.PROMISE:
        return f"promise {value.promise.epoch}"
    if kind == formats.PROOF:
        return f"proof {value.body.epoch}"
    if kind == formats.ROOTS:
        return " ".join(["roots", *(str(root.epoch) for root in value)])
    if kind == formats.ROOT:
        return f"root {value.epoch} after {value.body.previous_epoch}"
    return f"refused {value}"


def statement_text(statement):
    """A key, and its policy if it has one; or `absent`."""
    if statement is None:
        return "absent"
    key = statement.key.hex()
    return key if statement.policy is None else f"{key} {formats.POLICIES[statement.policy]}"


def looked_line(epoch, found):
    return f"absent {epoch}" if found is None else f"present {epoch} {statement_text(found)}"


def step_line(name, epoch, step):
    if step == KEPT:
        return f"kept {name} {epoch}"
    return f"alarm {name} {epoch} {statement_text(step.found)}"


def played(script):
    """The lines that a script prints, and the number of the line at which it stops since it is no command."""
    run = Played()
    printed = []
    for place, line in enumerate(formats.lines_of(script), 1):
        try:
            printed += run.line(line)
        except NotACommand:
            return printed, place
    return printed, None
