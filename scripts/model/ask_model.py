"""A model of `directoryd ask`, by docs/FORMATS.md: an owner's client, which remembers from run to run.

    Memory    what FILE.kept holds, as values
    Told      what a run prints, says and has to remember of that
    Followed  a run that asks, and follows the chain of roots
    Asked     a whole run

A provider has a call `frame`, which returns the next frame, or None, for the bytes of a request.
"""

import contextlib
import json
from dataclasses import dataclass, replace
from itertools import pairwise
from typing import NamedTuple

from model import formats
from model.sessions import (
    KEPT,
    OTHER_INDEX,
    SIGNING_KEY,
    Client,
    ClientRefusal,
    DirectoryRefusal,
    Monitor,
    NotACommand,
    command_of,
    hex_word,
    looked_line,
    request_of,
    response_line,
    step_line,
)

PROVIDER = SIGNING_KEY

# How many lists of roots are taken for one reply.
MAX_LISTS = 1024


class NoReply(Exception):
    """No whole frame comes."""


class NoConnection(NoReply):
    """No connection came about."""


class Stopped(Exception):
    """A root that has to be taken is refused, or comes in too many lists."""


class ReplyRefused(formats.Refusal):
    texts = {25: "the reply is not to what was asked", 26: "the name has another index"}


WORDS = {
    **formats.FeedRefusal.texts,
    **formats.ReadRefusal.texts,
    **DirectoryRefusal.texts,
    12: "the token is not the operator's",
    14: "out of memory",
    19: "the record was not kept",
}

# What is remembered -----------------------------------------------------------------------------------------


class Mark(NamedTuple):
    """Each monitor of a name has watched each root of its chain above the one epoch, up to the other."""

    since: int
    epoch: int


class Seen(NamedTuple):
    """A reply for a name that was accepted under the root of an epoch."""

    epoch: int
    reply: bytes


@dataclass(frozen=True)
class Memory:
    """Promises, which of them are of the owner's own changes, a mark for each name that was watched, the first reply that
    stated a key with Final for each name that has one, and the lines of alarms and of evidence that were told."""

    promises: list
    changes: list
    marks: dict
    finals: dict
    alarms: list
    evidence: list

    @staticmethod
    def read(lines):
        memory = Memory([], [], {}, {}, [], [])
        for line in lines:
            memory.add(line, *line.split(" "))
        return memory

    def add(self, line, word, *words):
        match word:
            case "promise" | "change":
                self.promises.append(formats.SignedPromise.read(bytes.fromhex(*words)))
                if word == "change":
                    self.changes.append(self.promises[-1])
            case "watched":
                # The older form has one epoch.
                name, *epochs = words
                self.marks[bytes.fromhex(name)] = Mark(int(epochs[0]), int(epochs[-1]))
            case "final":
                name, epoch, reply = words
                self.finals.setdefault(bytes.fromhex(name), Seen(int(epoch), bytes.fromhex(reply)))
            case "alarm":
                self.alarms.append(line)
            case _:
                self.evidence.append(line)

    def write(self):
        word = {True: "change", False: "promise"}
        promises = [f"{word[signed in self.changes]} {signed.write().hex()}" for signed in self.promises]
        marks = [f"watched {name.hex()} {since} {epoch}" for name, (since, epoch) in self.marks.items()]
        finals = [f"final {name.hex()} {epoch} {reply.hex()}" for name, (epoch, reply) in self.finals.items()]
        return list(dict.fromkeys([*promises, *marks, *finals, *self.alarms, *self.evidence]))

    def changed_finals(self):
        """The names of which the evidence shows that a final binding was changed."""
        of_names = (json.loads(line) for line in self.evidence)
        of_finals = (each for each in of_names if each["kind"] == formats.BROKEN_FINAL)
        return {counted_front(bytes.fromhex(each["first"])) for each in of_finals}

    def alarms_of(self, name):
        return [line for line in self.alarms if line.split(" ")[1] == name.hex()]

    def changes_of(self, name):
        """Those of a name, ascending, in whatever order the lines are."""
        return sorted((signed for signed in self.changes if signed.promise.name == name), key=lambda signed: signed.promise.epoch)

    def is_watched(self, signed):
        """Whether an epoch above that of a promise was watched, by each monitor of its name, or the name has no mark.
        One whose monitor was held up at its first root has a mark with nothing watched."""
        mark = self.marks.get(signed.promise.name)
        return mark is None or mark.epoch > signed.promise.epoch


def counted_front(data):
    """The bytes that stand behind their count at the front."""
    return data[2 : 2 + int.from_bytes(data[:2], "big")]


def mark_of(monitors, earlier):
    """The mark of a name after these monitors of it, which had this one or None."""
    since = monitors[0].client.chain.first().body.previous_epoch if earlier is None else earlier.since
    epoch = min(map(watched_to, monitors))
    return Mark(min(since, epoch), epoch)


def watched_to(monitor):
    """The last epoch up to which a monitor has watched its whole chain."""
    chain, following = monitor.client.chain, monitor.next_epoch()
    return chain.head().epoch if following is None else chain.at(following).body.previous_epoch


# What is told -----------------------------------------------------------------------------------------------


class Told:
    """The lines that a run prints, its words on standard error and its status: 3 where the provider is caught, or a name
    is not as expected, and 1 where nothing can be said. And which of the lines are alarms and evidence."""

    def __init__(self):
        self.text, self.words, self.status = [], [], 0
        self.alarms, self.evidence = [], []

    def explain(self, line, words, status=1):
        self.words.append(f"{line}: {words}")
        self.status = max(self.status, status)

    def refuse(self, what, refusal, of=""):
        """Tells a refusal of the client, behind its evidence. Its words begin with what it is of."""
        if getattr(refusal, "evidence", None) is not None:
            self.tell_evidence(refusal.evidence)
        self.text.append(f"client refuses {what} {refusal.number}")
        self.explain(of + self.text[-1], refusal.text)

    def tell_evidence(self, evidence):
        self.text.append(formats.evidence_json(evidence))
        self.evidence.append(self.text[-1])
        self.status = 3

    def tell_step(self, name, epoch, step):
        self.text.append(step_line(name.hex(), epoch, step))
        if step != KEPT:
            self.alarms.append(self.text[-1])
            self.status = 3

    def tell_again(self, path, memory):
        """Tells the evidence of earlier runs, and that there are alarms of such runs."""
        for line in memory.evidence:
            self.text.append(line)
            self.explain(f"state: {path}.kept", "evidence of an earlier run", 3)
        for line in memory.alarms:
            _, name, epoch, *_ = line.split(" ")
            self.explain(f"state: {path}.kept", f"alarm of an earlier run for {name} at epoch {epoch}", 0)

    def raise_again(self, alarms):
        """Tells alarms of earlier runs."""
        for line in alarms:
            self.text.append(line)
            self.status = 3


# What is asked ----------------------------------------------------------------------------------------------

EXPECTED = {
    formats.PROMISE: (*formats.BINDING, "promise"),
    formats.PROOF: ("lookup",),
    formats.ROOTS: ("history",),
    formats.ROOT: ("head", "close", "rotate"),
}


def answers(request, kind, value, head):
    """Whether a response is one to the request: of its kind, about what it names, and no older than the head's epoch
    when it was asked."""
    command, *words = request
    if command not in EXPECTED.get(kind, ()):
        return False
    match request:
        case "register" | "change", name, key:
            return is_promise_of(value, name, formats.Statement(key), head)
        case "register2" | "change2", policy, name, key:
            return is_promise_of(value, name, formats.Statement(key, policy), head)
        case "promise", name:
            return value.promise.name == name and value.promise.epoch >= head
        case "lookup", 0, name:
            return value.body.epoch >= head and 1 <= len(name) <= formats.MAX_NAME
        case "lookup", epoch, name:
            return value.body.epoch == epoch and 1 <= len(name) <= formats.MAX_NAME
        case "history", start, count:
            return len(value) <= count and all(root.epoch >= start for root in value)
        case "close", _, epoch:
            return value.epoch == epoch
        case "rotate", _, epoch, nonce:
            return (value.epoch, value.body.nonce) == (epoch, nonce)
    return True


def is_promise_of(signed, name, statement, head):
    """Whether a promise is of a name and what it shall have, over no older root than that of an epoch."""
    promise = signed.promise
    return (promise.name, promise.statement()) == (name, statement) and promise.epoch >= head


def is_watch(name, key, policy):
    """Whether a name and a key can be watched, with these words behind them: no policy is of no key."""
    return 1 <= len(name) <= formats.MAX_NAME and (key != b"" or not policy) and len(key) <= formats.MAX_KEY


def epoch_of(value):
    """The epoch that a response is of, of a list that of the last root, or 0 if there is none."""
    match value:
        case formats.SignedPromise():
            return value.promise.epoch
        case formats.Reply():
            return value.body.epoch
        case formats.SignedRoot():
            return value.epoch
        case [*_, last]:
            return last.epoch
    return 0


class Followed(Told):
    """A run that asks, whose client and monitors follow the chain. It has no client until its chain has begun. Without a
    provider no connection comes about."""

    def __init__(self, provider):
        super().__init__()
        self.provider, self.client, self.monitors = provider, None, []

    def head_epoch(self):
        return 0 if self.client is None else self.client.head().epoch

    def ask(self, *request):
        """What the provider sends back, as a response that answers the request, or None where it is told why not."""
        if self.provider is None:
            raise NoConnection
        got = self.provider.frame(formats.request_frame(*request))
        if got is None:
            raise NoReply
        kind, body = got
        try:
            value = formats.read_response(kind, body)
        except formats.ReadRefusal as refusal:
            return self.refuse("reply", refusal)
        if kind == formats.REFUSED:
            self.text.append(f"refused {value}")
            self.explain(f"refused {value}", WORDS.get(value, "no reason is known by this number"))
            return None
        if not answers(request, kind, value, self.head_epoch()):
            return self.refuse("reply", ReplyRefused(25))
        return kind, value, body

    def start(self):
        """Begins the chain at the head."""
        got = self.ask("head")
        if got is None:
            raise Stopped
        try:
            self.client = Client(PROVIDER, got[2], formats.sha256, formats.KeyedVuf(PROVIDER))
        except formats.RootRefusal as refusal:
            self.refuse("root", refusal)
            raise Stopped from None
        self.words.append(f"state: begins at epoch {self.head_epoch()}")

    def follow(self, epoch):
        """Takes the roots up to an epoch. The monitors watch what is new after each list that does not get there."""
        try:
            for _ in range(MAX_LISTS):
                if not self.take_list():
                    return
                if self.head_epoch() >= epoch:
                    return
                self.step_all()
            raise Stopped
        except Stopped:
            self.words.append(f"no root is taken after epoch {self.head_epoch()}")
            raise

    def step_all(self):
        """What monitors do of new epochs. A client alone has none."""

    def take_list(self):
        """Takes the next roots. Returns whether there are any."""
        got = self.ask("history", self.head_epoch() + 1, formats.MAX_ROOTS)
        if got is None:
            raise Stopped
        if not got[1]:
            return False
        for taker in [self.client, *self.monitors]:
            try:
                taker.update(got[2])
            except formats.Refusal as refusal:
                self.refuse("root", refusal)
                raise Stopped from None
        return True

    def check(self, request, before, kind, value, body):
        """The line for a response, to a request that was asked at a head of the epoch `before`."""
        match value:
            case formats.Reply():
                return looked_line(value.body.epoch, self.client.look(request[2], value.body.epoch, body))
            case formats.SignedPromise():
                self.client.keep_promise(body)
            case formats.SignedRoot():
                self.place(value, before)
            case _:
                for root in value:
                    self.placed(root)
                self.compare(value, before, *request[1:])
        return response_line(kind, value)

    def place(self, root, least):
        """Refuses a root that the chain has not, or that is of an epoch below the least."""
        place = self.placed(root)
        if place == formats.BEFORE_START or root.epoch < least:
            raise formats.RootRefusal(formats.NOT_LATER)
        if place != formats.KNOWN:
            raise formats.RootRefusal(formats.BAD_LINK)

    def compare(self, roots, before, start, count):
        """Refuses roots that are not those of the chain: from its first on each of its roots, in order, up to the count, or
        at least to its head of the epoch `before`; and ahead of them those that come before its first."""
        chain = self.client.chain
        own = [root for root in roots if root.epoch >= chain.first().epoch]
        older = roots[: len(roots) - len(own)]
        wanted = [root for root in chain.roots if root.epoch >= start][: count - len(older)]
        is_own = [root.body for root in own] == [root.body for root in wanted[: len(own)]]
        is_short = any(root.epoch <= before for root in wanted[len(own) :])
        if not is_own or is_short or not self.are_older(older, start, chain.first() if own else None):
            raise ReplyRefused(25)

    def are_older(self, older, start, first):
        """Whether these are all roots from an epoch on, one after another, up to the chain's first if there is one."""
        line = older if first is None else [*older, first]
        if not all(formats.linked(self.client.digest, *pair) for pair in pairwise(line)):
            return False
        return not line or start > line[0].epoch or line[0].body.previous_epoch < max(start, 1)

    def placed(self, root):
        place = self.client.chain.place(root)
        if isinstance(place, formats.RootEvidence):
            raise ClientRefusal(21, place)
        return place


REFUSED_THINGS = {formats.PROOF: "proof", formats.PROMISE: "promise", formats.ROOTS: "root", formats.ROOT: "root"}

# A run ------------------------------------------------------------------------------------------------------


class Asked(Followed):
    """A run of `ask`. Where it has a state, these are the roots of FILE and the lines of FILE.kept; the words have FILE's
    path. With `after` the last epoch has to be above this one."""

    def __init__(self, provider, roots=None, kept=(), path="state", after=None):
        super().__init__(provider)
        self.saved, self.found, self.path, self.after = roots or [], Memory.read(kept), path, after
        self.changes, self.settled = [], None
        # What is known of final bindings, and of which names a change of one was told.
        self.finals, self.changed = dict(self.found.finals), self.found.changed_finals()

    def run(self, script, words=()):
        """Asks the lines of a script, or the words of the command line, of which the script is then the only line."""
        for _ in self.stages(script, words):
            pass

    def stages(self, script, words=()):
        """The same, with a stop after the beginning and after each line."""
        self.tell_again(self.path, self.found)
        if (name := name_to_settle(words)) is not None:
            self.settle(name)
            yield
            return
        yield from self.asked(script)
        if words and self.after is not None:
            self.tell_stale(script)

    def asked(self, script):
        """Asks the lines of a script, up to one that stops the run."""
        try:
            self.begin()
            yield
            for place, line in enumerate(formats.lines_of(script), 1):
                try:
                    self.line(line)
                except NotACommand:
                    self.words.append(f"line {place}: not a command")
                    self.status = max(self.status, 1)
                    return
                yield
        except NoReply as end:
            self.words.append("cannot connect" if isinstance(end, NoConnection) else "no reply")
            self.status = max(self.status, 1)
        except Stopped:
            self.status = max(self.status, 1)

    def tell_stale(self, line):
        """Tells the last epoch that was watched of the name of a line, or the head's, if it is not above the one that is
        wanted. A line that is neither `watch`, `watch2` nor `head` has none."""
        last = self.last_of(line)
        if last is not None and last <= self.after:
            self.text.append(f"stale {last}")
            self.status = 3

    def last_of(self, line):
        """The last epoch of what a line is about, 0 if there is none yet. Of a name it is the one of its mark, which counts
        above the one behind which the watching of the name began."""
        with contextlib.suppress(NotACommand):
            match command_of(line):
                case "head", []:
                    return self.head_epoch()
                case "watch" | "watch2", [name, key, *policy] if is_watch(name, key, policy):
                    since, epoch = self.memory().marks.get(name, Mark(0, 0))
                    return epoch if epoch > since else 0
        return None

    def settle(self, name):
        """Forgets the alarms of a name. Nothing is asked."""
        self.settled = name
        self.text.append(f"settled {name.hex()} {len(self.found.alarms_of(name))}")

    # The beginning

    def begin(self):
        if self.saved:
            self.load()
        else:
            self.start()
        self.answer(("head",), is_told=False)
        self.test_promises()

    def load(self):
        """The client of the saved chain, with the promises that are to be tested."""
        self.client = Client(PROVIDER, self.saved[0], formats.sha256, formats.KeyedVuf(PROVIDER))
        for root in self.saved[1:]:
            self.client.update(formats.write_list([formats.SignedRoot.read(root)]))
        for signed in self.found.promises:
            self.client.keep_promise(signed.write())

    # The lines

    def line(self, line):
        if line == b"" or line.startswith(b"#"):
            return
        command, words = command_of(line)
        if command in ("bytes", "end"):
            raise NotACommand
        if command in ("watch", "watch2"):
            return self.watch(*words)
        before = self.head_epoch()
        self.answer(request_of(command, words))
        if self.head_epoch() != before:
            self.go_on()

    def go_on(self):
        """Watches the epochs that are new, and tests the promises that are due."""
        self.step_all()
        self.test_promises()

    def step_all(self):
        for monitor in self.monitors:
            self.steps(monitor)

    def answer(self, request, is_told=True):
        """Asks a request, and tells what comes back: at the beginning only where it is refused."""
        before, got = self.head_epoch(), self.ask(*request)
        if got is None:
            return
        kind, value, body = got
        if epoch_of(value) > before:
            self.follow(epoch_of(value))
        try:
            line = self.check(request, before, kind, value, body)
        except ReplyRefused as refusal:
            return self.refuse("reply", refusal)
        except formats.Refusal as refusal:
            return self.refuse(REFUSED_THINGS[kind], refusal)
        if is_told:
            self.text.append(line)
        if request[0] == "lookup":
            self.note(request[2], body)
            self.note_looks(request[2])
        if request[0] in formats.BINDING:
            self.hand_out(value, body)

    def hand_out(self, signed, body):
        """Gives the promise of a change to each monitor of the name."""
        self.changes.append(signed)
        for monitor in self.monitors_of(signed.promise.name):
            try:
                monitor.expect(signed.promise.statement(), body)
            except formats.Refusal as refusal:
                self.refuse("promise", refusal, f"watching {monitor.name.hex()}: ")

    # Final bindings

    def note(self, name, body):
        """Notes a reply that was accepted for a name. The first that states a key with Final is kept. One that shows with
        it that the binding was changed is told as evidence, unless a change of the name was told before."""
        seen = Seen(formats.Reply.read(body).body.epoch, body)
        if name in self.changed:
            return
        if name not in self.finals:
            if formats.is_final(formats.Reply.read(body).statement()):
                self.finals[name] = seen
            return
        one, other = sorted((self.finals[name], seen))
        roots = [self.client.chain.at(each.epoch) for each in (one, other)]
        broken = formats.BrokenFinal(name, roots[0], one.reply, roots[1], other.reply)
        if broken.holds(formats.sha256, formats.KeyedVuf(PROVIDER), PROVIDER):
            self.tell_change(broken)

    def note_looks(self, name):
        """Tells what the looks of this run show of a name, unless a change of it was told."""
        if name not in self.changed and (broken := self.client.finality(name)):
            self.tell_change(broken)

    def tell_change(self, broken):
        self.changed.add(broken.name)
        self.tell_evidence(broken)
        self.explain(f"final binding of {broken.name.hex()}", "it was changed", 3)

    def test_promises(self):
        """Tests the promises that are due. One of a name that was watched waits for its monitor."""
        for signed in list(self.client.promises):
            if not self.waits(signed.promise.name):
                self.test(signed.promise.name)

    def test_promises_of(self, name):
        """Tests those of a name, up to one that is not found kept."""
        if not self.waits(name):
            while self.test(name):
                pass

    def waits(self, name):
        """Whether the promises of a name wait for its monitor."""
        return name in self.found.marks and not self.monitors_of(name)

    def test(self, name):
        """Tests the promise of a name that is due, if there is one. Returns whether it is found kept."""
        if (epoch := self.client.due_epoch(name)) is None:
            return False
        if (got := self.ask("lookup", epoch, name)) is None:
            return False
        try:
            due = self.client.due(name, got[2])
        except formats.Refusal as refusal:
            self.refuse("proof", refusal, f"promise for {name.hex()}: ")
            return False
        if due == OTHER_INDEX:
            self.refuse("promise", ReplyRefused(26))
        elif due != KEPT:
            self.tell_evidence(due)
            self.explain(f"promise for {name.hex()}", "it was not kept")
        self.note(name, got[2])
        return due == KEPT

    # The monitors

    def monitors_of(self, name):
        return [monitor for monitor in self.monitors if monitor.name == name]

    def watch(self, name, key, policy=None):
        if not is_watch(name, key, [] if policy is None else [policy]):
            raise NotACommand
        self.raise_again(self.found.alarms_of(name))
        mark = self.found.marks.get(name)
        first = self.client.head() if mark is None else self.client.chain.after(mark.epoch)
        if first is None:
            self.text.append(f"watched {name.hex()} {mark.epoch}")
            return
        self.monitors.append(self.monitor(first, name, formats.Statement(key, policy) if key else None))
        self.steps(self.monitors[-1])
        self.test_promises_of(name)

    def monitor(self, first, name, start):
        """A monitor from this root of the chain on. It expects the own changes that count for it, and before them what is
        given. Of those from before the root the last takes the place of that, if the mark awaits it."""
        client = Client(PROVIDER, first.write(), formats.sha256, formats.KeyedVuf(PROVIDER))
        while (root := self.client.chain.after(client.head().epoch)) is not None:
            client.update(formats.write_list([root]))
        promised = self.promised(name)
        before = [signed for signed in promised if signed.promise.epoch < first.epoch and not self.found.is_watched(signed)]
        if before:
            start = max(before, key=lambda signed: signed.promise.epoch).promise.statement()
        monitor = Monitor.from_start(client, name, start)
        for signed in promised:
            with contextlib.suppress(formats.Refusal):
                monitor.expect(signed.promise.statement(), signed.write())
        return monitor

    def promised(self, name):
        """The own changes that count for a monitor of a name: those of earlier runs, and of this one if the name was watched
        before."""
        own = [signed for signed in self.changes if signed.promise.name == name and name in self.found.marks]
        return [*self.found.changes_of(name), *own]

    def steps(self, monitor):
        """Watches the epochs that are new, up to the first whose reply is refused."""
        while (epoch := monitor.next_epoch()) is not None:
            if (got := self.ask("lookup", epoch, monitor.name)) is None:
                return
            try:
                step = monitor.step(got[2])
            except formats.Refusal as refusal:
                return self.refuse("proof", refusal, f"watching {monitor.name.hex()} at epoch {epoch}: ")
            self.tell_step(monitor.name, epoch, step)
            self.note(monitor.name, got[2])
            self.test_shown(monitor.name, epoch, got[2])

    def test_shown(self, name, epoch, body):
        """Tests the promise of a name that is due in this epoch by the reply of its monitor. One that is not kept stays, and
        evidence of that is told."""
        if self.client.due_epoch(name) != epoch:
            return
        with contextlib.suppress(formats.Refusal):
            due = self.client.due(name, body)
            if due not in (KEPT, OTHER_INDEX):
                self.tell_evidence(due)
                self.explain(f"promise for {name.hex()}", "it was not kept")

    # The end

    def state(self):
        """The lines of the two files after the run."""
        roots = self.saved if self.client is None else [root.write() for root in self.client.chain.roots]
        return [root.hex() for root in roots], self.memory().write()

    def memory(self):
        """What is remembered after the run."""
        found = self.found
        marks = {name: mark_of(self.monitors_of(name), found.marks.get(name)) for name in (monitor.name for monitor in self.monitors)}
        settled = [] if self.settled is None else found.alarms_of(self.settled)
        alarms = [line for line in [*found.alarms, *self.alarms] if line not in settled]
        memory = Memory(
            found.promises, [*found.changes, *self.changes], {**found.marks, **marks}, self.finals, alarms, [*found.evidence, *self.evidence])
        if self.client is None:
            return memory
        # Those that are still to be tested, and the changes that are still to be watched.
        untested = self.client.promises
        unwatched = [signed for signed in memory.changes if signed not in untested and not memory.is_watched(signed)]
        return replace(memory, promises=[*untested, *unwatched])


def name_to_settle(words):
    """The name in the words `settle NAME`, or None for others."""
    if len(words) != 2 or words[0] != "settle":
        return None
    try:
        name = hex_word(words[1].encode())
    except NotACommand:
        return None
    return name if 1 <= len(name) <= formats.MAX_NAME else None
