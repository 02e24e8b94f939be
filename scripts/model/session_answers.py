"""The answers of the program `session_vectors` by the reference model.

Words and answers are those of answers.py; directories and hubs of `run` and `hub new` have the keys of a script,
and the token 04 32 times. A subject that ends in `-sum` has the same verbs by the sum of bytes, where the value of a
name is the name; only the verbs on clients of their own are not there. A verb on a value that is not there yet is
`bad question`.
"""

from model.answers import (
    OUT_OF_MEMORY,
    AnyChain,
    BadQuestion,
    Lines,
    named,
    place_words,
    policy_words,
    refused,
    statement_words,
    told,
    told_text,
    yes,
)
from model.formats import (
    BROKEN,
    BROKEN_FINAL,
    FORK,
    LINK,
    SKIP,
    ZERO32,
    BrokenFinal,
    BrokenPromise,
    KeyedVuf,
    PlainVuf,
    ProgramFault,
    Refusal,
    RootEvidence,
    SignedPromise,
    SignedRoot,
    byte_sum,
    count_records,
    evidence_json,
    evidence_parts,
    judge,
    read_request,
    response_frame,
    salts,
    sha256,
)
from model.sessions import (
    KEPT,
    SALT_KEY,
    SIGNING_KEY,
    VUF_KEY,
    Auditor,
    Client,
    Hub,
    Monitor,
    RootFeed,
    SeenHub,
    audit,
    evidence_of,
    judge_file,
    keyed_directory,
    open_journal,
    played,
    read_evidence,
    reconcile,
    serve_directory,
    summed_directory,
)

HUB_TOKEN = bytes([4]) * 32
MAX_PROOF_TEXT = 10700
MAX_SESSION = 2**32 - 1
MAX_PIECE = 65536
MOST_EVENTS = 1000
EVIDENCE_KINDS = (FORK, LINK, SKIP, BROKEN, BROKEN_FINAL)
# Refusals that no question leads to.
REFUSALS = {
    "directory-memory": f"refused 14 {OUT_OF_MEMORY}",
    "directory-unkept": "refused 19 the record was not kept",
    "keeper": "the record was not kept",
    "journal-memory": f"refused 3 {OUT_OF_MEMORY}",
    "hub-memory": f"refused 14 {OUT_OF_MEMORY}",
    "client-memory": f"refused 22 {OUT_OF_MEMORY}",
    "serve-read": "cannot read",
    "serve-write": "cannot write",
    "serve-memory": OUT_OF_MEMORY,
    "evidence-none": "not an evidence file",
    "evidence-memory": OUT_OF_MEMORY,
}


def or_none(value):
    return "none" if value is None else told(value) if isinstance(value, bytes) else str(value)


def fault_words(fault, written):
    return ["fault", str(fault.status), fault.text, written]


def altered(data):
    """Of each byte: the beginning before it; the bytes with this one 1 more; and with each of its bits flipped."""
    for at, byte in enumerate(data):
        yield data[:at]
        for other in [(byte + 1) % 256, *(byte ^ 1 << bit for bit in range(8))]:
            yield data[:at] + bytes([other]) + data[at + 1 :]


def due_words(due):
    if isinstance(due, BrokenPromise):
        parts = (due.promise.write(), due.root.write(), due.proof)
        return ["broken", *map(told, parts)]
    return [due]


def changed_words(broken):
    """A final binding that was changed: the kind, the name, and each root with its proof."""
    shown = [(broken.root, broken.proof), (broken.later_root, broken.later_proof)]
    return [broken.kind, told(broken.name), *(told(data) for root, proof in shown for data in (root.write(), proof))]


def there(value):
    """A value that was made by an earlier line."""
    if value is None:
        raise BadQuestion
    return value


class Values:
    """A directory, a client and another one, under one digest and one verifiable function."""

    def __init__(self, digest, vuf):
        self.digest, self.vuf = digest, vuf
        self.directory = self.client = self.other = None
        self.feed = RootFeed()


class SessionAnswers(Lines):
    """What stays from line to line: values of both kinds, a hub, a monitor and an auditor."""

    def __init__(self, scripts):
        super().__init__()
        self.scripts = scripts
        self.keyed, self.summed = Values(sha256, KeyedVuf), Values(byte_sum, PlainVuf)
        self.values = self.keyed
        self.hub = self.monitor = None
        self.auditor = Auditor(sha256)

    def verb(self, subject, words):
        if subject == "script":
            return self.script
        self.values = self.keyed
        if subject in ("directory-sum", "client-sum"):
            subject, self.values = subject.removesuffix("-sum"), self.summed
        return super().verb(subject, words)

    # directory

    def new_directory(self, epoch, nonce, signing_key, vuf_key, salt_key):
        if self.values is self.keyed:
            return keyed_directory(epoch, nonce, signing_key, vuf_key, salt_key)
        return summed_directory(epoch, nonce, signing_key, salt_key)

    def directory(self):
        return there(self.values.directory)

    def directory_new(self, w):
        """`new EPOCH NONCE SIGN VUF SALT`, without VUF by the sum: the head."""
        epoch, nonce, signing_key = w.number(), w.hash(), w.hash()
        vuf_key = w.hash() if self.values is self.keyed else None
        self.values.directory = self.new_directory(epoch, nonce, signing_key, vuf_key, w.hash())
        return self.directory_head(w)

    def directory_head(self, w):
        return [told(self.directory().head().write())]

    def directory_register(self, w):
        """`register NAME KEY`"""
        return [told(self.directory().register(w.bytes(), w.bytes()).write())]

    def directory_change(self, w):
        """`change NAME KEY`"""
        return [told(self.directory().change(w.bytes(), w.bytes()).write())]

    def directory_register2(self, w):
        """`register2 NAME KEY POLICY`, POLICY a byte in decimal."""
        return [told(self.directory().register2(w.bytes(), w.bytes(), w.number(255)).write())]

    def directory_change2(self, w):
        """`change2 NAME KEY POLICY`, the same."""
        return [told(self.directory().change2(w.bytes(), w.bytes(), w.number(255)).write())]

    def directory_promise(self, w):
        """`promise NAME`"""
        return [told(self.directory().promise(w.bytes()).write())]

    def directory_close(self, w):
        """`close EPOCH`"""
        return [told(self.directory().close(w.number()).write())]

    def directory_rotate(self, w):
        """`rotate EPOCH NONCE`"""
        return [told(self.directory().rotate(w.number(), w.hash()).write())]

    def directory_lookup(self, w):
        """`lookup NAME EPOCH`"""
        return [told(self.directory().lookup(w.bytes(), w.number()).write())]

    def directory_history(self, w):
        """`history FROM COUNT`: how many roots, and their bytes joined."""
        roots = self.directory().history(w.number(), w.number(2**16 - 1))
        return [str(len(roots)), told(b"".join(root.write() for root in roots))]

    def directory_replay(self, w):
        """`replay register SALT NAME KEY`, `replay change` the same, `replay register2 SALT NAME KEY POLICY`, `replay
        change2` the same, POLICY `open` or `final`, `replay turn EPOCH`, or `replay rotate EPOCH NONCE`"""
        directory, kind = self.directory(), w.word()
        if kind == "turn":
            directory.close(w.number())
        elif kind == "rotate":
            directory.rotate(w.number(), w.hash())
        elif kind in ("register", "change"):
            salt, name, key = w.hash(), w.name(), w.key()
            getattr(directory, kind)(name, key, salt)
        elif kind in ("register2", "change2"):
            salt, name, key, policy = w.hash(), w.name(), w.key(), w.policy()
            getattr(directory, kind)(name, key, policy, salt)
        else:
            raise BadQuestion
        return ["ok"]

    def directory_open(self, w):
        """`open SIGN VUF SALT BYTES`, without VUF by the sum: `nothing`; or `taken`, how many bytes, and the head. The
        salts to come are those of the stream that has the number of the records."""
        signing_key = w.hash()
        vuf = KeyedVuf(w.hash()) if self.values is self.keyed else PlainVuf
        salt_key, data = w.hash(), w.bytes()
        stream = salts(salt_key, count_records(data))
        found = open_journal(data, self.values.digest, vuf, signing_key, stream)
        if found is None:
            return ["nothing"]
        self.values.directory, taken = found
        return ["taken", str(taken), *self.directory_head(w)]

    def directory_run(self, w):
        """`run EPOCH NONCE MESSAGE..`: a new directory; each message is the kind and the body of a request."""
        epoch, nonce = w.number(), w.hash()
        requests = [self.request(message) for message in w.all_bytes()]
        replies = self.new_directory(epoch, nonce, SIGNING_KEY, VUF_KEY, SALT_KEY).run(requests)
        return [str(len(replies)), told(b"".join(response_frame(*reply) for reply in replies))]

    @staticmethod
    def request(message):
        try:
            return read_request(message[0], message[1:])
        except (IndexError, Refusal):
            raise BadQuestion from None

    # hub

    @staticmethod
    def new_hub(w, hub=Hub):
        epoch, nonce = w.number(), w.hash()
        return hub(keyed_directory(epoch, nonce, SIGNING_KEY, VUF_KEY, SALT_KEY), HUB_TOKEN)

    def hub_new(self, w):
        """`new EPOCH NONCE`, under the keys of this module."""
        self.hub = self.new_hub(w)
        return ["ok"]

    def hub_open(self, w):
        """`open S`"""
        return [told(there(self.hub).open(w.number(MAX_SESSION)))]

    def hub_bytes(self, w):
        """`bytes S PIECE`"""
        return [told(there(self.hub).bytes(w.number(MAX_SESSION), w.bytes()))]

    def hub_end(self, w):
        """`end S`"""
        return [told(there(self.hub).end(w.number(MAX_SESSION)))]

    def hub_head(self, w):
        return [told(there(self.hub).directory.head().write())]

    def hub_run(self, w):
        """`run EPOCH NONCE (open S|bytes S PIECE|end S)..`: the output of each session of a new hub."""
        return self.outputs(self.new_hub(w), self.events(w))

    def hub_run_on(self, w):
        """`run-on EPOCH NONCE COUNT (open S|bytes S PIECE|end S)..`: a run of so many events, and then the outputs of
        a run of the rest."""
        hub, count = self.new_hub(w), w.number(MOST_EVENTS)
        events = self.events(w)
        if count > len(events):
            raise BadQuestion
        hub.run(events[:count])
        return self.outputs(hub, events[count:])

    def hub_seen(self, w):
        """`seen EPOCH NONCE (open S|bytes S PIECE|end S)..`: the epoch of the last root, what users see of each reply
        to each session, and whether the names that they asked about have indices of their own."""
        return self.seen(self.new_hub(w, SeenHub), self.events(w))

    def hub_seen_sum(self, w):
        """`seen-sum EPOCH NONCE ..`: the same by the sum of bytes."""
        directory = summed_directory(w.number(), w.hash(), SIGNING_KEY, SALT_KEY)
        return self.seen(SeenHub(directory, HUB_TOKEN), self.events(w))

    @staticmethod
    def seen(hub, events):
        hub.run(events)
        words = ["head", str(hub.directory.head().epoch)]
        for session, lines in sorted(hub.seen.items()):
            words += [f"{session}:", told_text("".join(f"{line}\n" for line in lines).encode())]
        return [*words, "indices differ" if hub.indices_differ() else "indices meet"]

    @staticmethod
    def events(w):
        events = []
        while w.left():
            verb = w.word()
            if verb not in ("open", "bytes", "end"):
                raise BadQuestion
            session = w.number(MAX_SESSION)
            events.append((verb, session, w.bytes()) if verb == "bytes" else (verb, session))
        return events

    @staticmethod
    def outputs(hub, events):
        return [f"{session}:{told(output)}" for session, output in hub.run(events)] or ["-"]

    # serve

    @staticmethod
    def served(*order):
        try:
            return ["ok", told(serve_directory(*order))]
        except ProgramFault as fault:
            return fault_words(fault, "-")

    def serve_run(self, w):
        """`run EPOCH NONCE INPUT`, NONCE a text or `none`."""
        epoch, nonce, stream = w.number(), w.optional(w.text), w.bytes()
        if epoch == 0:
            raise BadQuestion
        keys = [key.hex().encode() for key in (SIGNING_KEY, VUF_KEY, SALT_KEY, HUB_TOKEN)]
        return self.served(*keys, epoch, nonce, stream)

    def serve_keys(self, w):
        """`keys SIGN VUF SALT TOKEN INPUT`, texts and what is read."""
        return self.served(*(w.text() for _ in range(4)), 1, None, w.bytes())

    # client

    def client(self):
        return there(self.values.client)

    def client_start(self, w):
        """`start KEY ROOT`"""
        self.values.client = Client(w.hash(), w.bytes(), self.values.digest, self.values.vuf)
        return ["ok"]

    def client_update(self, w):
        """`update LIST`"""
        return self.done(self.client().update, w.bytes())

    def client_feed(self, w):
        """A new list begins."""
        self.values.feed = RootFeed()
        return ["ok"]

    def client_done(self, w):
        """Whether the list has come whole."""
        return [yes(self.values.feed.done())]

    def client_from(self, w):
        """`from SIZE BYTES`: the bytes in pieces of that size, or in one if it is 0, up to the first refusal."""
        return self.in_pieces(self.client(), w)

    def in_pieces(self, taker, w):
        size, data = w.number(MAX_PIECE), w.bytes()
        pieces = [data[at : at + size] for at in range(0, len(data), size)] if size else [data]

        def take():
            for piece in pieces:
                taker.update_from(self.values.feed, piece)

        return self.done(take)

    @staticmethod
    def done(call, *words):
        """`ok`, or the refusal, behind the evidence that it has."""
        try:
            call(*words)
        except Refusal as refusal:
            evidence = getattr(refusal, "evidence", None)
            return [*(place_words(evidence) if evidence else ()), refused(refusal)]
        return ["ok"]

    def client_any(self, w):
        """`any ROOT LIST PROMISE`: a client of its own, under a verifier that accepts each signature."""
        client = Client(ZERO32, w.bytes(), self.values.digest, self.values.vuf, AnyChain)
        return ["ok", *self.done(client.update, w.bytes()), *self.done(client.keep_promise, w.bytes())]

    def started(self, w):
        """What starts clients of their own at `KEY ROOT`."""
        if self.values is self.summed:
            raise BadQuestion
        key, root = w.hash(), w.bytes()
        return lambda: Client(key, root, self.values.digest, self.values.vuf)

    def client_ways(self, w):
        """`ways KEY ROOT LIST PLACE`: of clients of their own that take a list whole, in one piece, one byte a piece,
        and in two pieces of which the first ends at the place: `ok` or the refusal, and the epoch of the head; of a
        list in pieces also whether it has come whole, waits, or has failed. At the end the heads joined."""
        start, data = self.started(w), w.bytes()
        place = w.number(len(data))
        client = start()
        words, heads = [self.number(client.update, data), str(client.head().epoch)], client.head().write()
        for pieces in ([data], [data[at : at + 1] for at in range(len(data))], [data[:place], data[place:]]):
            client, feed = start(), RootFeed()
            words += [self.number(client.take_pieces, feed, pieces), str(client.head().epoch), self.end_of(client, feed)]
            heads += client.head().write()
        return [*words, told(heads)]

    @staticmethod
    def number(call, *words):
        """`ok`, or the number of the refusal."""
        try:
            call(*words)
        except Refusal as refusal:
            return str(refusal.number)
        return "ok"

    @staticmethod
    def end_of(client, feed):
        if feed.done():
            return "done"
        try:
            client.update_from(feed, b"")
        except Refusal:
            return "failed"
        return "waits"

    def client_room(self, w):
        """`room KEY ROOT PIECE..`: of clients of their own, of which one takes the last piece of a list and another one
        those before it: the head and whether the list has come whole; `ok` or the refusal; and both again. If memory
        runs out for the room, both and that refusal stand before that."""
        start, pieces = self.started(w), w.all_bytes()
        if not pieces:
            raise BadQuestion
        other, client, feed = start(), start(), RootFeed()
        for piece in pieces[:-1]:
            self.number(other.update_from, feed, piece)
        return self.in_room(client, feed, client.update_from, feed, pieces[-1])

    def client_room_more(self, w):
        """`room-more KEY ROOT LIST PIECE`: the same of one that takes a list in one piece, and then the first piece of
        another one."""
        start, data, piece = self.started(w), w.bytes(), w.bytes()
        client, feed = start(), RootFeed()
        self.number(client.update_from, RootFeed(), data)
        return self.in_room(client, feed, client.update_from, feed, piece)

    def client_room_whole(self, w):
        """`room-whole KEY ROOT LIST`: the same of one that takes a list whole."""
        start, data = self.started(w), w.bytes()
        client = start()
        return self.in_room(client, RootFeed(), client.update, data)

    @staticmethod
    def in_room(client, feed, call, *words):
        def state():
            return [told(client.head().write()), yes(feed.done())]

        before = state()
        try:
            call(*words)
            answer = "ok"
        except Refusal as refusal:
            answer = refused(refusal)
        return [*before, answer, *state()]

    def client_look(self, w):
        """`look NAME EPOCH REPLY`"""
        return statement_words(self.client().look(w.name(), w.number(), w.bytes()))

    def client_look_next(self, w):
        """`look-next NAME EPOCH REPLY`"""
        epoch, found = self.client().look_next(w.name(), w.number(), w.bytes())
        return [str(epoch), *statement_words(found)]

    def client_keep(self, w):
        """`keep PROMISE`"""
        self.client().keep_promise(w.bytes())
        return ["ok"]

    def client_due(self, w):
        """`due NAME REPLY`"""
        return due_words(self.client().due(w.name(), w.bytes()))

    def client_due_epoch(self, w):
        """`due-epoch NAME`"""
        return [or_none(self.client().due_epoch(w.name()))]

    def client_finality(self, w):
        """`finality NAME`"""
        broken = self.client().finality(w.name())
        return ["none"] if broken is None else changed_words(broken)

    def client_key(self, w):
        return [told(self.client().key)]

    def client_head(self, w):
        return [told(self.client().head().write())]

    def client_put_aside(self, w):
        """The client becomes the other one."""
        self.values.client, self.values.other = None, self.client()
        return ["ok"]

    def client_reconcile(self, w):
        return self.reconciled(self.client(), there(self.values.other))

    def client_reconcile_self(self, w):
        return self.reconciled(self.client(), self.client())

    @staticmethod
    def reconciled(one, other):
        if one.key != other.key:
            raise BadQuestion
        return place_words(reconcile(one, other))

    # monitor

    def monitor_new(self, w):
        """`new NAME KEY|none`: takes the client."""
        name, start = w.name(), w.optional(w.key)
        self.monitor, self.values.client = Monitor(self.client(), name, start), None
        return ["ok"]

    def monitor_new2(self, w):
        """`new2 NAME KEY POLICY`, POLICY `open` or `final`: the same, with a policy."""
        self.monitor, self.values.client = Monitor.new2(self.client(), w.name(), w.key(), w.policy()), None
        return ["ok"]

    def monitor_update(self, w):
        """`update LIST`"""
        return self.done(there(self.monitor).update, w.bytes())

    def monitor_from(self, w):
        """`from SIZE BYTES`, as of a client."""
        return self.in_pieces(there(self.monitor), w)

    def monitor_any(self, w):
        """`any NAME ROOT LIST KEY PROMISE`: a monitor of its own, under a verifier that accepts each signature."""
        name, root = w.name(), w.bytes()
        monitor = Monitor(Client(ZERO32, root, sha256, KeyedVuf, AnyChain), name, None)
        return ["ok", *self.done(monitor.update, w.bytes()), *self.done(monitor.expect_change, w.key(), w.bytes())]

    def monitor_expect(self, w):
        """`expect KEY PROMISE`"""
        there(self.monitor).expect_change(w.key(), w.bytes())
        return ["ok"]

    def monitor_expect2(self, w):
        """`expect2 KEY POLICY PROMISE`"""
        there(self.monitor).expect_change2(w.key(), w.policy(), w.bytes())
        return ["ok"]

    def monitor_step(self, w):
        """`step REPLY`"""
        step = there(self.monitor).step(w.bytes())
        return [step] if step == KEPT else ["alarm", str(step.epoch), *statement_words(step.found)]

    def monitor_next(self, w):
        return [or_none(there(self.monitor).next_epoch())]

    def monitor_expected(self, w):
        """`expected EPOCH`: the key, with the policy if there is one, or `none`."""
        expected = there(self.monitor).expected(w.number())
        return ["none"] if expected is None else [told(expected.key), *policy_words(expected.policy)]

    def monitor_name(self, w):
        return [told(there(self.monitor).name)]

    def monitor_client(self, w):
        """The epoch of its client's head."""
        return [str(there(self.monitor).client.head().epoch)]

    def monitor_reconcile(self, w):
        """Its client with the other one."""
        return self.reconciled(there(self.monitor).client, there(self.values.other))

    # auditor

    def auditor_new(self, w):
        self.auditor = Auditor(sha256)
        return ["ok"]

    def auditor_observe(self, w):
        """`observe KEY ROOT`"""
        return place_words(self.auditor.observe(w.hash(), w.bytes()))

    def auditor_any(self, w):
        """`any KEY ROOT..`: what a fresh auditor under a verifier that accepts each signature says of each root."""
        key, auditor = w.hash(), Auditor(sha256, AnyChain)
        return [word for _ in range(w.left()) for word in place_words(auditor.observe(key, w.bytes()))]

    def auditor_compare(self, w):
        """`compare KEY ROOT`"""
        return place_words(self.auditor.compare(w.hash(), w.bytes()))

    def auditor_chain(self, w):
        """`chain KEY`: the epoch of its head."""
        chain = self.auditor.chains.get(w.hash())
        return [or_none(chain and chain.head().epoch)]

    def auditor_judge(self, w):
        """`judge KEY KIND FIRST SECOND [PROOF]`, or `judge KEY broken-final NAME ROOT PROOF ROOT PROOF`"""
        key, kind = w.hash(), self.kind(w)
        return [yes(judge(sha256, KeyedVuf, key, self.judged(kind, w)))]

    def judged(self, kind, w):
        """The evidence of a kind, of which each part is a word."""
        if kind == BROKEN_FINAL:
            return self.changed(w)
        first, second = w.bytes(), w.bytes()
        if kind == BROKEN:
            return BrokenPromise(SignedPromise.read(first), SignedRoot.read(second), self.proof(w))
        return RootEvidence(kind, SignedRoot.read(first), SignedRoot.read(second))

    def changed(self, w):
        """A final binding that was changed."""
        name = w.name()
        root, proof = SignedRoot.read(w.bytes()), self.proof(w)
        return BrokenFinal(name, root, proof, SignedRoot.read(w.bytes()), self.proof(w))

    @staticmethod
    def proof(w):
        proof = w.bytes()
        if len(proof) > MAX_PROOF_TEXT:
            raise BadQuestion
        return proof

    @staticmethod
    def kind(w):
        kind = w.word()
        if kind not in EVIDENCE_KINDS:
            raise BadQuestion
        return kind

    # evidence

    def evidence_json(self, w):
        """`json KIND FIRST SECOND`, or `json broken-final NAME ROOT PROOF ROOT PROOF`"""
        kind = self.kind(w)
        if kind == BROKEN_FINAL:
            return [told_text(evidence_json(self.changed(w)).encode())]
        evidence = evidence_of(kind, w.bytes(), w.bytes())
        if evidence.kind == BROKEN and len(evidence.proof) > MAX_PROOF_TEXT:
            raise BadQuestion
        return [told_text(evidence_json(evidence).encode())]

    def evidence_read(self, w):
        """`read BYTES`"""
        try:
            evidence = read_evidence(w.bytes())
        except ProgramFault as fault:
            return ["fault", str(fault.status), fault.text]
        if evidence.kind == BROKEN_FINAL:
            return changed_words(evidence)
        return [evidence.kind, *map(told, evidence_parts(evidence))]

    def evidence_judge(self, w):
        """`judge KEYTEXT BYTES`"""
        try:
            status, written = judge_file(w.text(), w.bytes())
        except ProgramFault as fault:
            return fault_words(fault, "-")
        return ["ok", str(status), told_text(written)]

    def evidence_altered(self, w):
        """`altered KEYTEXT BYTES`: a word for each byte, of a letter for each file that is altered there: it ends
        before the byte; the byte is 1 more; and its bits are flipped one by one, from the lowest."""
        key, file = w.text(), w.bytes()
        letters = [self.letter(key, data) for data in altered(file)]
        return ["".join(letters[at : at + 10]) for at in range(0, len(letters), 10)]

    @staticmethod
    def letter(key, file):
        """`e` for evidence, `n` for no evidence, `-` for a file of none."""
        try:
            status, _ = judge_file(key, file)
        except ProgramFault:
            return "-"
        return "n" if status else "e"

    def evidence_audit(self, w):
        """`audit KEYTEXT INPUT`"""
        try:
            return ["ok", told_text(audit(w.text(), w.bytes()))]
        except ProgramFault as fault:
            return fault_words(fault, "-")

    # refusals

    def text_refusal(self, w):
        """`refusal NAME`: the refusal's number, if it has one, and its text."""
        return named(REFUSALS, w.word())

    # scripts

    def script(self, w):
        """`script NAME`: its lines, and one more where it stops at a line that is no command."""
        name = w.word()
        if name not in self.scripts:
            raise BadQuestion
        printed, stopped = played(self.scripts[name].encode())
        told = printed if stopped is None else [*printed, f"line {stopped}: not a command"]
        return ["\n".join(told)]
