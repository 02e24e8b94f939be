"""Asks the library for C the stored questions of the program `vectors` that it has calls for: model/answers.py has
their words. checker.py runs it."""

import copy
import pathlib

from coniks import (
    FORK,
    KINDS,
    LINK,
    PROMISED,
    PROOF,
    REFUSED,
    ROOT,
    ROOTS,
    SAME,
    SKIP,
    TWO_VALUES,
    BadSignature,
    Caught,
    Client,
    Keyed,
    Refused,
)
from model.answers import KEY, BadQuestion, Lines, place_words, policy_words, refused, told, yes
from model.formats import (
    AHEAD,
    BAD_BODY,
    BAD_SIGNATURE,
    BEFORE_START,
    KNOWN,
    NEXT,
    NOT_LATER,
    POLICIES,
    Collision,
    FeedRefusal,
    ListRefusal,
    ReadRefusal,
    ReplyRefusal,
    RootRefusal,
    counted,
    read_request,
    sha256,
)

CRATE = pathlib.Path(__file__).resolve().parents[2] / "crates/vectors"
REFUSALS = {"roots": RootRefusal, "chains": RootRefusal, "replies": ReplyRefusal, "frames": FeedRefusal}
OF_SECOND = 32
# Words of an answer that the library does not tell: one, which is never `refused`, and all to the end.
UNTOLD, REST = "_", ".."


class Unasked(Exception):
    """The library has no call for the question."""


def refusal_words(kind, number):
    """The words of a refusal. A number that is none of its kind has no text."""
    return refused(kind(number)) if number in kind.texts else f"refused {number}"


def filled(got, stored):
    """The library's answer, with the stored words where it tells none."""
    got, words = got.split(" "), stored.split(" ")
    if got[-1] == REST:
        got[-1:] = [UNTOLD] * (len(words) - len(got) + 1)
    if len(got) != len(words):
        return " ".join(got)
    return " ".join(theirs if ours == UNTOLD and theirs != "refused" else ours for ours, theirs in zip(got, words))


class StoredChecks(Lines):
    """The verbs of model/answers.py, answered by the library. A client and the bytes of a stream stay from line to line."""

    def __init__(self, library):
        super().__init__()
        self.library, self.scheme = library, Keyed(library)
        self.client, self.stream = None, b""

    def answer(self, line):
        """The library's answer, or None if it cannot be asked."""
        kind = REFUSALS.get(line.split(" ")[0])
        try:
            return super().answer(line)
        except Unasked:
            return None
        except Refused as why:
            return refusal_words(kind, why.args[0])
        except BadSignature:
            return refusal_words(kind, BAD_SIGNATURE)

    def verb(self, subject, words):
        try:
            return super().verb(subject, words)
        except BadQuestion:
            raise Unasked from None

    # stand-ins

    def stand_ins_verify(self, w):
        w.bytes()
        return [yes(self.library.keyed_verifies(w.bytes(), w.bytes(), w.bytes()))]

    def stand_ins_accepts(self, w):
        w.bytes()
        return [yes(self.library.keyed_accepts(w.bytes(), w.bytes(), w.bytes()))]

    # roots

    def root_words(self, data):
        parts = self.library.read_root(data)
        return [str(parts.epoch), str(parts.previous_epoch), UNTOLD, UNTOLD, UNTOLD, told(parts.vuf_key.of(data))]

    def promise_words(self, data):
        parts = self.library.read_promise(data)
        name, key = (told(part.of(data)) for part in (parts.name, parts.key))
        return [str(parts.epoch), told(parts.body_hash.of(data)), UNTOLD, name, key, *policy_words(parts.policy or None)]

    def list_words(self, data):
        roots = self.library.read_roots(data)
        words = [str(len(roots))]
        for root in roots:
            parts = self.library.read_root(root)
            words += [str(parts.epoch), told(parts.signature.of(root))]
        return words

    def signed_words(self, signed, signature):
        verifies = self.library.keyed_verifies(KEY, signed, signature)
        return [told(signature), told(signed + counted(signature)), yes(verifies)]

    def roots_root(self, w):
        data = w.bytes()
        parts = self.library.read_root(data)
        return [*self.root_words(data), *self.signed_words(parts.body.of(data), parts.signature.of(data))]

    def roots_signed_promise(self, w):
        data = w.bytes()
        parts = self.library.read_promise(data)
        return [*self.promise_words(data), *self.signed_words(parts.promise.of(data), parts.signature.of(data))]

    def roots_list(self, w):
        return self.list_words(w.bytes())

    def verifies(self, key, root):
        parts = self.library.read_root(root)
        return self.library.keyed_verifies(key, parts.body.of(root), parts.signature.of(root))

    def holds(self, kind, w):
        key, a, b = w.bytes(), w.bytes(), w.bytes()
        return [yes(self.library.evidence(a, b) == kind and self.verifies(key, a) and self.verifies(key, b))]

    def roots_fork(self, w):
        return self.holds(FORK, w)

    def roots_link(self, w):
        return self.holds(LINK, w)

    def roots_skip(self, w):
        return self.holds(SKIP, w)

    # chains: by the client of the example

    def chains_start(self, w):
        self.client = Client(self.library, self.scheme, w.bytes(), w.bytes())
        return ["started"]

    def chains_extend(self, w):
        """The library answers BAD_LINK also if the root is not later, which the epochs tell."""
        client, root = self.client, w.bytes()
        epoch = client.verify(root).epoch
        try:
            self.library.follows(client.roots[-1], root)
        except Refused as why:
            return [refusal_words(RootRefusal, NOT_LATER if epoch <= client.last() else why.args[0])]
        client.roots = [*client.roots, root]
        return ["extended"]

    def placed(self, client, root):
        """Where a root stands, which the client takes if it is the next one."""
        before = len(client.roots)
        try:
            client.take(root)
        except Caught as why:
            return self.caught_words(why)
        except Refused:
            return [AHEAD if self.library.read_root(root).previous_epoch > client.last() else BEFORE_START]
        return [NEXT if len(client.roots) > before else KNOWN]

    @staticmethod
    def caught_words(why):
        kind, first, second = why.args
        return [KINDS[kind], told(first), told(second)]

    def chains_place(self, w):
        return self.placed(copy.copy(self.client), w.bytes())

    def chains_take(self, w):
        return self.placed(self.client, w.bytes())

    def chains_take_list(self, w):
        roots, before = self.library.read_roots(w.bytes()), copy.copy(self.client)
        try:
            self.client.take_list(roots)
        except BadSignature:
            return [ListRefusal.texts["bad signature"]]
        except Caught as why:
            return [*self.caught_words(why), ListRefusal.texts["evidence"]]
        except Refused:
            places = (self.placed(before, root)[0] for root in roots)
            return [ListRefusal.texts[next(place for place in places if place not in (KNOWN, NEXT))]]
        return ["taken"]

    # replies

    def is_accepted(self, name, reply):
        """Whether the value of a reply is accepted for the name, under the key of the reply's body."""
        try:
            parts = self.library.read_reply(reply)
        except Refused:
            return False
        return self.library.keyed_accepts(parts.vuf_key.of(reply), name, parts.value.of(reply))

    def checked(self, body, name, reply):
        """The index of the name, and the words of what an accepted reply states of it."""
        found = self.library.check(body, name, reply, self.is_accepted(name, reply))
        index = sha256(self.library.read_reply(reply).value.of(reply))
        return told(index), ["absent"] if found is None else ["present", told(found[0]), *policy_words(found[1] or None)]

    def replies_read(self, w):
        self.library.read_reply(w.bytes())
        return [UNTOLD, REST]

    def replies_accept(self, w):
        try:
            index, statement = self.checked(w.bytes(), w.bytes(), w.bytes())
        except Refused as why:
            return [refusal_words(ReplyRefusal, why.args[0]), UNTOLD]
        return [*statement, index, UNTOLD]

    def replies_accepted(self, w):
        body, name, reply = w.bytes(), w.bytes(), w.bytes()
        index, statement = self.checked(body, name, reply)
        parts = self.library.read_reply(reply)
        return [told(parts.value.of(reply)), told(name), str(parts.epoch), index, *statement] * 2

    def replies_compare(self, w):
        body, name, first, second = w.all_bytes()
        said = self.is_accepted(name, first), self.is_accepted(name, second)
        try:
            answer = self.library.compare(body, name, first, second, *said)
        except Refused as why:
            which, number = ("second", why.args[0] - OF_SECOND) if why.args[0] > OF_SECOND else ("first", why.args[0])
            return [f"the {which} reply is refused: {ReplyRefusal.texts.get(number, number)}"]
        if isinstance(answer, tuple):
            return place_words(Collision(*answer[1:]))
        return [{SAME: "same", TWO_VALUES: "two values"}[answer]]

    # frames

    def frames_request(self, w):
        """The library writes requests, and reads none: it is asked for one with the fields of the body."""
        kind, body = w.number(255), w.bytes()
        try:
            word, *fields = read_request(kind, body)
        except ReadRefusal:
            raise Unasked from None
        frame = self.written(word, fields)
        words = [str(field) if isinstance(field, int) else told(field) for field in fields]
        is_read = self.library.read_frame(frame) == (kind, body)
        return [word, *words, yes(is_read), told(frame)]

    def written(self, word, fields):
        """A request whose names, keys and policies the library allows."""
        library = self.library
        match word, *fields:
            case "register" | "change", name, key if is_name(name) and is_key(key):
                return library.write_put(word == "change", name, key)
            case "register2" | "change2", policy, name, key if policy in POLICIES and is_name(name) and is_key(key):
                return library.write_put(word == "change2", name, key, policy)
            case "promise", name if is_name(name):
                return library.write_promise(name)
            case "lookup", epoch, name if is_name(name):
                return library.write_lookup(name, epoch)
            case "history", start, count:
                return library.write_history(start, count)
            case ("head",):
                return library.write_head()
            case "close" | "rotate", *words:
                return library.write_turn(*words)
        raise Unasked

    def frames_response(self, w):
        kind, body = w.number(255), w.bytes()
        readers = {
            PROMISED: self.promise_words,
            PROOF: self.siblings_words,
            ROOTS: self.list_words,
            ROOT: self.root_words,
            REFUSED: lambda body: [str(self.library.read_refused(body))],
        }
        if kind not in readers:
            raise Unasked
        try:
            return readers[kind](body)
        except Refused:
            return [refusal_words(ReadRefusal, BAD_BODY)]

    def siblings_words(self, data):
        self.library.read_reply(data)
        return [UNTOLD]

    def frames_new(self, _):
        """The library keeps no stream, so there is nothing to ask."""
        self.stream = b""
        raise Unasked

    def frames_feed(self, w):
        """A length that no frame has stays in front, so that what comes after it is refused."""
        self.library.read_frame(self.stream)
        self.stream += w.bytes()
        words = []
        try:
            while (got := self.library.read_frame(self.stream)) is not None:
                kind, body = got
                words += ["yes", str(kind), told(body)]
                self.stream = self.stream[5 + len(body) :]
        except Refused:
            return [*words, "yes", "failed"]
        return [*words, "no", "waits"]


def is_name(data):
    return 1 <= len(data) <= 255


def is_key(data):
    return 1 <= len(data) <= 2048


def ask_stored(library, asked):
    """The stored questions in order, of which the library is asked those that it has calls for."""
    lines = (CRATE / "stdin").read_bytes().decode().split("\n")
    questions = [line for line in lines if line and not line.startswith("#")]
    answers = (CRATE / "stdout").read_bytes().decode().split("\n")[:-1]
    if len(questions) != len(answers):
        asked.same("stored answers", len(questions), len(answers))
    checks = StoredChecks(library)
    for question, stored in zip(questions, answers):
        got = None if stored == "bad question" else checks.answer(question)
        if got is not None and not question.startswith("let "):
            asked.same(f"stored {question[:200]}", stored, filled(got, stored))
