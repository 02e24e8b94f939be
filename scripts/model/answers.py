"""The words of questions and answers, and the answers of the program `vectors` by the reference model.

A question is a line of words with one space between each two; a line that is empty or begins with `#` is
passed over. A word that is bytes is PART or PART+PART.., each PART one of

    -                no bytes
    HEX              an even number of hexadecimal digits
    HEX*N            these bytes N times
    $NAME            the bytes that `let NAME WORD` named
    $NAME/FROM/TO    of these the bytes FROM to below TO

An answer is a line. Bytes in it are `-` for none, digits for at most 80, else LENGTH/DIGEST with their SHA-256.
Text is told as it is, each LF as `|`, `-` for none, and more than 400 bytes as LENGTH/DIGEST. A refusal is
`refused NUMBER TEXT`; a question that is none has the answer `bad question`.
"""

import re

from model import formats

# Words of answers ----------------------------------------------------------------------------------

BYTES_SHOWN = 80
TEXT_SHOWN = 400


def digested(data):
    return f"{len(data)}/{formats.sha256(data).hex()}"


def told(data):
    """Bytes in an answer."""
    return digested(data) if len(data) > BYTES_SHOWN else data.hex() or "-"


def told_text(data):
    """What a program printed, in an answer."""
    return digested(data) if len(data) > TEXT_SHOWN else data.decode().replace("\n", "|") or "-"


def yes(truth):
    return "yes" if truth else "no"


def refused(refusal):
    return f"refused {refusal.number} {refusal.text}"


# Words of questions --------------------------------------------------------------------------------


class BadQuestion(Exception):
    """The line is no question."""


NAME = re.compile(r"[A-Za-z0-9_.]+")


class Names:
    """The bytes that `let` named."""

    def __init__(self):
        self.named = {}

    def part(self, text):
        if text == "-":
            return b""
        if text.startswith("$"):
            return self.slice(*text[1:].split("/"))
        digits, star, times = text.partition("*")
        try:
            return bytes.fromhex(digits) * (int(times) if star else 1) if digits else self.bad()
        except ValueError:
            raise BadQuestion from None

    def slice(self, name, start="0", end=None):
        if name not in self.named:
            raise BadQuestion
        data = self.named[name]
        start, end = int(start), len(data) if end is None else int(end)
        if not start <= end <= len(data):
            raise BadQuestion
        return data[start:end]

    def bad(self):
        raise BadQuestion

    def bytes(self, word):
        return b"".join(self.part(text) for text in word.split("+"))

    def let(self, name, word):
        if not NAME.fullmatch(name):
            raise BadQuestion
        self.named[name] = self.bytes(word)
        return str(len(self.named[name]))


class Words:
    """The words of one question, taken one after another."""

    def __init__(self, names, words):
        self.names, self.words = names, list(words)

    def left(self):
        return len(self.words)

    def word(self):
        if not self.words:
            raise BadQuestion
        return self.words.pop(0)

    def bytes(self):
        return self.names.bytes(self.word())

    def all_bytes(self):
        return [self.bytes() for _ in range(self.left())]

    def number(self, most=2**64 - 1):
        word = self.word()
        if not word.isdecimal() or int(word) > most:
            raise BadQuestion
        return int(word)

    def text(self):
        """Bytes that are UTF-8."""
        data = self.bytes()
        try:
            data.decode()
        except UnicodeDecodeError:
            raise BadQuestion from None
        return data

    def optional(self, read):
        """What a reader takes, or `none`."""
        if self.words[:1] == ["none"]:
            self.word()
            return None
        return read()

    def of_size(self, size):
        data = self.bytes()
        if len(data) != size:
            raise BadQuestion
        return data

    def hash(self):
        return self.of_size(32)

    index = hash

    def limited(self, most):
        try:
            return formats.sized(self.bytes(), most)
        except formats.Fault:
            raise BadQuestion from None

    def name(self):
        return self.limited(255)

    def key(self):
        return self.limited(2048)

    def small(self):
        return self.limited(256)

    def hashes(self, most=formats.MAX_SIBLINGS):
        """One word of so many times 32 bytes."""
        data = self.bytes()
        if len(data) % 32 or len(data) > 32 * most:
            raise BadQuestion
        return [data[at : at + 32] for at in range(0, len(data), 32)]

    def form(self, read):
        """A word that a reader takes."""
        try:
            return read(self.bytes())
        except formats.Refusal:
            raise BadQuestion from None

    def policy(self):
        """`open` or `final`."""
        word = self.word()
        for policy, name in formats.POLICIES.items():
            if word == name:
                return policy
        raise BadQuestion

    def end(self, **leaves):
        """An end: a leaf by its word, with these words; `empty`; or `other INDEX COMMITMENT`."""
        word = self.word()
        if word in leaves:
            return leaves[word]()
        if word == "empty":
            return formats.Empty()
        if word == "other":
            return formats.Other(self.index(), self.hash())
        raise BadQuestion

    def node_end(self):
        return self.end(present=lambda: formats.Present(self.hash()))

    def reply_end(self):
        def opening():
            return formats.Opening(self.hash(), self.key())

        return self.end(present=opening, present2=lambda: opening()._replace(policy=self.policy()))


class Lines:
    """Answers lines: `let`, and the verbs of each subject, which are methods `SUBJECT_VERB` that take the words
    and give the answer's words."""

    def __init__(self):
        self.names = Names()

    def answer(self, line):
        try:
            words = Words(self.names, line.split(" "))
            subject = words.word()
            if subject == "let":
                return self.names.let(words.word(), words.word())
            return " ".join(self.verb(subject, words)(words))
        except BadQuestion:
            return "bad question"
        except formats.Refusal as refusal:
            return refused(refusal)

    def verb(self, subject, words):
        """The method of a subject and of the verb behind it."""
        verb = getattr(self, f"{subject}_{words.word()}".replace("-", "_"), None)
        if verb is None:
            raise BadQuestion
        return verb

    def answers(self, questions):
        """The answers to all lines that are questions."""
        return [self.answer(line) for line in questions if line and not line.startswith("#")]


# Parts of answers ----------------------------------------------------------------------------------


def body_words(body):
    hashes = (body.root, body.previous_hash, body.nonce, body.vuf_key)
    return [str(body.epoch), str(body.previous_epoch), *map(told, hashes)]


def promise_words(promise):
    parts = (promise.body_hash, promise.index, promise.name, promise.key)
    return [str(promise.epoch), *map(told, parts), *policy_words(promise.policy)]


def policy_words(policy):
    """The name of a policy, or nothing in version 1."""
    return [] if policy is None else [formats.POLICIES[policy]]


def list_words(roots):
    words = [str(len(roots))]
    for root in roots:
        words += [str(root.epoch), told(root.signature)]
    return words


def place_words(place):
    """A word, evidence or a collision."""
    if isinstance(place, formats.RootEvidence):
        return [place.kind, told(place.a.write()), told(place.b.write())]
    if isinstance(place, formats.Collision):
        return ["collision", *map(told, place)]
    return [place]


def statement_words(statement):
    return ["absent"] if statement is None else ["present", told(statement.key), *policy_words(statement.policy)]


def end_words(end):
    return [type(end).__name__.lower(), *map(told, end)]


def root_or_none(root):
    return ["none"] if root is None else [told(root.write())]


# The verbs of `vectors` ------------------------------------------------------------------------------

KEY = bytes([1]) * 32  # what `root` and `signed-promise` verify under
JOURNAL_ROOM = 5000  # the most that a question gives
NUMBERS = {"u8": 1, "u16": 2, "u32": 4, "u64": 8}
FORMS = {
    "body": formats.Body,
    "root": formats.SignedRoot,
    "promise": formats.Promise,
    "signed-promise": formats.SignedPromise,
}
FAULTS = {
    "bad-hex": "bad hex",
    "bad-item": "line {}: bad item",
    "index-repeated": "line {}: index repeated",
    "not-a-command": "line {}: not a command",
    "not-evidence": "not an evidence file",
    "bad-record": "journal: bad record",
    "other-keys": "journal: other keys",
    "cannot-read": "cannot read",
    "cannot-write": "cannot write",
    "cannot-listen": "cannot listen",
    "out-of-memory": "out of memory",
}
DIGESTS = {"sha256": formats.sha256, "sum": formats.byte_sum}
# Refusals that no question leads to.
OUT_OF_MEMORY = "out of memory"
REFUSALS = {
    "root-memory": f"refused 5 {OUT_OF_MEMORY}",
    "list-memory": OUT_OF_MEMORY,
    "feed-memory": f"refused 14 {OUT_OF_MEMORY}",
    "stream-read": "cannot read",
    "stream-write": "cannot write",
}


def named(texts, name):
    if name not in texts:
        raise BadQuestion
    return [texts[name]]


class AnyVuf:
    """Accepts each value of each name."""

    @staticmethod
    def accepts(_key, _name, _value):
        return True


class AnyChain(formats.Chain):
    """A chain under a verifier that accepts each signature."""

    @staticmethod
    def verified(_key, _signed):
        return True


class Answers(Lines):
    """A tree, the digests that its last change took, a chain and a feed stay from line to line."""

    def __init__(self):
        super().__init__()
        self.tree, self.count = formats.Tree(formats.sha256, formats.ZERO32), 0
        self.chain, self.feed = None, formats.Feed()

    # bits: indices, names and readers

    def bits_bit(self, w):
        """`bit INDEX K`, K at most 255."""
        return [yes(formats.bit(w.index(), w.number(255)))]

    def bits_cut(self, w):
        """`cut INDEX N`, N at most 1,000."""
        return [told(formats.cut(w.index(), w.number(1000)))]

    def bits_agree(self, w):
        """`agree INDEX INDEX N`, N at most 1,000."""
        return [yes(formats.agree(w.index(), w.index(), w.number(1000)))]

    def bits_with_one(self, w):
        """`with-one PREFIX K`, K at most 255."""
        return [told(formats.with_one(w.index(), w.number(255)))]

    def bits_order(self, w):
        """`order INDEX INDEX`: whether the first is below the second."""
        return [yes(w.index() < w.index())]

    def bits_order_hash(self, w):
        """`order-hash HASH HASH`, and so for names, keys and small values: whether the first is below the second."""
        return [yes(w.hash() < w.hash())]

    def bits_order_name(self, w):
        return [yes(w.name() < w.name())]

    def bits_order_key(self, w):
        return [yes(w.key() < w.key())]

    def bits_order_small(self, w):
        return [yes(w.small() < w.small())]

    def bits_hash(self, w):
        """`hash HEX32`: lent, and as an array."""
        return [told(w.hash())] * 2

    def bits_index(self, w):
        """`index HEX32`: lent, and as an array."""
        return [told(w.index())] * 2

    def bits_name(self, w):
        """`name BYTES`"""
        return [told(formats.sized(w.bytes(), 255))]

    def bits_key(self, w):
        """`key BYTES`"""
        return [told(formats.sized(w.bytes(), 2048))]

    def bits_small(self, w):
        """`small BYTES`"""
        return [told(formats.sized(w.bytes(), 256))]

    def bits_read(self, w):
        """`read BYTES WHAT..`: what a cursor reads, one thing after another. A refusal leaves it in place."""
        cursor = formats.Cursor(w.bytes())
        return [self.read_one(cursor, w.word()) for _ in range(w.left())]

    def read_one(self, cursor, what):
        readers = {
            "three": lambda: cursor.take(3),
            "array": lambda: cursor.take(4),
            "hash": cursor.hash32,
            "name": cursor.name,
            "key": cursor.key,
            "small": cursor.small,
            "counted": lambda: cursor.counted(2, 5),
        }
        try:
            if what in NUMBERS:
                return str(cursor.number(NUMBERS[what]))
            if what in readers:
                return told(readers[what]())
            if what == "end":
                cursor.end()
                return "0"
        except formats.Fault as fault:
            return refused(fault)
        if what == "copy":  # goes on with a copy of the cursor
            return "copied"
        raise BadQuestion

    def bits_text(self, w):
        """`text (u8 N|u16 N|u32 N|u64 N|slice BYTES|counted BYTES)..`: the text, and its copy of another room."""
        text = b""
        while w.left():
            what = w.word()
            if what in NUMBERS:
                size = NUMBERS[what]
                text += w.number(256**size - 1).to_bytes(size, "big")
            elif what == "slice":
                text += w.bytes()
            elif what == "counted":
                text += formats.counted(w.bytes())
            else:
                raise BadQuestion
        if len(text) > 2400:
            raise BadQuestion
        return [told(text)] * 2

    # nodes: digests and texts

    def nodes_sha256(self, w):
        """`sha256 TEXT..`: the digest of each, and how many were computed."""
        texts = w.all_bytes()
        return [*(told(formats.sha256(text)) for text in texts), str(len(texts))]

    def nodes_sum(self, w):
        """`sum TEXT..`"""
        texts = w.all_bytes()
        return [*(told(formats.byte_sum(text)) for text in texts), str(len(texts))]

    def all_digests(self, digest, w):
        texts = w.all_bytes()
        if any(len(text) > 101 for text in texts):
            raise BadQuestion
        return [told(b"".join(map(digest, texts))), str(len(texts))]

    def nodes_all(self, w):
        """`all TEXT..`: the digests of texts of at most 101 bytes, computed at once and joined; their number."""
        return self.all_digests(formats.sha256, w)

    def nodes_all_eight(self, w):
        """`all-eight TEXT..`: the same, eight at once"""
        return self.nodes_all(w)

    def nodes_all_sum(self, w):
        """`all-sum TEXT..`"""
        return self.all_digests(formats.byte_sum, w)

    def nodes_keyed(self, w):
        """`keyed KIND KEY TEXT`"""
        return [told(formats.keyed_digest(w.number(255), w.hash(), w.bytes()))]

    @staticmethod
    def joined_digests(w, count):
        messages = [w.bytes() for _ in range(count)]
        if not all(56 <= len(message) <= 119 for message in messages):
            raise BadQuestion
        return [told(b"".join(map(formats.sha256, messages)))]

    def nodes_four(self, w):
        """`four M0 M1 M2 M3`: four messages of 56 to 119 bytes; their digests, joined."""
        return self.joined_digests(w, 4)

    def nodes_eight(self, w):
        """`eight M0 .. M7`: the same of eight."""
        return self.joined_digests(w, 8)

    def nodes_empty(self, w):
        """`empty NONCE INDEX LEVEL`, LEVEL at most 256."""
        return [told(formats.empty_text(w.hash(), w.index(), w.number(256)))]

    def nodes_leaf(self, w):
        """`leaf NONCE INDEX LEVEL COMMITMENT`, LEVEL at most 256."""
        return [told(formats.leaf_text(w.hash(), w.index(), w.number(256), w.hash()))]

    def nodes_interior(self, w):
        """`interior ZERO ONE`"""
        return [told(formats.interior_text(w.hash(), w.hash()))]

    @staticmethod
    def text_and_digests(text):
        return [told(text), told(formats.sha256(text)), told(formats.byte_sum(text))]

    def nodes_commit(self, w):
        """`commit SALT NAME KEY`: the text, and its digest by SHA-256 and by sums."""
        return self.text_and_digests(formats.commitment_text(w.hash(), w.name(), w.key()))

    def nodes_commit2(self, w):
        """`commit2 SALT NAME KEY POLICY`, POLICY `open` or `final`: the same in version 2."""
        return self.text_and_digests(formats.commitment_text(w.hash(), w.name(), w.key(), w.policy()))

    # stand-ins: values and signatures

    def stand_ins_value(self, w):
        """`value SECRET NAME`: the public key and the value."""
        vuf = formats.KeyedVuf(w.hash())
        return [told(vuf.public), told(vuf.value(w.name()))]

    def stand_ins_plain_value(self, w):
        """`plain-value NAME`"""
        return [told(formats.PlainVuf.public), told(formats.PlainVuf.value(w.name()))]

    def stand_ins_accepts(self, w):
        """`accepts SECRET KEY NAME VALUE`: the secret of the value that is asked plays no part."""
        w.hash()
        return [yes(formats.KeyedVuf.accepts(w.hash(), w.name(), w.bytes()))]

    def stand_ins_plain_accepts(self, w):
        """`plain-accepts KEY NAME VALUE`"""
        return [yes(formats.PlainVuf.accepts(w.hash(), w.name(), w.bytes()))]

    def stand_ins_index(self, w):
        """`index VALUE`: by SHA-256 and by sums."""
        value = w.bytes()
        return [told(formats.sha256(value)), told(formats.byte_sum(value))]

    def stand_ins_sign(self, w):
        """`sign SECRET MESSAGE`: the public key and the signature."""
        signer = formats.KeyedSign(w.hash())
        return [told(signer.public), told(signer.sign(w.bytes()))]

    def stand_ins_verify(self, w):
        """`verify SECRET KEY MESSAGE SIGNATURE`"""
        w.hash()
        return [yes(formats.KeyedSign.verify(w.hash(), w.bytes(), w.bytes()))]

    # roots: forms and evidence

    def roots_body(self, w):
        """`body BYTES`: its fields, and the bytes written again."""
        body = formats.Body.read(w.bytes())
        return [*body_words(body), told(body.write())]

    def roots_root(self, w):
        """`root BYTES`: also the signature, and whether it verifies under the key of 32 bytes 01."""
        root = formats.SignedRoot.read(w.bytes())
        written = [told(root.signature), told(root.write())]
        return [*body_words(root.body), *written, yes(root.verifies(KEY))]

    def roots_promise(self, w):
        """`promise BYTES`: its fields, with the policy if it has one, and the bytes written again."""
        promise = formats.Promise.read(w.bytes())
        return [*promise_words(promise), told(promise.write())]

    def roots_signed_promise(self, w):
        """`signed-promise BYTES`: also whether it verifies under the key of 32 bytes 01."""
        signed = formats.SignedPromise.read(w.bytes())
        written = [told(signed.signature), told(signed.write())]
        return [*promise_words(signed.promise), *written, yes(signed.verifies(KEY))]

    def roots_list(self, w):
        """`list BYTES`: the number of roots, and the epoch and signature of each."""
        return list_words(formats.read_list(w.bytes()))

    def roots_write_list(self, w):
        """`write-list ROOT..`, at most 64: the list's bytes, and the length told before it is written."""
        roots = [w.form(formats.SignedRoot.read) for _ in range(w.left())]
        if len(roots) > formats.MAX_ROOTS:
            raise BadQuestion
        written = formats.write_list(roots)
        return [told(written), str(len(written))]

    def roots_front(self, w):
        """`front KIND BYTES`: the value at the front, written again, and how many bytes are left."""
        form = FORMS.get(w.word())
        cursor = formats.Cursor(w.bytes())
        if form is None:
            raise BadQuestion
        value = formats.read_front(form.take, cursor)
        return [told(value.write()), str(cursor.left())]

    def holds(self, kind, w):
        key, a, b = w.hash(), w.form(formats.SignedRoot.read), w.form(formats.SignedRoot.read)
        return [yes(formats.RootEvidence(kind, a, b).holds(formats.sha256, key))]

    def roots_fork(self, w):
        """`fork KEY ROOT ROOT`: whether the two are this evidence."""
        return self.holds(formats.FORK, w)

    def roots_link(self, w):
        """`link KEY ROOT ROOT`"""
        return self.holds(formats.LINK, w)

    def roots_skip(self, w):
        """`skip KEY ROOT ROOT`"""
        return self.holds(formats.SKIP, w)

    # chains: the chain stays

    def held(self):
        if self.chain is None:
            raise BadQuestion
        return self.chain

    def chains_start(self, w):
        """`start KEY ROOT`"""
        self.chain = formats.Chain.start(formats.sha256, w.hash(), w.form(formats.SignedRoot.read))
        return ["started"]

    def chains_extend(self, w):
        """`extend ROOT`"""
        self.held().extend(w.form(formats.SignedRoot.read))
        return ["extended"]

    def chains_place(self, w):
        """`place ROOT`"""
        return place_words(self.held().place(w.form(formats.SignedRoot.read)))

    def chains_take(self, w):
        """`take ROOT`"""
        return place_words(self.held().take(w.form(formats.SignedRoot.read)))

    def chains_take_list(self, w):
        """`take-list LIST`: `taken`, or evidence, if it is refused by that, and the text of the refusal."""
        try:
            self.held().take_list(w.form(formats.read_list))
        except formats.ListRefusal as refusal:
            shown = place_words(refusal.evidence) if refusal.evidence else []
            return [*shown, refusal.text]
        return ["taken"]

    def chains_room(self, w):
        """`room KEY ROOT LIST`: of a chain of its own, its head, `taken` or the text of the refusal, and its head then.
        If memory runs out for the list, the head and `out of memory` stand before that."""
        chain, data = formats.Chain.start(formats.sha256, w.hash(), w.form(formats.SignedRoot.read)), w.bytes()
        before = chain.head()
        try:
            chain.take_list(formats.read_list(data))
            answer = "taken"
        except (formats.Refusal, formats.ListRefusal) as refusal:
            answer = refusal.text
        return [told(before.write()), answer, told(chain.head().write())]

    chains_room_bytes = chains_room

    def chains_at(self, w):
        """`at EPOCH`"""
        return root_or_none(self.held().at(w.number()))

    def chains_after(self, w):
        """`after EPOCH`"""
        return root_or_none(self.held().after(w.number()))

    def chains_head(self, w):
        """`head`: the fields of its body."""
        return body_words(self.held().head().body)

    def chains_key(self, w):
        """`key`"""
        return [told(self.held().key)]

    def chains_any(self, w):
        """`any ROOT..`: a fresh chain under a verifier that accepts each signature: `started`, and where each other
        root stands, which is taken where it is the next one."""
        first, *others = [w.form(formats.SignedRoot.read) for _ in range(max(w.left(), 1))]
        chain = AnyChain(formats.sha256, KEY, [first])
        return ["started", *(word for root in others for word in place_words(chain.take(root)))]

    def chains_any_extended(self, w):
        """`any-extended ROOT..`: the same, where each other root extends the chain."""
        first, *others = [w.form(formats.SignedRoot.read) for _ in range(max(w.left(), 1))]
        chain = AnyChain(formats.sha256, KEY, [first])
        for root in others:
            chain.extend(root)
        return ["started", *["extended"] * len(others)]

    def compared_chains(self, digest, w):
        key = w.hash()
        return place_words(formats.compare_chains(*(self.chain_of(digest, key, w) for _ in range(2))))

    def chain_of(self, digest, key, w):
        """The chain that a list is."""
        roots = w.form(formats.read_list)
        if not roots:
            raise BadQuestion
        try:
            chain = formats.Chain.start(digest, key, roots[0])
            for root in roots[1:]:
                chain.extend(root)
        except formats.RootRefusal:
            raise BadQuestion from None
        return chain

    def chains_compare(self, w):
        """`compare KEY LIST LIST`: the chains that two lists are."""
        return self.compared_chains(formats.sha256, w)

    def chains_compare_sum(self, w):
        """`compare-sum KEY LIST LIST`: chains whose hashes are sums."""
        return self.compared_chains(formats.byte_sum, w)

    # trees: the tree stays

    def kept(self, tree, count):
        self.tree, self.count = tree, count
        return [told(tree.root())]

    def trees_new(self, w):
        """`new NONCE`: the root."""
        return self.kept(formats.Tree(formats.sha256, w.hash()), 1)

    def put_in(self, tree, items):
        return self.kept(tree.changed(items), formats.made_count(tree, items))

    def trees_with(self, w):
        """`with INDEX COMMITMENT`: the root after it."""
        return self.put_in(self.tree, [(w.index(), w.hash())])

    def items(self, w):
        return [(w.index(), w.hash()) for _ in range(w.left() // 2)]

    def trees_from(self, w):
        """`from NONCE (INDEX COMMITMENT)..`: the root, or `repeated`."""
        nonce, items = w.hash(), self.items(w)
        if len(dict(items)) < len(items):
            return ["repeated"]
        tree = formats.Tree(formats.sha256, nonce, items)
        return self.kept(tree, len(tree.places()))

    def trees_bare(self, w):
        """`bare NONCE (INDEX COMMITMENT)..`: the root without a tree, and the digests; or `repeated`."""
        nonce, items = w.hash(), self.items(w)
        if len(dict(items)) < len(items):
            return ["repeated"]
        tree = formats.Tree(formats.sha256, nonce, items)
        return [told(tree.root()), str(len(tree.places()))]

    def trees_more(self, w):
        """`more (INDEX COMMITMENT)..`: all put in at once."""
        items = self.items(w)
        return ["repeated"] if len(dict(items)) < len(items) else self.put_in(self.tree, items)

    def trees_renew(self, w):
        """`renew NONCE`: the same items under another nonce."""
        tree = formats.Tree(formats.sha256, w.hash(), self.tree.items.items())
        return self.kept(tree, len(tree.places()))

    def trees_copy(self, w):
        """`copy`: goes on with a copy of the tree."""
        return [told(self.tree.root())]

    def trees_count(self, w):
        """`count`: the digests that the last `new`, `with`, `from`, `more` or `renew` took."""
        return [str(self.count)]

    def trees_root(self, w):
        """`root`"""
        return [told(self.tree.root())]

    def trees_get(self, w):
        """`get INDEX`"""
        found = self.tree.items.get(w.index())
        return ["none" if found is None else told(found)]

    def trees_path(self, w):
        """`path INDEX`: the end, its level and the siblings from the root down, joined."""
        path = self.tree.path(w.index())
        return [*end_words(path.end), str(len(path.siblings)), told(b"".join(path.siblings))]

    def trees_end_text(self, w):
        """`end-text NONCE INDEX LEVEL END..`: END is `present COMMITMENT`, `empty` or `other INDEX COMMITMENT`."""
        return [told(formats.end_text(w.hash(), w.index(), w.number(256), w.node_end()))]

    def trees_joined(self, w):
        """`joined INDEX LEVEL BELOW SIBLING`, LEVEL at most 255."""
        return [told(formats.joined_text(w.index(), w.number(255), w.hash(), w.hash()))]

    def trees_climb(self, w):
        """`climb NONCE INDEX LEVEL END.. SIBLINGS`: the text at LEVEL of the way that has this end."""
        nonce, index, level, end = w.hash(), w.index(), w.number(256), w.node_end()
        siblings = w.hashes()
        if level > len(siblings):
            raise BadQuestion
        text = formats.end_text(nonce, index, len(siblings), end)
        return [told(formats.climb(formats.sha256, index, level, siblings, text))]

    def trees_leads(self, w):
        """`leads ROOT NONCE INDEX END.. SIBLINGS`: whether the way leads there, by the text and by the path."""
        root, nonce, index, end, siblings = w.hash(), w.hash(), w.index(), w.node_end(), w.hashes()
        text = formats.end_text(nonce, index, len(siblings), end)
        return [yes(formats.leads(formats.sha256, root, index, siblings, text))] * 2

    # replies

    def replies_read(self, w):
        """`read REPLY`: what it states, and its siblings."""
        reply = formats.Reply.read(w.bytes())
        return [*statement_words(reply.statement()), told(b"".join(reply.siblings))]

    def accept_words(self, digest, vuf, w):
        body, name, data = w.form(formats.Body.read), w.name(), w.bytes()
        try:
            got = formats.accept(digest, vuf, body, name, data)
            return [*statement_words(got.statement()), told(got.index), str(formats.check_count(got.reply))]
        except formats.ReplyRefusal as refusal:
            # Refused by its form, its body or its value: no digest; by the leaf's index: one, of the index.
            count = {5: 1, 6: 1}.get(refusal.number, 0)
            if refusal.number == 7:
                count = formats.check_count(formats.Reply.read(data))
            return [refused(refusal), str(count)]

    def replies_accept(self, w):
        """`accept BODY NAME REPLY`: what it states, the index, and how many digests it took."""
        return self.accept_words(formats.sha256, formats.KeyedVuf, w)

    def replies_accept_sum(self, w):
        """`accept-sum BODY NAME REPLY`: under sums, and names as values."""
        return self.accept_words(formats.byte_sum, formats.PlainVuf, w)

    def replies_accepted(self, w):
        """`accepted BODY NAME REPLY`: value, name, epoch of the body, index and statement; twice, the second time
        of the reply read again."""
        got = formats.accept(formats.sha256, formats.KeyedVuf, w.form(formats.Body.read), w.name(), w.bytes())
        parts = [told(got.reply.value), told(got.name), str(got.reply.body.epoch), told(got.index)]
        return [*parts, *statement_words(got.statement())] * 2

    def replies_binds(self, w):
        """`binds KEY REPLY`: whether it states this key, in version 1."""
        return [yes(formats.Statement(w.key()) == formats.Reply.read(w.bytes()).statement())]

    def replies_binds2(self, w):
        """`binds2 KEY POLICY REPLY`: whether it states this key with this policy."""
        return [yes(formats.Statement(w.key(), w.policy()) == formats.Reply.read(w.bytes()).statement())]

    def compared_replies(self, digest, vuf, w):
        body, name, accepted = w.form(formats.Body.read), w.name(), []
        for which in ("first", "second"):
            try:
                accepted.append(formats.accept(digest, vuf, body, name, w.bytes()))
            except formats.ReplyRefusal as refusal:
                return [f"the {which} reply is refused: {refusal.text}"]
        return place_words(formats.same_or_collision(digest, *accepted))

    def replies_compare(self, w):
        """`compare BODY NAME REPLY REPLY`"""
        return self.compared_replies(formats.sha256, formats.KeyedVuf, w)

    def replies_compare_sum(self, w):
        """`compare-sum BODY NAME REPLY REPLY`"""
        return self.compared_replies(formats.byte_sum, formats.PlainVuf, w)

    def replies_same(self, w):
        """`same BODY NAME REPLY BODY NAME REPLY`: two replies that were accepted, also for two names or bodies."""
        accepted = [formats.accept(formats.sha256, formats.KeyedVuf, w.form(formats.Body.read), w.name(), w.bytes()) for _ in range(2)]
        return place_words(formats.same_or_collision(formats.sha256, *accepted))

    def replies_same_any(self, w):
        """`same-any BODY NAME REPLY BODY NAME REPLY`: under sums, where each value is accepted."""
        accepted = [formats.accept(formats.byte_sum, AnyVuf, w.form(formats.Body.read), w.name(), w.bytes()) for _ in range(2)]
        return place_words(formats.same_or_collision(formats.byte_sum, *accepted))

    def replies_make(self, w):
        """`make BODY VALUE END.. SIBLINGS`: END is `present SALT KEY`, `present2 SALT KEY POLICY`, `empty` or
        `other INDEX COMMITMENT`."""
        body, value, end = w.form(formats.Body.read), w.small(), w.reply_end()
        return [told(formats.Reply(body, value, end, tuple(w.hashes())).write())]

    # frames

    def frames_request(self, w):
        """`request KIND BODY`: its fields, and `yes` and its frame, or `no` where no frame has so many bytes."""
        word, *fields = formats.read_request(w.number(255), w.bytes())
        words = [str(field) if isinstance(field, int) else told(field) for field in fields]
        if not formats.request_fits(word, *fields):
            return [word, *words, "no"]
        return [word, *words, "yes", told(formats.request_frame(word, *fields))]

    def frames_response(self, w):
        """`response KIND BODY`: the fields of its promise or root, its epochs and signatures, its siblings, or its
        code."""
        kind = w.number(255)
        value = formats.read_response(kind, w.bytes())
        words = {
            formats.PROMISE: lambda: promise_words(value.promise),
            formats.PROOF: lambda: [told(b"".join(value.siblings))],
            formats.ROOTS: lambda: list_words(value),
            formats.ROOT: lambda: body_words(value.body),
            formats.REFUSED: lambda: [str(value)],
        }
        return words[kind]()

    def frames_answer(self, w):
        """`answer KIND BODY`: a response, read and written as a frame."""
        kind = w.number(255)
        return [told(formats.response_frame(kind, formats.read_response(kind, w.bytes())))]

    def frames_new(self, w):
        """`new`: the feed begins again. The answer is empty."""
        self.feed = formats.Feed()
        return []

    def frames_feed(self, w):
        """`feed PIECE`: whether a frame is ready, and the frame; to the first that is not."""
        self.feed.feed(w.bytes())
        words = []
        while True:
            words.append(yes(self.feed.ready()))
            got = self.feed.next()
            if got in (formats.WAIT, formats.FAILED):
                return [*words, got]
            words += [str(got[0]), told(got[1])]

    # journal

    def kept_twice(self, room, data):
        """Whether a journal with so much room keeps the record, and keeps it once more; and what the room holds."""
        first = len(data) <= room
        second = first and 2 * len(data) <= room
        written = data + data if first else data
        return [yes(first), yes(second), told(written[:room].ljust(room, b"\0"))]

    def journal_start(self, w):
        """`start ROOM EPOCH NONCE SIGNING-KEY VUF-KEY`"""
        room = w.number(JOURNAL_ROOM)
        return self.kept_twice(room, formats.start_record(w.number(), w.hash(), w.hash(), w.hash()))

    def journal_register(self, w):
        """`register ROOM SALT NAME KEY`"""
        room = w.number(JOURNAL_ROOM)
        return self.kept_twice(room, formats.bound_record("register", w.hash(), w.name(), w.key()))

    def journal_change(self, w):
        """`change ROOM SALT NAME KEY`"""
        room = w.number(JOURNAL_ROOM)
        return self.kept_twice(room, formats.bound_record("change", w.hash(), w.name(), w.key()))

    def bound_twice(self, verb, w):
        room = w.number(JOURNAL_ROOM)
        return self.kept_twice(room, formats.bound_record(verb, w.hash(), w.name(), w.key(), w.policy()))

    def journal_register2(self, w):
        """`register2 ROOM SALT NAME KEY POLICY`"""
        return self.bound_twice("register", w)

    def journal_change2(self, w):
        """`change2 ROOM SALT NAME KEY POLICY`"""
        return self.bound_twice("change", w)

    def journal_turn(self, w):
        """`turn ROOM EPOCH`"""
        room = w.number(JOURNAL_ROOM)
        return self.kept_twice(room, formats.turned_record(w.number()))

    def journal_rotate(self, w):
        """`rotate ROOM EPOCH NONCE`"""
        room = w.number(JOURNAL_ROOM)
        return self.kept_twice(room, formats.rotated_record(w.number(), w.hash()))

    def journal_records(self, w):
        """`records BYTES`"""
        return [str(formats.count_records(w.bytes()))]

    # text: digits and faults of programs

    def text_digits(self, w):
        """`digits HEX32`"""
        return [w.hash().hex()]

    def text_hex32(self, w):
        """`hex32 TEXT`"""
        value = formats.hex32(w.bytes())
        return ["none" if value is None else told(value)]

    def stopped(self, fault):
        return ["fault", str(fault.status), fault.text]

    def text_option_hex(self, w):
        """`option-hex TEXT`"""
        try:
            return [told(formats.option_hex32(w.text()))]
        except formats.ProgramFault as fault:
            return self.stopped(fault)

    def text_hex32_or_zeros(self, w):
        """`hex32-or-zeros TEXT`, or `none`"""
        try:
            return [told(formats.hex32_or_zeros(w.optional(w.text)))]
        except formats.ProgramFault as fault:
            return self.stopped(fault)

    def text_fault(self, w):
        """`fault NAME [N]`: the status, the text, and the line that is written."""
        text = FAULTS.get(w.word())
        if text is None:
            raise BadQuestion
        if "{}" in text:
            text = text.format(w.number())
        return ["1", text, told_text(f"{text}\n".encode())]

    def text_refusal(self, w):
        """`refusal NAME`: the refusal's number, if it has one, and its text."""
        return named(REFUSALS, w.word())

    # items: the programs `root` and `prove`

    def ran(self, run):
        """`ok` and the text; or `fault`, the status, its text and what was written before it."""
        try:
            return ["ok", told_text(run().encode())]
        except formats.ProgramFault as fault:
            return [*self.stopped(fault), "-"]

    def digest(self, w):
        digest = DIGESTS.get(w.word())
        if digest is None:
            raise BadQuestion
        return digest

    def items_root(self, w):
        """`root HASH NONCE INPUT`: HASH is `sha256` or `sum`, NONCE a text or `none`."""
        digest, nonce, data = self.digest(w), w.optional(w.text), w.bytes()
        return self.ran(lambda: formats.root_text(digest, nonce, data))

    def items_prove(self, w):
        """`prove HASH NONCE INDEX INPUT`: INDEX is a text."""
        digest, nonce = self.digest(w), w.optional(w.text)
        index, data = w.text(), w.bytes()
        return self.ran(lambda: formats.prove_text(digest, nonce, index, data))
