#!/usr/bin/env python3
"""The worked frames of docs/FORMATS.md, roots to audit and evidence to judge, with what is right of each.

    scripts/questions/worked.py               prints the worked frames, field by field in hex
    scripts/questions/worked.py --in FILE     looks for what is printed in a document
    scripts/questions/worked.py --keys        prints the options of the directory that they are of
    scripts/questions/worked.py --requests    writes the bytes of all requests
    scripts/questions/worked.py --replies     writes the bytes of their replies
    scripts/questions/worked.py --audited     prints lines for `audit`, each with its answer behind a space
    scripts/questions/worked.py --evidence    prints the status of `judge`, a kind and the file, a line each

The status of `--in` is 0 if the document has what is printed.
"""

import pathlib
import sys
from typing import NamedTuple

sys.dont_write_bytecode = True
sys.path.insert(0, str(pathlib.Path(__file__).resolve().parent.parent))

from model import formats
from model.sessions import Auditor, Hub, audited_line, keyed_directory

SIGNING_KEY, VUF_KEY, SALT_KEY, TOKEN = (bytes([k]) * 32 for k in (1, 2, 3, 4))

# Requests: a kind and the parts of its body ----------------------------------------------------------


def request(word, *fields):
    kind, parts = formats.REQUEST_KINDS[word], []
    for form, field in zip(formats.REQUESTS[kind][1:], fields):
        parts += [formats.u16(len(field)), field] if form == "counted" else [formats.WRITERS[form](field)]
    return kind, parts


# What is asked, in this order; with True what is shown in the document field by field.

ASKED = [
    ("Head", request("head"), True),
    ("Register alice with the key k1", request("register", b"alice", b"k1"), True),
    ("Promise of alice", request("promise", b"alice"), False),
    ("Lookup of alice in epoch 1", request("lookup", 1, b"alice"), False),
    ("Close, with epoch 2", request("close", TOKEN, 2), True),
    ("Lookup of alice in epoch 2", request("lookup", 2, b"alice"), True),
    ("Lookup of bob in epoch 2", request("lookup", 2, b"bob"), True),
    ("History from epoch 2, one root", request("history", 2, 1), False),
    ("Change alice to the key k2", request("change", b"alice", b"k2"), False),
    ("Register eve with the key k3", request("register", b"eve", b"k3"), False),
    ("Close, with epoch 5", request("close", TOKEN, 5), False),
    ("Lookup of alice in the latest epoch", request("lookup", 0, b"alice"), False),
    ("Lookup of alice in epoch 2, once more", request("lookup", 2, b"alice"), False),
    ("Lookup of eve in epoch 5", request("lookup", 5, b"eve"), False),
    ("Lookup of carol in epoch 5", request("lookup", 5, b"carol"), True),
    ("Lookup of peggy in epoch 5", request("lookup", 5, b"peggy"), False),
    ("History from epoch 0, 64 roots", request("history", 0, 64), False),
    ("History from epoch 6, one root", request("history", 6, 1), False),
    ("Register a name of 0 bytes", request("register", b"", b"k1"), False),
    ("Register a name of 256 bytes", request("register", b"a" * 256, b"k1"), False),
    ("Register carol with a key of 0 bytes", request("register", b"carol", b""), False),
    ("Register carol with a key of 2,049 bytes", request("register", b"carol", b"k" * 2049), False),
    ("Register alice again", request("register", b"alice", b"k1"), True),
    ("Change carol, who has no key", request("change", b"carol", b"k1"), False),
    ("Register carol with the key k1", request("register", b"carol", b"k1"), False),
    ("Register carol once more", request("register", b"carol", b"k2"), False),
    ("Promise of alice, for whom nothing waits", request("promise", b"alice"), False),
    ("Lookup of alice in epoch 3", request("lookup", 3, b"alice"), False),
    ("Close, with epoch 5 again", request("close", TOKEN, 5), False),
    ("Close, with another token", request("close", formats.ZERO32, 6), False),
    ("History of no root", request("history", 0, 0), False),
    ("A request of kind 09", (0x09, []), False),
    ("Head with a byte too many", (0x06, [b"\0"]), False),
    ("Register frank with the key k1, final", request("register2", formats.FINAL, b"frank", b"k1"), True),
    ("Close, with epoch 6", request("close", TOKEN, 6), False),
    ("Lookup of frank in epoch 6", request("lookup", 6, b"frank"), False),
    ("Change frank to the key k2", request("change", b"frank", b"k2"), False),
    ("Change frank to the key k2, open", request("change2", formats.OPEN, b"frank", b"k2"), False),
    ("Register grace with a policy of 3", request("register2", 3, b"grace", b"k1"), False),
    ("Head, after all of these", request("head"), False),
]

CHANGES = [formats.REQUEST_KINDS[word] for word in ("register", "change", "register2", "change2", "close")]


class Exchange(NamedTuple):
    """What is asked in words, the parts of the request's frame, and the bytes of the reply."""

    words: str
    request: list
    reply: bytes
    is_shown: bool


def exchanges(asked=ASKED):
    """What a new directory answers."""
    hub = Hub(keyed_directory(1, formats.ZERO32, SIGNING_KEY, VUF_KEY, SALT_KEY), TOKEN)
    hub.open(0)
    for words, (kind, parts), is_shown in asked:
        sent = [formats.u32(1 + len(b"".join(parts))), formats.u8(kind), *parts]
        yield Exchange(words, sent, hub.bytes(0, b"".join(sent)), is_shown)


def again():
    """What only reads, as a directory answers it that has been asked all of it."""
    reading = [row for row in ASKED if row[1][0] not in CHANGES]
    return list(exchanges(ASKED + reading))[len(ASKED) :]


# Replies, field by field -------------------------------------------------------------------------------

KIND_WORDS = {
    formats.PROMISE: "promise",
    formats.PROOF: "proof",
    formats.ROOTS: "roots",
    formats.ROOT: "root",
    formats.REFUSED: "refused",
}


def body_fields(body):
    return [
        (b"R\x01", "a root, version 1"),
        (formats.u64(body.epoch), "its epoch"),
        (formats.u64(body.previous_epoch), "the epoch before, 0 for none"),
        (body.root, "the root hash of the tree"),
        (body.previous_hash, "the hash of the body before"),
        (body.nonce, "the nonce"),
        (body.vuf_key, "the key of the verifiable function"),
    ]


def counted_fields(value, label, what):
    return [(formats.u16(len(value)), f"length of the {what}"), (value, label)]


def policy_fields(policy):
    """The field of a policy, if there is one."""
    return [] if policy is None else [(formats.u8(policy), f"the policy: {formats.POLICIES[policy]}")]


def signature_fields(signature):
    return counted_fields(signature, "the signature", "signature")


def root_fields(root):
    return body_fields(root.body) + signature_fields(root.signature)


def roots_fields(roots):
    return [(formats.u16(len(roots)), "number of roots")] + [field for root in roots for field in root_fields(root)]


def promise_fields(signed):
    promise = signed.promise
    version = formats.versioned(promise.policy)[:1]
    front = [
        (b"P" + version, f"a promise, version {version[0]}"),
        (formats.u64(promise.epoch), "the epoch of the latest root"),
        (promise.body_hash, "the hash of its body"),
        (promise.index, "the index of the name"),
        *policy_fields(promise.policy),
    ]
    name = counted_fields(promise.name, "the name", "name")
    return front + name + counted_fields(promise.key, "the key", "key") + signature_fields(signed.signature)


def end_fields(end):
    if isinstance(end, formats.Opening):
        kind = b"\x01" if end.policy is None else b"\x04"
        front = [(kind, "the end: the leaf of the name"), *policy_fields(end.policy), (end.salt, "the salt")]
        return front + counted_fields(end.key, "the key", "key")
    if isinstance(end, formats.Empty):
        return [(b"\x02", "the end: empty")]
    leaf = [(b"\x03", "the end: the leaf of another index")]
    return leaf + [(end.index, "that index"), (end.commitment, "its commitment")]


def proof_fields(reply):
    value = counted_fields(reply.value, "the name's value", "value")
    siblings = [(formats.u16(len(reply.siblings)), "number of siblings")]
    siblings += [(sibling, "a sibling") for sibling in reply.siblings]
    return body_fields(reply.body) + value + end_fields(reply.end) + siblings


def code_fields(code):
    return [(formats.u8(code), "the number of the refusal")]


FIELDS = {
    formats.PROMISE: promise_fields,
    formats.PROOF: proof_fields,
    formats.ROOTS: roots_fields,
    formats.ROOT: root_fields,
    formats.REFUSED: code_fields,
}


def reply_fields(reply):
    """The fields of a reply's frame, with what each is."""
    kind = reply[4]
    front = [(reply[:4], "length of the rest"), (formats.u8(kind), f"kind: {KIND_WORDS[kind]}")]
    return front + FIELDS[kind](formats.read_response(kind, reply[5:]))


def printed():
    for exchange in exchanges():
        if not exchange.is_shown:
            continue
        yield f"{exchange.words}:"
        yield ""
        yield "    " + " ".join(part.hex() for part in exchange.request if part)
        yield ""
        for part, label in reply_fields(exchange.reply):
            yield f"    {part.hex():64}  {label}"
        yield ""


# Lines for `audit`, and evidence for `judge` ---------------------------------------------------------------

ZEROS, NONCE = formats.ZERO32, bytes(range(0xA0, 0xC0))


def signed(body):
    return formats.SignedRoot.signed(body, SIGNING_KEY)


def body_after(earlier, epoch, nonce=NONCE, root=ZEROS):
    """The body of this epoch that names the earlier one."""
    return formats.Body(epoch, earlier.epoch, root, formats.sha256(earlier.write()), nonce, VUF_KEY)


# A chain of epochs 3, 7 and 9, and beside it another root of epoch 7.
THIRD = formats.Body(3, 0, ZEROS, ZEROS, NONCE, VUF_KEY)
SEVENTH = body_after(THIRD, 7)
NINTH = body_after(SEVENTH, 9)
OTHER_SEVENTH = body_after(THIRD, 7, nonce=ZEROS)


def audited():
    """Lines for an auditor under the signing key, and what it answers to them."""
    tenth = body_after(body_after(OTHER_SEVENTH, 9), 10)
    roots = [THIRD, SEVENTH, NINTH, SEVENTH, body_after(body_after(NINTH, 11), 12), OTHER_SEVENTH, tenth]
    roots += [body_after(SEVENTH, 8), formats.Body(1, 0, ZEROS, ZEROS, ZEROS, ZEROS), NINTH]
    lines = [signed(body).write() for body in roots]
    lines[-1:-1] = [formats.SignedRoot.signed(SEVENTH, VUF_KEY).write(), signed(SEVENTH).write()[:-1]]
    auditor = Auditor(formats.sha256)
    return [(line.hex(), audited_line(auditor, SIGNING_KEY, line.hex().encode())) for line in lines]


def evidence():
    """Evidence of each kind that holds under the signing key, and some that does not."""
    vuf, salt = formats.KeyedVuf(VUF_KEY), bytes(range(0x20, 0x40))
    value = vuf.value(b"alice")

    def bound(before, epoch, key, policy=None):
        """The root of an epoch that binds this to alice, and the reply."""
        commitment = formats.sha256(formats.commitment_text(salt, b"alice", key, policy))
        tree = formats.Tree(formats.sha256, NONCE, {formats.sha256(value): commitment})
        body = body_after(before, epoch, root=tree.root())
        return signed(body), formats.Reply(body, value, formats.Opening(salt, key, policy), ()).write()

    def promised(key):
        """A promise of a key for alice at epoch 7; and the next root, which binds k1 to her."""
        promise = formats.Promise(7, formats.sha256(SEVENTH.write()), formats.sha256(value), b"alice", key)
        return formats.BrokenPromise(formats.SignedPromise.signed(promise, SIGNING_KEY), *bound(SEVENTH, 8, b"k1"))

    def changed(key):
        """What is final for alice at epoch 7; and a later root, which binds this key to her."""
        first, later = bound(THIRD, 7, b"k1", formats.FINAL), bound(SEVENTH, 9, key, formats.FINAL)
        return formats.BrokenFinal(b"alice", *first, *later)

    seventh, other = signed(SEVENTH), signed(OTHER_SEVENTH)
    return [
        formats.RootEvidence(formats.FORK, seventh, other),
        formats.RootEvidence(formats.LINK, seventh, signed(body_after(OTHER_SEVENTH, 9))),
        formats.RootEvidence(formats.SKIP, seventh, signed(body_after(THIRD, 9))),
        promised(b"k9"),
        changed(b"k2"),
        formats.RootEvidence(formats.FORK, seventh, seventh),
        formats.RootEvidence(formats.LINK, seventh, signed(NINTH)),
        formats.RootEvidence(formats.SKIP, signed(THIRD), seventh),
        promised(b"k1"),
        changed(b"k1"),
    ]


def judged():
    """The status of `judge`, the kind and the file, a line each."""
    for given in evidence():
        status = 0 if formats.judge(formats.sha256, formats.KeyedVuf, SIGNING_KEY, given) else 3
        yield f"{status} {given.kind} {formats.evidence_json(given)}"


# The command line --------------------------------------------------------------------------------------------


def keys():
    named = zip(("sign-key", "vuf-key", "salt-key", "token"), (SIGNING_KEY, VUF_KEY, SALT_KEY, TOKEN))
    return " ".join(f"--{option} {key.hex()}" for option, key in named)


def write_bytes(data):
    sys.stdout.buffer.write(data)


def main(words):
    match words:
        case []:
            print("\n".join(printed()))
        case ["--in", path]:
            with open(path, encoding="utf-8") as document:
                return 0 if "\n".join(printed()).strip() in document.read() else 1
        case ["--keys"]:
            print(keys())
        case ["--requests"]:
            write_bytes(b"".join(part for exchange in exchanges() for part in exchange.request))
        case ["--replies"]:
            write_bytes(b"".join(exchange.reply for exchange in exchanges()))
        case ["--audited"]:
            print("\n".join(f"{line} {answer}" for line, answer in audited()))
        case ["--evidence"]:
            print("\n".join(judged()))
        case _:
            print(__doc__, file=sys.stderr)
            return 2
    return 0


if __name__ == "__main__":
    try:
        sys.exit(main(sys.argv[1:]))
    except OSError as error:
        sys.exit(f"{sys.argv[-1]}: {error}")
