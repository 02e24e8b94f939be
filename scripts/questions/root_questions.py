"""Questions on bodies, signed roots, promises, lists, evidence and chains."""

from dataclasses import replace

from model.formats import (
    FORK,
    LINK,
    SKIP,
    ZERO32,
    Body,
    SignedPromise,
    SignedRoot,
    byte_sum,
    counted,
    sha256,
    u16,
    write_list,
)
from questions.values import (
    BODY,
    FIRST_BODY,
    KEY,
    LONGEST_PROMISE,
    LONG_KEY,
    LONG_NAME,
    OTHER_KEY,
    PROMISE_OF_ALICE,
    TOP,
    changed_at,
    index,
    signed,
    spoiled,
)
from questions.writing import subjects

SUBJECTS, subject = subjects()

# Roots and promises ----------------------------------------------------------------------------------------


@subject("bodies and signed roots")
def of_bodies(q, rng):
    body, first = q.let("body", BODY.write()), q.let("first", FIRST_BODY.write())
    q.ask("roots body", body)
    q.ask("roots body", first)
    q.ask("roots body", replace(BODY, epoch=TOP, previous_epoch=TOP - 1).write())
    q.note("ill-formed: epoch 0, not above the one before, a hash of none before; another kind or version")
    for other in [
        replace(FIRST_BODY, epoch=0), replace(BODY, previous_epoch=7), replace(BODY, previous_epoch=8),
        replace(BODY, previous_epoch=0), replace(FIRST_BODY, previous_hash=bytes(31) + b"\1"),
        replace(BODY, epoch=TOP, previous_epoch=TOP),
    ]:
        q.ask("roots body", other.write())
        q.ask("roots front", "body", other.write() + b"\1")
    for place in [0, 1]:
        q.ask("roots body", changed_at(body, place, 0x50))
        q.ask("roots front", "body", changed_at(body, place, 0x50))
    q.note("each field cut short, and one byte more")
    for size in [0, 1, 2, 9, 10, 17, 18, 49, 50, 81, 82, 113, 114, 145]:
        q.ask("roots body", body[:size])
        q.ask("roots front", "body", body[:size])
    q.ask("roots body", body + b"\0")
    q.ask("roots front", "body", body)
    q.ask("roots front", "body", body + b"\0")
    q.ask("roots front", "body", first + b"\7" * 1000)
    q.note("signatures of 1 to 256 bytes, of which one of 32 verifies")
    good = signed(BODY)
    for signature in [b"s", b"signed", good.signature, b"\xab" * 255, b"\xab" * 256, good.signature + b"\0"]:
        root = SignedRoot(BODY, signature).write()
        q.ask("roots root", root)
        q.ask("roots root", root[:-1])
        q.ask("roots root", root + b"\0")
        q.ask("roots front", "root", root + b"\0")
    for data in [
        body, body + u16(0), body + u16(0) + b"s", body + counted(b"\xab" * 257), body + b"\0", body + u16(1),
    ]:
        q.ask("roots root", data)
        q.ask("roots front", "root", data)
    q.ask("roots root", signed(BODY, OTHER_KEY).write())
    q.ask("roots root", signed(FIRST_BODY).write())
    q.ask("roots root", changed_at(good.write(), 9, 8))
    for _ in range(20):
        q.ask("roots root", spoiled(rng, good.write()))


@subject("promises")
def of_promises(q, rng):
    promise = PROMISE_OF_ALICE
    text = q.let("promise", promise.write())
    q.ask("roots promise", text)
    q.note("an epoch of 0; another kind or version; each field cut short; one byte more")
    q.ask("roots promise", replace(promise, epoch=0).write())
    q.ask("roots front", "promise", replace(promise, epoch=0).write())
    q.ask("roots promise", replace(promise, epoch=TOP).write())
    for place in [0, 1]:
        q.ask("roots promise", changed_at(text, place, 0x52))
        q.ask("roots front", "promise", changed_at(text, place, 0x52))
    for size in [0, 1, 2, 9, 10, 41, 42, 73, 74, 75, 76, 80, 81, 82, 83, 84]:
        q.ask("roots promise", text[:size])
        q.ask("roots front", "promise", text[:size])
    q.ask("roots promise", text + b"\0")
    q.ask("roots front", "promise", text + b"\0")
    q.note("names of 0, 1, 255 and 256 bytes; keys of 0, 1, 2,048 and 2,049")
    q.let("name", LONG_NAME)
    q.let("key", LONG_KEY)
    for name, key in [
        (b"", b"k"), (b"n", b"k"), (LONG_NAME, b"k"), (LONG_NAME + b"\0", b"k"),
        (b"n", b""), (b"n", LONG_KEY), (b"n", LONG_KEY + b"\0"), (LONG_NAME, LONG_KEY), (b"", b""),
    ]:
        data = replace(promise, name=name, key=key).write()
        q.ask("roots promise", data)
        q.ask("roots front", "promise", data + b"\1\2")
    q.note("signed; the longest has 2,639 bytes")
    for made in [
        SignedPromise(promise, b"signed"), SignedPromise.signed(promise, KEY),
        SignedPromise.signed(promise, OTHER_KEY),
        SignedPromise(LONGEST_PROMISE, b"\xab" * 256), SignedPromise.signed(LONGEST_PROMISE, KEY),
        SignedPromise(promise, b"\xab" * 257), SignedPromise(promise, b""),
        SignedPromise(replace(promise, epoch=0), b"s"),
    ]:
        q.ask("roots signed-promise", made.write())
        q.ask("roots signed-promise", made.write()[:-1])
        q.ask("roots signed-promise", made.write() + b"\0")
        q.ask("roots front", "signed-promise", made.write() + b"\0")
    q.ask("roots signed-promise", changed_at(SignedPromise.signed(promise, KEY).write(), 9, 8))
    for _ in range(20):
        q.ask("roots signed-promise", spoiled(rng, SignedPromise.signed(promise, KEY).write()))


@subject("lists of roots")
def of_lists(q, rng):
    small, wide = SignedRoot(BODY, b"\7"), SignedRoot(BODY, b"\7" * 256)
    q.let("root", small.write())
    q.let("wide", wide.write())
    q.let("first", signed(FIRST_BODY).write())
    q.let("roots", small.write() * 63)
    q.let("wides", wide.write() * 63)
    q.note("of 0, 1, 3, 64 and 65 roots, of 149 bytes each and of 404")
    for many in [0, 1, 2, 3, 63, 64, 65, 256]:
        q.ask("roots list", write_list([small] * many))
        q.ask("roots list", write_list([wide] * many))
        if many <= 64:
            q.ask("roots write-list", *[small.write()] * many)
            q.ask("roots write-list", *[wide.write()] * many)
    q.ask("roots list", write_list([small, signed(FIRST_BODY), wide]))
    q.ask("roots write-list", small.write(), signed(FIRST_BODY).write(), wide.write())
    q.note("cut short, one byte more, and another number than there are")
    two = q.let("two", write_list([small, wide]))
    for size in [0, 1, 2, 3, 147, 148, 150, 151, 152, 300, len(two) - 1]:
        q.ask("roots list", two[:size])
    q.ask("roots list", two + b"\0")
    for count in [0, 1, 3, 65, 256, 65535]:
        q.ask("roots list", u16(count) + two[2:])
    q.ask("roots list", write_list([small, SignedRoot(replace(BODY, epoch=3), b"s")]))
    q.ask("roots list", write_list([SignedRoot(BODY, b""), small]))
    for _ in range(10):
        q.ask("roots list", spoiled(rng, two))


def epoch_body(epoch, previous=0, previous_hash=ZERO32, nonce=ZERO32):
    """A body of zeros but for these."""
    return Body(epoch, previous, ZERO32, previous_hash, nonce, ZERO32)


def epoch_root(epoch, previous=0, previous_hash=ZERO32, key=KEY, nonce=ZERO32):
    return signed(epoch_body(epoch, previous, previous_hash, nonce), key)


def root_after(root, epoch, digest=sha256, nonce=ZERO32):
    """The root of this epoch that follows a root."""
    return epoch_root(epoch, root.epoch, digest(root.body.write()), nonce=nonce)


def chain_of(*epochs, digest=sha256, nonces=None):
    """The roots of these epochs, each after the one before."""
    nonces = nonces or [ZERO32] * len(epochs)
    roots = [epoch_root(epochs[0], nonce=nonces[0])]
    for epoch, nonce in zip(epochs[1:], nonces[1:]):
        roots.append(root_after(roots[-1], epoch, digest, nonce))
    return roots


@subject("evidence of two roots")
def of_evidence(q, rng):
    third = epoch_root(3)
    rows = {
        "third": third, "fourth": epoch_root(4, 3), "linked": root_after(third, 4), "other3": epoch_root(3, 2),
        "other4": epoch_root(4, 2), "fifth": epoch_root(5, 3), "forged3": epoch_root(3, 2, key=ZERO32),
        "forged4": epoch_root(4, 3, key=ZERO32), "resigned": SignedRoot(third.body, b"s"),
    }
    for name, root in rows.items():
        q.let(name, root.write())
    q.note("a fork has one epoch and two bodies, a link another hash, a skip an epoch between")
    pairs = [
        ("third", "other3"), ("other3", "third"), ("third", "third"), ("third", "forged3"), ("forged3", "third"),
        ("third", "fourth"), ("fourth", "third"), ("third", "linked"), ("third", "other4"), ("other4", "third"),
        ("third", "forged4"), ("forged4", "third"), ("third", "fifth"), ("fourth", "fifth"), ("third", "resigned"),
        ("other3", "fourth"), ("linked", "fourth"), ("linked", "other4"), ("fifth", "other4"),
    ]
    for kind in [FORK, LINK, SKIP]:
        for one, other in pairs:
            q.ask(f"roots {kind}", KEY, rows[one].write(), rows[other].write())
        q.ask(f"roots {kind}", OTHER_KEY, rows["third"].write(), rows["other3"].write())


# Chains ------------------------------------------------------------------------------------------------------


@subject("a chain of the epochs 3, 7 and 9: starting, extending, asking")
def of_extending(q, rng):
    third = epoch_root(3)
    q.ask("chains head")
    q.note("a root that does not verify starts no chain")
    for key in [ZERO32, KEY]:
        q.ask("chains start", key, epoch_root(3, key=OTHER_KEY).write())
    q.ask("chains start", KEY, SignedRoot(third.body, third.signature + b"\0").write())
    q.ask("chains head")
    q.let("third", third.write())
    q.ask("chains start", KEY, third.write())
    q.ask("chains key")
    q.note("refused for the first reason that applies: its signature, its epoch, its link")
    right = sha256(third.body.write())
    for root in [
        epoch_root(2, 1, key=ZERO32), epoch_root(2, 1), epoch_root(3, 2, right), epoch_root(3),
        epoch_root(4, 2, right),
        epoch_root(4, 3), epoch_root(9, 7), SignedRoot(epoch_body(4, 3, right), b"\7" * 256),
        epoch_root(4, 0), epoch_root(TOP, TOP - 1),
    ]:
        q.ask("chains extend", root.write())
        q.ask("chains take", root.write())
    q.ask("chains head")
    seventh = root_after(third, 7)
    ninth = root_after(seventh, 9)
    for root in [seventh, ninth]:
        q.ask("chains extend", root.write())
        q.ask("chains extend", root.write())
    q.note("the root of an epoch, and the next one after an epoch")
    for epoch in [0, 1, 2, 3, 4, 6, 7, 8, 9, 10, TOP]:
        q.ask("chains at", epoch)
        q.ask("chains after", epoch)
    q.ask("chains head")
    q.ask("chains key")
    q.note("up to the greatest epoch")
    q.ask("chains extend", root_after(ninth, TOP).write())
    for epoch in [9, 10, TOP - 1, TOP]:
        q.ask("chains at", epoch)
        q.ask("chains after", epoch)


@subject("where a root stands to a chain")
def of_placing(q, rng):
    third, seventh, ninth = roots = chain_of(3, 7, 9)
    for name, root in zip(["third", "seventh", "ninth"], roots):
        q.let(name, root.write())
    q.ask("chains start", KEY, third.write())
    q.ask("chains take", seventh.write())
    q.ask("chains take", ninth.write())
    q.note("within the chain: known, a fork, an epoch that it passes over")
    head = sha256(ninth.body.write())
    for root in [
        third, seventh, ninth, epoch_root(9, 7), epoch_root(7, 3), epoch_root(3, 2), epoch_root(4, 3),
        epoch_root(8, 7),
        epoch_root(4, 3, sha256(third.body.write())),
    ]:
        q.ask("chains place", root.write())
        q.ask("chains take", root.write())
    q.note("above it: an epoch is passed over, another hash, the next one, one further ahead")
    for root in [epoch_root(12, 8), epoch_root(12, 9), epoch_root(12, 9, head), epoch_root(12, 10, head),
                 epoch_root(12, 10), epoch_root(12), epoch_root(TOP, TOP - 1)]:
        q.ask("chains place", root.write())
    q.note("a signature that does not verify, and another one of 256 bytes for a known body")
    for root in [
        epoch_root(8, 7, key=ZERO32), epoch_root(12, 9, head, key=ZERO32), SignedRoot(third.body, b"\7" * 256),
    ]:
        q.ask("chains place", root.write())
        q.ask("chains take", root.write())
    q.note("below a chain whose first root has one before")
    fifth = epoch_root(5, 3, sha256(third.body.write()))
    q.ask("chains start", KEY, fifth.write())
    for root in [epoch_root(4, 3), third, epoch_root(3, 2), epoch_root(2), epoch_root(1), epoch_root(4, 2)]:
        q.ask("chains place", root.write())
        q.ask("chains take", root.write())
    q.note("below a chain whose first root has none before")
    q.ask("chains start", KEY, third.write())
    for root in [epoch_root(1), epoch_root(2, 1)]:
        q.ask("chains place", root.write())
    q.note("under a checker that accepts each signature: roots with signatures of 1, 32, 33 and 256 bytes")
    wide = []
    for root, size in zip(roots, [256, 33, 1]):
        wide.append(SignedRoot(root.body, b"\7" * size).write())
    q.ask("chains any", *wide)
    q.ask("chains any-extended", *wide)
    q.ask("chains any", *wide[:2], wide[1], third.write(), SignedRoot(epoch_body(8, 7), b"\7" * 255).write())
    for verb in ["any", "any-extended"]:
        q.ask(f"chains {verb}", *(SignedRoot(root.body, b"\xab" * 256).write() for root in chain_of(*range(1, 25))))


@subject("lists that a chain takes whole, or not at all")
def of_taking(q, rng):
    third = epoch_root(3, 2)
    seventh = root_after(third, 7)
    ninth = root_after(seventh, 9)
    for name, root in [("third", third), ("seventh", seventh), ("ninth", ninth)]:
        q.let(name, root.write())
    q.ask("chains start", KEY, third.write())
    q.ask("chains take-list", write_list([]))
    q.note("after a good root one that is ahead, evidence of each kind, before the start, or not verified")
    for root in [
        epoch_root(12, 10), epoch_root(9, 6), epoch_root(9, 7), epoch_root(7, 3), epoch_root(5, 3),
        epoch_root(2, 1),
        epoch_root(1), epoch_root(9, 7, sha256(seventh.body.write()), key=ZERO32),
        SignedRoot(ninth.body, b"\7" * 256),
    ]:
        q.ask("chains take-list", write_list([seventh, root]))
        q.ask("chains take-list", write_list([root, seventh]))
        q.ask("chains head")
    q.note("epochs that skip some, and roots that it has already")
    q.ask("chains take-list", write_list([third, seventh, ninth, seventh]))
    q.ask("chains take-list", write_list([third, seventh, ninth]))
    q.ask("chains head")
    q.note("sixty-four roots of which the last is refused, and then the sixty-four")
    roots = [ninth]
    for epoch in range(20, 84):
        roots.append(root_after(roots[-1], epoch, nonce=ZERO32))
    q.let("more", b"".join(root.write() for root in roots[1:64]))
    q.ask("chains take-list", write_list([*roots[1:64], epoch_root(90, 2)]))
    q.ask("chains head")
    q.ask("chains take-list", write_list(roots[1:]))
    q.ask("chains head")
    for epoch in [19, 20, 50, 83, 84]:
        q.ask("chains at", epoch)
        q.ask("chains after", epoch)


# A chain that starts has room for three roots more, so a list of four takes memory.


def few_roots(q):
    """Names a key and roots: one to start at, one that follows it, and those that are refused."""
    fifth = epoch_root(5, 2)
    seventh = root_after(fifth, 7)
    refused = [epoch_root(7, 5, key=ZERO32), epoch_root(1), epoch_root(9, 8), epoch_root(5, 4)]
    q.let("k", KEY)
    for name, root in zip("absuwf", [fifth, seventh, *refused]):
        q.let(name, root.write())
    return fifth.write(), seventh, refused


@subject("in a few lines: room comes first, before the roots of a list are looked at")
def of_room_first(q, rng):
    start, seventh, refused = few_roots(q)
    for verb in ["room", "room-bytes"]:
        for root in [seventh, *refused]:
            q.ask(f"chains {verb}", KEY, start, write_list([root, *[seventh] * 3]))
        q.ask(f"chains {verb}", KEY, start, write_list([seventh, refused[0], *[seventh] * 2]))


@subject("in a few lines: roots for which there is room, and bytes that are no list")
def of_room_enough(q, rng):
    start, seventh, refused = few_roots(q)
    for verb in ["room", "room-bytes"]:
        for root in [seventh, refused[0]]:
            q.ask(f"chains {verb}", KEY, start, write_list([root, *[seventh] * 2]))
        q.ask(f"chains {verb}", KEY, start, write_list([refused[0], *[seventh] * 3])[:-1])


@subject("a chain of hundreds of roots")
def of_long_chains(q, rng):
    roots = chain_of(*range(1, 221))
    q.let("b", roots[0].body.write()[:9])
    q.let("z", ZERO32)
    q.let("y", 2 * ZERO32 + u16(32))
    q.ask("chains start", KEY, roots[0].write())
    for root in roots[1:70]:
        q.ask("chains extend", root.write())
    for root in roots[70:140]:
        q.ask("chains take", root.write())
    for at in range(140, 220, 40):
        q.ask("chains take-list", write_list(roots[at : at + 40]))
    q.ask("chains head")
    for epoch in [0, 1, 2, 63, 64, 65, 128, 150, 200, 219, 220, 221]:
        q.ask("chains at", epoch)
        q.ask("chains after", epoch)
    for root in [
        roots[0], roots[137], roots[219], epoch_root(138, 137), epoch_root(221, 219), epoch_root(221, 220),
    ]:
        q.ask("chains place", root.write())
    next_root = root_after(roots[219], 221)
    q.ask("chains extend", next_root.write())
    q.ask("chains take", root_after(next_root, 222).write())
    q.ask("chains head")


# Nonces of kinds 1 and 2 have one sum, so roots that follow them name both.
KINDS = {1: index(1), 2: index(0, 1), 3: index(3)}


@subject("two chains, compared under sums: bodies of one sum make collisions")
def of_comparing(q, rng):
    tables = [
        [(1, 1)], [(1, 2)], [(4, 1)], [(1, 1), (3, 1)], [(1, 2), (3, 1)], [(1, 1), (2, 1), (3, 1), (4, 1)],
        [(1, 1), (2, 2), (3, 1), (4, 1)], [(1, 2), (2, 2), (3, 1), (4, 1)], [(1, 1), (2, 1), (4, 1)],
        [(2, 1), (3, 1), (4, 3)], [(1, 3), (2, 1), (3, 1), (4, 1)], [(3, 1), (4, 1)],
    ]
    lists = []
    for n, rows in enumerate(tables):
        epochs, kinds = zip(*rows)
        roots = chain_of(*epochs, digest=byte_sum, nonces=[KINDS[kind] for kind in kinds])
        lists.append(q.let(f"chain{n}", write_list(roots)))
    q.let("key", KEY)
    for one in lists:
        for other in lists:
            q.ask("chains compare-sum", KEY, one, other)
    q.note("one body at epoch 9 above two at 7; both chains cut after 7")
    three = [chain_of(3, 7, 9, digest=byte_sum, nonces=[KINDS[1], KINDS[kind], KINDS[1]]) for kind in (1, 2)]
    for many in [3, 2, 1]:
        one, other = (write_list(roots[:many]) for roots in three)
        q.ask("chains compare-sum", KEY, one, other)
        q.ask("chains compare-sum", KEY, other, one)


@subject("two chains, compared under SHA-256")
def of_comparing_keyed(q, rng):
    roots = chain_of(3, 5, nonces=[KINDS[1]] * 2)
    lower = q.let("lower", write_list(roots))
    head = sha256(roots[1].body.write())
    q.note("one begins above the other's head: a skip, a link, or nothing to compare")
    for previous, previous_hash in [(4, head), (5, ZERO32), (5, head), (6, head), (2, head), (0, ZERO32)]:
        upper = write_list([epoch_root(8, previous, previous_hash)])
        q.ask("chains compare", KEY, lower, upper)
        q.ask("chains compare", KEY, upper, lower)
    q.note("equal, a fork after the first roots, a skip within, and one that has more")
    chains = [
        chain_of(3, 5, 7), chain_of(3, 5, 7, nonces=[ZERO32, ZERO32, KINDS[1]]), chain_of(3, 7),
        chain_of(3, 5, 6, 7), chain_of(3, 5), chain_of(3, 4, 9), chain_of(5, 7), chain_of(5, 7)[:1],
    ]
    lists = [q.let(f"chain{n}", write_list(roots)) for n, roots in enumerate(chains)]
    for one in lists:
        for other in lists:
            q.ask("chains compare", KEY, one, other)
    q.note("of sixty-four roots each, which differ in the last, in the tenth, or nowhere")
    long = chain_of(*range(1, 65))
    q.let("long", write_list(long))
    last = write_list([*long[:63], root_after(long[62], 64, nonce=KINDS[1])])
    tenth = long[:9]
    for epoch in range(10, 14):
        tenth = [*tenth, root_after(tenth[-1], epoch, nonce=KINDS[1] if epoch == 10 else ZERO32)]
    for other in [write_list(long), last, write_list(tenth), write_list(long[20:40]), write_list(long[:1])]:
        q.ask("chains compare", KEY, write_list(long), other)
        q.ask("chains compare", KEY, other, write_list(long))
