"""Questions of `session_vectors` on clients and monitors, of providers that are honest or cheat."""

from dataclasses import replace

from model.formats import (
    ZERO32,
    Empty,
    Opening,
    Other,
    Refusal,
    SignedPromise,
    byte_sum,
    counted,
    empty_text,
    interior_text,
    leaf_text,
    sha256,
    u16,
    u8,
    write_list,
)
from model.sessions import SIGNING_KEY, Client
from questions.providers import (
    BOTH,
    KEYED,
    OTHER_KEY,
    SUMS,
    TOP,
    folded,
    lets,
    long_signature,
    replace_nonce,
    roots,
    started,
    written,
    wrong_replies,
)
from questions.session_scripts import key_of
from questions.values import run
from questions.writing import subjects

SUBJECTS, subject = subjects()

# Clients ----------------------------------------------------------------------------------------------------


@subject("clients: a start, and lists of roots")
def of_updates(q, rng):
    a, b, c = KEYED.pages([3, 7, 9])
    before = KEYED.page(2)
    fork, skip = KEYED.page(7, a, nonce=run(1)), KEYED.page(8, a)
    link, ahead = KEYED.page(12, KEYED.page(9, b, nonce=run(2))), KEYED.page(12, KEYED.page(11, c))
    forged = KEYED.page(7, a, signing_key=OTHER_KEY)
    lets(q, a=a, b=b, c=c)
    q.note("No client and no monitor is there yet.")
    for verb in ["client head", "monitor name", "monitor next", "monitor client", "monitor reconcile"]:
        q.ask(verb)
    q.ask("client update", roots(a))
    q.ask("monitor new", b"a", "none")
    q.note("A client starts at a signed root.")
    for root in [b"R", b"", written(a)[:-1], written(a) + b"\0", written(KEYED.page(3, signing_key=OTHER_KEY))]:
        q.ask("client start", SIGNING_KEY, root)
    for size in [31, 33, 100, 256]:
        q.ask("client start", SIGNING_KEY, long_signature(a, size))
    q.ask("client start", OTHER_KEY, written(a))
    q.ask("client start", SIGNING_KEY, written(a))
    q.ask("client key")
    q.ask("client head")
    q.ask("client start", SIGNING_KEY, b"R")
    q.note("What is refused, and leaves the client as it was.")
    for data in [
        b"", b"\0", roots(a)[:-1], roots(a) + b"\0", u16(65) + written(a) * 65, u16(2) + written(a),
        roots(a, c), roots(c), roots(ahead), roots(b, forged), roots(b, forged, ahead),
        roots(b, ahead, forged), roots(forged), roots(b, skip), roots(b, c, fork), roots(b, c, link),
        roots(b, c, skip), roots(b, c, before), roots(KEYED.page(1)), u16(1) + long_signature(b, 33),
        u16(1) + long_signature(b, 256), u16(64) + written(b) * 63 + long_signature(b, 255),
        u16(64) + long_signature(b, 256) * 64,
    ]:
        q.ask("client update", data)
    q.ask("client head")
    q.note("What is taken.")
    for data in [roots(), roots(a), roots(a, b), roots(b, a, b, c, a), roots(c), u16(64) + written(c) * 64]:
        q.ask("client update", data)
        q.ask("client head")
    q.note("Evidence with a chain of three roots, and roots before the first one.")
    early = KEYED.page(5, KEYED.page(2, nonce=run(4)))
    q.ask("client update", roots(fork))
    q.ask("client update", roots(skip))
    q.ask("client update", roots(KEYED.page(8, b)))
    q.ask("client update", roots(link))
    q.ask("client update", roots(KEYED.page(12, b)))
    q.ask("client update", roots(before))
    q.ask("client start", SIGNING_KEY, written(early))
    for page in [KEYED.page(1), KEYED.page(2), KEYED.page(2, nonce=run(4)), KEYED.page(3)]:
        q.ask("client update", roots(page))
    q.ask("client head")


@subject("clients: longer lists, and chains of which each client has a part")
def of_long_lists(q, rng):
    pages = KEYED.pages(range(5, 45, 2))
    lets(q, a=pages[0], b=pages[1])
    q.let("roots", b"".join(written(page) for page in pages))
    for others, ones in [(pages, pages[:9]), (pages[:9], pages[8:]), (pages[:9], pages[9:]), (pages[:9], pages[10:])]:
        for part in (others, ones):
            q.ask("client start", SIGNING_KEY, written(part[0]))
            q.ask("client update", roots(*part))
            q.ask("client update", roots(*part[-3:]))
            q.ask("client head")
            if part is others:
                q.ask("client put-aside")
        q.ask("client reconcile")
    q.ask("client update", u16(64) + written(pages[19]) * 64)
    q.ask("client update", u16(65) + written(pages[19]) * 65)
    q.ask("client reconcile-self")


@subject("clients and monitors that begin at later epochs, up to the greatest")
def of_late_starts(q, rng):
    for first in [2, 13, 400, 2**32, TOP - 1]:
        a = KEYED.page(first, KEYED.page(1))
        b = KEYED.page(TOP, a, {b"a": b"k"})
        promise = a.promise(b"a", b"k")
        replies = [page.reply(b"a").write() for page in (a, b)]
        lets(q, a=a, b=b)
        q.ask("client start", SIGNING_KEY, written(a))
        q.ask("client keep", promise)
        q.ask("client look", b"a", first, replies[0])
        q.ask("client update", roots(a, b))
        q.ask("client update", roots(KEYED.page(1)))
        q.ask("client look", b"a", TOP, replies[1])
        q.ask("client look", b"a", 0, replies[1])
        q.ask("client due-epoch", b"a")
        q.ask("client due", b"a", replies[1])
        q.ask("client keep", b.promise(b"a", b"k"))
        q.ask("client due-epoch", b"a")
        q.ask("client due", b"a", replies[1])
        q.ask("monitor new", b"a", "none")
        q.ask("monitor update", roots(KEYED.page(1)))
        q.ask("monitor expect", b"k", promise)
        for reply in replies:
            q.ask("monitor next")
            q.ask("monitor step", reply)
        q.ask("monitor next")
        q.ask("monitor expect", b"k", b.promise(b"a", b"k"))
        q.ask("monitor expected", TOP)


@subject("clients: looks")
def of_looks(q, rng):
    for provider in BOTH:
        client = provider.client
        a = provider.page(3)
        b = provider.page(7, a, {b"a": b"k1", b"bob": b"k2", b"carol": b"k3"})
        c = provider.page(9, b, {b"a": b"k4"})
        lets(q, a=a, b=b, c=c)
        for name in [b"a", b"bob", b"dave"]:
            q.let(name.decode() + "_7", b.reply(name).write())
        q.ask(f"{client} start", SIGNING_KEY, written(a))
        q.ask(f"{client} look", b"a", 7, b.reply(b"a").write())
        q.ask(f"{client} look", b"a", 0, a.reply(b"a").write())
        q.ask(f"{client} look-next", b"a", 3, b.reply(b"a").write())
        q.ask(f"{client} update", roots(b, c))
        for epoch, name, reply in [
            (3, b"a", a.reply(b"a")), (7, b"a", b.reply(b"a")), (9, b"a", c.reply(b"a")),
            (0, b"a", c.reply(b"a")), (7, b"bob", b.reply(b"bob")), (7, b"dave", b.reply(b"dave")),
            (9, b"bob", c.reply(b"bob")), (0, b"a", b.reply(b"a")), (7, b"a", a.reply(b"a")),
            (5, b"a", b.reply(b"a")), (2, b"a", a.reply(b"a")), (10, b"a", c.reply(b"a")),
            (TOP, b"a", c.reply(b"a")), (1, b"", b.reply(b"a")),
        ]:
            q.ask(f"{client} look", name, epoch, reply.write())
        q.ask(f"{client} look", b"a", 5, b"")
        q.note("Under the first root after an epoch.")
        for epoch, name, reply in [
            (0, b"a", a.reply(b"a")), (2, b"a", a.reply(b"a")), (3, b"a", b.reply(b"a")), (6, b"dave", b.reply(b"dave")),
            (7, b"a", c.reply(b"a")), (8, b"bob", c.reply(b"bob")), (9, b"a", c.reply(b"a")), (TOP, b"a", c.reply(b"a")),
            (0, b"a", c.reply(b"a")), (3, b"a", a.reply(b"a")), (3, b"b", b.reply(b"a")), (3, b"", b.reply(b"a")),
        ]:
            q.ask(f"{client} look-next", name, epoch, reply.write())
        q.ask(f"{client} look-next", b"a", 9, b"")
        q.ask(f"{client} look-next", b"a", 3, b"")
        q.note("Replies that are not accepted.")
        good = b.reply(b"a")
        value, index, far = good.value, provider.index_of(b"a"), bytes(b ^ 255 for b in provider.index_of(b"a"))
        for reply in [
            replace(good, body=replace(good.body, nonce=run(1))),
            replace(good, value=provider.vuf.value(b"b")),
            replace(good, end=Other(index, run(2))), replace(good, end=Other(far, run(2))),
            replace(good, end=Empty()),
            replace(good, end=Opening(ZERO32, b"k2")), replace(good, end=Opening(run(1), b"k1")),
            replace(good, siblings=good.siblings[:-1]), replace(good, siblings=(*good.siblings, run(3))),
            replace(good, end=Other(far, run(2)), siblings=()),
        ]:
            q.ask(f"{client} look", b"a", 7, reply.write())
        text = good.write()
        for data in [b"", text[:-1], text[:100], text + b"\0", b"S" + text[1:], text[:146] + b"\0\0" + text[148:]]:
            q.ask(f"{client} look", b"a", 7, data)
        q.ask(f"{client} look", b"b", 7, text)
        q.ask(f"{client} reconcile-self")
    q.note("Names and keys of many bytes, and replies of up to 256 siblings.")
    far = bytes(bit ^ 1 for bit in KEYED.index_of(b"a"))
    for name, end, levels in [
        (b"alice.", Opening(ZERO32, b"k" * 101), 3), (b"a" * 255, Opening(run(1), b"k" * 2048), 20),
        (b"a" * 100, Opening(ZERO32, b"k"), 40), (b"a", Opening(ZERO32, b"k" * 2048), 256),
        (b"a", Empty(), 256), (b"a", Other(far, run(2)), 7), (b"a", Other(far, run(2)), 8),
    ]:
        page, reply = folded(KEYED, name, end, [u8(levels % 256) * 32] * levels)
        lets(q, page=page)
        q.ask("client start", SIGNING_KEY, written(page))
        q.ask("client look", name, 1, reply.write())
        q.ask("client look-next", name, 0, reply.write())
        q.ask("client look", name, 0, replace(reply, siblings=reply.siblings[:-1]).write())
        q.ask("client look", name, 0, replace(reply, siblings=(*reply.siblings, ZERO32)).write())
        q.ask("client look", name, 0, reply.write()[:-1])
        q.ask("client reconcile-self")


    q.note("The longest reply of a name of 255 bytes that is its own value.")
    page, reply = folded(SUMS, b"a" * 255, Opening(run(1), b"k" * 2048), [run(2)] * 256)
    assert len(reply.write()) == 10680
    q.ask("client-sum start", SIGNING_KEY, written(page))
    q.ask("client-sum look", b"a" * 255, 0, reply.write())
    q.ask("client-sum look", b"a" * 254, 0, reply.write())
    q.ask("client-sum reconcile-self")


@subject("clients: hundreds of looks")
def of_many_looks(q, rng):
    page = KEYED.page(3, None, {b"a": b"k", b"b": b"l"})
    lets(q, page=page)
    a = q.let("a", page.reply(b"a").write())
    b, c = q.let("b", page.reply(b"b").write()), q.let("c", page.reply(b"c").write())
    for turn, count in enumerate([300, 9]):
        q.ask("client start", SIGNING_KEY, written(page))
        for _ in range(count):
            q.ask("client look", b"a", 0, a)
        for _ in range(9):
            q.ask("client look", b"b", 3, b)
            q.ask("client look", b"c", 3, c)
        q.ask("client reconcile-self")
        if turn == 0:
            q.ask("client put-aside")
    q.ask("client reconcile")
    q.ask("client key")


@subject("clients: promises that are kept, broken, and of another index")
def of_promises(q, rng):
    for provider in BOTH:
        client = provider.client
        a = provider.page(3)
        b = provider.page(7, a, {b"a": b"k1"})
        c = provider.page(9, b, {b"a": b"k2"})
        lets(q, a=a, b=b, c=c)
        first, second = q.let("first", a.promise(b"a", b"k1")), q.let("second", b.promise(b"a", b"k1"))
        replies = [q.let(f"reply{page.epoch}", page.reply(b"a").write()) for page in (a, b, c)]
        q.ask(f"{client} start", SIGNING_KEY, written(a))
        q.ask(f"{client} due", b"a", replies[0])
        q.ask(f"{client} due", b"a", b"")
        q.ask(f"{client} due-epoch", b"a")
        q.note("Promises that are refused.")
        for promise in [
            b"", b"P", first[:-1], first + b"\0", a.promise(b"a", b"k1", OTHER_KEY), second,
            a.promise(b"a", b"k1", body_hash=run(1)), a.promise(b"a", b"k1", epoch=4),
            a.promise(b"a", b"k1", epoch=2), SignedPromise.read(first).promise.write() + counted(bytes(33)),
            SignedPromise.read(first).promise.write() + counted(bytes(256)),
            SignedPromise.read(first).promise.write() + counted(bytes(257)),
        ]:
            q.ask(f"{client} keep", promise)
        q.ask(f"{client} due", b"a", replies[0])
        q.note("A promise before the next root, then with it.")
        q.ask(f"{client} keep", first)
        q.ask(f"{client} due-epoch", b"a")
        q.ask(f"{client} due-epoch", b"b")
        q.ask(f"{client} due", b"a", replies[0])
        q.ask(f"{client} due", b"a", b"")
        q.ask(f"{client} due", b"b", replies[0])
        q.ask(f"{client} update", roots(b, c))
        q.ask(f"{client} due-epoch", b"a")
        q.ask(f"{client} due", b"a", replies[0])
        q.ask(f"{client} due", b"a", replies[2])
        q.ask(f"{client} due", b"a", replies[1][:-1])
        q.ask(f"{client} due", b"a", replies[1] + b"\0")
        for reply in wrong_replies(provider, b"a", b.reply(b"a")):
            q.ask(f"{client} due", b"a", reply)
        q.ask(f"{client} due", b"a", b.reply(b"b").write())
        q.ask(f"{client} due", b"a", replies[1])
        q.ask(f"{client} due", b"a", replies[1])
        q.note("Another key, twice; no key; and another index.")
        q.ask(f"{client} keep", second)
        q.ask(f"{client} due-epoch", b"a")
        q.ask(f"{client} due", b"a", replies[2])
        q.ask(f"{client} due", b"a", replies[2])
        q.ask(f"{client} keep", a.promise(b"b", b"k1"))
        q.ask(f"{client} due", b"b", b.reply(b"b").write())
        q.ask(f"{client} due-epoch", b"b")
        q.ask(f"{client} start", SIGNING_KEY, written(a))
        q.ask(f"{client} update", roots(b))
        q.ask(f"{client} keep", a.promise(b"a", b"k1", index=run(7)))
        q.ask(f"{client} due", b"a", replies[1])
        q.ask(f"{client} due", b"a", replies[1])
        q.note("Of promises for one name, that of the least epoch is tested, and of equals the first kept.")
        q.ask(f"{client} start", SIGNING_KEY, written(a))
        q.ask(f"{client} update", roots(b, c))
        for promise in [second, first, a.promise(b"a", b"k9"), first, c.promise(b"a", b"k2")]:
            q.ask(f"{client} keep", promise)
            q.ask(f"{client} due-epoch", b"a")
        for _ in range(3):
            q.ask(f"{client} due", b"a", replies[1])
    q.note("Promises of many bytes.")
    name, key = b"a" * 255, b"k" * 2048
    a = KEYED.page(1)
    b, c = KEYED.page(2, a, {name: key}), KEYED.page(2, a, {name: b"l" * 2048})
    for page in (b, c):
        q.ask("client start", SIGNING_KEY, written(a))
        q.ask("client update", roots(page))
        q.ask("client keep", a.promise(name, key))
        q.ask("client due", name, page.reply(name).write())
    q.ask("client keep", a.promise(name, key)[:-34] + counted(bytes(256)))
    q.note("Hundreds of promises.")
    b = KEYED.page(2, a, {b"a": b"k", b"b": b"l"})
    lets(q, a=a, b=b)
    one, other = q.let("one", a.promise(b"a", b"k")), q.let("other", a.promise(b"b", b"k"))
    replies = q.let("ra", b.reply(b"a").write()), q.let("rb", b.reply(b"b").write())
    q.ask("client start", SIGNING_KEY, written(a))
    q.ask("client update", roots(b))
    for turn in range(300):
        q.ask("client keep", other if turn == 20 else one)
    for turn in range(301):
        if turn in (0, 100, 299, 300):
            q.ask("client due-epoch", b"a")
            q.ask("client due", b"b", replies[1])
        q.ask("client due", b"a", replies[0])


@subject("clients of a directory")
def of_users(q, rng):
    q.note("A provider that runs two directories from one first root, and keeps its promise in one of them alone.")
    keeping, other = started(), started()
    first = keeping.head()
    promise = keeping.register(b"a", b"k").write()
    for directory in (other, keeping):
        directory.close(2)
        q.ask("client start", SIGNING_KEY, first.write())
        q.ask("client keep", promise)
        q.ask("client update", write_list(directory.history(2, 1)))
        q.ask("client due", b"a", directory.lookup(b"a", 2).write())
        q.ask("client due-epoch", b"a")
        if directory is other:
            q.ask("client put-aside")
    q.ask("client reconcile")
    q.note("A client that keeps promises, takes roots and looks names up, some of them too early or too late.")
    directory, names, epochs, promises = started(), [b"alice", b"bob"], [1], []
    q.let("root1", first.write())
    q.ask("client start", SIGNING_KEY, first.write())
    user = Client(SIGNING_KEY, first.write(), sha256, directory.vuf)

    def told(verb, call, *words):
        q.ask(f"client {verb}", *words)
        try:
            call(*words)
        except Refusal:
            pass

    for turn in range(11):
        name = rng.choice(names)
        if name not in directory.waiting:
            call = directory.change if name in directory.last().bindings else directory.register
            promises.append(call(name, key_of(turn)).write())
        told("keep", user.keep_promise, promises[-1 - rng.randrange(4) // 3])
        if turn % 3:
            epochs.append(epochs[-1] + rng.choice([1, 1, 4]))
            q.let(f"root{epochs[-1]}", directory.close(epochs[-1]).write())
        start = user.head().epoch + rng.choice([0, 0, 1, 5])
        told("update", user.update, write_list(directory.history(start, rng.choice([1, 3, 3]))))
        known = [epoch for epoch in epochs[-3:] if epoch <= user.head().epoch] or epochs[-3:]
        shown = rng.choice(known)
        asked = rng.choice([shown, shown, shown, 0, epochs[-1]])
        told("look", user.look, name, asked, directory.lookup(name, shown).write())
        for name in names:
            q.ask("client due-epoch", name)
            epoch = user.due_epoch(name) or rng.choice([0, 0, shown])
            if epoch:
                told("due", user.due, name, directory.lookup(name, rng.choice([epoch] * 4 + [shown])).write())
    q.ask("client head")
    q.ask("client reconcile-self")


@subject("clients that are reconciled: chains")
def of_reconciled_chains(q, rng):
    def compared(provider, ones, others):
        client = provider.client
        for pages in (others, ones):
            q.ask(f"{client} start", SIGNING_KEY, written(pages[0]))
            q.ask(f"{client} update", roots(*pages[1:]))
            if pages is others:
                q.ask(f"{client} put-aside")
        q.ask(f"{client} reconcile")

    a, b, c, d = KEYED.pages([3, 7, 9, 12])
    fork = KEYED.page(7, a, nonce=run(1))
    later, skip = KEYED.page(9, fork), KEYED.page(8, a)
    lets(q, a=a, b=b, c=c, d=d, fork=fork, later=later)
    for ones, others in [
        ([a, b, c], [a, b, c]), ([a, b, c, d], [a, b]), ([a, b], [c, d]), ([a], [c]), ([a, b, c], [a, fork]),
        ([a, fork, later], [a, b, c]), ([a, b, c], [fork, later]), ([a, skip], [a, b]), ([a, b, c], [skip]),
        ([b, c, d], [a, b, c, d]), ([a, b], [KEYED.page(9, skip)]), ([a, b], [KEYED.page(9, a)]),
        ([a, b], [later]), ([a], [KEYED.page(12, c)]), ([KEYED.page(2)], [a]), ([c], [fork]),
    ]:
        compared(KEYED, ones, others)
        if ones != others:
            compared(KEYED, others, ones)
    q.ask("client reconcile-self")
    q.ask("client start", OTHER_KEY, written(KEYED.page(3, signing_key=OTHER_KEY)))
    q.ask("client reconcile")
    q.note("Two bodies of one sum at epoch 7, under one root at epoch 9.")
    a = SUMS.page(3)
    one = SUMS.page(7, a, nonce=b"\1" + bytes(31))
    other = replace_nonce(one, b"\0\1" + bytes(30))
    top, next_one = SUMS.page(9, one), SUMS.page(9, one)
    assert SUMS.digest(one.body.write()) == SUMS.digest(other.body.write()) and top.root == next_one.root
    compared(SUMS, [a, one, top], [a, other, top])
    compared(SUMS, [a, other, top], [a, one, top])
    compared(SUMS, [a, one], [a, other])
    compared(SUMS, [a, one, top, SUMS.page(11, top)], [other, top])
    for verb in ["reconcile-self", "key", "head"]:
        q.ask(f"client-sum {verb}")


@subject("clients that are reconciled: looks")
def of_reconciled_looks(q, rng):
    page = SUMS.page(3, None, {b"a": b"ab"})
    lets(q, page=page)
    ab = page.reply(b"a")
    ba = replace(ab, end=Opening(ZERO32, b"ba"))
    # The leaf has the sum of the texts of an empty node and of this sibling.
    leaf = leaf_text(ZERO32, SUMS.index_of(b"a"), 0, SUMS.commitment(b"a", b"ab"))
    empty = byte_sum(empty_text(ZERO32, SUMS.index_of(b"a"), 1))
    sibling = next(
        bytes(31) + bytes([last]) for last in range(256)
        if byte_sum(interior_text(empty, bytes(31) + bytes([last]))) == byte_sum(leaf)
    )
    absent = replace(ab, end=Empty(), siblings=(sibling,))
    texts = {"ab": ab, "ba": ba, "none": absent}
    for name, reply in texts.items():
        q.let(name, reply.write())

    def begun(*names):
        q.ask("client-sum start", SIGNING_KEY, written(page))
        for place, name in enumerate(names):
            q.ask("client-sum look", b"a", 3 * (place % 2), texts[name].write())

    q.note("One client with two replies of one epoch.")
    for names in [
        [], ["ab"], ["ab", "ab"], ["ab", "ba"], ["ba", "ab"], ["ab", "none"], ["none", "ab"], ["ab", "ab", "none", "ba"],
    ]:
        begun(*names)
        q.ask("client-sum reconcile-self")
    q.note("The first root after epoch 0 or 2 is that of epoch 3.")
    for first, second in [("ab", "ab"), ("ab", "ba"), ("none", "ab")]:
        begun(first)
        q.ask("client-sum look-next", b"a", 2, texts[second].write())
        q.ask("client-sum look-next", b"a", 3, texts[first].write())
        q.ask("client-sum reconcile-self")
    q.note("Two clients.")
    for others, ones in [
        ([], ["ab"]), (["ab"], []), (["ab"], ["ab"]), (["ba"], ["ab"]), (["ab"], ["ba"]), (["none"], ["ab"]),
        (["ab"], ["none"]), (["none", "ba"], ["ab"]), (["ba", "none"], ["ab"]),
        (["ab", "ba"], ["ab", "ab", "none"]),
    ]:
        begun(*others)
        q.ask("client-sum put-aside")
        begun(*ones)
        q.ask("client-sum reconcile")
    q.note("The first pair that differs decides, in order of acceptance, whatever the names.")
    two = SUMS.page(3, None, {b"a": b"ab", b"b": b"cd"})
    lets(q, page=two)
    answers = {}
    for name, keys in [(b"a", [b"ab", b"ba"]), (b"b", [b"cd", b"dc"])]:
        for key in keys:
            answers[key] = q.let(key.decode(), replace(two.reply(name), end=Opening(ZERO32, key)).write())
    for others, ones in [
        (["dc", "ba"], ["ab", "cd"]), (["ba", "dc"], ["cd", "ab"]), (["ab", "cd", "dc"], ["ab", "cd", "ba"]),
    ]:
        for keys in (others, ones):
            q.ask("client-sum start", SIGNING_KEY, written(two))
            for key in keys:
                q.ask("client-sum look", b"a" if key in ("ab", "ba") else b"b", 0, answers[key.encode()])
            if keys is others:
                q.ask("client-sum put-aside")
        q.ask("client-sum reconcile")
    q.note("Evidence between the chains comes before the looks.")
    other = SUMS.page(3)
    begun("ab", "ba")
    q.ask("client-sum put-aside")
    q.ask("client-sum start", SIGNING_KEY, written(other))
    q.ask("client-sum look", b"a", 3, other.reply(b"a").write())
    q.ask("client-sum reconcile")


# Monitors ---------------------------------------------------------------------------------------------------


@subject("a monitor: a change that its owner asked for, and one that nobody did")
def of_watching(q, rng):
    a = KEYED.page(1)
    b = KEYED.page(2, a, {b"a": b"k"})
    c = KEYED.page(5, b, {b"a": b"l"})
    d = KEYED.page(6, c)
    lets(q, a=a, b=b, c=c, d=d)
    ra, rb, rc, rd = (q.let(f"r{page.epoch}", page.reply(b"a").write()) for page in (a, b, c, d))
    first = q.let("first", a.promise(b"a", b"k"))
    q.ask("client start", SIGNING_KEY, written(a))
    q.ask("monitor new", b"", "none")
    q.ask("monitor new", b"a" * 256, "none")
    q.ask("monitor new", b"a", b"")
    q.ask("monitor new", b"a", b"k" * 2049)
    q.ask("monitor new", b"a", "none")
    q.ask("client head")
    q.ask("monitor name")
    q.ask("monitor client")
    q.ask("monitor next")
    for epoch in [0, 1, 2, TOP]:
        q.ask("monitor expected", epoch)
    q.note("A refused step counts as not watched.")
    fork = KEYED.page(1, nonce=run(1))
    for reply in [b"", ra[:-1], ra + b"\0", rb, fork.reply(b"a").write(), a.reply(b"b").write()]:
        q.ask("monitor step", reply)
    for reply in wrong_replies(KEYED, b"a", a.reply(b"a")):
        q.ask("monitor step", reply)
    q.ask("monitor next")
    q.ask("monitor step", ra)
    q.ask("monitor next")
    q.ask("monitor step", ra)
    q.ask("monitor step", b"")
    q.note("Promises of another name or key, over a root that the chain lacks, and under another key.")
    for key, promise in [
        (b"k", b""), (b"k", first + b"\0"), (b"k", a.promise(b"a", b"k", OTHER_KEY)),
        (b"k", b.promise(b"a", b"k")), (b"k", a.promise(b"b", b"k")), (b"k", a.promise(b"a", b"l")),
        (b"l", first), (b"k", a.promise(b"a", b"k", body_hash=run(1))),
        (b"k", a.promise(b"b", b"k", OTHER_KEY)), (b"k", b.promise(b"b", b"l")), (b"", first),
    ]:
        q.ask("monitor expect", key, promise)
    q.ask("monitor expected", 2)
    q.ask("monitor expect", b"k", first)
    q.ask("monitor expect", b"k", first)
    for epoch in [0, 1, 2, 3, TOP]:
        q.ask("monitor expected", epoch)
    q.ask("monitor update", roots(b, c)[:-1])
    q.ask("monitor update", u16(1) + long_signature(b, 33))
    q.ask("monitor update", roots(c))
    q.ask("monitor update", roots(KEYED.page(1, nonce=run(1))))
    q.ask("monitor update", roots(b))
    for reply in [ra, rb, rb]:
        q.ask("monitor step", reply)
    q.ask("monitor expect", b"k", first)
    q.ask("monitor update", roots(b, c, d))
    q.ask("monitor client")
    for reply in [rb, rc, rc, rd]:
        q.ask("monitor step", reply)
        q.ask("monitor next")
    q.note("Of a promise over the root that was watched last, and of one over a root before it.")
    q.ask("monitor expect", b"l", b.promise(b"a", b"l"))
    q.ask("monitor expect", b"l", c.promise(b"a", b"l"))
    q.ask("monitor expect", b"l", d.promise(b"a", b"l"))
    e = KEYED.page(7, d, {b"a": b"l"})
    q.ask("monitor update", roots(e))
    q.ask("monitor step", e.reply(b"a").write())
    for epoch in range(8):
        q.ask("monitor expected", epoch)


@subject("monitors: what is expected at first, and promises that come late")
def of_expectations(q, rng):
    a = KEYED.page(3, None, {b"a": b"k" * 101})
    b = KEYED.page(7, a, {b"a": b"l" * 2048})
    c = KEYED.page(9, b, {b"a": b"m"})
    lets(q, a=a, b=b, c=c)
    ra, rb, rc = (q.let(f"r{page.epoch}", page.reply(b"a").write()) for page in (a, b, c))
    for start in ["none", b"k" * 101, b"k" * 100, b"m", b"l" * 2048]:
        q.ask("client start", SIGNING_KEY, written(a))
        q.ask("client update", roots(b, c))
        q.ask("monitor new", b"a", start)
        q.ask("monitor expected", 3)
        for reply in [ra, rb, rc]:
            q.ask("monitor step", reply)
    q.note("All promises before the first step, then in another order, then between the steps.")
    keys = [(a, b"l" * 2048), (b, b"m"), (c, b"n")]
    promised = [(key, page.promise(b"a", key)) for page, key in keys]
    for order in [[0, 1, 2], [1, 0, 2], [2, 1, 0], [0, 2, 1], [0, "step", 0, "step", 0, 1, "step", 1, 2, 2]]:
        q.ask("client start", SIGNING_KEY, written(a))
        q.ask("client update", roots(b, c))
        q.ask("monitor new", b"a", b"k" * 101)
        replies = [ra, rb, rc]
        for turn in order:
            if turn == "step":
                q.ask("monitor step", replies.pop(0))
            else:
                q.ask("monitor expect", *promised[turn])
        for epoch in [3, 4, 7, 8, 9, 10]:
            q.ask("monitor expected", epoch)
        for reply in replies:
            q.ask("monitor step", reply)
    q.note("The promises stay with the client, and so do the looks.")
    d = KEYED.page(12, c, {b"a": b"n"})
    q.ask("monitor update", roots(d))
    q.ask("monitor step", d.reply(b"a").write())
    for other in [[a, b, c], [a], [a, KEYED.page(7, a)], [KEYED.page(3)], [d]]:
        q.ask("client start", SIGNING_KEY, written(other[0]))
        q.ask("client update", roots(*other[1:]))
        q.ask("client look", b"a", other[0].epoch, other[0].reply(b"a").write())
        q.ask("client put-aside")
        q.ask("monitor reconcile")
    q.ask("client start", OTHER_KEY, written(KEYED.page(3, signing_key=OTHER_KEY)))
    q.ask("client put-aside")
    q.ask("monitor reconcile")


    q.note("A name of 255 bytes.")
    name, key = b"a" * 255, b"k" * 2048
    b = KEYED.page(7, a, {name: key})
    q.ask("client start", SIGNING_KEY, written(a))
    q.ask("client update", roots(b))
    q.ask("monitor new", name, "none")
    q.ask("monitor name")
    q.ask("monitor expect", key, a.promise(name, key))
    for page in (a, b):
        q.ask("monitor step", page.reply(name).write())


# Both, under a verifier that accepts each signature -----------------------------------------------------------


@subject("clients and monitors: signatures of other lengths than 32")
def of_wide_roots(q, rng):
    name, key = b"a" * 255, b"k" * 2048
    pages = KEYED.pages(range(1, 66))
    fork = KEYED.page(2, pages[0], nonce=run(1))
    lets(q, a=pages[0])

    def wide(page, size):
        return replace(page.root, signature=b"\7" * size)

    def promised(page, size, name=name, key=key, **changes):
        return replace(SignedPromise.read(page.promise(name, key, **changes)), signature=b"\7" * size).write()

    for size in [1, 31, 33, 100, 255, 256]:
        first, promise = wide(pages[0], size).write(), promised(pages[1], size)
        more = write_list([wide(page, size) for page in pages[1:4]])
        q.ask("client any", first, more, promise)
        q.ask("monitor any", name, first, more, key, promise)
    assert (len(first), len(promise)) == (404, 2639)
    longest = q.let("longest", write_list([wide(page, 256) for page in pages[1:]]))
    assert len(longest) == 25858
    q.ask("client any", first, longest, promised(pages[64], 256))
    q.ask("client-sum any", first, longest, promise)
    q.ask("monitor any", name, first, longest, key, promised(pages[64], 256))
    q.note("Evidence of such roots, and promises that are refused.")
    for roots_of in [[fork], [pages[1], fork], [pages[2]], [pages[1], pages[3]], [pages[1], KEYED.page(1, nonce=run(1))]]:
        given = write_list([wide(page, 256) for page in roots_of])
        q.ask("client any", first, given, promise)
        q.ask("monitor any", name, first, given, key, promise)
    given = write_list([wide(pages[1], 256)])
    for other in [
        promised(pages[2], 256), promised(pages[1], 256, epoch=1), promised(pages[1], 256, name=b"a" * 254),
        promised(pages[1], 256, key=b"k" * 2047), promise[:-1], promise + b"\0", promised(pages[1], 257),
    ]:
        q.ask("client any", first, given, other)
        q.ask("monitor any", name, first, given, key, other)
    q.ask("client any", first[:-1], given, promise)
    q.ask("client any", wide(pages[0], 257).write(), given, promise)
    q.ask("client any", first, given[:-1], promise)
