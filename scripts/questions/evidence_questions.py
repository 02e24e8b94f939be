"""Questions of `session_vectors` on auditors, on evidence, and on the programs `audit` and `judge`."""

from dataclasses import replace

from model.formats import (
    BROKEN,
    FORK,
    LINK,
    SKIP,
    ZERO32,
    Opening,
    Promise,
    SignedPromise,
    SignedRoot,
    counted,
    sha256,
    u16,
    write_end,
)
from model.sessions import SIGNING_KEY
from questions.providers import KEYED, OTHER_KEY, TOP, cheats, folded, lets, long_signature, written
from questions.values import run
from questions.writing import subjects

LETTERS = bytes([0xAB]) * 32  # a key whose digits are letters
SUBJECTS, subject = subjects()

# Auditors ---------------------------------------------------------------------------------------------------


@subject("an auditor: where a root stands")
def of_observing(q, rng):
    # The first root names an earlier one, so that a root before it may be none of evidence.
    a = KEYED.page(3, KEYED.page(2))
    b = KEYED.page(7, a)
    c = KEYED.page(9, b)
    lets(q, a=a, b=b, c=c)
    fork, skip = KEYED.page(7, a, nonce=run(1)), KEYED.page(8, b)
    others = [
        a, b, c, fork, skip, KEYED.page(10, KEYED.page(9, b, nonce=run(1))),
        KEYED.page(12, KEYED.page(10, c)), KEYED.page(1), KEYED.page(2), KEYED.page(2, nonce=run(1)),
        KEYED.page(4, a), KEYED.page(10, b), KEYED.page(TOP, b), KEYED.page(3, KEYED.page(2), nonce=run(2)),
        KEYED.page(9, fork), KEYED.page(10, c), KEYED.page(11, c),
    ]
    spoilt = [
        b"", b"R", written(b)[:-1], written(b) + b"\0", long_signature(b, 31), long_signature(b, 33),
        long_signature(b, 256), KEYED.page(7, a, signing_key=OTHER_KEY).root.write(),
    ]
    q.note("Compared by an auditor that knows no provider.")
    q.ask("auditor new")
    q.ask("auditor chain", SIGNING_KEY)
    for page in others[:3]:
        q.ask("auditor compare", SIGNING_KEY, written(page))
    for data in spoilt:
        q.ask("auditor compare", SIGNING_KEY, data)
        q.ask("auditor observe", SIGNING_KEY, data)
    q.ask("auditor chain", SIGNING_KEY)
    q.note("A chain of three roots.")
    for page in (a, b, c):
        q.ask("auditor compare", SIGNING_KEY, written(page))
        q.ask("auditor observe", SIGNING_KEY, written(page))
        q.ask("auditor chain", SIGNING_KEY)
    for verb in ["compare", "observe"]:
        for page in others:
            q.ask(f"auditor {verb}", SIGNING_KEY, written(page))
        for data in spoilt:
            q.ask(f"auditor {verb}", SIGNING_KEY, data)
        q.ask("auditor chain", SIGNING_KEY)
        q.ask("auditor chain", OTHER_KEY)
    q.note("Only a root's bytes under a key of the provider verify.")
    q.ask("auditor observe", OTHER_KEY, written(a))
    q.ask("auditor compare", OTHER_KEY, written(a))


@subject("an auditor of many providers")
def of_providers(q, rng):
    keys = [bytes([number]) * 32 for number in range(256)]
    q.ask("auditor new")
    chains = [KEYED.pages([1, 2 + number % 3], signing_key=key) for number, key in enumerate(keys)]
    lets(q, a=chains[0][0])
    for number, (key, pages) in enumerate(zip(keys, chains)):
        q.ask("auditor observe", key, written(pages[0]))
        q.ask("auditor chain", key)
        if number < 4:
            q.ask("auditor compare", key, written(pages[1]))
            q.ask("auditor observe", key, written(pages[1]))
        if number in (1, 2):
            q.ask("auditor observe", key, written(chains[0][0]))
    for number in [0, 1, 2, 3, 23, 255]:
        for page in chains[number]:
            q.ask("auditor observe", keys[number], written(page))
        q.ask("auditor chain", keys[number])
        q.ask("auditor observe", keys[number], written(KEYED.page(2, nonce=run(1), signing_key=keys[number])))
    q.ask("auditor chain", OTHER_KEY[:31] + b"\0")
    q.ask("auditor new")
    q.ask("auditor chain", keys[0])


@subject("auditors whose first root is of a later epoch")
def of_late_starts(q, rng):
    key = SIGNING_KEY.hex().encode()
    for first, second in [(2, 3), (12, 13), (13, 400), (400, 2**32), (2**32, TOP), (TOP, TOP)]:
        a = KEYED.page(first, KEYED.page(1))
        b = KEYED.page(second, a) if first < second else a
        q.ask("auditor new")
        for verb in ["compare", "observe"]:
            for page in (a, b, KEYED.page(1)):
                q.ask(f"auditor {verb}", SIGNING_KEY, written(page))
        q.ask("auditor chain", SIGNING_KEY)
        if first in (13, 400):
            q.ask("evidence audit", key, b"".join(written(page).hex().encode() + b"\n" for page in (a, b)))


@subject("an auditor of a chain beyond epoch 12")
def of_long_chains(q, rng):
    pages = KEYED.pages([*range(1, 17), 2**32, TOP - 1, TOP])
    q.let("roots", b"".join(written(page) for page in pages))
    q.ask("auditor new")
    for page in pages:
        q.ask("auditor observe", SIGNING_KEY, written(page))
    q.ask("auditor chain", SIGNING_KEY)
    others = [KEYED.page(14), KEYED.page(TOP, pages[-3]), KEYED.page(60, pages[15])]
    for page in [pages[0], pages[13], pages[-1], *others]:
        q.ask("auditor compare", SIGNING_KEY, written(page))
        q.ask("auditor observe", SIGNING_KEY, written(page))
    q.note("First roots beyond epoch 12.")
    for page in [pages[12], pages[-1]]:
        q.ask("auditor new")
        q.ask("auditor observe", SIGNING_KEY, written(page))
        q.ask("auditor chain", SIGNING_KEY)


@subject("an auditor of signatures of other lengths than 32, and of a chain of hundreds of roots")
def of_wide_roots(q, rng):
    pages = KEYED.pages(range(1, 301))
    for size in [1, 31, 33, 35, 255, 256]:
        q.ask("auditor any", SIGNING_KEY, *(pages[at].root.body.write() + counted(b"\7" * size) for at in [0, 1, 0, 3]))
    q.ask("auditor any", SIGNING_KEY, *(page.root.body.write() + counted(b"\7") for page in pages))


# Evidence that is judged ------------------------------------------------------------------------------------


def spoilt_byte(data, at):
    """The bytes with one changed, from the front or the end."""
    at %= len(data)
    return data[:at] + bytes([data[at] ^ 1]) + data[at + 1 :]


@subject("evidence that is judged: what holds, and what does not")
def of_judging(q, rng):
    a, b, c = KEYED.pages([3, 7, 9])
    lets(q, a=a, b=b, c=c)
    for kind, parts in cheats():
        for place, part in enumerate(parts):
            q.let("xyz"[place], part)
        q.ask("auditor judge", SIGNING_KEY, kind, *parts)
        q.ask("auditor judge", OTHER_KEY, kind, *parts)
        turned = [*parts[:2], parts[2] + b"\0"] if kind == BROKEN else parts[::-1]
        q.ask("auditor judge", SIGNING_KEY, kind, *turned)
        for other in (FORK, LINK, SKIP):
            if other != kind and kind != BROKEN:
                q.ask("auditor judge", SIGNING_KEY, other, *parts)
        for place in (0, 1):
            twice = [parts[place], parts[place]]
            if kind != BROKEN:
                q.ask("auditor judge", SIGNING_KEY, kind, *twice)
            part = parts[place]
            for other in [spoilt_byte(part, -1), spoilt_byte(part, -32), part[:-1], part + b"\0"]:
                q.ask("auditor judge", SIGNING_KEY, kind, *parts[:place], other, *parts[place + 1 :])
        if kind == BROKEN:
            reply = parts[2]
            for other in [reply[:-1], spoilt_byte(reply, 150), spoilt_byte(reply, -1), b"", bytes(10700), bytes(10701)]:
                q.ask("auditor judge", SIGNING_KEY, kind, *parts[:2], other)
    q.note("Roots that stand well, promises that were kept, and promises that show nothing.")
    for kind in (FORK, LINK, SKIP):
        for one, other in [(a, b), (b, c), (a, c), (c, a), (a, a)]:
            q.ask("auditor judge", SIGNING_KEY, kind, written(one), written(other))
    kept = KEYED.page(8, b, {b"a": b"k9"})
    absent = KEYED.page(8, b)
    late = KEYED.page(10, c)
    for promise, page, reply in [
        (b.promise(b"a", b"k9"), kept, kept.reply(b"a")), (b.promise(b"a", b"k8"), kept, kept.reply(b"a")),
        (b.promise(b"a", b"k9", index=run(7)), absent, absent.reply(b"a")),
        (b.promise(b"b", b"k9"), absent, absent.reply(b"a")),
        (b.promise(b"a", b"k9", OTHER_KEY), absent, absent.reply(b"a")),
        (b.promise(b"a", b"k9", body_hash=run(7)), absent, absent.reply(b"a")),
        (b.promise(b"a", b"k9", epoch=6), absent, absent.reply(b"a")),
        (a.promise(b"a", b"k9"), absent, absent.reply(b"a")),
        (b.promise(b"a", b"k9"), late, late.reply(b"a")),
        (b.promise(b"a", b"k9"), absent, kept.reply(b"a")),
        (b.promise(b"a", b"k9"), kept, absent.reply(b"a")),
    ]:
        q.ask("auditor judge", SIGNING_KEY, BROKEN, promise, written(page), reply.write())
    q.note("Parts of many bytes.")
    name, key = b"a" * 255, b"k" * 2048
    page, reply = folded(KEYED, name, Opening(run(1), b"l" * 2048), [ZERO32] * 256)
    body = replace(page.body, epoch=8, previous_epoch=7, previous_hash=sha256(b.body.write()))
    root, reply = SignedRoot.signed(body, SIGNING_KEY).write(), replace(reply, body=body).write()
    q.ask("auditor judge", SIGNING_KEY, BROKEN, b.promise(name, key), root, reply)
    q.ask("auditor judge", SIGNING_KEY, BROKEN, b.promise(name, b"l" * 2048), root, reply)
    q.ask("auditor judge", SIGNING_KEY, FORK, long_signature(b, 256), long_signature(b, 255))


# Evidence as JSON, and the programs `judge` and `audit` --------------------------------------------------------


def json_of(kind, first, second):
    return f'{{"first":"{first.hex()}","kind":"{kind}","second":"{second.hex()}"}}'.encode()


def json_parts(kind, parts):
    """The two byte strings of evidence, from its parts."""
    return parts[0], b"".join(parts[1:])


@subject("evidence as JSON")
def of_json(q, rng):
    key = q.let("key", SIGNING_KEY.hex().encode())
    for kind, parts in cheats():
        first, second = json_parts(kind, parts)
        for name, data in [("first", first), ("second", second)]:
            q.let(name, data)
            q.let(f"{name}_digits", data.hex().encode())
        text = json_of(kind, first, second)
        q.ask("evidence json", kind, first, second)
        q.ask("evidence read", text)
        q.ask("evidence judge", key, text)
        for part in [first[:-1], first + b"\0"]:
            q.ask("evidence json", kind, part, second)
        q.ask("evidence json", kind, first, second + b"\0")
        q.ask("evidence judge", key, json_of(kind, spoilt_byte(first, -1), second))
    q.note("The parts of a proof are not looked at where evidence is written.")
    promise, root, reply = next(parts for kind, parts in cheats() if kind == BROKEN)
    for name, data in [("promise", promise), ("root", root), ("reply", reply)]:
        q.let(name, data)
        q.let(f"{name}_digits", data.hex().encode())
    for proof in [b"", b"\0", reply[:-1], reply + b"\0"]:
        q.ask("evidence json", BROKEN, promise, root + proof)
        q.ask("evidence read", json_of(BROKEN, promise, root + proof))
    for kind, first, second in [
        (FORK, promise, root), (FORK, root, root), (BROKEN, root, root + reply), (BROKEN, promise, promise),
    ]:
        q.ask("evidence json", kind, first, second)
        q.ask("evidence read", json_of(kind, first, second))
    for kind in ["promise", "Broken-promise", "broken promise"]:
        q.ask("evidence read", json_of(kind, promise, root + reply))
    short = replace(SignedRoot.read(root), signature=b"s").write()
    q.ask("evidence json", LINK, short, root)
    q.ask("evidence read", json_of(LINK, short, root))
    q.ask("evidence json", BROKEN, promise, root[:-1])
    q.note("Signatures of up to 256 bytes, and replies of up to 10,681.")
    b = KEYED.page(7)
    long, longer = long_signature(b, 255), long_signature(b, 256)
    q.ask("evidence json", FORK, long, longer)
    q.ask("evidence read", json_of(FORK, long, longer))
    q.ask("evidence judge", key, json_of(FORK, long, longer))
    q.ask("evidence read", json_of(FORK, long, b.body.write() + counted(bytes(257))))
    body = q.let("body", b.body.write())
    longest = body + counted(bytes(256)) + write_end(Opening(ZERO32, bytes(2048))) + u16(256) + bytes(8192)
    promise = SignedPromise(Promise(7, ZERO32, ZERO32, bytes(255), bytes(2048)), bytes(256)).write()
    assert (len(longest), len(longer), len(promise)) == (10681, 404, 2381 + 258)
    q.ask("evidence json", BROKEN, promise, longer + longest)
    q.ask("evidence read", json_of(BROKEN, promise, longer + longest))
    q.ask("evidence judge", key, json_of(BROKEN, promise, longer + longest))
    q.ask("evidence read", json_of(BROKEN, promise, longer + longest + b"\0"))


@subject("files of evidence: other layouts, and what is none")
def of_files(q, rng):
    a, b = KEYED.page(7), KEYED.page(7, nonce=run(1))
    one, other = written(a).hex(), written(b).hex()
    key = q.let("key", SIGNING_KEY.hex().encode())
    q.let("one", one.encode())
    q.let("other", other.encode())
    q.note("Read as evidence.")
    good = [
        f'{{"first":"{one}","kind":"fork","second":"{other}"}}',
        f'{{"second":"{other}","kind":"fork","first":"{one}"}}',
        f' {{ "kind" :"fork",\r\n\t"first": "{one}" , "second":"{other}" }}\n\n',
        f'{{"first":"{one.upper()}","kind":"fork","second":"{other[:9] + other[9:].upper()}"}}',
        f'{{"kind":"link","first":"{one}","kind":"fork","second":"{other}"}}',
        f'{{"first":[],"\\u0066irst":"{one}","kind":"\\u0066ork","second":"{other}"}}',
        f'{{"first":{{"first":null}},"first":"{one}","kind":-1.5e3,"kind":"fork","second":true,"second":"{other}"}}',
        f'{{"first":"\\u003{one[0]}{one[1:]}","kind":"fork","second":"{other}"}}',
    ]
    for text in good:
        q.ask("evidence read", text.encode())
        q.ask("evidence judge", key, text.encode())
    letters = LETTERS.hex().encode()
    fork = [written(page.provider.page(7, nonce=page.body.nonce, signing_key=LETTERS)) for page in (a, b)]
    for text in [letters, letters.upper()]:
        q.ask("evidence judge", text, json_of(FORK, *fork))
        q.ask("evidence judge", text, good[0].encode())
    q.note("Files above 64 KiB.")
    spaces = b" " * 40000
    q.ask("evidence judge", key, spaces * 2 + good[0].encode())
    q.ask("evidence judge", key, good[0].encode() + spaces * 2)
    q.ask("evidence judge", key, good[0].replace(",", "," + " " * 70000).encode())
    q.note("Not an evidence file.")
    q.ask("evidence judge", key, good[0].encode() + spaces * 2 + b"x")
    fork = f'{{"first":"{one}","kind":"fork","second":"{other}"}}'
    none = [
        "", " ", "null", "{}", "[]", '"fork"', "0", fork[:-1], fork[1:], fork + "x", fork + fork,
        fork + " {}", fork + ",",
        f'["{one}","fork","{other}"]', f"[{fork}]",
        f'{{"first":"{one}","kind":"fork"}}', f'{{"first":"{one}","second":"{other}"}}',
        f'{{"first":"{one}","kind":"fork","second":"{other}","third":""}}',
        f'{{"first":"{one}","kind":"fork","Second":"{other}"}}',
        f'{{"first":"{one}","kind":"fork","second":"{other}",}}',
        f"{{'first':'{one}','kind':'fork','second':'{other}'}}",
        f'{{"first":"{one}","kind":"Fork","second":"{other}"}}',
        f'{{"first":"{one}","kind":"fork ","second":"{other}"}}',
        f'{{"first":"{one}","kind":"","second":"{other}"}}',
        f'{{"first":"{one}","kind":null,"second":"{other}"}}',
        f'{{"first":"{one}","kind":["fork"],"second":"{other}"}}',
        f'{{"first":7,"kind":"fork","second":"{other}"}}',
        f'{{"first":"{one}","kind":"fork","second":""}}', f'{{"first":"{one}","kind":"fork","second":"zz"}}',
        f'{{"first":"{one}","kind":"fork","second":"{other}0"}}',
        f'{{"first":"{one}","kind":"fork","second":"{other}00"}}',
        f'{{"first":"{one}","kind":"fork","second":"{other[:-2]}"}}',
        f'{{"first":" {one}","kind":"fork","second":"{other}"}}',
        f'{{"first":"{one[:10]} {one[10:]}","kind":"fork","second":"{other}"}}',
        f'{{"first":"0x{one}","kind":"fork","second":"{other}"}}',
        f'{{"first":"{one}","kind":"broken-promise","second":"{other}"}}',
        f'{{"first":"{one}","kind":"root","second":"{other}"}}',
        f'{{"first":"{one}\n","kind":"fork","second":"{other}"}}',
        f'{{"first":"{one}","kind":"fork","second":"{other}"}}\0',
        f'{{"first":NaN,"first":"{one}","kind":"fork","second":"{other}"}}',
        f'{{"first":01,"first":"{one}","kind":"fork","second":"{other}"}}', f'\ufeff{fork}',
        f'{{"first":"{one}\\u00e9","kind":"fork","second":"{other}"}}',
        f'{{"first":"{one}","kind":"fork","first":"","second":"{other}"}}',
    ]
    for text in none:
        q.ask("evidence read", text.encode())
        q.ask("evidence judge", key, text.encode())
    for data in [b"\xff", b'{"first":"\xff"}', fork.encode()[:20] + b"\xc3" + fork.encode()[20:]]:
        q.ask("evidence read", data)
        q.ask("evidence judge", key, data)
    q.note("A key's text is tested before the file.")
    for text in [key[1:], key + b"0", b"g" + key[1:], b"", b" " + key[1:]]:
        q.ask("evidence judge", text, fork.encode())
        q.ask("evidence judge", text, b"")
    q.ask("evidence judge", b"\xff", fork.encode())


@subject("audited lines")
def of_auditing(q, rng):
    key = q.let("key", SIGNING_KEY.hex().encode())
    a = KEYED.page(3, KEYED.page(2))
    b = KEYED.page(7, a)
    c = KEYED.page(9, b)
    fork, skip, link = KEYED.page(7, a, nonce=run(1)), KEYED.page(8, b), KEYED.page(10, KEYED.page(9, b, nonce=run(1)))
    ahead, before = KEYED.page(12, KEYED.page(10, c)), KEYED.page(1)

    def line(page):
        return written(page).hex().encode() + b"\n"

    lines = {name: q.let(name, line(page)) for name, page in [("a", a), ("b", b), ("c", c)]}
    chain = lines["a"] + lines["b"] + lines["c"]
    q.let("chain", chain)
    for text in [
        b"", b"\n", b"\n\n", lines["a"], lines["a"][:-1], chain, chain[:-1], chain.upper(), chain + chain,
        lines["a"] + lines["b"] + lines["a"] + lines["c"],
        lines["a"] + lines["b"] + lines["a"] + lines["c"][:-3] + b"\n",
        lines["a"] + line(ahead) + line(before) + lines["b"] + line(ahead) + lines["c"] + line(before) + lines["c"],
        chain + line(fork), chain + line(skip), chain + line(link),
        chain + line(fork) + line(skip) + line(link) + lines["c"],
        line(KEYED.page(3, signing_key=OTHER_KEY)) + chain, chain + b"\n" + lines["c"],
        chain + b"started\n" + lines["c"], lines["a"][:-2] + b"\n" + lines["a"],
        b" " + lines["a"] + lines["a"], lines["a"][:-1] + b" \n" + lines["a"],
        lines["a"][:-1] + b"\r\n" + lines["a"], lines["a"][:-1] + b"00\n" + lines["a"],
        lines["a"][:-3] + b"0g\n" + lines["a"], b"\xff\xfe\n" + lines["a"], lines["a"] + b"\r",
        lines["a"] + b"\0\n" + lines["b"],
    ]:
        q.ask("evidence audit", key, text)
    q.note("Roots with signatures of up to 256 bytes, whose lines have up to 808 digits, and longer lines.")
    for size in [1, 33, 34, 255, 256, 257]:
        text = b.body.write() + counted(bytes(size))
        q.ask("evidence audit", key, chain + text.hex().encode() + b"\n" + lines["b"])
    for size in [359, 360, 361, 362, 807, 808, 809, 810, 811, 1618, 5000, 70000]:
        q.ask("evidence audit", key, lines["a"] + b"0" * size + b"\n" + lines["b"])
        q.ask("evidence audit", key, lines["a"] + b"0" * size)
    q.ask("evidence audit", key, lines["a"][:-1] + lines["a"] + lines["b"])
    q.note("Hundreds of lines, and a thousand.")
    q.ask("evidence audit", key, b"x\n" * 300)
    q.ask("evidence audit", key, b"\n" * 1200)
    q.let_be("six", "$chain+$chain")
    q.let_be("lines", "+".join(["$six"] * 30))
    q.ask("evidence audit", key, "+".join(["$lines"] * 7))
    q.note("A chain of 16 roots, each after a line that is refused.")
    text = b"".join(b"\n" + line(page) for page in KEYED.pages(range(1, 17)))
    q.ask("evidence audit", key, text)
    q.note("A chain of 160 roots.")
    pages = KEYED.pages(range(1, 161))
    parts = [q.let(f"part{at}", b"".join(map(line, pages[at : at + 40]))) for at in range(0, 160, 40)]
    q.ask("evidence audit", key, b"".join(parts))
    q.ask("evidence audit", key, b"".join(parts[:-1]) + b"x\n" + parts[-1] + parts[0])
    q.note("The key.")
    other = OTHER_KEY.hex().encode()
    for text in [other, key[1:], key + b"0", b"g" + key[1:], b""]:
        q.ask("evidence audit", text, chain)
    letters = LETTERS.hex().encode()
    for text in [letters, letters.upper()]:
        q.ask("evidence audit", text, line(KEYED.page(3, signing_key=LETTERS)) + chain)
    q.ask("evidence audit", b"\xff", chain)
