"""Questions of `session_vectors` on final bindings that were changed: what a client finds, and what is evidence."""

from dataclasses import replace

from model.formats import (
    BROKEN,
    BROKEN_FINAL,
    FINAL,
    FORK,
    OPEN,
    ZERO32,
    KeyedVuf,
    Opening,
    SignedRoot,
    Statement,
    counted,
    sha256,
    u16,
    write_end,
)
from model.sessions import SIGNING_KEY
from questions.evidence_questions import json_of, spoilt_byte
from questions.piece_questions import json_pieces
from questions.providers import (
    BOTH,
    KEYED,
    OTHER_KEY,
    TOP,
    Provider,
    cheats,
    folded,
    lets,
    long_signature,
    roots,
    written,
    wrong_replies,
)
from questions.values import run, spliced
from questions.writing import subjects

SUBJECTS, subject = subjects()

K_FINAL, L_FINAL = Statement(b"k", FINAL), Statement(b"l", FINAL)
# What a page may state of a name.
STATED = Statement(b"k"), Statement(b"k", OPEN), K_FINAL, L_FINAL, None
OTHER_VUF = Provider(sha256, KeyedVuf(OTHER_KEY), "client")


def page_of(provider, epoch, before, found, **changes):
    """The page of an epoch that states this of the name a."""
    return provider.page(epoch, before, {} if found is None else {b"a": found}, **changes)


def pages_of(provider, *stated):
    """Pages of the epochs 3, 7 and so on that state these of the name a."""
    pages = []
    for epoch, found in zip([3, 7, 9, 12], stated):
        pages.append(page_of(provider, epoch, pages[-1] if pages else None, found))
    return pages


def parts_of(one, other, name=b"a"):
    """Evidence of the replies for a name under two pages: the name, and each root with its reply."""
    return [name, *(part for page in (one, other) for part in (written(page), page.reply(name).write()))]


def texts_of(parts):
    """The two byte strings of this evidence."""
    name, root, proof, later_root, later_proof = parts
    return counted(name) + root + proof, later_root + later_proof


def named(q, parts):
    """Names the roots and the replies of evidence."""
    for name, part in zip(("root", "proof", "later_root", "later_proof"), parts[1:]):
        q.let(name, part)
    return parts


def let_pages(q, pages):
    """Names the roots and the replies of pages."""
    for name, page in zip("abcd", pages):
        q.let(name, written(page))
        q.let(f"r{name}", page.reply(b"a").write())


def ask_started(q, provider, pages):
    """A client that has these roots."""
    q.ask(f"{provider.client} start", SIGNING_KEY, written(pages[0]))
    q.ask(f"{provider.client} update", roots(*pages[1:]))


def ask_look(q, provider, page, name=b"a", epoch=None):
    q.ask(f"{provider.client} look", name, page.epoch if epoch is None else epoch, page.reply(name).write())


def ask_finality(q, provider, name=b"a"):
    q.ask(f"{provider.client} finality", name)


# What a client finds -----------------------------------------------------------------------------------------


@subject("in a few lines: a final binding that was changed")
def of_few_lines(q, rng):
    pages = pages_of(KEYED, K_FINAL, L_FINAL)
    let_pages(q, pages)
    ask_started(q, KEYED, pages)
    for page in pages:
        ask_look(q, KEYED, page)
        ask_finality(q, KEYED)
    parts = parts_of(*pages)
    q.ask("auditor judge", SIGNING_KEY, BROKEN_FINAL, *parts)
    q.ask("evidence json", BROKEN_FINAL, *parts)
    text = json_of(BROKEN_FINAL, *texts_of(parts))
    q.ask("evidence read", text)
    q.ask("evidence judge", SIGNING_KEY.hex().encode(), text)


@subject("clients: what was stated of a name that was final")
def of_clients(q, rng):
    for provider in BOTH:
        for first in STATED:
            for later in STATED:
                pages = pages_of(provider, first, later)
                let_pages(q, pages)
                ask_started(q, provider, pages)
                for page in pages:
                    ask_look(q, provider, page)
                ask_finality(q, provider)
                if provider is KEYED:
                    q.ask("auditor judge", SIGNING_KEY, BROKEN_FINAL, *parts_of(*pages))


@subject("clients: which looks of a name are told")
def of_orders(q, rng):
    q.note("The first look that was changed is told, with the first that changed it, in the order of acceptance.")
    many = K_FINAL, L_FINAL, Statement(b"m", FINAL), K_FINAL
    for stated, orders in [
        (many, ["abcd", "dcba", "acb", "bac", "cab", "ad", "da", "dadb", "cd", "aabb"]),
        ((Statement(b"k", OPEN), K_FINAL, Statement(b"k"), K_FINAL), ["abcd", "dcba", "dca", "bd"]),
        ((K_FINAL, None, K_FINAL, L_FINAL), ["acd", "adcb", "cdb", "ca"]),
    ]:
        for provider in BOTH:
            pages = pages_of(provider, *stated)
            let_pages(q, pages)
            for order in orders:
                ask_started(q, provider, pages)
                for name in order:
                    ask_look(q, provider, pages["abcd".index(name)])
                    ask_finality(q, provider)
    q.note("Looks that are refused, looks for other names, and looks by the epoch 0 and by the epoch before.")
    for provider in BOTH:
        a = provider.page(3, None, {b"a": K_FINAL, b"b": L_FINAL, b"c": Statement(b"k", OPEN)})
        b = provider.page(7, a, {b"a": L_FINAL, b"b": L_FINAL, b"c": L_FINAL})
        let_pages(q, [a, b])
        ask_started(q, provider, [a, b])
        for name in (b"a", b"b", b"c", b"ab", b"b" * 255):
            ask_finality(q, provider, name)
            for page in (a, b):
                ask_look(q, provider, page, name)
            ask_finality(q, provider, name)
        ask_started(q, provider, [a, b])
        ask_look(q, provider, a)
        ask_look(q, provider, b, epoch=3)
        ask_look(q, provider, b, epoch=9)
        ask_finality(q, provider)
        ask_look(q, provider, b, epoch=0)
        ask_finality(q, provider)
        ask_started(q, provider, [a, b])
        ask_look(q, provider, a)
        q.ask(f"{provider.client} look-next", b"a", 3, b.reply(b"a").write())
        ask_finality(q, provider)
    q.note("Roots that come between looks, and another index.")
    a, b, c = pages_of(KEYED, K_FINAL, K_FINAL, L_FINAL)
    lets(q, a=a, b=b, c=c)
    q.ask("client start", SIGNING_KEY, written(a))
    ask_look(q, KEYED, a)
    for page in (b, c):
        q.ask("client update", roots(page))
        ask_look(q, KEYED, page)
        ask_finality(q, KEYED)
    a = page_of(KEYED, 3, None, K_FINAL)
    b = page_of(OTHER_VUF, 7, a, L_FINAL)
    c = page_of(OTHER_VUF, 9, b, K_FINAL)
    d = page_of(KEYED, 12, c, None)
    let_pages(q, [a, b, c, d])
    ask_started(q, KEYED, [a, b, c, d])
    for page in (a, b, c, d):
        ask_look(q, KEYED, page)
        ask_finality(q, KEYED)
    q.note("No client, and no name.")
    q.ask("client put-aside")
    ask_finality(q, KEYED)
    ask_started(q, KEYED, [a, b])
    for name in (b"", b"a" * 256):
        ask_finality(q, KEYED, name)


# Evidence ----------------------------------------------------------------------------------------------------


def ask_judged(q, *parts, key=SIGNING_KEY):
    q.ask("auditor judge", key, BROKEN_FINAL, *parts)


@subject("evidence that is judged: final bindings that were changed")
def of_judging(q, rng):
    a, b = pages_of(KEYED, K_FINAL, L_FINAL)
    parts = named(q, parts_of(a, b))
    ask_judged(q, *parts)
    ask_judged(q, *parts, key=OTHER_KEY)
    name, root, proof, later_root, later_proof = parts
    q.note("Roots that exchange their places or their replies, and one root twice.")
    ask_judged(q, name, later_root, later_proof, root, proof)
    ask_judged(q, name, root, later_proof, later_root, proof)
    ask_judged(q, name, root, proof, root, proof)
    ask_judged(q, name, root, proof, root, later_proof)
    q.note("Two roots of one epoch, roots of no chain, and the greatest epochs.")
    for one, other in [
        (page_of(KEYED, 7, a, K_FINAL), b), (b, page_of(KEYED, 7, a, K_FINAL)), (page_of(KEYED, 7, None, K_FINAL), b),
        (a, page_of(KEYED, 4, None, L_FINAL)), (a, page_of(KEYED, 9, page_of(KEYED, 8, b, None), None)),
        (page_of(KEYED, 1, None, K_FINAL), b), (page_of(KEYED, TOP - 1, a, K_FINAL), page_of(KEYED, TOP, b, None)),
        (page_of(KEYED, TOP, b, K_FINAL), page_of(KEYED, 1, None, None)),
    ]:
        ask_judged(q, *parts_of(one, other))
    q.note("Another name, another index, and a tree with another nonce.")
    for other in (b"b", b"ab", b"a" * 255):
        ask_judged(q, other, *parts[1:])
    both = {b"a": K_FINAL, b"b": L_FINAL}, {b"a": L_FINAL, b"b": K_FINAL}
    one, other = KEYED.page(3, None, both[0]), KEYED.page(7, a, both[1])
    for asked in (b"a", b"b", b"c"):
        ask_judged(q, *parts_of(one, other, asked))
    ask_judged(q, b"a", written(one), one.reply(b"a").write(), written(other), other.reply(b"b").write())
    for found in (L_FINAL, None):
        ask_judged(q, *parts_of(a, page_of(OTHER_VUF, 7, a, found)))
        ask_judged(q, *parts_of(page_of(OTHER_VUF, 3, None, K_FINAL), page_of(OTHER_VUF, 7, a, found)))
        ask_judged(q, *parts_of(a, page_of(KEYED, 7, a, found, nonce=run(1))))
    q.note("Signatures that do not verify.")
    for one, other in [
        (page_of(KEYED, 3, None, K_FINAL, signing_key=OTHER_KEY), b), (a, page_of(KEYED, 7, a, L_FINAL, signing_key=OTHER_KEY)),
        (page_of(KEYED, 3, None, K_FINAL, signing_key=OTHER_KEY), page_of(KEYED, 7, a, L_FINAL, signing_key=OTHER_KEY)),
    ]:
        ask_judged(q, *parts_of(one, other))
    ask_judged(q, *parts_of(one, other), key=OTHER_KEY)
    for size in (1, 31, 33, 256):
        ask_judged(q, name, long_signature(a, size), *parts[2:])
        ask_judged(q, *parts[:3], long_signature(b, size), later_proof)
    q.note("Parts that are altered, cut, or followed by a byte.")
    for place in (1, 2, 3, 4):
        part = parts[place]
        for other in [spoilt_byte(part, -1), spoilt_byte(part, -32), part[:-1], part + b"\0", b""]:
            ask_judged(q, *parts[:place], other, *parts[place + 1 :])
    for place in (2, 4):
        for other in [bytes(10700), bytes(10701)]:
            ask_judged(q, *parts[:place], other, *parts[place + 1 :])
    for page, place in ((a, 2), (b, 4)):
        for other in wrong_replies(KEYED, b"a", page.reply(b"a")):
            ask_judged(q, *parts[:place], other, *parts[place + 1 :])
    for other in (b"", b"a" * 256):
        ask_judged(q, other, *parts[1:])
    q.note("Parts of many bytes.")
    ask_judged(q, *greatest(L_FINAL.key))
    ask_judged(q, *greatest(K_FINAL.key))


def greatest(letter):
    """Evidence with replies of the greatest length; the key of the later one is of this letter."""
    name = b"n" * 255
    parts = [name]
    for epoch, key in [(3, K_FINAL.key), (7, letter)]:
        page, reply = folded(KEYED, name, Opening(run(1), key * 2048, FINAL), [ZERO32] * 256)
        body = replace(page.body, epoch=epoch)
        parts += [SignedRoot.signed(body, SIGNING_KEY).write(), replace(reply, body=body).write()]
    return parts


@subject("evidence as JSON: final bindings that were changed")
def of_json(q, rng):
    key = q.let("key", SIGNING_KEY.hex().encode())

    def ask_text(first, second, kind=BROKEN_FINAL):
        text = json_of(kind, first, second)
        q.ask("evidence read", text)
        q.ask("evidence judge", key, text)

    def let_digits(parts):
        for name, part in zip(("root", "proof", "later_root", "later_proof"), parts[1:]):
            q.let(name, part)
            q.let(f"{name}_digits", part.hex().encode())

    for found in STATED:
        parts = parts_of(*pages_of(KEYED, K_FINAL, found))
        let_digits(parts)
        q.ask("evidence json", BROKEN_FINAL, *parts)
        ask_text(*texts_of(parts))
    parts = parts_of(*pages_of(KEYED, K_FINAL, L_FINAL))
    let_digits(parts)
    name, root, proof, later_root, later_proof = parts
    first, second = texts_of(parts)
    q.note("Texts that exchange their places, that are cut, or that are followed by a byte.")
    ask_text(second, first)
    for one, other in [
        (first[:-1], second), (first + b"\0", second), (first, second[:-1]), (first, second + b"\0"),
        (first, b""), (b"", second), (first[:2], second), (first[:3], second), (first[3:], second), (first, first),
        (first, later_root), (first, later_proof), (counted(name) + root, second), (counted(name) + proof, second),
    ]:
        ask_text(one, other)
    q.note("A name of another length.")
    for size in (0, 2, 254, 255, 256, 257, 65535):
        ask_text(u16(size) + first[2:], second)
        ask_text(u16(size) + b"a" * size + first[3:], second)
    q.note("Signatures that are empty or too long, and one that does not verify.")
    for size in (0, 1, 256, 257):
        signature = counted(bytes(size))
        ask_text(counted(name) + root[:146] + signature + proof, second)
        ask_text(first, later_root[:146] + signature + later_proof)
    q.note("The parts of a proof are not looked at where evidence is written.")
    for place in (2, 4):
        for other in (b"", b"\0", parts[place][:-1], parts[place] + b"\0"):
            changed = [*parts[:place], other, *parts[place + 1 :]]
            q.ask("evidence json", BROKEN_FINAL, *changed)
            ask_text(*texts_of(changed))
    for place in (1, 3):
        for other in (parts[place][:-1], parts[place] + b"\0"):
            q.ask("evidence json", BROKEN_FINAL, *parts[:place], other, *parts[place + 1 :])
    q.ask("evidence json", BROKEN_FINAL, b"", *parts[1:])
    q.ask("evidence json", BROKEN_FINAL, b"a" * 256, *parts[1:])
    q.note("Other kinds, and other layouts.")
    for kind in (FORK, BROKEN, "Broken-final", "broken final", "final", "broken-final "):
        ask_text(first, second, kind)
    ask_text(KEYED.page(3).promise(b"a", b"k"), second)
    one, other = first.hex(), second.hex()
    for text in [
        f'{{"second":"{other}","kind":"broken-final","first":"{one}"}}',
        f' {{ "kind" :"broken\\u002dfinal",\n"first": "{one.upper()}" , "second":"{other}" }}\n',
        f'{{"first":"{one}","kind":"fork","kind":"broken-final","second":"{other}"}}',
        f'{{"first":"{one}","kind":"broken-final","kind":"fork","second":"{other}"}}',
        f'{{"first":"{one}","kind":"broken-final","second":"{other}","third":""}}',
        f'{{"first":"{one}","kind":"broken-final"}}',
    ]:
        q.ask("evidence read", text.encode())
        q.ask("evidence judge", key, text.encode())
    q.note("A name of 255 bytes, signatures of 256 and replies of 10,681.")
    parts = [bytes(255)]
    for page in pages_of(KEYED, K_FINAL, L_FINAL):
        body = page.body.write()
        longest = body + counted(bytes(256)) + write_end(Opening(ZERO32, bytes(2048))) + u16(256) + bytes(8192)
        parts += [body + counted(bytes(256)), longest]
    first, second = texts_of(parts)
    assert (len(first), len(second)) == (257 + 404 + 10681, 404 + 10681)
    q.ask("evidence json", BROKEN_FINAL, *parts)
    ask_text(first, second)
    ask_text(first + b"\0", second)
    ask_text(first, second + b"\0")


@subject("evidence as JSON of a final binding: each beginning, each byte raised by 1, each bit flipped, and splices")
def of_altered_files(q, rng):
    key = q.let("k", SIGNING_KEY.hex().encode())
    one, other = (parts_of(*pages_of(KEYED, K_FINAL, found)) for found in (L_FINAL, None))
    text = q.let("c", json_of(BROKEN_FINAL, *texts_of(one)))
    q.ask("evidence judge", key, text)
    q.ask("evidence altered", key, text)
    pieces = pieces_of(one)
    others = [json_pieces(kind, parts) for kind, parts in dict(reversed(list(cheats()))).items()]
    for other_pieces in [pieces_of(other), *others]:
        for data in dict.fromkeys(spliced(pieces, other_pieces)):
            q.ask("evidence judge", key, data)


def pieces_of(parts):
    """The text of this evidence in pieces."""
    first, _ = texts_of(parts)
    return json_pieces(BROKEN_FINAL, [first, *parts[3:]])
