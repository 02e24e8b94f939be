"""Questions of `session_vectors` on lists of roots in pieces, on the room for their roots, and on lists, promises and
evidence of which bytes were changed."""

from model.formats import BROKEN, FORK, LINK, SKIP, ZERO32, KeyedVuf, Refusal, request_frame, sha256, u16, u64
from model.sessions import SIGNING_KEY, Client, RootFeed
from questions.altered_questions import none_is_taken, parts_of_root
from questions.evidence_questions import json_of, json_parts
from questions.providers import KEYED, OTHER_KEY, SUMS, cheats, lets, roots, written
from questions.values import beginnings, changed_at, flipped, joined, raised, run, spliced
from questions.writing import subjects

SUBJECTS, subject = subjects()


def begin(q, first):
    """A client that starts at this root begins a list."""
    q.ask("client start", SIGNING_KEY, written(first))
    q.ask("client feed")


@subject("in a few lines: three Heads in one piece, and a list of roots in pieces")
def of_few_lines(q, rng):
    q.ask("hub new", 1, ZERO32)
    q.ask("hub open", 1)
    q.ask("hub bytes", 1, 3 * request_frame("head"))
    q.ask("hub bytes", 1, b"")
    a, b, c = KEYED.pages([3, 7, 9])
    lets(q, a=a, b=b, c=c)
    begin(q, a)
    q.ask("client from", 100, roots(a, b, c))
    q.ask("client head")
    q.ask("client done")


@subject("clients and monitors: lists of roots in pieces")
def of_pieces(q, rng):
    a, b, c = KEYED.pages([3, 7, 9])
    lets(q, a=a, b=b, c=c)
    whole = roots(a, b, c)
    size = len(written(a))
    q.let("list", whole)

    def end(client="client"):
        q.ask(f"{client} head")
        q.ask(f"{client} done")

    q.ask("client from", 1, whole)
    q.ask("client done")
    q.note("One byte a piece, and then one byte more.")
    begin(q, a)
    q.ask("client from", 1, whole)
    end()
    q.ask("client from", 0, b"")
    q.ask("client from", 1, b"\0")
    end()
    q.ask("client from", 0, b"")
    q.note("The last root has another signature.")
    forged = whole[:-1] + bytes([whole[-1] ^ 1])
    begin(q, a)
    q.ask("client from", 1, forged)
    end()
    for piece in [b"", b"\0", whole]:
        q.ask("client from", 0, piece)
    q.ask("client feed")
    q.ask("client from", 0, whole)
    end()
    q.note("In pieces of other sizes.")
    for cut in [0, 2, 3, 64, 146, 147, 148, 149, size - 1, size, size + 1, size + 2, 404, 4096]:
        begin(q, a)
        q.ask("client from", cut, whole)
        end()
        q.ask("client from", cut, whole[:1])
    for client in ["client", "client-sum"]:
        provider = KEYED if client == "client" else SUMS
        x, y = provider.pages([4, 5])
        q.ask(f"{client} start", SIGNING_KEY, written(x))
        q.ask(f"{client} feed")
        q.ask(f"{client} from", 100, roots(x, y))
        end(client)
    q.note("In two pieces: the roots that the first makes whole are taken.")
    begin(q, a)
    for place in [0, 1, 2, 3, 147, 148, 149, 150, 151, size + 1, size + 2, size + 3, 2 * size + 1, 2 * size + 2, len(whole) - 1, len(whole)]:
        q.ask("client feed")
        q.ask("client from", 0, whole[:place])
        end()
        q.ask("client from", 0, whole[place:])
        end()
        q.ask("client start", SIGNING_KEY, written(a))
    q.note("Lists of no root, of 64 equal ones and of 65.")
    for data in [roots(), u16(64) + written(b) * 64, u16(65) + written(b) * 65, u16(65), u16(2**16 - 1), b"\1", b"\1\0"]:
        begin(q, a)
        q.ask("client from", 0, data)
        end()
        q.ask("client from", 0, b"")
    q.note("A root is looked at once it is whole; a signature of no byte, or of more than 256, is none.")
    for data in [b"S" + written(b)[1:], written(b)[:1] + b"\2" + written(b)[2:], written(b)[:2] + u64(0) + written(b)[10:]]:
        begin(q, a)
        q.ask("client from", 0, u16(2) + written(a) + data[:-1])
        q.ask("client from", 0, data[-1:])
        end()
    for length in [0, 1, 255, 256, 257, 2**16 - 1]:
        data = written(b)[:146] + u16(length) + bytes(length)
        begin(q, a)
        for part in [u16(2) + written(a) + data[:147], data[147:148], data[148:-1], data[max(148, len(data) - 1) :]]:
            q.ask("client from", 0, part)
        end()
    q.note("The roots before the one that is refused are kept.")
    fork, link = KEYED.page(7, a, nonce=run(1)), KEYED.page(12, KEYED.page(9, b, nonce=run(2)))
    for pages in [
        (a, b, c, fork), (a, b, link), (b, fork, c), (b, KEYED.page(1)), (b, KEYED.page(12, KEYED.page(11, c)), c),
        (c, b), (b, a, b, c, a), (b, KEYED.page(8, a)), (b, KEYED.page(9, b, signing_key=OTHER_KEY), c),
    ]:
        for cut in [1, 0]:
            begin(q, a)
            q.ask("client from", cut, roots(*pages))
            end()
            q.ask("client from", cut, b"\0")
    q.note("A monitor passes a piece on.")
    begin(q, a)
    q.ask("monitor from", 1, whole)
    q.ask("monitor new", b"a", "none")
    q.ask("monitor from", 7, whole[:-1])
    q.ask("client done")
    q.ask("monitor client")
    q.ask("monitor from", 0, whole[-1:])
    q.ask("client done")
    q.ask("monitor client")
    q.ask("monitor from", 1, b"\0\0")
    q.ask("client feed")
    q.ask("monitor from", 1, roots(c, KEYED.page(10, b), c))
    q.ask("monitor client")
    for line in ["client from", "client from 0", "client from x -", "client from 65537 -", "monitor from 65537 -"]:
        q.lines.append(line)


@subject("clients: lists of 64 and of 65 roots, in one piece and in pieces of 4,096, of 64 and of 1 byte")
def of_longest_lists(q, rng):
    pages = KEYED.pages(range(3, 69))
    lets(q, a=pages[0])
    most, fork = roots(*pages[1:65]), KEYED.page(66, pages[62], nonce=run(1))
    q.let("list", most)
    forged = most[:-1] + bytes([most[-1] ^ 1])
    more = u16(65) + most[2:] + written(pages[65])
    for data in [most, u16(64) + written(pages[0]) * 64, most + b"\0", forged, roots(*pages[1:64], fork), more, u16(65)]:
        for cut in [0, 4096, 64, 1]:
            begin(q, pages[0])
            q.ask("client from", cut, data)
            q.ask("client head")
            q.ask("client done")
            q.ask("client from", cut, b"\0")
    q.note("Two of them, one behind the other.")
    for data in [most, roots(pages[65])]:
        q.ask("client feed")
        q.ask("client from", 4096, data)
        q.ask("client head")
        q.ask("client done")


@subject("clients: a root whose signature would be too long is refused once all of its bytes have come")
def of_too_long_signatures(q, rng):
    a, b, c = KEYED.pages([3, 7, 9])
    lets(q, a=a, b=b, c=c)

    def take(cut, data):
        q.ask("client from", cut, data)
        q.ask("client head")
        q.ask("client done")

    for length in [257, 2**16 - 1]:
        for before in [[], [b], [b, c]]:
            bad = (written(before[-1]) if before else written(b))[:146] + u16(length) + bytes(length)
            front = u16(len(before) + 2) + b"".join(written(page) for page in before)
            whole = front + bad
            for data in [whole, whole + written(c)]:
                begin(q, a)
                take(0, data)
                q.ask("client from", 0, b"")
            begin(q, a)
            for piece in [whole[:-1], b"", whole[-1:], whole[:1], b""]:
                take(0, piece)
            q.note("As the last byte comes, others behind it are looked at no more.")
            begin(q, a)
            take(0, whole[:-1])
            take(0, whole[-1:] + written(c))
            q.note("In pieces up to the length, behind it, and of other sizes.")
            for place in [len(front), len(front) + 147, len(front) + 148, len(front) + 149, len(front) + 404, len(front) + 405]:
                begin(q, a)
                for piece in [whole[:place], whole[place:-1], whole[-1:], whole[:1]]:
                    take(0, piece)
            for cut in [64, 404, 4096] + [1] * (length == 257):
                for data in [whole[:-1], whole]:
                    begin(q, a)
                    take(cut, data)
                q.ask("client from", cut, b"\0")
    q.note("The body is no body either; and the list ends with that root, or has no such root.")
    for data in [b"S" + written(b)[1:146], written(b)[:2] + u64(0) + written(b)[10:146], b"\xff" * 146]:
        bad = data + u16(300) + bytes(300)
        for count, pieces in [(2, [bad[:-1], bad[-1:]]), (1, [bad])]:
            begin(q, a)
            q.ask("client from", 0, u16(count) + written(b))
            for piece in pieces:
                take(0, piece)
    q.note("A monitor passes it on.")
    begin(q, a)
    q.ask("monitor new", b"a", "none")
    bad = written(c)[:146] + u16(257) + bytes(257)
    for piece in [u16(2) + written(b) + bad[:-1], bad[-1:], b""]:
        q.ask("monitor from", 0, piece)
        q.ask("client done")
        q.ask("monitor client")


@subject("clients: a list of roots, whole and in pieces: each beginning, each byte raised by 1, counts, lengths, and splices")
def of_altered_lists(q, rng):
    pages = KEYED.pages([3, 7, 9])
    others, forks = [KEYED.page(3, nonce=run(1))], [pages[0]]
    for epoch in (7, 9):
        others.append(KEYED.page(epoch, others[-1], nonce=run(epoch)))
        forks.append(KEYED.page(epoch, forks[-1], nonce=run(epoch)))
    start, text = written(pages[0]), roots(*pages)
    q.let("list", text)
    q.let("others", roots(*others))
    q.let("forks", roots(*forks))
    honest = [page.root for page in (*pages, *others, *forks)]

    def taken(data):
        """Takes no other root than honest ones from a list in pieces, and a whole list never."""
        client, feed = new_client(start), RootFeed()
        try:
            client.update_from(feed, data)
        except Refusal:
            pass
        assert not feed.done() and all(root in honest for root in client.chain.roots), data.hex()
        new_client(start).update(data)

    counts = [u16(count) + text[2:] for count in [0, 1, 2, 4, 64, 65, 256, 65535]]
    lengths = [
        changed_at(text, 2 + 180 * place + 146, *u16(number)) for place in range(3) for number in (0, 31, 33, 257, 300, 65535)
    ]
    first, *more = ([u16(3), *joined(parts_of_root(page.root) for page in listed)] for listed in (pages, others, forks))
    mixed = [data for parts in more for data in spliced(first, parts)]
    for altered in (beginnings(text), raised(text), counts, lengths, mixed):
        for data in none_is_taken(taken, list(dict.fromkeys(altered))):
            differs = next((at for at, (one, two) in enumerate(zip(data, text)) if one != two), len(data) // 2)
            q.ask("client ways", SIGNING_KEY, start, data, differs)
    for data in (text, roots(*pages, *pages), roots()):
        q.ask("client ways", SIGNING_KEY, start, data, len(data) // 2)
    words = "01*32 $list/2/182"
    for line in ["ways", f"ways {words} 0000 3", "room", f"room {words}", f"room-more {words} -", f"room-whole {words}"]:
        q.lines.append(f"client {line}")
    q.lines.append(f"client-sum ways {words} 0000 3")


def new_client(start):
    return Client(SIGNING_KEY, start, sha256, KeyedVuf)


# A chain that starts has room for three roots more, so a list of four, or one whose number is not read, takes memory;
# and then it has room for 64.


def few_roots(q):
    """Names a key and roots: one to start at, two that follow it, and those that are refused, by their refusals."""
    start = KEYED.page(5, KEYED.page(2))
    b = KEYED.page(7, start)
    c = KEYED.page(9, b)
    refused = {
        1: b"S" + written(b)[1:], 2: written(KEYED.page(7, start, signing_key=OTHER_KEY)), 3: written(KEYED.page(1)),
        4: written(KEYED.page(12, KEYED.page(11, c))), 21: written(KEYED.page(5, nonce=run(1))),
    }
    too_long = written(b)[:146] + u16(257) + bytes(257)
    q.let("k", SIGNING_KEY)
    lets(q, a=start, b=b, c=c)
    for number, root in refused.items():
        q.let(f"r{number}", root)
    return written(start), written(b), written(c), refused, too_long


@subject("in a few lines: room comes first, before the roots of a list are looked at")
def of_room_first(q, rng):
    start, b, c, refused, too_long = few_roots(q)

    def room(*pieces):
        q.ask("client room", SIGNING_KEY, start, *pieces)

    for root in refused.values():
        room(u16(4) + root)
    for piece in [u16(1) + b, u16(2) + b + refused[2], b"", u16(65), u16(0) + b"\0"]:
        room(piece)
    q.note("The number of roots has come.")
    for root in refused.values():
        room(u16(4), root)
    room(u16(4) + too_long[:-1], too_long[-1:])
    room(u16(4) + refused[2][:100], refused[2][100:])
    q.note("Of the room for 64 roots that another list took, one is used.")
    q.ask("client room-more", SIGNING_KEY, start, u16(1) + b, u16(4) + refused[2])
    q.note("A whole list.")
    for root in [b, *list(refused.values())[1:]]:
        q.ask("client room-whole", SIGNING_KEY, start, u16(4) + root + b * 3)
    q.ask("client room-whole", SIGNING_KEY, start, u16(4) + b + refused[2] + b * 2)


@subject("in a few lines: roots for which there is room, and bytes that are no list")
def of_room_enough(q, rng):
    start, b, c, refused, too_long = few_roots(q)
    for pieces in [
        (u16(3), b), (u16(3), refused[2]), (u16(3), refused[21]), (u16(4) + b, c), (u16(3) + too_long[:-1], too_long[-1:]),
        (u16(0), b"\0"), (u16(64) + refused[2], b),
    ]:
        q.ask("client room", SIGNING_KEY, start, *pieces)
    q.ask("client room-more", SIGNING_KEY, start, u16(0), u16(4) + refused[2])
    for data in [u16(3) + b * 3, u16(3) + refused[2] + b * 2, u16(4) + b * 3, u16(4) + refused[1] + b * 3, u16(65) + b]:
        q.ask("client room-whole", SIGNING_KEY, start, data)


@subject("clients: a promise: each beginning, each byte raised by 1, each bit flipped, lengths, and splices")
def of_altered_promises(q, rng):
    a, b = KEYED.pages([3, 7])
    one, other = a.promise(b"a", b"k1"), a.promise(b"b", b"k2")
    lets(q, a=a)
    q.let("one", one)
    q.let("other", other)
    q.ask("client start", SIGNING_KEY, written(a))
    client = Client(SIGNING_KEY, written(a), sha256, KeyedVuf)

    def parts(data):
        cuts = [0, 2, 10, 42, 74, 76, 77, 79, 81, 83, 115]
        assert cuts[-1] == len(data)
        return [data[start:end] for start, end in zip(cuts, cuts[1:])]

    limits = {74: (0, 2, 256, 65535), 77: (0, 1, 3, 2049, 65535), 81: (0, 31, 33, 257, 65535)}
    lengths = [changed_at(one, place, *u16(number)) for place, numbers in limits.items() for number in numbers]
    for altered in (beginnings(one), raised(one), flipped(one), lengths, spliced(parts(one), parts(other))):
        for data in dict.fromkeys(altered):
            try:
                client.keep_promise(data)
            except Refusal:
                q.ask("client keep", data)
            else:
                raise AssertionError(data.hex())
    q.ask("client due-epoch", b"a")
    q.ask("client keep", one)
    q.ask("client keep", other)


def json_pieces(kind, parts):
    """The text of evidence in pieces: the digits of each part, the kind, and what stands between them."""
    first, *second = (part.hex() for part in parts)
    pieces = ['{"', "first", '":"', first, '","', "kind", '":"', kind, '","', "second", '":"', *second, '"}']
    return [piece.encode() for piece in pieces]


@subject("evidence as JSON: each beginning, each byte raised by 1, each bit flipped, and splices")
def of_altered_files(q, rng):
    key = q.let("k", SIGNING_KEY.hex().encode())
    kinds = dict(reversed(list(cheats())))
    for name, kind in (("f", FORK), ("l", LINK), ("s", SKIP), ("b", BROKEN)):
        text = q.let(name, json_of(kind, *json_parts(kind, kinds[kind])))
        q.ask("evidence judge", key, text)
        q.ask("evidence altered", key, text)
    pieces = json_pieces(FORK, kinds[FORK])
    for kind in (LINK, SKIP, BROKEN):
        for data in dict.fromkeys(spliced(pieces, json_pieces(kind, kinds[kind]))):
            q.ask("evidence judge", key, data)
