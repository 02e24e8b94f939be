"""Questions on requests, responses and streams."""

from dataclasses import replace

from model.formats import (
    PROMISE,
    PROOF,
    REFUSED,
    REQUEST_KINDS,
    ROOT,
    ROOTS,
    ZERO32,
    Empty,
    KeyedVuf,
    Opening,
    Promise,
    Reply,
    SignedPromise,
    SignedRoot,
    counted,
    frame,
    request_body,
    request_frame,
    response_body,
    sha256,
    u16,
    u32,
    u8,
    write_list,
)
from questions.reply_questions import Tables
from questions.values import (
    BODY,
    FIRST_BODY,
    KEY,
    LONGEST_PROMISE,
    LONG_KEY,
    LONG_NAME,
    PROMISE_OF_ALICE,
    TOP,
    number32,
    run,
    spoiled,
)
from questions.writing import subjects

SUBJECTS, subject = subjects()

# Frames ------------------------------------------------------------------------------------------------------

ROOT_OF_FRAMES = SignedRoot(BODY, b"s")
PROMISE_OF_FRAMES = SignedPromise(Promise(7, run(0x20), run(0x40), b"a", b"k"), b"s")


@subject("requests")
def of_requests(q, rng):
    requests = [
        ("register", b"a", b"k"), ("change", b"", b"key"), ("promise", b"a"), ("lookup", 9, b"ab"),
        ("history", TOP, 64), ("head",), ("close", run(0x20), 2), ("rotate", run(0x20), 2, run(0x40)),
        ("register", LONG_NAME, LONG_KEY),
        ("change", LONG_NAME + b"\0", LONG_KEY + b"\0"), ("promise", b""), ("lookup", 0, b""),
        ("lookup", TOP, LONG_NAME),
        ("history", 0, 0), ("history", 0, 65535), ("close", ZERO32, TOP), ("rotate", ZERO32, TOP, ZERO32),
    ]
    q.let("name", LONG_NAME)
    q.let("key", LONG_KEY)
    q.note("of each kind; and with the last byte away, or one more")
    for request in requests:
        kind, body = REQUEST_KINDS[request[0]], request_body(*request)
        q.ask("frames request", kind, body)
        q.ask("frames request", kind, body + b"\0")
        if body:
            q.ask("frames request", kind, body[:-1])
    q.note("kinds that no request has, also where the body is none")
    for kind in [0, 9, 10, 127, 128, 129, 132, 254, 255]:
        q.ask("frames request", kind, b"")
        q.ask("frames request", kind, counted(b"a"))
    q.note("lengths at the front: of nothing, of more than there is")
    for kind in [1, 2, 3]:
        for body in [
            b"", b"\0", u16(0), u16(1), u16(1) + b"a", u16(2) + b"a" + u16(0), u16(0) + u16(0),
            u16(65535) + b"a",
        ]:
            q.ask("frames request", kind, body)
    for kind in [4, 5, 7]:
        for size in [0, 1, 7, 8, 9, 10, 11, 12, 39, 40, 41]:
            q.ask("frames request", kind, bytes(size))
    for size in [0, 1, 32, 39, 40, 41, 71, 72, 73]:
        q.ask("frames request", 8, bytes(size))
    q.note("as long as a frame may be, and a byte longer")
    for request in [
        ("register", b"\7" * 65531, b""), ("register", b"\7" * 65532, b""), ("register", b"", b"\7" * 65531),
        ("change", b"\7", b"\7" * 65530), ("change", b"\7", b"\7" * 65531), ("promise", b"\7" * 65533),
        ("promise", b"\7" * 65534), ("lookup", 5, b"\7" * 65525), ("lookup", 5, b"\7" * 65526),
        ("register", b"\7" * 65535, b"\10" * 65535),
    ]:
        q.ask("frames request", REQUEST_KINDS[request[0]], request_body(*request))
    for _ in range(30):
        request = a_request(rng)
        kind, body = REQUEST_KINDS[request[0]], request_body(*request)
        q.ask("frames request", kind, spoiled(rng, body or b"x"))


def a_request(rng):
    name, key = rng.randbytes(rng.randrange(4)), rng.randbytes(rng.randrange(4))
    return rng.choice([
        ("register", name, key), ("change", name, key), ("promise", name),
        ("lookup", rng.getrandbits(64), name), ("history", rng.getrandbits(64), rng.randrange(70)),
        ("head",), ("close", rng.randbytes(32), rng.getrandbits(64)),
        ("rotate", rng.randbytes(32), rng.getrandbits(64), rng.randbytes(32)),
    ])


@subject("responses")
def of_responses(q, rng):
    root, promise = q.let("root", ROOT_OF_FRAMES.write()), q.let("promise", PROMISE_OF_FRAMES.write())
    reply = Reply(BODY, b"v", Empty(), ())
    wide = SignedRoot(BODY, b"\7" * 256)
    table = Tables(sha256, KeyedVuf(KEY), ZERO32, {b"a": (ZERO32, b"k"), b"b": (ZERO32, b"l")})
    honest = table.reply(b"a")
    longest = Reply(BODY, b"\xff" * 256, Opening(ZERO32, b"\xff" * 2048), (number32(1),) * 256)
    responses = [
        (PROMISE, PROMISE_OF_FRAMES), (PROMISE, SignedPromise(LONGEST_PROMISE, b"\xab" * 256)), (PROOF, reply),
        (PROOF, honest), (PROOF, longest), (ROOTS, []), (ROOTS, [ROOT_OF_FRAMES] * 2), (ROOTS, [wide] * 64),
        (ROOTS, [ROOT_OF_FRAMES] * 64), (ROOT, ROOT_OF_FRAMES), (ROOT, wide), (REFUSED, 0), (REFUSED, 14),
        (REFUSED, 255),
    ]
    q.let("name", LONG_NAME)
    q.let("key", LONG_KEY)
    q.note("of each kind, read and written again; the longest frames; the last byte away, one more, another kind")
    for kind, value in responses:
        body = q.let("body", response_body(kind, value))
        q.ask("frames response", kind, body)
        q.ask("frames answer", kind, body)
        for other in [body[:-1], body + b"\0"]:
            q.ask("frames response", kind, other)
            q.ask("frames answer", kind, other)
        for other in [PROMISE, PROOF, ROOTS, ROOT, REFUSED]:
            if other != kind:
                q.ask("frames response", other, body)
    q.note("kinds that no response has")
    for kind in [0, 1, 7, 128, 133, 254]:
        q.ask("frames response", kind, b"\1")
        q.ask("frames answer", kind, b"\1")
    q.note("bodies that are not of their forms: 65 roots, an epoch of 0, a signature of none, an end of no kind")
    for kind, body in [
        (ROOTS, write_list([ROOT_OF_FRAMES] * 65)), (ROOT, SignedRoot(replace(FIRST_BODY, epoch=0), b"s").write()),
        (PROMISE, SignedPromise(replace(PROMISE_OF_ALICE, epoch=0), b"s").write()),
        (ROOT, SignedRoot(BODY, b"").write()),
        (PROOF, BODY.write() + counted(b"v") + b"\4" + u16(0)), (PROOF, Reply(BODY, b"", Empty(), ()).write()),
        (REFUSED, b""), (REFUSED, b"\1\2"), (ROOTS, b""), (ROOTS, b"\0"), (ROOTS, u16(1)),
    ]:
        q.ask("frames response", kind, body)
    for kind, value in responses[:4] * 4:
        q.ask("frames response", kind, spoiled(rng, response_body(kind, value)))


HEAD = request_frame("head")


@subject("a stream in pieces")
def of_feeds(q, rng):
    q.note("a registration cut in two; three heads in one piece, and a byte a piece")
    q.ask("frames new")
    for piece in [b"\0\0\0\7\1\0\1", b"\x61\0\1\x6b", b"", HEAD * 3, *(bytes([byte]) for byte in HEAD * 3)]:
        q.ask("frames feed", piece)
    q.note("frames of a kind that is none, and of a body that is none, stop nothing; the last comes in its place")
    q.ask("frames new")
    q.ask("frames feed", b"\0\0\0\1\x09" + b"\0\0\0\2\6\0" + b"\0\0\0\1")
    q.ask("frames feed", b"\6")
    q.note("lengths that no frame has, after one that is whole; then no piece is taken")
    for length in [0, 65537, 131072, 2**32 - 1]:
        q.ask("frames new")
        q.ask("frames feed", HEAD + u32(length))
        q.ask("frames feed", HEAD)
        q.ask("frames feed", b"")
    q.ask("frames new")
    for piece in [HEAD, u32(0), HEAD, b""]:
        q.ask("frames feed", piece)
    q.note("a bad length whose bytes come one by one, and one behind which a frame stands")
    q.ask("frames new")
    for byte in u32(65537):
        q.ask("frames feed", bytes([byte]))
    q.ask("frames feed", b"\6")
    q.ask("frames new")
    q.ask("frames feed", u32(0) + HEAD)
    q.note("the longest frame, in parts and whole")
    q.ask("frames new")
    for piece in [u32(65536), b"\x09", b"\7" * 65534, b"", b"\10", u32(65537), b"\6"]:
        q.ask("frames feed", piece)
    q.ask("frames new")
    q.ask("frames feed", frame(9, b"\7" * 65535) + HEAD)
    q.note("pieces of more than 100,000 bytes: a frame and a beginning; the rest of it and one more")
    big = q.let("big", frame(9, b"\7" * 65535))
    q.ask("frames feed", big + big[:65539])
    q.ask("frames feed", big[65539:] + HEAD + big + big[:50000])
    q.ask("frames feed", big[50000:])
    q.ask("frames feed", HEAD * 300)
    q.ask("frames new")
    q.ask("frames feed", frame(5, b"\1" * 40) + big + big[:40000])
    q.ask("frames feed", big[40000:])
    q.ask("frames feed", HEAD)
    q.note("frames that grow, each piece with the end of one and the beginning of the next")
    q.ask("frames new")
    q.ask("frames feed", b"\0\0")
    for size in [*range(0, 30), *range(30, 200, 17)]:
        q.ask("frames feed", b"\0" + u8(size + 1) + b"\5" + b"\7" * size + b"\0\0")
    q.ask("frames feed", b"\0\1")
    q.ask("frames feed", b"\6")
    q.note("a byte a piece, and hundreds of frames in pieces of some sizes")
    twenty = q.let("twenty", b"".join(frame(5, bytes([size]) * size) for size in range(0, 40, 2)))
    q.ask("frames new")
    for byte in twenty[:120]:
        q.ask("frames feed", bytes([byte]))
    for size, stream in [(3, twenty), (7, twenty), (64, twenty * 2), (1000, twenty * 4), (100_000, twenty * 10)]:
        q.ask("frames new")
        for at in range(0, len(stream), size):
            q.ask("frames feed", stream[at : at + size])
    q.note("requests cut anywhere, some with a bad end")
    for _ in range(12):
        q.ask("frames new")
        stream = b"".join(request_frame(*a_request(rng)) for _ in range(4))
        stream += rng.choice([b"", b"", bytes(4), b"\0\1\0\1", b"\0\0\0\2\6"])
        cuts = sorted(rng.randrange(len(stream) + 1) for _ in range(3))
        for start, end in zip([0, *cuts], [*cuts, len(stream)]):
            q.ask("frames feed", stream[start:end])
        q.ask("frames feed", b"")
        q.ask("frames feed", b"x")
