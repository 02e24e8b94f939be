"""Questions of `session_vectors` on directories, hubs and the server."""

from model.formats import ZERO32, frame, request_frame, u64
from model.session_answers import HUB_TOKEN
from model.sessions import SALT_KEY, SIGNING_KEY, VUF_KEY
from questions.providers import OTHER_KEY, TOP, closing, message
from questions.session_scripts import HEAD, key_of, name_of, split
from questions.values import index, joined, run
from questions.writing import subjects

SUBJECTS, subject = subjects()

# Directories -----------------------------------------------------------------------------------------


def new_directory(q, epoch=1, nonce=ZERO32, signing_key=SIGNING_KEY, vuf_key=VUF_KEY, salt_key=SALT_KEY):
    q.ask("directory new", epoch, nonce, signing_key, vuf_key, salt_key)


@subject("a directory: each call, and each refusal in its order")
def of_calls(q, rng):
    q.ask("directory head")
    q.ask("directory register", b"a", b"k")
    new_directory(q, epoch=0)
    q.ask("directory head")
    new_directory(q)
    new_directory(q, epoch=0)
    q.ask("directory head")
    for epoch in [0, 1]:
        q.ask("directory close", epoch)
    for name, key in [(b"alice", b"k1"), (b"alice", b"k2"), (b"", b""), (b"", b"k"), (b"a", b"")]:
        q.ask("directory register", name, key)
    q.ask("directory change", b"alice", b"k2")
    q.ask("directory promise", b"alice")
    q.ask("directory promise", b"bob")
    q.ask("directory lookup", b"alice", 0)
    q.ask("directory lookup", b"alice", 2)
    q.ask("directory close", 2)
    q.ask("directory head")
    for epoch in [0, 1, 2, 3]:
        q.ask("directory lookup", b"alice", epoch)
        q.ask("directory lookup", b"bob", epoch)
    q.ask("directory promise", b"alice")
    for key in [b"k3", b"", b"k" * 2049]:
        q.ask("directory register", b"alice", key)
    q.ask("directory change", b"bob", b"k1")
    q.ask("directory change", b"alice", b"k3")
    q.ask("directory change", b"alice", b"k4")
    q.ask("directory register", b"alice", b"k4")
    q.ask("directory register", b"bob", b"k1")
    q.ask("directory promise", b"alice")
    for epoch in [2, 9, 9, 8]:
        q.ask("directory close", epoch)
    for epoch in [0, 2, 3, 9, 10]:
        q.ask("directory lookup", b"alice", epoch)
    for start, count in [
        (0, 64), (0, 1), (2, 1), (3, 64), (9, 64), (10, 64), (TOP, 1), (0, 0), (0, 65), (1, 65535),
    ]:
        q.ask("directory history", start, count)


@subject("a directory: records carried out once more")
def of_replays(q, rng):
    q.ask("directory replay turn", 2)
    new_directory(q)
    q.note("a registration under the salt of its record; the one after it takes the first salt of the stream")
    q.ask("directory replay register", run(0x10), b"alice", b"k1")
    q.ask("directory promise", b"alice")
    q.ask("directory register", b"bob", b"k1")
    q.note("each refusal, which changes nothing")
    q.ask("directory replay register", run(0x11), b"alice", b"k2")
    q.ask("directory replay register", run(0x11), b"bob", b"k2")
    q.ask("directory replay change", run(0x11), b"alice", b"k2")
    for epoch in [0, 1, 2]:
        q.ask("directory replay turn", epoch)
    q.ask("directory head")
    q.ask("directory replay turn", 2)
    q.ask("directory replay register", run(0x11), b"alice", b"k2")
    q.ask("directory replay change", run(0x12), b"alice", b"k2")
    q.ask("directory replay change", run(0x13), b"alice", b"k3")
    q.ask("directory change", b"bob", b"k2")
    q.ask("directory replay turn", TOP)
    q.ask("directory replay turn", TOP)
    for name in [b"alice", b"bob"]:
        for epoch in [1, 2, TOP]:
            q.ask("directory lookup", name, epoch)
    q.note("limits and some hundreds")
    new_directory(q)
    q.ask("directory replay register", run(0x20), b"n" * 255, b"k" * 2048)
    for k in range(300):
        q.ask("directory replay register", index(last=k % 256), name_of(k), key_of(k))
    q.ask("directory replay turn", 5)
    for k in range(0, 300, 7):
        q.ask("directory replay change", index(1, last=k % 256), name_of(k), key_of(k + 1))
    for epoch in range(6, 40):
        q.ask("directory replay turn", epoch)
    q.ask("directory head")
    for k in [0, 7, 8, 299]:
        q.ask("directory lookup", name_of(k), 5)
        q.ask("directory lookup", name_of(k), 0)


@subject("a directory: pages under other nonces")
def of_rotations(q, rng):
    one, other = b"\1" + bytes(31), run(0xA0)
    new_directory(q)
    q.note("what waits comes with the nonce, and proofs of old pages have the old one")
    for name in [b"alice", b"bob"]:
        q.ask("directory register", name, b"k1")
    q.ask("directory rotate", 2, one)
    for epoch in [0, 1, 2]:
        q.ask("directory lookup", b"alice", epoch)
    q.ask("directory promise", b"alice")
    q.note("refused as a closing is, which leaves the nonce")
    for epoch in [0, 1, 2]:
        q.ask("directory rotate", epoch, other)
    q.ask("directory head")
    q.note("a closing keeps the nonce; an equal one; back to the first one, with a change")
    q.ask("directory change", b"alice", b"k2")
    q.ask("directory close", 3)
    q.ask("directory rotate", 5, one)
    q.ask("directory change", b"bob", b"k2")
    q.ask("directory rotate", 6, ZERO32)
    for epoch in [0, 1, 2, 3, 5, 6]:
        for name in [b"alice", b"bob", b"carol"]:
            q.ask("directory lookup", name, epoch)
    q.note("carried out once more")
    q.ask("directory register", b"carol", b"k1")
    for epoch in [6, 7, 7]:
        q.ask("directory replay rotate", epoch, other)
    q.ask("directory head")
    q.ask("directory lookup", b"carol", 7)
    q.ask("directory rotate", TOP, one)
    q.ask("directory rotate", TOP, one)
    q.ask("directory rotate", TOP)
    q.ask("directory history", 0, 64)
    q.note("many names, under one nonce after another")
    new_directory(q)
    for number in range(300):
        q.ask("directory register", name_of(number), b"k")
        if number in (3, 40, 299):
            q.ask("directory rotate", number, rng.randbytes(32))
    for number in range(300, 310):
        q.ask("directory register", name_of(number), b"k")
    for epoch in [400, 401]:
        q.ask("directory rotate", epoch, rng.randbytes(32))
        q.ask("directory lookup", name_of(305), 0)
    q.note("300 rotations, and one more from a record")
    new_directory(q)
    q.ask("directory register", b"alice", b"k")
    for number in range(2, 302):
        q.ask("directory rotate", number, bytes([number % 256]) + bytes(31))
    q.ask("directory replay rotate", 302, other)
    for epoch in [0, 1, 2, 150, 301]:
        q.ask("directory lookup", b"alice", epoch)
    q.ask("directory-sum new", 1, ZERO32, SIGNING_KEY, SALT_KEY)
    q.ask("directory-sum register", b"ab", b"k")
    q.ask("directory-sum rotate", 2, one)
    for epoch in [1, 2]:
        q.ask("directory-sum lookup", b"ab", epoch)


@subject("a directory: names of 0, 1, 255 and 256 bytes, keys of 0, 1, 2,048 and 2,049")
def of_limits(q, rng):
    new_directory(q)
    longest, key = q.let("name", run(0, 255)), q.let("key", run(7, 2048))
    for verb in ["register", "change"]:
        for name in [b"", b"x", longest, longest + b"x"]:
            for value in [b"", b"x", key, key + b"x"]:
                q.ask(f"directory {verb}", name, value)
    for name in [b"", longest, longest + b"x"]:
        q.ask("directory promise", name)
        q.ask("directory lookup", name, 0)
        q.ask("directory lookup", name, 9)
    q.ask("directory close", 2)
    q.ask("directory lookup", longest, 2)
    q.ask("directory change", longest, key)
    q.ask("directory register", b"y", key)
    q.ask("directory close", 3)
    for name in [longest, b"x", b"y"]:
        q.ask("directory lookup", name, 0)
        q.ask("directory lookup", name, 2)
    q.ask("directory register", b"y" * 65535, b"k")
    q.ask("directory register", b"z", b"k" * 65535)


@subject("a directory: other first epochs, nonces and keys")
def of_beginnings(q, rng):
    nonce = q.let("nonce", run(0xA0))
    for epoch in [1, 2, 1000, TOP - 1, TOP]:
        new_directory(q, epoch=epoch, nonce=nonce)
        q.ask("directory register", b"alice", b"k1")
        q.ask("directory lookup", b"alice", epoch)
        q.ask("directory lookup", b"alice", epoch - 1)
        q.ask("directory history", 0, 1)
        q.ask("directory close", epoch)
        q.ask("directory close", TOP)
        q.ask("directory lookup", b"alice", 0)
        q.ask("directory lookup", b"bob", TOP)
        q.ask("directory promise", b"alice")
    for keys in [{"signing_key": OTHER_KEY}, {"vuf_key": OTHER_KEY}, {"salt_key": OTHER_KEY}]:
        new_directory(q, **keys)
        q.ask("directory register", b"alice", b"k1")
        q.ask("directory close", 2)
        q.ask("directory lookup", b"alice", 0)
        q.ask("directory lookup", b"bob", 0)


@subject("a directory: a refused command uses no salt")
def of_salts(q, rng):
    new_directory(q)
    for name, key in [(b"a", b"k"), (b"a", b"l"), (b"", b"k"), (b"b", b""), (b"b", b"k"), (b"c", b"k")]:
        q.ask("directory register", name, key)
    q.ask("directory change", b"d", b"k")
    q.ask("directory close", 1)
    q.ask("directory close", 2)
    q.ask("directory register", b"a", b"m")
    q.ask("directory change", b"b", b"m")
    q.ask("directory change", b"b", b"n")
    q.ask("directory register", b"d", b"k")
    q.ask("directory close", 3)
    for name in [b"a", b"b", b"c", b"d"]:
        q.ask("directory lookup", name, 2)
        q.ask("directory lookup", name, 3)


@subject("a directory: some hundreds of pages, of versions of one name, and of changes that wait")
def of_pages(q, rng):
    commands = [message("register", b"a", b"k")]
    for epoch in range(2, 302):
        commands += [message("close", ZERO32, epoch), message("change", b"a", key_of(epoch))]
    commands += [message("lookup", epoch, b"a") for epoch in [0, *range(1, 302, 5), 301, 302]]
    commands += [message("history", start, 64) for start in [0, 60, 100, 101, 237, 238, 239, 301, 302]]
    q.ask("directory run", 1, ZERO32, *commands)
    commands = [message("register", name_of(place), b"k") for place in range(60)] + [message("close", ZERO32, 5)]
    commands += [message("change", name_of(place), key_of(place)) for place in range(60)]
    commands += [message("promise", name_of(place)) for place in range(0, 60, 4)] + [message("close", ZERO32, 6)]
    commands += [message("lookup", 5 + place % 2, name_of(place)) for place in range(60)]
    q.ask("directory run", 1, ZERO32, *commands)
    q.note("Histories over more than 64 pages, by calls.")
    new_directory(q)
    q.ask("directory register", b"a", b"k")
    for epoch in range(2, 69):
        q.ask("directory close", epoch)
    for start in [0, 1, 3, 4, 5, 6, 60, 68, 69]:
        q.ask("directory history", start, 64)
    for epoch in [1, 2, 50, 67, 68]:
        q.ask("directory lookup", b"a", epoch)


@subject("runs of a directory")
def of_runs(q, rng):
    q.ask("directory run", 1, ZERO32)
    q.ask("directory run", 0, ZERO32, message("head"))
    q.ask("directory run", 1, ZERO32, b"")
    q.ask("directory run", 1, ZERO32, message("head") + b"\0")
    q.ask("directory run", 1, ZERO32, b"\x09")
    q.ask("directory run", 5, run(0xA0), message("close", ZERO32, 9), message("close", run(0), 9), message("head"))
    rotations = [message("rotate", run(0), epoch, nonce) for epoch, nonce in [(9, run(1)), (9, run(2)), (12, ZERO32)]]
    q.ask("directory run", 5, run(0xA0), *rotations, message("close", run(0), 13), message("head"))
    q.note("70 pages, of the epochs 10, 20 and so on, and parts of their history.")
    pages = [message("close", ZERO32, 10 * page) for page in range(2, 71)]
    for start, count in [
        (0, 64), (10, 64), (11, 64), (70, 64), (71, 64), (345, 3), (691, 64), (700, 1), (701, 64), (TOP, 1),
        (0, 65), (0, 65535), (0, 0),
    ]:
        pages.append(message("history", start, count))
    q.ask("directory run", 10, ZERO32, *pages)
    q.note("Commands of all kinds, of which many are refused.")
    for count in [3, 20, 400]:
        q.ask("directory run", rng.choice([1, 4]), rng.choice([ZERO32, run(3)]), *commands(rng, count))


def commands(rng, count):
    """Messages of all kinds, of which many are refused."""
    epoch, messages = 4, []
    names = [bytes([7]) * size for size in [0, 1, 2, 3, 4, 5, 32, 33, 255, 256]]
    keys = [bytes([9]) * size for size in [0, 1, 2, 3, 31, 34, 700, 2048, 2049]]
    for _ in range(count):
        name, key = rng.choice(names), rng.choice(keys)
        near = max(epoch + rng.choice([-90, -9, -4, -3, -2, -1, 0, 1]), 0)
        messages.append(message(*rng.choice([
            ("register", name, key), ("register", name, key), ("change", name, key), ("change", name, key),
            ("promise", name), ("lookup", near, name), ("lookup", 0, name),
            ("history", near, rng.choice([0, 1, 2, 64, 65])), ("head",), ("close", ZERO32, near + 2),
        ])))
        epoch += rng.randrange(2)
    return messages


@subject("a directory by the sum of bytes: two names of one index")
def of_indices(q, rng):
    q.ask("directory-sum new", 0, ZERO32, SIGNING_KEY, SALT_KEY)
    q.ask("directory-sum new", 1, ZERO32, SIGNING_KEY, SALT_KEY)
    q.ask("directory-sum register", b"ab", b"k")
    q.ask("directory-sum register", b"ba", b"k")
    q.ask("directory-sum register", b"ab", b"l")
    q.ask("directory-sum promise", b"ba")
    q.ask("directory-sum lookup", b"ba", 0)
    q.ask("directory-sum close", 2)
    for name in [b"ab", b"ba", b"c"]:
        q.ask("directory-sum lookup", name, 2)
        q.ask("directory-sum lookup", name, 1)
    q.ask("directory-sum register", b"ba", b"l")
    q.ask("directory-sum change", b"ba", b"l")
    q.ask("directory-sum change", b"ab", b"l")
    q.ask("directory-sum register", b"c", b"l")
    q.ask("directory-sum history", 0, 64)
    q.ask("directory-sum close", 3)
    q.ask("directory-sum lookup", b"ba", 0)
    q.ask("directory-sum lookup", b"ab", 0)
    q.ask("directory-sum head")
    names = [bytes([97 + k % 26, 97 + k // 26 % 26, 97 + k // 9 % 26]) for k in range(60)]
    messages = [message("register", name, b"k") for name in names] + [message("close", ZERO32, 7)]
    q.ask("directory-sum run", 2, run(1), *messages, *(message("lookup", 7, name) for name in names[:30]))
    q.ask("directory-sum run", 0, ZERO32, message("head"))


# Hubs -------------------------------------------------------------------------------------------------------


@subject("a hub: sessions that are opened and ended")
def of_sessions(q, rng):
    q.ask("hub open", 1)
    q.ask("hub head")
    q.ask("hub new", 0, ZERO32)
    q.ask("hub bytes", 1, HEAD)
    q.ask("hub new", 1, ZERO32)
    q.ask("hub head")
    q.ask("hub bytes", 7, HEAD)
    q.ask("hub end", 7)
    for session in [7, 7, 0, 2**32 - 1]:
        q.ask("hub open", session)
        q.ask("hub bytes", session, HEAD)
    q.note("What is held of a stream goes with its session, and so does a bad length.")
    for piece in [b"\0\0\0", HEAD, bytes(4), HEAD, b""]:
        q.ask("hub end", 7)
        q.ask("hub open", 7)
        q.ask("hub bytes", 7, piece)
    q.ask("hub bytes", 7, HEAD[:4])
    q.ask("hub new", 5, run(0xA0))
    q.ask("hub head")
    q.ask("hub bytes", 7, HEAD[4:])
    q.ask("hub open", 7)
    q.ask("hub bytes", 7, HEAD[4:])
    q.ask("hub open", 2**32)


@subject("a hub: 1,024 sessions at most")
def of_most_sessions(q, rng):
    q.ask("hub new", 1, ZERO32)
    for session in range(1, 1025):
        q.ask("hub open", session)
    for session in [1025, 7, 0]:
        q.ask("hub open", session)
    q.ask("hub bytes", 1025, HEAD)
    q.ask("hub bytes", 1024, HEAD)
    q.ask("hub end", 1025)
    q.ask("hub end", 7)
    q.ask("hub open", 8)
    q.ask("hub open", 7)
    q.ask("hub open", 1025)
    q.ask("hub bytes", 7, HEAD)


@subject("a hub: messages that are cut, and messages of many sessions")
def of_messages(q, rng):
    q.ask("hub new", 1, ZERO32)
    register = request_frame("register", b"a", b"k")
    for session in [1, 2, 3]:
        q.ask("hub open", session)
    lookup = request_frame("lookup", 2, b"a")
    rows = [
        (1, register[:5]), (2, closing(2)), (1, register[5:]), (3, lookup[:-1]), (3, lookup[-1:]),
        (3, request_frame("history", 1, 64)), (2, closing(3)), (3, request_frame("lookup", 3, b"a")),
        (2, closing(4) + closing(5) + request_frame("history", 0, 64)), (1, b""), (2, b""),
    ]
    for session, piece in rows:
        q.ask("hub bytes", session, piece)
        q.ask("hub head")
    q.note("A byte a piece.")
    for byte in register + HEAD + request_frame("promise", b"a"):
        q.ask("hub bytes", 1, bytes([byte]))
    q.note("Kinds that are none, bodies of another form, and the tokens of others.")
    for piece in [
        HEAD * 3, frame(9, b""), frame(6, b"\0"), frame(0x81, b""), frame(0, b"\0" * 40),
        frame(1, b"\0\1a\0\2k"), frame(1, b""), frame(4, u64(1) + b"\0\1"), frame(5, u64(1) + b"\0"),
        frame(7, bytes(39)), frame(7, bytes(41)), closing(9, ZERO32), closing(9, HUB_TOKEN[:31] + b"\5"),
        closing(9, b"\5" + HUB_TOKEN[1:]), closing(1, ZERO32), closing(1), closing(5), closing(9), closing(9),
        frame(9, b"x") + HEAD + frame(6, b"x") + HEAD,
    ]:
        q.ask("hub bytes", 2, piece)
    q.note("Each refusal of the directory, in a frame.")
    for request in [
        ("register", b"a", b"k"), ("register", b"b", b"k"), ("register", b"b", b"l"), ("change", b"b", b"l"),
        ("promise", b"b"), ("promise", b"c"), ("promise", b""), ("register", b"", b"k"),
        ("register", b"c", b""), ("register", b"c" * 256, b"k"), ("register", b"c", b"k" * 2049),
        ("lookup", 7, b"a"), ("lookup", 1, b""), ("history", 0, 0), ("history", 0, 65),
        ("change", b"a", b"l"), ("change", b"a", b"m"), ("lookup", 0, b"a"), ("lookup", 9, b"b"),
        ("history", 4, 64), ("history", 10, 1), ("head",),
    ]:
        q.ask("hub bytes", 3, request_frame(*request))


@subject("a hub: streams that fail")
def of_failed_streams(q, rng):
    q.ask("hub new", 1, ZERO32)
    for session, pieces in enumerate([
        [bytes(4), HEAD, b""], [b"\0\1\0\1", HEAD], [b"\xff" * 4, HEAD], [HEAD + bytes(5), HEAD],
        [b"\0", b"\0", b"\0", b"\0", b"\0", HEAD],
        [b"\0\1\0\0", b"\x06", b"\0" * 65534, b"\0" + HEAD, bytes(4), HEAD],
    ]):
        q.ask("hub open", session)
        for piece in pieces:
            q.ask("hub bytes", session, piece)
    for session in [0, 1, 5, 0, 1]:
        q.ask("hub bytes", session, HEAD)
        q.ask("hub end", session)
        q.ask("hub open", session)


@subject("a hub: long frames, long pieces, and long outputs")
def of_long_pieces(q, rng):
    q.ask("hub new", 1, ZERO32)
    q.ask("hub open", 1)
    longest = q.let("longest", frame(9, bytes(65535)))
    q.ask("hub bytes", 1, longest)
    q.ask("hub bytes", 1, longest + longest + longest)
    q.ask("hub bytes", 1, longest[:40000])
    q.ask("hub bytes", 1, longest[40000:] + longest[:65539])
    q.ask("hub bytes", 1, longest[65539:])
    name, key = b"a" * 65000, b"k" * 500
    q.ask("hub bytes", 1, request_frame("register", name, key))
    q.ask("hub bytes", 1, request_frame("register", b"a", name))
    q.ask("hub bytes", 1, request_frame("promise", name) + request_frame("lookup", 1, name))
    q.ask("hub bytes", 1, f"{HEAD.hex()}*600")
    q.ask("hub bytes", 1, request_frame("register", b"a" * 255, b"k" * 2048) * 2)
    for epoch in range(2, 66):
        q.ask("hub bytes", 1, closing(epoch))
    q.ask("hub bytes", 1, request_frame("history", 0, 64) * 30)
    q.ask("hub bytes", 1, request_frame("lookup", 0, b"a" * 255) * 40)
    q.ask("hub bytes", 1, b"\0\1\0\1")
    q.ask("hub bytes", 1, longest)


@subject("runs of a hub")
def of_hub_runs(q, rng):
    q.ask("hub run", 1, ZERO32)
    q.ask("hub run", 0, ZERO32, "open", 1)
    q.ask("hub run", 1, ZERO32, "end", 1, "bytes", 1, HEAD)
    q.ask("hub run", 9, run(0xA0), "open", 1, "bytes", 1, closing(12) + HEAD)
    events = [
        ("bytes", 7, HEAD), ("open", 9), ("open", 7), ("open", 7), ("bytes", 7, HEAD[:4]),
        ("bytes", 9, HEAD + frame(9, b"") + bytes(5)), ("bytes", 7, b"\6\0\0"), ("bytes", 9, HEAD),
        ("end", 7), ("open", 8), ("open", 7), ("bytes", 7, frame(9, b"")), ("end", 1), ("end", 9),
    ]
    q.ask("hub run", 1, ZERO32, *(word for event in events for word in event))
    q.note("Two runs: what the first one leaves open has an output in the second one, and half a frame goes on.")
    for count in [0, 1, 2, 6, 8, 14, 15]:
        q.ask("hub run-on", 1, ZERO32, count, *(word for event in events for word in event))
    q.ask("hub run-on", 0, ZERO32, 0, "open", 1)
    q.note("330 sessions, each with a frame that is refused, and some with a head.")
    unread = q.let("u", frame(9, b""))
    events = [("open", session, "bytes", session, unread) for session in range(330)]
    events += [("bytes", session, HEAD) for session in range(0, 330, 30)]
    q.ask("hub run", 1, ZERO32, *(word for event in events for word in event))
    q.ask("hub run-on", 1, ZERO32, 330, *(word for session in range(330) for word in ("open", session)))
    q.note("A long output, made by one piece and by hundreds.")
    q.ask("hub run", 1, ZERO32, "open", 1, "bytes", 1, f"{HEAD.hex()}*600")
    q.let("h", HEAD)
    q.ask("hub run", 1, ZERO32, "open", 1, *["bytes", 1, HEAD] * 400)
    q.note("Hundreds of pieces, a byte each.")
    stream = request_frame("register", bytes([1, 2]) * 120, b"k" * 9) + HEAD
    q.ask("hub run", 1, ZERO32, "open", 1, *(word for byte in stream for word in ("bytes", 1, bytes([byte]))))
    q.note("Streams of five sessions, cut anywhere.")
    for most in [3, 12]:
        streams = {session: split(rng, b"".join(stream_of(rng, 25)), most) for session in [1, 2, 3, 5, 4000000000]}
        events = [word for session in streams for word in ("open", session)]
        while streams:
            session = rng.choice(list(streams))
            events += ["bytes", session, streams[session].pop(0)]
            if not streams[session]:
                del streams[session]
        q.ask("hub run", 3, run(most), *events)
    of_seen_runs(q)
    q.note("What users see: the streams of five sessions.")
    q.ask("hub seen", 3, run(most), *events)


def of_seen_runs(q):
    """Runs as their users see them: examples of what the contract of `Hub::run` says, with what it takes for granted."""
    q.ask("hub seen", 0, ZERO32, "open", 1)
    q.ask("hub seen", 1, ZERO32, "open")
    q.ask("hub seen", 1, ZERO32)
    events = [("open", 1), ("open", 2), *two_sessions_and_a_closing()]
    q.note("What users see: two sessions and a closing.")
    q.ask("hub seen", 1, ZERO32, *joined(events))
    q.note("What users see: the same messages, those of the first session a byte a piece. The answer is the same.")
    q.ask("hub seen", 1, ZERO32, *joined(joined(cut_up(1, event) for event in events)))
    q.note("What users see: two names of one index, of which one is bound; and the same where the indices differ.")
    events = [("open", 7), ("open", 0), *two_names_of_one_index()]
    q.ask("hub seen-sum", 4, ZERO32, *joined(events))
    q.ask("hub seen", 4, ZERO32, *joined(events))


def two_sessions_and_a_closing():
    """Session 2 is the operator's. A frame of each session is cut, and a message of the other one comes between; of the
    look-up of session 1 it is a closing."""
    alice, bob = b"alice", b"bob"
    latest, registration = request_frame("lookup", 0, alice), request_frame("register", bob, b"k3")
    yield "bytes", 1, request_frame("register", alice, b"k1") + request_frame("promise", alice)[:4]
    yield "bytes", 2, HEAD + latest
    yield "bytes", 1, request_frame("promise", alice)[4:] + latest[:7]
    yield "bytes", 2, closing(2)
    yield "bytes", 1, latest[7:] + request_frame("change", alice, b"k2") + request_frame("lookup", 0, bob)
    yield "bytes", 2, registration[:9]
    yield "bytes", 1, request_frame("close", ZERO32, 3)
    yield "bytes", 2, registration[9:] + closing(5)
    yield "bytes", 1, b"".join(request_frame("lookup", *asked) for asked in [(0, alice), (2, alice), (1, alice), (2, bob)])
    yield "bytes", 2, request_frame("lookup", 5, bob) + request_frame("promise", bob) + request_frame("history", 0, 64)
    yield "bytes", 1, request_frame("history", 2, 2) + HEAD + request_frame("lookup", 7, alice)
    yield "end", 1
    yield "bytes", 2, frame(9, b"") + bytes(4)


def two_names_of_one_index():
    """The bytes of `ab` and `ba` have one sum."""
    yield "bytes", 7, request_frame("register", b"ab", b"k")
    yield "bytes", 0, closing(6)
    for asked in [(6, b"ab"), (0, b"ba"), (4, b"ba"), (6, b"c")]:
        yield "bytes", 7, request_frame("lookup", *asked)
    yield "bytes", 7, request_frame("register", b"ba", b"l")


def cut_up(session, event):
    """The event, where a piece of this session comes a byte at a time."""
    if event[:2] != ("bytes", session):
        return [event]
    return [(*event[:2], bytes([byte])) for byte in event[2]]


def stream_of(rng, count):
    """Frames of commands of all kinds, now and then of a kind that is none."""
    for command in commands(rng, count):
        if command[0] == 7:
            yield closing(int.from_bytes(command[-8:], "big"), rng.choice([HUB_TOKEN] * 5 + [ZERO32]))
        else:
            yield frame(command[0] if rng.randrange(20) else 9, command[1:])


@subject("a run of sessions that are opened, cut, failed and ended at random")
def of_random_events(q, rng):
    sessions = [0, 3, 4, 1000000, 2**32 - 1]
    streams, events = {session: b"" for session in sessions}, []
    for _ in range(160):
        session = rng.choice(sessions)
        turn = rng.randrange(20)
        if turn == 0:
            events += ["end", session]
            streams[session] = b""
        elif turn in (1, 2):
            events += ["open", session]
        else:
            if not streams[session]:
                frames = [*stream_of(rng, rng.randrange(1, 4)), rng.choice([b""] * 12 + [b"\0\1\0\1"])]
                streams[session] = b"".join(frames)
            size = rng.randrange(len(streams[session]) + 1)
            events += ["bytes", session, streams[session][:size]]
            streams[session] = streams[session][size:]
    q.ask("hub run", 3, run(5), *events)
    q.note("The same, event by event.")
    q.ask("hub new", 3, run(5))
    while events:
        verb, session = events.pop(0), events.pop(0)
        q.ask(f"hub {verb}", session, *([events.pop(0)] if verb == "bytes" else []))


@subject("a session from its input to its output")
def of_serving(q, rng):
    register = request_frame("register", b"a", b"k") + closing(2) + request_frame("lookup", 2, b"a")
    for stream in [
        b"", HEAD * 3, HEAD[:4], HEAD + HEAD[:3], register, HEAD + bytes(4) + HEAD, b"\xff" * 100,
        frame(9, b"") + HEAD, closing(2, ZERO32) + HEAD,
    ]:
        q.ask("serve run", 1, "none", stream)
    digits = run(0xA0).hex().encode()
    for epoch, nonce in [
        (5, "none"), (TOP, digits), (2, digits.upper()), (1, digits[1:]), (1, digits + b"0"), (1, b""),
    ]:
        q.ask("serve run", epoch, nonce, register + HEAD)
    q.ask("serve run", 0, "none", HEAD)
    q.note("Reads of 4,096 bytes, which end within a frame, between two, and at the end.")
    head = HEAD.hex()
    for stream in [
        f"{head}*819+00", f"{head}*819+0000000206", f"{head}*820", f"{head}*2457",
        f"0000000c09{'00' * 11}*256",
        f"0000000c09{'00' * 11}*256+{head}",
    ]:
        q.ask("serve run", 1, "none", stream)
    q.note("More than 2,000 reads, of frames of the greatest length.")
    q.let_be("frame", "0001000009+00*65535")
    q.let_be("frames", "+".join(["$frame"] * 16))
    q.ask("serve run", 1, "none", f"{'$frames+' * 8}{head}")
    q.note("Keys and token.")
    keys = [q.let(name, run(first).hex().encode()) for name, first in zip("svct", (0x10, 0x30, 0x50, 0x70))]
    closings = closing(2) + closing(2, run(0x70))
    stream = request_frame("register", b"a", b"k") + closings + request_frame("lookup", 2, b"a")
    q.ask("serve keys", *keys, stream)
    q.ask("serve keys", *(key.upper() for key in keys), stream)
    for place in range(4):
        for bad in [keys[place][1:], keys[place] + b"00", b"g" + keys[place][1:], b""]:
            q.ask("serve keys", *keys[:place], bad, *keys[place + 1:], stream)
        other = run(0x90).hex().encode()
        q.ask("serve keys", *keys[:place], other, *keys[place + 1:], stream)
