"""The scripts of the program `session_vectors`, in the words of the play script.

Each is a file data/NAME.script, which a program that plays scripts takes as it is. What it prints is computed by
`sessions.played`.
"""

import random

from model.formats import FINAL, MAX_EPOCH, OPEN, ZERO32, frame, request_frame
from model.sessions import TOKEN

FOLDER = "crates/session_vectors/data"
SCRIPTS = {}
TOP = MAX_EPOCH


def script(of):
    """Marks a function that gives the lines of a script, which has its name."""
    SCRIPTS[of.__name__] = of
    return of


def texts():
    """The scripts as texts, by name."""
    return {name: "".join(f"{line}\n" for line in of()) for name, of in SCRIPTS.items()}


# Words and lines -----------------------------------------------------------------------------------


def hexed(data):
    return data.hex() or "-"


def name_of(number):
    return b"n%d" % number


def key_of(number):
    return b"k%d" % number


def register(name, key):
    return f"register {hexed(name)} {hexed(key)}"


def change(name, key):
    return f"change {hexed(name)} {hexed(key)}"


def register2(name, key, policy):
    return f"register2 {hexed(name)} {hexed(key)} {policy}"


def change2(name, key, policy):
    return f"change2 {hexed(name)} {hexed(key)} {policy}"


def lookup(name, epoch):
    return f"lookup {hexed(name)} {epoch}"


def promise(name):
    return f"promise {hexed(name)}"


def watch(name, key=b""):
    return f"watch {hexed(name)} {hexed(key)}"


def watch2(name, key, policy):
    return f"watch2 {hexed(name)} {hexed(key)} {policy}"


def piece(session, data):
    return f"bytes {session} {hexed(data)}"


def closing(epoch, token=TOKEN):
    return request_frame("close", token, epoch)


def rotation(epoch, nonce, token=TOKEN):
    return request_frame("rotate", token, epoch, nonce)


HEAD = request_frame("head")


def split(rng, data, most):
    """The bytes in pieces, cut anywhere, some of them empty."""
    cuts = sorted(rng.randrange(len(data) + 1) for _ in range(rng.randrange(most)))
    return [data[a:b] for a, b in zip([0, *cuts], [*cuts, len(data)])]


# Short scripts: a rule each ----------------------------------------------------------------------------


@script
def two_epochs():
    yield "# A name is shown from the next epoch on."
    yield from ["register 616c696365 6b31", "lookup 616c696365 0", "close 2"]
    yield from ["lookup 616c696365 0", "lookup 616c696365 1"]


@script
def promises():
    yield "# A name is registered once, and its promise is told again while it waits."
    yield from ["register 61 6b", "register 61 6b", "promise 61", "close 2", "register 61 6b", "promise 61"]


@script
def changes():
    yield "# Only a name that the latest page has is changed, and once in an epoch."
    yield from ["change 62 6b", "register 61 6b", "change 61 6c", "close 2"]
    yield from ["change 61 6c", "change 61 6d", "register 61 6d"]


@script
def greatest_epoch():
    yield "# Epochs only rise, up to the greatest. Nothing is asked for behind it."
    yield "watch 61 -"
    yield from ["close 0", "close 1", f"close {TOP}", f"close {TOP}", "close 2"]
    yield from ["register 61 6b", "promise 61", f"lookup 61 {TOP}", "lookup 61 0", f"lookup 61 {TOP - 1}"]
    yield from [f"history {TOP} 64", f"history {TOP - 1} 1", "history 0 1", "history 2 1", "head"]
    yield from ["watch 62 6b", piece(1, closing(TOP))]


@script
def limits_of_names_and_keys():
    yield "# A name has 1 to 255 bytes, and a key 1 to 2,048. The name is tested first."
    longest, key = b"a" * 255, b"k" * 2048
    yield from [register(longest, b"k"), register(b"a" * 256, b"k"), register(b"", b"k")]
    yield from [register(b"a", key), register(b"b", b"k" * 2049), register(b"b", b""), register(b"", b"")]
    yield from [change(b"a" * 256, b""), change(b"b", b""), promise(b"a" * 256), promise(b""), lookup(b"", 9)]
    yield from [lookup(b"a" * 256, 1), promise(longest), promise(b"a"), watch(longest, b"k"), "close 2"]
    yield from [lookup(longest, 0), lookup(b"a", 2), change(longest, b"l"), "close 3", lookup(longest, 3)]


@script
def limits_of_histories():
    yield "# From 1 to 64 roots are asked for, and fewer told only where there are no more."
    yield from ["history 0 65", "history 0 0", "history 0 65535", "history 0 64", "history 9 1", "lookup 61 5"]
    yield from ["close 5", "close 9", "history 0 2", "history 2 64", "history 9 1", "history 10 64"]
    yield from ["history 5 1", "history 6 1", f"history {TOP} 64"]


@script
def half_messages():
    yield "# A message takes its place when its last byte arrives, whatever other sessions send between."
    yield from ["bytes 1 0000000701", piece(2, closing(2)), "bytes 1 00016100016b"]
    yield from ["lookup 61 2", "close 3", "lookup 61 3"]
    yield "# A look-up and a history that are cut, around a closing."
    yield piece(3, request_frame("lookup", 0, b"a")[:-1])
    yield piece(4, request_frame("history", 2, 64)[:9])
    yield from [piece(2, closing(7)), "bytes 3 61", piece(4, request_frame("history", 2, 64)[9:])]


@script
def two_sessions():
    yield "# Two sessions and a closing between their messages. Look-ups of epoch 0 show the latest page of their moment."
    alice, bob = b"alice", b"bob"
    cut = request_frame("lookup", 0, alice)
    yield piece(1, request_frame("register", alice, b"k1") + cut[:3])
    yield piece(2, request_frame("head") * 2 + cut)
    yield from [piece(1, cut[3:]), piece(2, closing(2)), piece(2, request_frame("close", bytes(31) + b"\1", 3))]
    asked = [("lookup", 0, alice), ("lookup", 1, alice), ("lookup", 2, bob), ("history", 1, 64)]
    yield piece(1, b"".join(request_frame(*request) for request in asked))
    yield from [piece(2, frame(9, b"")), piece(2, request_frame("change", alice, b"k2")), "end 1"]
    yield piece(1, closing(5) + cut + request_frame("history", 2, 2))
    yield "# What the client accepts of each page."
    yield from [lookup(name, epoch) for name in [alice, bob] for epoch in [1, 2, 5, 0]]


@script
def failed_streams():
    yield "# A bad length is refused once. Then the session prints nothing, until it is ended and opened again."
    yield from ["bytes 1 00000000", "bytes 1 0000000106", "bytes 2 0000000106", "bytes 3 00010001"]
    yield from ["bytes 4 000000010600000000", "bytes 4 0000000106", "bytes 5 00010000", "bytes 1 -", "end 1"]
    yield from ["bytes 1 0000000106", "end 4", "end 4", "bytes 4 00", "bytes 4 000001", "bytes 4 06", "bytes 5 06"]
    yield from ["bytes 6 ffffffff06", "bytes 6 0000000106", "head"]


@script
def messages_in_one_piece():
    yield "# Each message of a piece is answered. One of another kind or form is refused, and the session goes on."
    yield from ["bytes 1 000000010600000001060000000106", "bytes 1 0000000109", "bytes 1 000000020600"]
    yield from ["bytes 1 0000000106", "bytes 1 000000010000000001810000000109", "bytes 1 00000001ff0000000106"]


@script
def messages_byte_by_byte():
    yield "# Three messages, a byte a piece."
    for byte in HEAD * 3:
        yield piece(1, bytes([byte]))


@script
def alarm():
    yield "# A change that the owner did not ask for."
    yield from ["watch 61 -", "register 61 6b", "close 2", "bytes 1 000000070200016100016c", "close 5"]
    yield "# The change stays an alarm in each epoch, until the owner changes the key."
    yield from ["close 6", "change 61 6b", "close 7", "close 8"]


@script
def change_by_another_session():
    yield "# The owner's change waits, so nobody else's is taken."
    yield from ["watch 61 -", "register 61 6b", "close 2", "change 61 6c"]
    yield from ["bytes 1 000000070200016100016d", "close 4"]


@script
def old_epochs():
    yield "# Each epoch keeps its keys."
    yield from ["register 61 6b", "close 3", "change 61 6c", "register 62 6d", "lookup 61 0", "head", "close 7"]
    yield from ["close 8", "lookup 61 1", "lookup 61 3", "lookup 62 3", "lookup 61 7", "lookup 61 8", "lookup 62 0"]
    yield from ["lookup 63 8", "lookup 61 2", "lookup 61 9", "head"]


@script
def only_the_operator_closes():
    yield "# The token is tested before the epoch."
    for token, epoch in [(bytes(31) + b"\1", 2), (b"\1" + bytes(31), 2), (bytes(31) + b"\1", 1), (TOKEN, 1)]:
        yield piece(1, closing(epoch, token))
    yield from [piece(1, closing(2)), piece(1, closing(2)), piece(1, closing(2, b"\xff" * 32)), "head"]


@script
def rotations():
    yield "# The page of an epoch may have another nonce. Proofs of the pages before keep theirs."
    one = b"\1" + bytes(31)
    yield from ["register 61 6b", f"rotate 2 {one.hex()}", "lookup 61 2", "lookup 61 1", f"rotate 2 {one.hex()}"]
    yield from [piece(1, rotation(3, ZERO32)), piece(1, rotation(3, one)), piece(1, rotation(3, one, b"t" * 32))]
    yield piece(1, rotation(4, one)[:72])
    yield "# A closing keeps the nonce, and an equal one is no fault."
    yield from ["watch 61 6b", "change 61 6c", "close 5", "lookup 61 5", "lookup 61 3", f"rotate 6 {ZERO32.hex()}"]
    yield from [f"rotate 7 {ZERO32.hex()}", "lookup 61 0", "lookup 61 2", "history 0 64"]


@script
def rotations_in_frames():
    yield "# Only the operator rotates, as a session is told."
    yield from [piece(1, rotation(2, ZERO32)), piece(1, rotation(3, ZERO32, bytes(31) + b"\1")), "head"]


@script
def policies():
    yield "# A binding is shown with its policy. One that is final is never changed."
    yield from ["watch 61 -", "register2 61 6b open", "close 2", "change2 61 6c final", "lookup 61 0", "close 3"]
    yield from ["lookup 61 0", "change 61 6d", "lookup 61 2"]


@script
def policies_in_frames():
    yield "# Any byte may stand in the place of a policy, and one that is none is refused. No message is of the kind 09."
    yield from ["bytes 1 000000080a0300016100016b", "bytes 1 000000080a0100016100016b", "bytes 1 0000000109"]


@script
def final_bindings():
    yield "# Who registers a name first may make it final. Neither its owner nor others change it then."
    yield from [register2(b"a", b"k", "final"), change2(b"a", b"l", "open"), "close 2", watch2(b"a", b"k", "final")]
    yield from [register(b"a", b"l"), register2(b"a", b"l", "open"), change(b"a", b"l"), change2(b"a", b"k", "final")]
    yield piece(1, request_frame("change", b"a", b"l") + request_frame("change2", OPEN, b"a", b"l"))
    yield from ["close 3", lookup(b"a", 0), lookup(b"a", 1)]
    yield "# An open one changes, also to one of the first version, which has no policy, and back."
    yield from [register2(b"b", b"k", "open"), watch(b"b"), "close 4", change(b"b", b"k"), "close 5", lookup(b"b", 4)]
    yield from [lookup(b"b", 0), change2(b"b", b"k", "open"), "close 6", change2(b"b", b"k", "final")]
    yield from [change(b"b", b"l"), "close 7", change(b"b", b"l"), lookup(b"b", 0)]


@script
def alarms_with_policies():
    yield "# The same key in the other version, or under the other policy, is an alarm."
    yield from [register2(b"a", b"k", "open"), register(b"b", b"k"), "close 2"]
    yield from [watch(b"a", b"k"), watch2(b"a", b"k", "final"), watch2(b"a", b"k", "open"), watch2(b"b", b"k", "open")]
    yield piece(1, request_frame("change2", FINAL, b"a", b"k") + request_frame("change2", OPEN, b"b", b"k"))
    yield from ["close 3", watch2(b"c", b"k", "final"), register2(b"c", b"k", "final"), "close 4"]


@script
def refusals_of_policies():
    yield "# Lengths come before the policy, and it before what the latest page has."
    frames = [
        ("register2", 3, b"", b"k"), ("register2", 3, b"a", b""), ("register2", 3, b"a" * 256, b"k"),
        ("register2", 0, b"a", b"k" * 2049), ("register2", 0, b"a", b"k"), ("change2", 0, b"a", b"k"),
        ("change2", 1, b"a", b"k"), ("register2", 2, b"a", b"k"), ("register2", 1, b"a", b"k"), ("register", b"a", b"k"),
        ("change2", 1, b"a", b"k"), ("register2", 1, b"b", b"k"), ("close", TOKEN, 2), ("register2", 255, b"a", b"k"),
        ("register2", 1, b"a", b"k"), ("change2", 3, b"a", b"k"), ("change2", 1, b"a", b"k"), ("change", b"a", b"k"),
        ("change", b"a", b""), ("change2", 2, b"b", b"k"), ("change2", 1, b"b", b"k"), ("change", b"b", b"k"),
        ("promise", b"b"), ("close", TOKEN, 3), ("change", b"b", b"k"), ("lookup", 0, b"b"), ("lookup", 2, b"b"),
    ]
    for frame_of in frames:
        yield piece(1, request_frame(*frame_of))


@script
def refusals_in_frames():
    yield "# Each refusal of the directory, as another session is told."
    frames = [
        ("register", b"a", b"k"), ("register", b"a", b"l"), ("change", b"a", b"k"), ("promise", b"a"),
        ("promise", b"b"), ("promise", b""), ("register", b"b", b""), ("lookup", 9, b"a"), ("history", 0, 65),
        ("history", 0, 0), ("close", TOKEN, 1), ("close", b"t" * 32, 2), ("close", TOKEN, 2),
        ("register", b"a", b"k"), ("lookup", 2, b"a"), ("lookup", 0, b"b"), ("history", 0, 64), ("head",),
        ("register", b"a" * 256, b"k"), ("register", b"b", b"k" * 2049), ("change", b"a", b"k"),
        ("change", b"a", b"l"),
    ]
    for request in frames:
        yield piece(1, request_frame(*request))


@script
def words_of_lines():
    yield "# Empty lines and notes print nothing; hexadecimal digits are read in both cases."
    yield from ["", "#", "#register 61 6b", "# end", "register 4a 6A", "promise 4A", "close 2", "", "lookup 4a 0"]
    yield from ["lookup 4A 2", "bytes 4294967295 0000000106", "bytes 7 -", "end 7", "end 8", "end 4294967295"]
    yield from ["history 0 1", "head"]


@script
def monitors():
    yield "# Monitors begin at the head of their line, and print in the order of their lines."
    yield from ["register 61 6b", "watch 61 -", "close 2", "watch 61 6b", "watch 62 -", "watch 61 -", "close 3"]
    yield "# A promise goes to the monitors that are there, and only where it is new."
    yield from ["change 61 6c", "watch 61 6b", "promise 61", "close 4"]
    yield from ["register 62 6d", "close 9", "watch 62 6d", "lookup 62 0", "close 10"]


@script
def promise_of_another_session():
    yield "# The promise that another session got is told again, but handed to no monitor."
    yield from ["watch 61 -", piece(1, request_frame("register", b"a", b"k")), "promise 61", "close 2"]
    yield from ["watch 61 6b", "change 61 6c", "close 3", "lookup 61 3"]


@script
def several_closings_in_one_piece():
    yield "# The replies come first, then each monitor goes through all new epochs."
    yield from ["watch 61 -", "watch 62 -", "register 61 6b"]
    frames = [closing(2), request_frame("change", b"a", b"l"), closing(4), closing(4), closing(5)]
    yield piece(1, b"".join(frames))
    yield from ["lookup 61 2", "lookup 61 4", "head"]


# Scripts that stop: the line is no command ---------------------------------------------------------------

STOPS = {
    "other_word": "look 61 0",
    "upper_case": "Head",
    "no_word": " ",
    "space_before": " head",
    "space_behind": "head ",
    "two_spaces": "lookup  61 0",
    "tab": "lookup\t61 0",
    "carriage_return": "head\r",
    "only_carriage_return": "\r",
    "note_in_second_column": " # note",
    "word_missing": "register 61",
    "word_too_many": "head 0",
    "odd_digits": "register 616 6b",
    "other_digits": "register 6g 6b",
    "digits_behind_dash": "register -- 6b",
    "number_with_zero": "close 02",
    "number_with_sign": "close +2",
    "number_negative": "close -2",
    "rotation_without_nonce": "rotate 2",
    "rotation_with_short_nonce": "rotate 2 " + "00" * 31,
    "rotation_with_long_nonce": "rotate 2 " + "00" * 33,
    "rotation_with_dash": "rotate 2 -",
    "rotation_with_letter": "rotate 2 " + "00" * 31 + "0g",
    "rotation_without_epoch": "rotate " + "00" * 32,
    "number_in_hex": "close 0x2",
    "number_is_dash": "close -",
    "epoch_too_great": "close 18446744073709551616",
    "from_too_great": "history 18446744073709551616 1",
    "count_too_great": "history 0 65536",
    "session_zero": "bytes 0 0000000106",
    "session_too_great": "bytes 4294967296 0000000106",
    "end_of_session_zero": "end 0",
    "watched_name_too_long": f"watch {'61' * 256} 6b",
    "watched_name_empty": "watch - 6b",
    "watched_key_too_long": f"watch 61 {'6b' * 2049}",
    "watch_without_key": "watch 61",
    # Each of the two alone fits into a frame.
    "name_and_key_too_long": register(b"a", b"k" * 65531),
    "policy_missing": "register2 61 6b",
    "policy_too_many": "register 61 6b open",
    "policy_of_another_name": "change2 61 6b closed",
    "policy_in_upper_case": "change2 61 6b Open",
    "policy_in_hex": "register2 61 6b 01",
    "policy_is_dash": "register2 61 6b -",
    "watch_of_absence_with_policy": "watch2 61 - open",
    "watch_without_policy": "watch2 61 6b",
    "watched_name_empty_with_policy": "watch2 - 6b final",
    "watched_key_too_long_with_policy": f"watch2 61 {'6b' * 2049} final",
    # Without a policy they fit into a frame.
    "name_key_and_policy_too_long": register2(b"a", b"k" * 65530, "open"),
}


def stopping(line):
    return lambda: ["# A line that is no command.", "", "head", line, "head"]


SCRIPTS.update({f"stops_at_{name}": stopping(line) for name, line in STOPS.items()})


# Long scripts: some hundreds of each thing that is counted -------------------------------------------------


@script
def hundreds_of_names():
    yield "# 300 names in one page, and 150 changes in the next."
    for number in range(300):
        yield register(name_of(number), key_of(number))
    for number in range(0, 300, 7):
        yield promise(name_of(number))
    yield from ["close 2", "head"]
    for number in range(0, 300, 2):
        yield change(name_of(number), key_of(number + 1))
    yield "close 3"
    for number in range(300):
        yield lookup(name_of(number), 2 if number % 2 else 0)
    for number in range(300, 320):
        yield lookup(name_of(number), 0)
    for number in range(0, 300, 10):
        yield lookup(name_of(number), 1)


@script
def hundreds_of_epochs():
    yield "# One name with a key of its own in each of 300 epochs, which its owner watches, and another that has"
    yield "# one from time to time."
    yield from [watch(b"a"), register(b"a", b"k")]
    for epoch in range(2, 302):
        yield f"close {epoch}"
        yield change(b"a", key_of(epoch))
        if epoch % 40 == 0:
            yield (register if epoch == 40 else change)(b"b", key_of(epoch))
    for epoch in [1, 2, 3, *range(4, 302, 3), 302, 0]:
        yield lookup(b"a", epoch)
    for epoch in [*range(39, 302, 20), 0]:
        yield lookup(b"b", epoch)
    for start in [0, 1, 2, 60, 65, 100, 101, 102, 237, 238, 239, 300, 301, 302]:
        yield f"history {start} 64"
    yield from ["history 150 1", "history 150 63", "head"]


@script
def hundreds_of_sessions():
    yield "# 130 sessions whose messages come in pieces, interleaved with each other and with closings."
    rng = random.Random(11)
    waiting = {}
    for session in range(1, 131):
        name = name_of(session % 60)
        frames = [
            request_frame("register", name, key_of(session)), HEAD, request_frame("lookup", 0, name),
            request_frame("change", name, key_of(session)), request_frame("history", session % 9, 3),
            request_frame("promise", name),
        ]
        stream = b"".join(rng.sample(frames, 2))
        waiting[session] = split(rng, stream, 4)
    epoch = 1
    while waiting:
        session = rng.choice(list(waiting))
        yield piece(session, waiting[session].pop(0))
        if not waiting[session]:
            del waiting[session]
            if session % 3 == 0:
                yield f"end {session}"
        if rng.randrange(20) == 0:
            epoch += rng.choice([1, 1, 4])
            yield f"close {epoch}" if rng.randrange(2) else piece(4000, closing(epoch))
    yield "head"


@script
def most_sessions():
    yield "# 1,024 sessions are open at most. Session 0 is one of them."
    for session in range(1, 1024):
        yield piece(session, HEAD if session % 128 == 0 else b"")
    yield from ["bytes 1024 0000000106", "bytes 1025 00", "head", "bytes 1023 0000000106", "end 500"]
    yield from ["bytes 1024 0000000106", "bytes 500 0000000106", "bytes 501 0000000106", "end 1024", "end 1024"]
    yield from ["bytes 500 00000001", "bytes 1025 0000000106", "bytes 500 06"]


@script
def many_changes_wait():
    yield "# 40 registrations and then 40 changes wait for one page."
    for number in range(40):
        yield register(name_of(number), key_of(number))
    yield watch(name_of(17))
    yield "close 2"
    for number in range(40):
        yield change(name_of(number), key_of(number + 100))
    for number in range(40):
        yield promise(name_of(number))
    yield from [change(name_of(39), b"x"), "close 3"]
    for number in range(40):
        yield lookup(name_of(number), 2 + number % 2)


@script
def monitors_over_hundreds_of_epochs():
    yield "# Monitors of three names. Their owners change the keys, and so does somebody else."
    rng = random.Random(12)
    names = [b"a", b"b", b"c"]
    yield from [watch(b"a"), register(b"a", b"k"), register(b"b", b"k"), "close 2", watch(b"b", b"k"), watch(b"c")]
    epoch = 2
    for turn in range(220):
        name = rng.choice(names)
        key = key_of(turn)
        request = "register" if name == b"c" and turn < 60 else "change"
        if rng.randrange(3) == 0:
            yield f"{request} {hexed(name)} {hexed(key)}"
        elif rng.randrange(12) == 0:
            yield piece(1, request_frame(request, name, key))
        if rng.randrange(90) == 0:
            yield watch(name, key)
        epoch += rng.choice([1, 1, 1, 5])
        yield f"close {epoch}"


@script
def closings_beyond_one_history():
    yield "# One piece closes 70 epochs, so that the roots are asked for twice."
    yield from ["watch 61 6b", "watch 62 -"]
    frames = [request_frame("register", b"a", b"k")] + [closing(2 * epoch) for epoch in range(1, 71)]
    yield piece(1, b"".join(frames))
    yield from ["head", "lookup 61 2", "lookup 61 140", "history 0 64", "history 100 64", "close 141"]


@script
def generated_commands():
    yield "# Commands of all kinds, of which many are refused."
    rng = random.Random(13)
    short, long = [0, 1, 2, 3, 4, 5, 6, 16], [255, 256]
    epoch = 1
    for turn in range(140):
        name = bytes([7]) * rng.choice(long if turn % 25 == 7 else short)
        key = bytes([9]) * rng.choice([255, 700] if turn % 90 == 50 else short)
        near = max(epoch + rng.randrange(-6, 2), 0)
        yield rng.choice([
            register(name, key), register(name, key), change(name, key), change(name, key), promise(name),
            lookup(name, near), lookup(name, 0), lookup(name, rng.randrange(epoch + 1)),
            f"history {near} {rng.choice([0, 1, 2, 64, 65])}", "head",
        ])
        if rng.randrange(8) == 0:
            epoch += rng.choice([0, 1, 1, 2])
            yield f"close {epoch}"
