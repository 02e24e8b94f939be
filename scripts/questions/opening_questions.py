"""Questions of `session_vectors` on journals that are opened."""

import itertools

from model.formats import (
    ZERO32,
    KeyedVuf,
    PlainVuf,
    bound_record,
    count_records,
    counted,
    rotated_record,
    salts,
    sha256,
    start_record,
    turned_record,
)
from model.sessions import SALT_KEY, SIGNING_KEY, VUF_KEY, Recorded, open_journal
from questions.providers import OTHER_KEY, TOP
from questions.session_scripts import key_of, name_of
from questions.values import changed_at, flipped, raised, run, spliced
from questions.writing import subjects

SUBJECTS, subject = subjects()


def recorded(epoch=1, nonce=ZERO32):
    return Recorded(epoch, nonce, sha256, KeyedVuf(VUF_KEY), SIGNING_KEY, salts(SALT_KEY))


def ask_open(q, data, signing_key=SIGNING_KEY, vuf_key=VUF_KEY, salt_key=SALT_KEY):
    q.ask("directory open", signing_key, vuf_key, salt_key, data)


def start(epoch=1, signing_key=SIGNING_KEY, vuf_key=VUF_KEY):
    return start_record(epoch, ZERO32, signing_key, vuf_key)


REGISTER, TURN = bound_record("register", run(0x10), b"a", b"k"), turned_record(2)
WORKED = start() + REGISTER + TURN
KEYS = [{"signing_key": OTHER_KEY}, {"vuf_key": OTHER_KEY}, {"signing_key": VUF_KEY, "vuf_key": SIGNING_KEY}]


@subject("a journal: a start, a registration and a closing")
def of_worked(q, rng):
    q.ask("directory open", SIGNING_KEY[1:], VUF_KEY, SALT_KEY, b"")
    q.ask("directory open", SIGNING_KEY, VUF_KEY, SALT_KEY)
    q.let("journal", WORKED)
    q.note("cut to each length")
    for size in range(len(WORKED) + 1):
        ask_open(q, WORKED[:size])
    q.note("what a cut leaves")
    for size in [106, 145, 146, 154, 155]:
        ask_open(q, WORKED[:size])
        q.ask("directory history", 0, 64)
        q.ask("directory promise", b"a")
        q.ask("directory lookup", b"a", 0)
    q.note("followed by a byte, by a record, and by a part of one")
    for byte in range(256):
        ask_open(q, WORKED + bytes([byte]))
    for more in [TURN, REGISTER, start(), start()[:9], REGISTER[:5], REGISTER[:-1], TURN[:5], turned_record(3)]:
        ask_open(q, WORKED + more)
    q.note("with no start in front")
    for data in [REGISTER[:5], REGISTER, TURN, TURN[:1], b"\0" + WORKED, start()[1:], start()[:105] + WORKED]:
        ask_open(q, data)
    q.note("under other keys: before the start is whole, and where a fault follows")
    for keys in KEYS:
        for data in [b"", WORKED[:105], WORKED[:106], WORKED, WORKED + b"\0", WORKED + TURN, b"\0", WORKED[1:]]:
            ask_open(q, data, **keys)
    q.note("what is refused leaves the directory of before")
    q.ask("directory head")


def fields(journal):
    """A journal of a start, a binding of one byte to one byte, and a closing, in its fields."""
    sizes = [1, 1, 8, 32, 32, 32, 1, 1, 32, 2, 1, 2, 1, 1, 8]
    assert sum(sizes) == len(journal)
    ends = [*itertools.accumulate(sizes)]
    return [journal[end - size : end] for size, end in zip(sizes, ends)]


@subject("a journal with rotations: cut to each length")
def of_rotations(q, rng):
    directory = recorded(nonce=run(0xA0))
    for verb, *words in [
        ("register", b"a", b"k"), ("rotate", 2, ZERO32), ("change", b"a", b"l"), ("rotate", 4, run(0x40)), ("close", 5),
        ("rotate", 6, run(0x40)),
    ]:
        getattr(directory, verb)(*words)
    journal = q.let("journal", directory.journal)
    assert opens_to(directory)
    for size in range(len(start()), len(journal) + 1):
        ask_open(q, journal[:size])
    for epoch in [0, 1, 2, 4, 5, 6]:
        q.ask("directory lookup", b"a", epoch)
    q.ask("directory close", 7)
    q.note("followed by others, and by some that the directory refuses")
    for more in [rotated_record(7, ZERO32), rotated_record(6, ZERO32), rotated_record(7, ZERO32)[:-1], b"K", TURN, b"J"]:
        ask_open(q, journal + more)
        q.ask("directory head")


@subject("a journal: each byte raised by 1, each bit flipped, and splices")
def of_changed_bytes(q, rng):
    q.let("j", WORKED)
    for data in dict.fromkeys(raised(WORKED) + flipped(WORKED)):
        ask_open(q, data)
    for place in range(len(WORKED)):
        ask_open(q, changed_at(WORKED, place, WORKED[place] ^ 0x80)[: place + 1])
    q.note("and a journal of other values; one of other keys; and one with a change in place of the registration")
    register, change = (bound_record(verb, run(0x30), b"b", b"l") for verb in ("register", "change"))
    other = start_record(3, run(0xA0), SIGNING_KEY, VUF_KEY) + register + turned_record(4)
    for journal in [other, start(9, OTHER_KEY, SIGNING_KEY) + REGISTER + TURN, start() + change + TURN]:
        q.let("o", journal)
        for data in dict.fromkeys(spliced(fields(WORKED), fields(journal))):
            ask_open(q, data)


@subject("a journal: first epochs")
def of_first_epochs(q, rng):
    for epoch in [1, 2, 255, 256, 2**32, TOP - 1, TOP]:
        ask_open(q, start(epoch))
        ask_open(q, start(epoch) + turned_record(epoch))
        ask_open(q, start(epoch) + turned_record(TOP))
    q.note("a start of epoch 0: cut, whole, with other keys, and before other records")
    zero = q.let("zero", start(0))
    for size in [0, 1, 2, 9, 10, 42, 105, 106]:
        ask_open(q, zero[:size])
        ask_open(q, zero[:size], OTHER_KEY)
    for keys in KEYS:
        ask_open(q, zero, **keys)
        ask_open(q, zero[:105], **keys)
    for more in [TURN, REGISTER, b"\0"]:
        ask_open(q, zero + more)


def cut_lengths():
    """The length of a name, and that of a key, where the bytes end behind it or within it."""
    head = REGISTER[:34]
    for size in ["", "00", "01", "02", "ff", "0000", "0001", "0002", "00ff", "0100", "0101", "ffff"]:
        yield head + bytes.fromhex(size)
    for size in [
        "", "00", "01", "07", "08", "09", "80", "ff", "0000", "0001", "0007", "0009", "00ff", "0100", "07ff", "0800",
        "0801", "08ff", "0900", "ffff",
    ]:
        yield head + counted(b"a") + bytes.fromhex(size)


@subject("a journal: lengths that are cut, and lengths at their limits")
def of_lengths(q, rng):
    front = q.let("front", start())
    for data in cut_lengths():
        ask_open(q, front + data)
        ask_open(q, front + changed_at(data, 1, 2))
    q.note("a verb and what follows it")
    for verb in [0, 1, 2, 3, 255]:
        for size in [2, 3, 34, 39, 40]:
            ask_open(q, front + changed_at(REGISTER, 1, verb)[:size])
    q.note("whole records: of no byte, of one, of the most, and of one more")
    for name in [b"", b"n", b"n" * 255, b"n" * 256]:
        for key in [b"", b"k", b"k" * 2048, b"k" * 2049]:
            record = bound_record("register", run(0x20), name, key)
            for data in [record, record[:-1], record + TURN]:
                ask_open(q, front + data)
    ask_open(q, front + bound_record("register", run(0x20), b"n" * 255, b"k" * 2048) + TURN)
    q.ask("directory lookup", b"n" * 255, 0)


def refused_records():
    """Records that lead somewhere, and one that is refused then."""
    salt = run(0x30)

    def register(name, key=b"l"):
        return bound_record("register", salt, name, key)

    def change(name, key=b"l"):
        return bound_record("change", salt, name, key)

    yield b"", change(b"a")
    yield REGISTER, register(b"a")
    yield REGISTER, change(b"a")
    yield REGISTER, change(b"b")
    yield REGISTER + TURN, register(b"a")
    yield REGISTER + TURN, change(b"b")
    yield REGISTER + TURN + change(b"a"), change(b"a")
    yield REGISTER + TURN + change(b"a"), register(b"a")
    yield REGISTER + TURN + change(b"a") + register(b"b"), register(b"b", b"m")
    for epoch in [0, 1]:
        yield b"", turned_record(epoch)
    for epoch in [0, 1, 2]:
        yield REGISTER + TURN, turned_record(epoch)
    yield REGISTER + turned_record(TOP), turned_record(TOP)
    yield REGISTER + TURN, start()


@subject("a journal: whole records that the directory refuses, and such records before they are whole")
def of_refused_records(q, rng):
    front = q.let("front", start())
    q.let("register", REGISTER)
    for before, refused in refused_records():
        ask_open(q, front + before)
        for data in [refused, refused[:-1], refused[:9], refused + turned_record(9), refused + b"\0"]:
            ask_open(q, front + before + data)


@subject("a journal by the sum of bytes: two names of one index")
def of_indices(q, rng):
    def ask_sum(data):
        q.ask("directory-sum open", SIGNING_KEY, SALT_KEY, data)

    front = q.let("front", start(vuf_key=PlainVuf.public))
    first, second, third = (bound_record("register", run(0x20), name, b"k") for name in (b"ab", b"ba", b"c"))
    change = bound_record("change", run(0x21), b"ab", b"l")
    for before in [first, first + TURN, first + TURN + change]:
        for data in [b"", second, second[:-1], second + TURN, third + second, second + third]:
            ask_sum(front + before + data)
    ask_sum(front + second + TURN)
    for name in [b"ab", b"ba"]:
        q.ask("directory-sum lookup", name, 0)
        q.ask("directory-sum register", name, b"k")
    ask_sum(front[:105])
    ask_sum(start() + first)
    ask_sum(b"\0")
    q.ask("directory-sum head")


def others(place, before):
    """Records in place of a registration, and some that are refused there."""
    salt = run(0x60)

    def register(name, key):
        return bound_record("register", salt, name, key)

    for size in [30, 31, 32, 255]:
        yield register(b"n" * size, b"k" * 32)
    yield register(b"n", b"k" * 2048)
    yield bound_record("change", salt, b"shown", b"l")
    yield bound_record("change", salt, b"none", b"l")
    yield turned_record(3)
    yield turned_record(2)
    yield rotated_record(3, run(0x40))
    yield register(name_of(max(place - 1, 0)), b"k") if place else register(b"shown", b"k")
    yield register(name_of(9), b"k")
    yield before


@subject("a journal: of ten registrations one is another record, or comes twice")
def of_others(q, rng):
    front = q.let("front", start() + bound_record("register", run(0x20), b"shown", b"k") + TURN)
    records = [q.let(f"r{k}", bound_record("register", run(k), name_of(k), b"k%d" % k)) for k in range(10)]
    for place in range(10):
        q.note(f"the one of number {place + 1}")
        for other in others(place, b"".join(records[place : place + 2])):
            ask_open(q, front + b"".join([*records[:place], other, *records[place + 1 :]]))
            q.ask("directory close", 9)
    q.note("the first ones, and a part of the next one")
    for count in range(11):
        for more in [b"", records[0][:1], records[0][:-1]]:
            ask_open(q, front + b"".join(records[:count]) + more)
            q.ask("directory close", 9)
    q.note("salts, names and keys that change places")
    orders = [*itertools.permutations(range(4))]
    for firsts, names in itertools.product(orders[::5], orders[::7]):
        pairs = zip(firsts, names)
        ask_open(q, front + b"".join(bound_record("register", run(first), name_of(name), b"k") for first, name in pairs))
        q.ask("directory close", 9)


# A directory that goes on -----------------------------------------------------------------------------

# What is done in turn: a name and its key, or an epoch.
LIFE = [
    ("register", b"alice", b"k1"), ("register", b"bob", b"k1"), ("close", 2), ("change", b"alice", b"k2"),
    ("close", 5), ("register", b"carol", b"k1"), ("change", b"bob", b"k2"), ("close", 6),
]
NAMES = [b"alice", b"bob", b"carol", b"dave"]


def ask_all(q):
    """What shows each root, and each promise that waits."""
    q.ask("directory head")
    q.ask("directory history", 0, 64)
    for name in NAMES:
        q.ask("directory promise", name)
        q.ask("directory lookup", name, 0)


def ask_on(q, salt_key=SALT_KEY):
    """What draws new salts and shows them."""
    for name in NAMES:
        q.ask("directory register", name, b"k8")
        q.ask("directory change", name, b"k9")
    q.ask("directory close", 8)
    for name in NAMES:
        q.ask("directory lookup", name, 8)


def opens_to(directory):
    """Whether the journal opens to the directory."""
    found, taken = open_journal(directory.journal, sha256, directory.vuf, SIGNING_KEY, iter(()))
    pages = [page.root for page in found.pages], [page.root for page in directory.pages]
    return taken == len(directory.journal) and pages[0] == pages[1] and found.waiting == directory.waiting


@subject("a journal: after each record, roots and promises are those of the run, and it goes on with new salts")
def of_going_on(q, rng):
    directory = recorded(nonce=run(0xA0))
    q.note("the run itself")
    q.ask("directory new", 1, run(0xA0), SIGNING_KEY, VUF_KEY, SALT_KEY)
    ask_all(q)
    journals = [directory.journal]
    for verb, *words in LIFE:
        q.ask(f"directory {verb}", *words)
        ask_all(q)
        getattr(directory, verb)(*words)
        assert opens_to(directory)
        journals.append(directory.journal)
    whole = q.let("journal", directory.journal)
    for place, journal in enumerate(journals):
        q.note(f"its first {place + 1} records, and a part of the next one")
        ask_open(q, journal)
        ask_all(q)
        ask_on(q)
        ask_open(q, whole[: len(journal) + 8])
        ask_all(q)
    q.note("another key of the salts")
    for salt_key in [SALT_KEY, OTHER_KEY]:
        ask_open(q, whole, salt_key=salt_key)
        ask_on(q)


@subject("a journal of some lives, each with the salts of its own stream")
def of_lives(q, rng):
    directory = recorded()
    q.ask("directory new", 1, ZERO32, SIGNING_KEY, VUF_KEY, SALT_KEY)
    for life in range(6):
        for name in [b"x%d" % life, b"y%d" % life]:
            q.ask("directory register", name, b"k")
            directory.register(name, b"k")
        if life % 2:
            q.ask("directory close", life + 1)
            directory.close(life + 1)
        q.ask("directory promise", b"y%d" % life)
        q.ask("directory head")
        assert opens_to(directory)
        q.let("journal", directory.journal)
        ask_open(q, directory.journal)
        q.ask("directory promise", b"y%d" % life)
        directory.salts = salts(SALT_KEY, count_records(directory.journal))
    q.ask("directory close", TOP)
    for life in range(6):
        q.ask("directory lookup", b"y%d" % life, 0)


@subject("a journal of some hundreds of records")
def of_hundreds(q, rng):
    directory = recorded(3)
    directory.salts = (bytes([k % 256]) * 32 for k in itertools.count())
    for k in range(300):
        directory.register(name_of(k), key_of(k))
        if k % 30 == 29:
            directory.close(4 + k)
    for k in range(0, 280, 2):
        directory.change(name_of(k), key_of(k + 1))
        if k % 4 == 2:
            directory.close(400 + k)
    directory.change(b"n1", b"k" * 2048)
    between = len(directory.journal)
    directory.register(b"n" * 255, b"last")
    assert opens_to(directory)
    size = len(directory.journal)
    parts = range(0, size, 8000)
    for at in parts:
        q.let(f"j{at // 8000}", directory.journal[at : at + 8000])
    q.let_be("journal", "+".join(f"$j{at // 8000}" for at in parts))
    q.let_be("cut", f"$journal/0/{size - 1}")
    for journal in ["$journal", "$cut"]:
        ask_open(q, journal)
        q.ask("directory history", 0, 64)
        for name in [name_of(k) for k in (0, 1, 2, 255, 256, 278, 299)] + [b"n" * 255]:
            q.ask("directory promise", name)
            q.ask("directory lookup", name, 0)
        for verb, name in [("register", b"new"), ("change", b"n3"), ("change", b"n4")]:
            q.ask(f"directory {verb}", name, b"k")
        q.ask("directory close", TOP)
        for name in [b"new", b"n1", b"n3", b"n4", b"n" * 255]:
            q.ask("directory lookup", name, 0)
    q.note("a fault behind them, and one between them")
    for word in ["$journal+00", "$journal+4e", f"$journal/0/{between}+00", f"$journal+{turned_record(3).hex()}"]:
        ask_open(q, word)
    q.note("closings alone, and registrations alone")
    closings = start() + b"".join(turned_record(epoch) for epoch in range(2, 402))
    names = start() + b"".join(bound_record("register", run(k), name_of(k), b"k") for k in range(300))
    for data in [closings, closings[:-1], closings + turned_record(401), names, names[:-1], names + names[-43:]]:
        ask_open(q, data)
        q.ask("directory register", b"new", b"k")
        q.ask("directory close", TOP)
        q.ask("directory lookup", b"new", 0)
