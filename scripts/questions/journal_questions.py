"""Questions on the records of a journal."""

from model.formats import ZERO32, bound_record, rotated_record, start_record, turned_record
from questions.values import KEY, OTHER_KEY, TOP, changed_at, run
from questions.writing import subjects

SUBJECTS, subject = subjects()

SALT = run(0x10)


def journal_of(*later):
    return start_record(1, ZERO32, KEY, OTHER_KEY) + b"".join(later)


@subject("records that a journal keeps")
def of_kept_records(q, rng):
    start = (1, ZERO32, KEY, OTHER_KEY)
    q.note("a room for none, for all but a byte of one, for one, for all but a byte of two, for two, and for more")
    for room in [0, 1, 105, 106, 107, 211, 212, 213]:
        q.ask("journal start", room, *start)
    for room in [0, 1, 8, 9, 10, 17, 18, 19]:
        q.ask("journal turn", room, 2)
    for room in [0, 1, 40, 41, 42, 81, 82, 83]:
        q.ask("journal rotate", room, 2, run(0x20))
    for room in [0, 1, 2, 34, 39, 40, 41, 79, 80, 81]:
        q.ask("journal register", room, SALT, b"a", b"k")
        q.ask("journal change", room, SALT, b"a", b"k")
    q.note("limits")
    for epoch in [0, 1, 255, 256, TOP]:
        q.ask("journal start", 106, epoch, run(1), run(2), run(3))
        q.ask("journal turn", 9, epoch)
        q.ask("journal rotate", 41, epoch, run(0xF0))
    for name, key in [(b"n" * 255, b"k" * 2048), (b"n" * 255, b"k"), (b"n", b"k" * 2048), (b"\0", b"\xff" * 256)]:
        size = len(bound_record("register", SALT, name, key))
        for room in [size - 1, size, 2 * size - 1, 2 * size]:
            q.ask("journal register", room, SALT, name, key)
            q.ask("journal change", room, SALT, name, key)


@subject("records that bytes begin with")
def of_counted_records(q, rng):
    register, turn = bound_record("register", SALT, b"a", b"k"), turned_record(2)
    whole = q.let("journal", journal_of(register, turn))
    q.note("a start, a registration and a closing, cut to each length")
    for size in range(len(whole) + 1):
        q.ask("journal records", whole[:size])
    q.note("followed by a byte that begins no record, by one that begins a start, and by a record")
    for more in [b"\0", b"N", b"O", b"C", b"K", turn, turn[:-1], journal_of(), register, register[:5]]:
        q.ask("journal records", whole + more)
    q.note("a rotation behind it, cut to each length; and others behind that")
    rotated = q.let("rotated", whole + rotated_record(3, run(0x40)))
    for size in range(len(whole), len(rotated) + 1):
        q.ask("journal records", rotated[:size])
    for more in [b"\0", b"K", turned_record(4), rotated_record(4, ZERO32), rotated_record(4, ZERO32)[:-1]]:
        q.ask("journal records", rotated + more)
    q.note("each byte of it changed")
    for place in range(len(whole)):
        q.ask("journal records", changed_at(whole, place, whole[place] ^ 1))
        q.ask("journal records", changed_at(whole, place, whole[place] ^ 0x80))
    q.note("no start in front")
    for data in [register, turn, register[:5], turn + whole, b"\0" + whole]:
        q.ask("journal records", data)
    q.note("a start of another version, and one of epoch 0, which is whole")
    q.ask("journal records", changed_at(whole, 1, 2))
    q.ask("journal records", start_record(0, ZERO32, KEY, OTHER_KEY) + turn)
    q.note("verbs")
    for verb in [0, 1, 2, 3, 255]:
        q.ask("journal records", journal_of(changed_at(register, 1, verb)))
    q.note("lengths of names and keys")
    for name, key in [
        (b"", b"k"), (b"n" * 255, b"k"), (b"n" * 256, b"k"), (b"n", b""), (b"n", b"k" * 2048), (b"n", b"k" * 2049),
        (b"n" * 255, b"k" * 2048),
    ]:
        q.ask("journal records", journal_of(bound_record("change", SALT, name, key), turn))
    q.note("some hundreds")
    for count in [255, 256, 257, 300, 500]:
        q.ask("journal records", journal_of(*(turned_record(epoch) for epoch in range(2, count + 1))))
    many = journal_of(*(bound_record("register", SALT, b"n%d" % k, b"k") for k in range(300)))
    q.ask("journal records", many)
    q.ask("journal records", many[:-1])
