"""Questions of `faults` on many connections at once. What one means stands in the head of model/crowd_answers.py."""


def orders(pieces):
    """Every order of the pieces of some sessions, each with its own in their order."""
    if not any(pieces):
        yield []
    for number, own in enumerate(pieces):
        if own:
            others = [*pieces[:number], own[1:], *pieces[number + 1 :]]
            yield from ([(number, own[0]), *more] for more in orders(others))


def of_readiness(q):
    q.note("Three sessions of two lines each: every order in which these come.")
    pieces = [[b"%c\n" % (97 + 2 * number), b"%c\n" % (98 + 2 * number)] for number in range(3)]
    for order in orders(pieces):
        acts = [word for number, piece in order for word in ("at 0 give", number, 1, piece)]
        q.ask("crowd 3 3 3 0 at 0 come 3", *acts, "over", 0, 3)


def of_cut_lines(q):
    q.note("Bytes that come one by one, and that are taken one by one; and two lines in pieces of each size.")
    for size in range(1, 8):
        q.ask("crowd 2 2 0 0 at 0 come 2 piece 0 1", size, "width 1 1", size, "give 0 2", b"ab\nc\ndef", "over 0 2")
    q.ask("crowd 1 1 0 0 at 0 come 1 give 0 1", b"a" * 9000 + b"\n" + b"b" * 4095 + b"\n", "over 0 1")


def of_full_output(q):
    q.note("A peer that takes nothing: no more is read or heard until it takes some, and others are answered.")
    many = q.let("many", b"X\n" * 10)
    for size in (2, 20):
        deaf = ("crowd 2 2 0 0 at 0 come 2 room 0 1 0 piece 0 1", size, "give 0 1", many, "over 0 1")
        other = ("at 1 give 1 1", b"a\n", "over 1 1")
        q.ask(*deaf, *other)
        q.ask(*deaf, *other, "at 2 room 0 1 24463")
        q.ask(*deaf, *other, "at 2 room 0 1 24464")
        q.ask(*deaf, *other, "at 2 room 0 1 1048576")
    q.note("65,536 bytes are not too many.")
    for size in (5532, 5533):
        q.ask("crowd 1 1 0 0 at 0 come 1 room 0 1 0 give 0 1", b"X\n" * 2 + b"a" * (size - 1) + b"\n", "at 1 at 2 at 3 give 0 1", b"b\n")


def of_faults(q):
    q.note("A fault of the second of three connections, at each byte that is read and that is taken.")
    for verb, count in (("read-fails", 7), ("write-fails", 14)):
        for at in range(count):
            q.ask("crowd 3 3 3 0 at 0 come 3", verb, 1, 1, at, "piece 1 1 2 width 1 1 3 give 0 3", b"ab\nc\n", "at 1 over 0 3")


def of_closings(q):
    q.note("One that was idle for 100 milliseconds is closed. What is read in this round counts, a byte as well as a line.")
    idle = "crowd 2 2 0 100 at 0 come 2"
    for late in (104, 105):
        q.ask(idle, "at 5 at", late, "give 0 1", b"a\n")
        q.ask(idle, "give 0 2", b"a", "at 5 at", late, "give 0 1", b"\n")
    q.note("One is not idle before the round is over in which it came, or in which something was read from it.")
    for late in (2299, 2300):
        q.ask(idle, "at 2200 at", late, "give 0 1", b"a\n")
        q.ask(idle, "at 0 at 50 give 0 2", b"a\n", "at 2200 at", late, "give 0 1", b"b\n")
        q.ask(idle, "at 0 at 50 give 0 2", b"a", "at 2200 at", late, "give 0 1", b"\n")
    q.note("The same where something was taken by it.")
    for late in (2299, 2300):
        q.ask(idle, "room 0 2 0 give 0 2", b"a\n", "at 0 at 50 room 0 2 2 at 2200 at", late, "at 2301 room 0 2 9")
    q.ask("crowd 2 2 0 0 at 0 come 2 at 1000000000 give 0 1", b"a\n")
    q.note("No more are taken than are wanted, and none without a place. A place is used again, and nothing of its last session.")
    q.ask("crowd 2 2 3 0 at 0 come 5 give 0 5", b"a\n", "at 1 over 1 1 at 2 over 2 1 at 3 over 0 5")
    q.ask("crowd 1 1 0 50 at 0 come 2 room 0 1 3 give 0 1", b"a\nb\nc", "give 1 1", b"d\n", "over 1 1 at 0 at 50 at 51 at 52")
    q.ask("crowd 3 2 0 0 at 0 come 4 give 0 4", b"a\n", "at 1 over 0 4")
    q.note("A stop: nothing more is read, and answers may be taken for five seconds.")
    stopped = ("crowd 3 3 0 0 at 0 come 4 room 0 1 0 give 0 2", b"a\n", "at 1 stop give 0 4", b"b\n")
    q.ask(*stopped)
    for at in (5000, 5001):
        q.ask(*stopped, "at", at, "room 0 1 9")
    q.ask(*stopped, "at 5000 room 0 1 2 at 5001 room 0 1 2")
    q.note("Answers do not leave in a round whose records are not on the disk. Memory is wanting for a line.")
    q.ask("crowd 3 3 0 0 at 0 come 3 give 0 2", b"a\n", "at 1 unsynced give 1 1", b"b\n", "at 2 give 0 3", b"c\n", "over 0 3")
    q.ask("crowd 2 2 0 0 at 0 unsynced at 1 come 2 give 0 1", b"Ma\n", "at 2 unsynced give 1 1", b"Mb\n", "over 1 1")
    q.ask("crowd 3 3 0 0 at 0 come 4 give 0 4", b"a\n", "at 1 give 0 2", b"M\n", "at 2 give 0 4", b"c\n", "over 0 4")


def of_thousands(q):
    q.note("A thousand sessions, and as many at ten places.")
    for places in (1000, 10):
        q.ask(
            "crowd", places, places, "1000 0 at 0 come 1000 give 0 1000", b"ab\nc", "at 1 give 500 500", b"d\n",
            "at 2 piece 300 400 1 width 400 400 1 give 0 500", b"ee\n", "at 3 over 0 1000",
        )


def of_reports(q):
    q.note("A report after the first round of each second, or of each hour, or never; between other lines of the errors.")
    steps = ("at 0 come 3 at 999 give 0 1", b"a\n", "at 1000 over 0 1 at 1001 at 1999 unsynced give 1 1", b"M\n", "at 2000 at 2000 at 9000 over 0 3")
    for every in (0, 1, 999, 1000, 1001, 3600000, 18446744073709551615):
        q.ask("reports", every, "3 3 3 0", *steps)
    q.ask("reports 1000 2 2 0 100 at 1000000000000000000 come 2 at 1000000000000000999 at 1000000000000001000")


def ask_all(q):
    for of in (of_readiness, of_cut_lines, of_full_output, of_faults, of_closings, of_reports, of_thousands):
        of(q)
