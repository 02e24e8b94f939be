#!/usr/bin/env python3
"""Times the built programs and prints the tables of the scripts beside it. docs/SPEED.md says what
the columns mean.

usage: bench/bench.py root|tree|changes|replies|check|reconcile|epochs|journal|hub|serve|audit|client|play|ask, at
the top of the repository

BEFORE, if it is set, is the top of another clone, in which directoryd and measure are built. `root` and
`hub` then time the programs of both, in turn. MEASURE, if it is set, is the program measure, built for
BUILD, such as x86-64-v3.
"""

import bisect
import collections
import hashlib
import math
import os
import random
import resource
import select
import shutil
import socket
import ssl
import statistics
import subprocess
import sys
import tempfile
import time

DIRECTORYD = "crates/directoryd/out/directoryd"
MEASURE = os.environ.get("MEASURE", "crates/measure/out/measure")
LOAD = "bench/out/load"
CHECK = "bench/out/check"
FREE_SYNCS = "bench/out/fail_disk.so"
BEFORE = os.environ.get("BEFORE", "")
# What `rt run` builds by, unless crates.txt says otherwise.
BUILD = f"{os.environ.get('BUILD', 'x86-64-v2')}, by LLVM at -O3"

# The length of the text of a leaf and of an interior node.
LEAF, INTERIOR = 101, 64
# How many digests are timed at once, how often, and the bytes of a long text.
DIGESTS, DIGEST_RUNS, LONG = 400_000, 5, 1 << 20

ROOT_RUNS = {1_000: 40, 100_000: 20, 1_000_000: 9}
# The trees that are made of small lists: how many nodes are made in a run, and the runs.
LIST_SIZES, LIST_NODES, LIST_RUNS = (10, 100, 1_000), 60_000, 20
# How often each size of a tree is measured, and the inserts and paths in the grown tree.
TREE_RUNS = {1_000: 10, 10_000: 10, 100_000: 5, 1_000_000: 3}
MORE = 10_000
PROVE_RUNS = {100_000: 10, 1_000_000: 5}
# The texts whose digests are taken together, how often in a step, and the runs.
TEXTS, TEXT_ROUNDS, TEXT_RUNS = 1_000, 100, 20
CHANGE_SIZES = (1_000, 10_000, 100_000, 1_000_000)
# For each number of changes: the lists of a round, and the rounds.
CHANGE_ROUNDS = {1: (500, 40), 10: (50, 40), 1_000: (1, 100), 100_000: (1, 6)}
SIBLINGS, REPLY_RUNS = (10, 20, 256), 10
# How many replies are measured, and about how many digests the checks of a run take.
REPLIES, CHECK_DIGESTS = 1_000, 800_000
# The siblings of the replies that are checked from C, and the runs.
CHECK_SIBLINGS, CHECK_RUNS = 20, 20
# For the roots of each of two chains: how often they are compared in a run. And the runs.
CHAIN_ROUNDS, CHAIN_RUNS = {10_000: 200, 100_000: 20}, 10
# The names that each of two clients looks up; how many of them both do; and for the epochs, at each of
# which they look all up, how often they are reconciled in a run. And the runs.
CLIENT_NAMES, CLIENT_SHARED = 100, {"all": 100, "one in ten": 10, "none": 0}
CLIENT_ROUNDS, CLIENT_RUNS = {10: 500, 100: 50, 1_000: 5}, 3
# The lines of the runs of `ask`, and how often each is measured.
ASKED, CLOSED, WATCHED, ASKED_RUNS = (100, 1_000, 4_000), (1_000, 2_000), (100, 500), 5
# The script of `play`: its names, of which so many are watched; its closings; its look-ups; and the runs.
PLAY_NAMES, PLAY_WATCHED, PLAY_CLOSINGS, PLAY_LOOK_UPS, PLAY_RUNS = 10_000, 10, 100, 10_000, 15
# The lengths of other texts that are digested: an empty node, a body, a body that is signed, and a value.
EMPTY, BODY, SIGNED_BODY, VALUE = 69, 146, 179, 32
# How often each size of a directory is measured. In a run: the epochs with changes, the changes of
# each, the look-ups of a step, and the steps of look-ups.
EPOCH_RUNS = {1_000: 10, 10_000: 10, 100_000: 10, 1_000_000: 5}
# How often each size of a journal is measured, and the bytes of a record beside those of a start and a page.
JOURNAL_RUNS, JOURNAL_BYTES, OTHER_BYTES = {10_000: 10, 100_000: 10, 1_000_000: 3}, 86, 115
# The registrations that `serve` answers in one stream, those that it answers one at a time, and the runs.
SERVED, SERVED_ALONE, SERVED_RUNS = 20_000, 1_000, 7
# The kind byte of a reply that promises.
PROMISE = 0x81
EPOCH_ROUNDS, EPOCH_CHANGES = 100, 1_000
EPOCH_LOOK_UPS, LOOK_UP_ROUNDS, ROTATIONS = 10_000, 10, 3
# The last epochs of a run, in which the memory that a change keeps is measured. The first ones use
# memory that was free again after the registrations.
LATE_ROUNDS = 40
# With how many digests one by one a change and its share of the closing are compared.
CHANGE_DIGESTS = 24
# The names of the hub's directory, the frames of a step, the bytes of a piece, the rounds of a run
# and the runs. The sessions are those of the crate `measure`.
HUB_NAMES, HUB_FRAMES, PIECES, HUB_ROUNDS, HUB_RUNS = 100_000, 16_000, (4_096, 16), 4, 5
HUB_SESSIONS = 16
# What a round asks for, in turn, and the bytes of a request's frame.
HUB_REQUESTS = {"head": 5, "look-up": 31, "registration": 57}
# The frames of one piece that a feed takes, the frames of a step, and the runs.
FEED_FRAMES, FEED_TAKEN, FEED_RUNS = (64, 1_024, 16_384), 1 << 23, 20
# The requests that a client has in flight, those of a step, and the rounds. The token is that of the
# client in `load.rs`, and the keys are those of the directory in the crate `measure`.
IN_FLIGHT, SERVE_FRAMES, SERVE_ROUNDS = 64, 8_000, 9
# The connections that ask at once, each with so many look-ups in flight; about the look-ups of a step, and the rounds. And
# the connections that are idle once they asked for the head.
CROWDS = ((1, 1), (16, 1), (256, 1), (256, 4), (256, 64), (1_000, 1))
CROWD_FRAMES, CROWD_ROUNDS, IDLE_CONNECTIONS = 8_000, 5, 900
SERVE_KEYS = {"sign-key": "01", "vuf-key": "02", "salt-key": "00", "token": "04"}

# The roots of the chains that are observed, and the runs of each. In a run: the roots that then extend
# the chain, as many that are known, and how often each piece of evidence is judged. The siblings of the
# proofs of a broken promise and of a final binding that was changed.
AUDIT_RUNS = {1_000: 10, 10_000: 10, 100_000: 10}
AUDIT_MORE, JUDGEMENTS, AUDIT_SIBLINGS = 20_000, 10_000, 20
EVIDENCE = ("fork", "link", "skip", "broken-promise", "broken-final")

# The names that a client looks up, the siblings of their replies, the bytes of such a reply with a key of
# 32 bytes, and the roots of the client's chain. For the
# epochs at which it looked all up before, the rounds of a run, in each of which it looks all up at one
# more epoch; and the runs.
LOOK_NAMES, LOOK_SIBLINGS, LOOK_ROOTS = 1_000, 20, 1_100
LOOK_REPLY = 249 + 32 * LOOK_SIBLINGS
LOOK_RUNS = {1: (1, 20), 10: (2, 10), 100: (10, 5), 1_000: (20, 3)}
# The looks of one name: how often a run asks what they show of its final bindings, and the runs; and how many
# indices they have in turn, where 0 is one for each look.
FINALITY_RUNS, FINALITY_INDICES = {1_000: (100, 5), 10_000: (10, 3), 100_000: (2, 3)}, (1, 100, 0)
# The lists of 64 roots that a client takes when it has so many lists, and the runs.
UPDATE_LISTS, UPDATE_RUNS = 100, {16: 10, 160: 10, 1_600: 10}
# The lists that a client has before others come in pieces, the bytes of a piece (more than a list has), and the runs.
PIECES_BEFORE, PIECE_SIZES, PIECE_RUNS = 160, [32_768, 4_096, 64, 1], 10
# The epochs of a round that a monitor watches, the rounds, and the runs.
WATCH_EPOCHS, WATCH_ROUNDS, WATCH_RUNS = 1_000, 10, 3


class Spread:
    """The times of the runs, each divided by what a run does."""

    def __init__(self, times, count=1):
        self.least = min(times) / count
        self.median = statistics.median(times) / count
        self.greatest = max(times) / count

    def cells(self, scale, digits):
        return [f"{t * scale:.{digits}f}" for t in (self.least, self.median, self.greatest)]


def table(title, head, rows):
    print(f"\n{title}")
    widths = [max(len(row[k]) for row in [head, *rows]) + 2 for k in range(len(head))]
    for row in [head, *rows]:
        print("".join(f"{cell:>{width}}" for cell, width in zip(row, widths)))


# ---- processes


def status_field(process, name):
    with open(f"/proc/{process.pid}/status", encoding="ascii", errors="replace") as file:
        for line in file:
            if line.startswith(name + ":"):
                return line.split()[1]
    return None


def wait_until_it_waits(process):
    """Returns once the process waits for input or output, or has ended."""
    while status_field(process, "State") not in ("S", "Z"):
        time.sleep(0.0005)


def look(process):
    """The number that the program printed; and once it waits, the processor's time and the resident
    memory that it has used."""
    answer = process.stdout.readline()
    if not answer.strip().isdigit():
        sys.exit(f"{' '.join(process.args)}: output {answer!r}")
    wait_until_it_waits(process)
    memory = status_field(process, "VmRSS")
    with open(f"/proc/{process.pid}/schedstat", encoding="ascii") as file:
        used = int(file.read().split()[0]) / 1e9
    if memory is None or used == 0:
        sys.exit(f"{' '.join(process.args)}: no memory or no time of the processor")
    return int(answer), used, int(memory) * 1024


class Step:
    """The number that a step printed, and the processor's time and the memory that it took."""

    def __init__(self, before, after):
        self.number = after[0]
        self.seconds = after[1] - before[1]
        self.memory = after[2] - before[2]


def steps(count, *words, top=""):
    """One run of the crate `measure` of the clone at `top`: the number that it prints first, and so
    many steps."""
    return steps_of([os.path.join(top, MEASURE), *map(str, words)], count)


def steps_of(words, count):
    """The same of the program that these words run."""
    process = subprocess.Popen(words, bufsize=0, stdin=subprocess.PIPE, stdout=subprocess.PIPE)
    looks = [look(process)]
    for _ in range(count):
        process.stdin.write(b"\n")
        looks.append(look(process))
    process.stdin.close()
    process.stdout.close()
    if process.wait() != 0:
        sys.exit(f"{' '.join(words)}: status {process.returncode}")
    return looks[0][0], [Step(*pair) for pair in zip(looks, looks[1:])]


def check(words, status, answer, wanted):
    if status != 0 or not answer.startswith(wanted):
        sys.exit(f"{' '.join(words)}: status {status}, output {answer!r}")


def run_over(words, items, wanted):
    """What one run of a program over these items prints, its time by the clock and the processor's time."""
    with open(items, "rb") as file:
        start = time.perf_counter()
        process = subprocess.Popen(words, stdin=file, stdout=subprocess.PIPE)
        answer = process.stdout.read()
        _, status, usage = os.wait4(process.pid, 0)
        taken = time.perf_counter() - start
    process.stdout.close()
    process.returncode = status
    check(words, status, answer, wanted)
    return answer, taken, usage.ru_utime + usage.ru_stime


def run(words, items, wanted, top=""):
    """The time by the clock and the processor's time of one run of directoryd of the clone at
    `top`."""
    return run_over([os.path.join(top, DIRECTORYD), *words], items, wanted)[1:]


def runs(words, items, wanted, count):
    """The times of so many runs: by the clock, of the processor, and of the processor for the clone
    before, whose runs come in between."""
    clock, processor, before = [], [], []
    for _ in range(count):
        for kept, time_taken in zip((clock, processor), run(words, items, wanted)):
            kept.append(time_taken)
        if BEFORE:
            before.append(run(words, items, wanted, BEFORE)[1])
    return Spread(clock), Spread(processor), Spread(before) if before else None


def peak_memory(words, items):
    """The peak of resident memory of a program that prints a root. Its answer goes to a full pipe, so
    that it can be looked at while it waits to write. (What `wait4` gives for a child is never less
    than what this interpreter has.)"""
    reader, writer = os.pipe()
    os.set_blocking(writer, False)
    filled = 0
    try:
        while True:
            filled += os.write(writer, b"\n" * 4096)
    except BlockingIOError:
        os.set_blocking(writer, True)
    with open(items, "rb") as file:
        process = subprocess.Popen(words, stdin=file, stdout=writer)
    os.close(writer)
    # A process that reads a file and waits for nothing else does not sleep before it writes.
    wait_until_it_waits(process)
    peak = status_field(process, "VmHWM")
    with open(reader, "rb") as file:
        answer = file.read()[filled:]
    check(words, process.wait(), answer, b"root ")
    if peak is None:
        sys.exit(f"{' '.join(words)}: no peak of memory")
    return int(peak) * 1024


# ---- items


def write_items(path, size):
    """Writes random items, the same at each run."""
    source = random.Random(size)
    with open(path, "w", encoding="ascii") as file:
        for _ in range(size):
            digits = f"{source.getrandbits(512):0128x}"
            file.write(f"{digits[:64]} {digits[64:]}\n")


def first_index(path):
    with open(path, encoding="ascii") as file:
        return file.read(64)


def node_count(indices, low, high, prefix, level):
    """The nodes at and below a prefix of `level` bits, which sorted indices[low:high] have."""
    if high - low < 2:
        return 1
    one = prefix | 1 << (255 - level)
    middle = bisect.bisect_left(indices, one, low, high)
    return (
        1
        + node_count(indices, low, middle, prefix, level + 1)
        + node_count(indices, middle, high, one, level + 1)
    )


def nodes_of_items(path):
    """The nodes of the tree of these items, and so the digests of its root."""
    with open(path, encoding="ascii") as file:
        indices = sorted(int(line[:64], 16) for line in file)
    return node_count(indices, 0, len(indices), 0, 0)


def nodes_of_numbers(size):
    """The nodes of the tree that `measure tree` grows."""
    digests = (hashlib.sha256(number.to_bytes(8, "big")).digest() for number in range(size))
    indices = sorted(int.from_bytes(digest, "big") for digest in digests)
    return node_count(indices, 0, size, 0, 0)


# ---- digests


def digest_times(length, count=DIGESTS):
    """The times of one digest of a text of this length."""
    times = [steps(1, "digests", length, count)[1][0].seconds for _ in range(DIGEST_RUNS)]
    return Spread(times, count)


def openssl_times():
    """The times of OpenSSL's SHA-256 of a long text."""
    text, times = bytes(LONG), []
    for _ in range(4 * DIGEST_RUNS):
        start = time.process_time()
        hashlib.sha256(text).digest()
        times.append(time.process_time() - start)
    return Spread(times)


def print_processor():
    facts = {}
    for path in ("/proc/cpuinfo", "/proc/meminfo"):
        with open(path, encoding="ascii", errors="replace") as file:
            for line in file:
                name, _, value = line.partition(":")
                facts.setdefault(name.strip(), value.strip())
    memory = int(facts["MemTotal"].split()[0]) / 1024**2
    has = "with" if "sha_ni" in facts.get("flags", "").split() else "without"
    print(f"{facts.get('model name', 'unknown processor')}, {has} SHA instructions")
    print(f"{os.cpu_count()} cores, {memory:.0f} GiB, load {os.getloadavg()[0]:.2f}")


def print_machine():
    print_processor()
    print(f"built for {BUILD}")
    kit, openssl = (LONG / 2**20 / t.least for t in (digest_times(LONG, 20), openssl_times()))
    version = " ".join(ssl.OPENSSL_VERSION.split()[:2])
    print(f"SHA-256 of 1 MiB: this build {kit:.0f} MiB/s, {version} {openssl:.0f} MiB/s")


def print_digest(length, times):
    least, median, greatest = times.cells(1e9, 0)
    spread = f"least {least}, median {median}, greatest {greatest}"
    print(f"\none digest of {length} bytes, ns: {spread}")


# ---- the tables


def with_before(row, now, before, scale, digits):
    """The row; and where there is a clone before, its times and what part of them the times are."""
    if before is None:
        return row
    return [*row, *before.cells(scale, digits), f"{now.least / before.least:.2f}"]


def head_with_before(head):
    return [*head, "before", "median", "greatest", "part"] if BEFORE else head


def root_rows(folder, digest):
    for size, count in ROOT_RUNS.items():
        items = f"{folder}/items"
        write_items(items, size)
        clock, processor, before = runs(["root"], items, b"root ", count)
        digests = nodes_of_items(items)
        memory = peak_memory([DIRECTORYD, "root"], items)
        ratio = processor.least / (digests * digest.least)
        row = [f"{size:,}", f"{digests:,}", f"{clock.least:.3f}", *processor.cells(1, 4)]
        row += [f"{ratio:.2f}", f"{memory / 2**20:.1f}"]
        yield with_before(row, processor, before, 1, 4)


def list_row(size):
    """The row of trees that are made of a list of this size."""
    nodes = nodes_of_numbers(size)
    times = LIST_NODES // nodes
    tops = ["", BEFORE] if BEFORE else [""]
    digests, taken = [], [[] for _ in tops]
    for _ in range(LIST_RUNS):
        for top, kept in zip(tops, taken):
            at_start, run_steps = steps(3, "whole", size, times, DIGESTS // 10, top=top)
            before, made, after = run_steps
            if made.number - at_start != times * nodes:
                sys.exit(f"whole: {made.number - at_start} digests, and {times * nodes} was wanted")
            digests += [before.seconds, after.seconds]
            kept.append(made.seconds)
    now, *before = (Spread(kept, times) for kept in taken)
    ratio = now.least / (nodes * min(digests) / (DIGESTS // 10))
    row = [f"{size:,}", f"{nodes:,}", *now.cells(1e6, 2), f"{ratio:.2f}"]
    return with_before(row, now, before[0] if before else None, 1e6, 2)


def root(folder):
    digest = digest_times(LEAF)
    spread = ["least", "median", "greatest", "ratio"]
    rows = list(root_rows(folder, digest))
    print_digest(LEAF, digest)
    head = head_with_before(["items", "digests", "by the clock", *spread, "MiB"])
    table("directoryd root, seconds", head, rows)
    head = head_with_before(["items", "digests", *spread])
    table("a tree made of a list, microseconds", head, [list_row(size) for size in LIST_SIZES])


def prove_rows(folder):
    for size, count in PROVE_RUNS.items():
        items = f"{folder}/items"
        write_items(items, size)
        _, of_root, _ = runs(["root"], items, b"root ", count)
        words = ["prove", "--index", first_index(items)]
        _, of_prove, _ = runs(words, items, b"level ", count)
        ratio = of_prove.least / of_root.least
        yield [f"{size:,}", f"{of_root.least:.3f}", *of_prove.cells(1, 3), f"{ratio:.2f}"]


def tree_rows(size):
    """The rows of one size: inserts while the tree grows, more inserts, and paths."""
    times = [[], [], [], []]
    for _ in range(TREE_RUNS[size]):
        at_start, run_steps = steps(5, "tree", size, MORE, DIGESTS)
        before, grown, more, paths, after = run_steps
        times[0] += [before.seconds, after.seconds]
        for kept, step in zip(times[1:], (grown, more, paths)):
            kept.append(step.seconds)
    digest = min(times[0]) / DIGESTS
    rows = []
    counts = [(grown.number - at_start, size), (more.number - grown.number, MORE)]
    for (digests, count), taken in zip(counts, times[1:]):
        spread, each = Spread(taken, count), digests / count
        ratio = spread.least / (each * digest)
        rows.append([f"{size:,}", f"{each:.2f}", *spread.cells(1e6, 2), f"{ratio:.2f}"])
    nodes = nodes_of_numbers(size)
    rows[0] += [f"{nodes:,}", f"{grown.memory / nodes:.1f}", f"{digest * 1e9:.0f}"]
    rows.append([f"{size:,}", f"{paths.number / MORE:.2f}", *Spread(times[3], MORE).cells(1e6, 2)])
    return rows


def tree(folder):
    grown, more, paths = zip(*(tree_rows(size) for size in TREE_RUNS))
    spread = ["least", "median", "greatest"]
    head = ["items", "digests", *spread, "ratio"]
    title = "an insert while the tree grows from empty, microseconds; and its nodes then"
    table(title, [*head, "nodes", "bytes a node", "a digest, ns"], grown)
    table("an insert into the grown tree, microseconds", head, more)
    table("the path of an index, microseconds", ["items", "levels", *spread], paths)
    head = ["items", "root", *spread, "ratio"]
    table("directoryd prove beside root, seconds", head, list(prove_rows(folder)))


def text_rows():
    """The rows of the two lengths: digests one by one, and all at once."""
    taken = [[], [], [], []]
    for _ in range(TEXT_RUNS):
        _, run_steps = steps(4, "texts", TEXTS, TEXT_ROUNDS)
        for single, joint in (run_steps[:2], run_steps[2:]):
            if single.number != joint.number:
                sys.exit("texts: the digests differ")
        for kept, step in zip(taken, run_steps):
            kept.append(step.seconds)
    for length, kept in ((INTERIOR, taken[:2]), (LEAF, taken[2:])):
        single, joint = (Spread(times, TEXTS * TEXT_ROUNDS) for times in kept)
        ratio = joint.least / single.least
        yield [f"{length}", *single.cells(1e9, 0), *joint.cells(1e9, 0), f"{ratio:.2f}"]


def change_row(size, changes):
    """The row of a tree of this size and so many changes, and the times of digests."""
    lists, rounds = CHANGE_ROUNDS[changes]
    count = changes * lists
    words = ["changes", size, changes, lists, rounds, DIGESTS]
    _, (before, *middle, after) = steps(3 * rounds + 2, *words)
    digests, times = [0, 0], [[], []]
    for k in range(rounds):
        made, *put = middle[3 * k : 3 * k + 3]
        numbers = [made.number, *(step.number for step in put)]
        for place, step in enumerate(put):
            # The ways change places from round to round.
            way = (place + k) % 2
            digests[way] += numbers[place + 1] - numbers[place]
            times[way].append(step.seconds)
    each = [f"{number / (rounds * count):.2f}" for number in digests]
    joint, single = (Spread(taken, count) for taken in times)
    ratio = joint.least / single.least
    spreads = [*joint.cells(1e6, 2), *single.cells(1e6, 2)]
    row = [f"{size:,}", f"{changes:,}", *each, *spreads, f"{ratio:.2f}"]
    return row, [before.seconds, after.seconds]


def changes(_folder):
    spread = ["least", "median", "greatest"]
    head = ["bytes", "one by one", *spread[1:], "all at once", *spread[1:], "ratio"]
    table("one digest, nanoseconds", head, list(text_rows()))
    rows, digests = [], []
    for size in CHANGE_SIZES:
        for count in CHANGE_ROUNDS:
            row, times = change_row(size, count)
            rows.append(row)
            digests += times
    print_digest(LEAF, Spread(digests, DIGESTS))
    head = ["items", "changes", "digests", "one by one", *spread, "one by one", *spread[1:]]
    table("a change by with_all, and by with one by one, microseconds", [*head, "ratio"], rows)


def reply_row(siblings):
    each = siblings + 3
    rounds = max(1, CHECK_DIGESTS // (each * REPLIES))
    count = rounds * REPLIES
    wanted = [count * (249 + 32 * siblings), count * each, count]
    times = [[], [], [], []]
    for _ in range(REPLY_RUNS):
        _, run_steps = steps(5, "replies", siblings, REPLIES, rounds, DIGESTS)
        before, *middle, after = run_steps
        if [step.number for step in middle] != wanted:
            sys.exit(f"replies: {[step.number for step in middle]}, and {wanted} was wanted")
        times[0] += [before.seconds, after.seconds]
        for kept, step in zip(times[1:], middle):
            kept.append(step.seconds)
    made, checked, accepted = (Spread(taken, count) for taken in times[1:])
    digest = min(times[0]) / DIGESTS
    rates = [f"{1 / made.least:,.0f}", f"{1 / checked.least:,.0f}"]
    ratio = checked.least / (each * digest)
    last = [f"{ratio:.2f}", f"{accepted.least * 1e6:.2f}", f"{digest * 1e9:.0f}"]
    return [f"{siblings}", *rates, *checked.cells(1e6, 2), f"{each}", *last]


def replies(_folder):
    head = ["siblings", "made/s", "checked/s", "least", "median", "greatest", "digests", "ratio"]
    rows = [reply_row(siblings) for siblings in SIBLINGS]
    title = "replies made, and read and checked; the time of a reading and check, microseconds"
    table(title, [*head, "value, us", "a digest, ns"], rows)


def counted(data):
    return len(data).to_bytes(2, "big") + data


def look_up(number, siblings):
    """A look-up of a name of 16 bytes with a key of 32, as `measure` has them: the body, the name and the reply. The
    siblings are random."""
    source, sha256 = random.Random(number), lambda text: hashlib.sha256(text).digest()
    name, salt, key, nonce, vuf_key = source.randbytes(16), source.randbytes(32), source.randbytes(32), bytes(32), b"\2" * 32
    value = sha256(b"V" + vuf_key + name)
    index, way = sha256(value), [source.randbytes(32) for _ in range(siblings)]
    commitment = sha256(b"C\1" + salt + counted(name) + counted(key))
    digest = sha256(b"L" + nonce + index + siblings.to_bytes(4, "big") + commitment)
    for level in reversed(range(siblings)):
        is_one = index[level // 8] >> (7 - level % 8) & 1
        digest = sha256(way[level] + digest if is_one else digest + way[level])
    body = b"R\1" + (1).to_bytes(8, "big") + bytes(8) + digest + bytes(32) + nonce + vuf_key
    return body, name, body + counted(value) + b"\1" + salt + counted(key) + siblings.to_bytes(2, "big") + b"".join(way)


def check_times(folder, rounds):
    """The times of the steps of the library for C and of `measure`, whose runs come in turn."""
    path, count = f"{folder}/look-ups", rounds * REPLIES
    with open(path, "wb") as file:
        for number in range(REPLIES):
            file.write(b"".join(map(counted, look_up(number, CHECK_SIBLINGS))))
    each = CHECK_SIBLINGS + 3
    times = [[], [], [], []]
    for _ in range(CHECK_RUNS):
        first, from_c = steps_of([CHECK, path, str(rounds)], 3)
        _, (_, _, checked, _, _) = steps(5, "replies", CHECK_SIBLINGS, REPLIES, rounds, DIGESTS)
        if (first, [step.number for step in from_c], checked.number) != (REPLIES, 3 * [32 * count], each * count):
            sys.exit(f"check: {first}, {[step.number for step in from_c]}, {checked.number}")
        for kept, step in zip(times, [*from_c, checked]):
            kept.append(step.seconds)
    return [Spread(taken, count) for taken in times]


def check_from_c(folder):
    read, whole, alone, checked = check_times(folder, max(1, CHECK_DIGESTS // ((CHECK_SIBLINGS + 3) * REPLIES)))
    rows = [[what, *times.cells(1e6, 2), f"{times.least / checked.least:.3f}"] for what, times in (
        ("measure: read and checked", checked),
        ("C: read and checked, with the value", whole),
        ("C: coniks_check", alone),
        ("C: coniks_read_reply", read),
    )]
    table(f"a reply with {CHECK_SIBLINGS} siblings, microseconds", ["", "least", "median", "greatest", "ratio"], rows)


def chain_times(roots, shared):
    """The times of comparing two chains of so many roots, of which so many first ones are the same: their
    bodies as byte strings, and the chains."""
    rounds, agree = CHAIN_ROUNDS[roots], shared == roots
    wanted = [rounds if agree else 0, 0 if agree else rounds * (shared + 1)]
    times = [[], []]
    for _ in range(CHAIN_RUNS):
        _, run_steps = steps(2, "chains", roots, shared, rounds)
        if [step.number for step in run_steps] != wanted:
            sys.exit(f"chains: {[step.number for step in run_steps]}, and {wanted} was wanted")
        for kept, step in zip(times, run_steps):
            kept.append(step.seconds)
    return [Spread(taken, rounds) for taken in times]


def chain_rows(roots):
    parts = {"they agree": roots, "at the end": roots - 1}
    parts |= {"in the middle": roots // 2, "at the first epoch": 0}
    taken = {where: chain_times(roots, shared) for where, shared in parts.items()}
    strings = taken["they agree"][0]
    rows = [("byte strings", strings), *((where, chains) for where, (_, chains) in taken.items())]
    for where, times in rows:
        ratio = times.least / strings.least
        row = [f"{roots:,}", where, *times.cells(1e3, 3), f"{ratio:.2f}"]
        yield [*row, f"{times.least / roots * 1e9:.1f}"]


def digests_of(size, count):
    """The digests that the checks of so many replies take, which have so many bytes together. A few of
    them have more siblings than the others."""
    siblings, rest = divmod(size - count * (LOOK_REPLY - 32 * LOOK_SIBLINGS), 32)
    if rest or not LOOK_SIBLINGS <= siblings / count <= 1.01 * LOOK_SIBLINGS:
        sys.exit(f"{count} replies of {size} bytes, which is not that of {LOOK_SIBLINGS} siblings each")
    return siblings + 3 * count


def clients_row(kind, epochs):
    """The row of two clients that both look up so many of their names, at so many epochs."""
    looks, rounds, times = CLIENT_NAMES * epochs, CLIENT_ROUNDS[epochs], []
    for _ in range(CLIENT_RUNS):
        words = [LOOK_SIBLINGS, CLIENT_NAMES, CLIENT_SHARED[kind], epochs, rounds]
        kept, (reconciled,) = steps(1, "clients", *words)
        digests_of(kept, 2 * looks)
        if reconciled.number != rounds:
            sys.exit(f"clients: they agree {reconciled.number} times, and {rounds} was wanted")
        times.append(reconciled.seconds)
    times = Spread(times, rounds)
    return [f"{looks:,}", kind, *times.cells(1e3, 3), f"{times.least / looks * 1e9:.0f}"]


def reconcile(_folder):
    spread = ["least", "median", "greatest"]
    rows = [row for roots in CHAIN_ROUNDS for row in chain_rows(roots)]
    title = "two chains compared, by where they part; milliseconds"
    table(title, ["roots", "", *spread, "ratio", "a root, ns"], rows)
    rows = [clients_row(kind, epochs) for epochs in CLIENT_ROUNDS for kind in CLIENT_SHARED]
    title = "two clients reconciled, by the names that both looked up; milliseconds"
    table(title, ["looks of each", "shared", *spread, "a look, ns"], rows)


def index_of_name(number):
    """The index of a name of `measure epochs`."""
    spread = number * 0x9E3779B97F4A7C15 % 2**64
    name = spread.to_bytes(8, "big") + number.to_bytes(8, "big")
    value = hashlib.sha256(b"V" + bytes([2] * 32) + name).digest()
    return int.from_bytes(hashlib.sha256(value).digest(), "big")


def changed_nodes(indices, changed, low, high, prefix=0, level=0):
    """The nodes at and below a prefix of `level` bits, which sorted indices[low:high] have, that
    lie on the way of one of the sorted `changed`."""
    if not changed:
        return 0
    if high - low < 2:
        return 1
    one = prefix | 1 << (255 - level)
    middle, split = bisect.bisect_left(indices, one, low, high), bisect.bisect_left(changed, one)
    return (
        1
        + changed_nodes(indices, changed[:split], low, middle, prefix, level + 1)
        + changed_nodes(indices, changed[split:], middle, high, one, level + 1)
    )


def level_of(indices, index):
    """The level of the leaf of an index among sorted indices."""
    place = bisect.bisect_left(indices, index)
    near = [indices[k] for k in (place - 1, place + 1) if 0 <= k < len(indices)]
    return max((257 - (index ^ other).bit_length() for other in near), default=0)


def numbers_of_round(size, number, count):
    """The numbers of the names of a round, as `measure epochs` takes them."""
    step = max(1, size // count)
    return [(number + k * step) % size for k in range(count)]


def digests_of_closings(by_number, indices):
    """The digests of the closing of each round."""
    digests = []
    for number in range(EPOCH_ROUNDS):
        numbers = numbers_of_round(len(indices), number, EPOCH_CHANGES)
        changed = sorted({by_number[number] for number in numbers})
        # Beside the nodes, the hash of the root's body, and the signature.
        digests.append(changed_nodes(indices, changed, 0, len(indices)) + 2)
    return digests


def levels_of_look_ups(by_number, indices):
    """The levels of the paths of each step of look-ups."""
    levels = []
    for number in range(LOOK_UP_ROUNDS):
        numbers = numbers_of_round(len(indices), number, EPOCH_LOOK_UPS)
        levels.append([level_of(indices, by_number[number]) for number in numbers])
    return levels


class Epochs:
    """The runs of `measure epochs` on so many names: their times, and the bytes that they keep."""

    def __init__(self, size):
        by_number = [index_of_name(number) for number in range(size)]
        indices = sorted(by_number)
        self.size = size
        self.closed = digests_of_closings(by_number, indices)
        self.levels = levels_of_look_ups(by_number, indices)
        self.nodes = node_count(indices, 0, size, 0, 0)
        self.digests, self.registrations, self.changes, self.closings = [], [], [], []
        self.at_head, self.at_old, self.bytes_a_name, self.bytes_a_change = [], [], [], []
        self.rotations = []
        for _ in range(EPOCH_RUNS[size]):
            self.run()

    def run(self):
        words = [EPOCH_CHANGES, EPOCH_ROUNDS, EPOCH_LOOK_UPS, LOOK_UP_ROUNDS, DIGESTS]
        count = 4 + 3 * EPOCH_ROUNDS + 2 * LOOK_UP_ROUNDS + ROTATIONS
        _, (before, names, first, *middle, after) = steps(count, "epochs", self.size, *words)
        middle, rotations = middle[:-ROTATIONS], middle[-ROTATIONS:]
        rounds, look_ups = middle[: 3 * EPOCH_ROUNDS], middle[3 * EPOCH_ROUNDS :]
        told = [sum(249 + 32 * level for level in step) for step in self.levels]
        if [step.number for step in look_ups] != told + told:
            sys.exit(f"epochs: {[step.number for step in look_ups]} bytes, and {told} was wanted")
        self.digests += [before.seconds, after.seconds]
        self.registrations.append(names.seconds)
        self.changes += [step.seconds for step in rounds[1::3]]
        self.closings += [step.seconds for step in rounds[2::3]]
        self.rotations += [step.seconds for step in rotations]
        self.at_head += [step.seconds for step in look_ups[:LOOK_UP_ROUNDS]]
        self.at_old += [step.seconds for step in look_ups[LOOK_UP_ROUNDS:]]
        late = sum(step.memory for step in rounds[-3 * LATE_ROUNDS :])
        self.bytes_a_name.append((names.memory + first.memory) / self.size)
        self.bytes_a_change.append(late / (LATE_ROUNDS * EPOCH_CHANGES))

    def operation_row(self, digests, times, kept, digest):
        """The row of registrations or of changes."""
        ratio, kept = times.least / (digests * digest), statistics.median(kept)
        row = [f"{self.size:,}", f"{digests}", *times.cells(1e6, 2)]
        return [*row, f"{ratio:.2f}", f"{kept:.0f}"]

    def registration_row(self, digest):
        # One for the index, one for the commitment, and the stand-ins' for value and signature.
        return self.operation_row(4, Spread(self.registrations, self.size), self.bytes_a_name, digest)

    def change_row(self, digest):
        # One for the commitment, and the stand-in's for the signature: the name keeps its index.
        return self.operation_row(2, Spread(self.changes, EPOCH_CHANGES), self.bytes_a_change, digest)

    def closing_row(self, digest):
        # The rounds take different numbers of digests, so that the times are those of one digest.
        closed = self.closed * EPOCH_RUNS[self.size]
        times = Spread([time / count for time, count in zip(self.closings, closed)])
        each, ratio = statistics.mean(self.closed), times.least / digest
        both = [sum(pair) for pair in zip(self.changes, self.closings)]
        change = Spread(both, EPOCH_CHANGES).least
        row = [f"{self.size:,}", f"{each:.0f}", *times.cells(1e3 * each, 2), f"{ratio:.2f}"]
        return [*row, f"{change * 1e6:.2f}", f"{change / (CHANGE_DIGESTS * digest):.2f}"]

    def rotation_row(self, digest):
        # One for each node, one for the body, and the stand-in's for the signature.
        digests, times = self.nodes + 2, Spread(self.rotations)
        return [f"{self.size:,}", f"{digests:,}", *times.cells(1e3, 2), f"{times.least / (digests * digest):.2f}"]

    def look_up_row(self, digest):
        levels = statistics.mean(level for step in self.levels for level in step)
        row = [f"{self.size:,}", f"{levels:.2f}"]
        for kept in (self.at_head, self.at_old):
            times = Spread(kept, EPOCH_LOOK_UPS)
            # In digests: a look-up of a name that is held takes none.
            row += [f"{1 / times.least:,.0f}", *times.cells(1e6, 2), f"{times.least / digest:.2f}"]
        return row


def epochs(_folder):
    sizes = [Epochs(size) for size in EPOCH_RUNS]
    digests = Spread([time for each in sizes for time in each.digests], DIGESTS)
    digest = digests.least
    print_digest(LEAF, digests)
    spread = ["least", "median", "greatest", "ratio"]
    head = ["names", "digests", *spread]
    rows = [each.registration_row(digest) for each in sizes]
    table("a registration, microseconds", [*head, "bytes a name"], rows)
    rows = [each.change_row(digest) for each in sizes]
    table("a change, microseconds", [*head, "bytes kept"], rows)
    title = f"the closing of {EPOCH_CHANGES:,} changes, milliseconds; a change with its share of it"
    rows = [each.closing_row(digest) for each in sizes]
    table(title, [*head, "a change, us", f"of {CHANGE_DIGESTS} digests"], rows)
    rows = [each.rotation_row(digest) for each in sizes]
    table("a rotation, milliseconds", head[:6], rows)
    spread = [*spread[:-1], "in digests"]
    head = ["names", "levels", "head/s", *spread, "old/s", *spread]
    rows = [each.look_up_row(digest) for each in sizes]
    table("look-ups at the head and at an old epoch, microseconds", head, rows)


class Journals:
    """The runs of `measure journal` on so many names: the times and the memory of a directory
    without a journal, of one with a journal in memory, and of one that is opened from it."""

    def __init__(self, size):
        self.size = size
        # For each name its value, its index and its commitment; and the nodes of the tree.
        indices = sorted(index_of_name(number) for number in range(size))
        self.nodes = node_count(indices, 0, size, 0, 0)
        self.digests, self.plain, self.kept, self.opened, self.memory = [], [], [], [], []
        for _ in range(JOURNAL_RUNS[size]):
            self.run()

    def run(self):
        _, (before, plain, first, _, kept, _, _, opened, after) = steps(9, "journal", self.size, DIGESTS)
        taken = JOURNAL_BYTES * self.size + OTHER_BYTES
        if opened.number != taken:
            sys.exit(f"journal: {opened.number} bytes, and {taken} was wanted")
        self.digests += [before.seconds, after.seconds]
        self.plain.append(plain.seconds)
        self.kept.append(kept.seconds)
        self.opened.append(opened.seconds)
        self.memory.append(opened.memory / (plain.memory + first.memory))

    def row(self, digest):
        plain, kept = Spread(self.plain, self.size), Spread(self.kept, self.size)
        opened = Spread(self.opened)
        ratio = opened.least / ((3 * self.size + self.nodes + 2) * digest)
        row = [f"{self.size:,}", *plain.cells(1e6, 2), *kept.cells(1e6, 2), f"{plain.least / kept.least:.2f}"]
        return [*row, *opened.cells(1, 3), f"{ratio:.2f}", f"{statistics.median(self.memory):.2f}"]


def register_frame(number):
    name, key = b"name %011d" % number, b"%032d" % number
    body = b"\1" + b"".join(len(part).to_bytes(2, "big") + part for part in (name, key))
    return len(body).to_bytes(4, "big") + body


def serve_words(path):
    words = [word for key, value in SERVE_KEYS.items() for word in (f"--{key}", value * 32)]
    return [DIRECTORYD, "serve", *words, *(["--journal", path] if path else [])]


def check_served(process, path, count):
    status = process.wait(60)
    size = os.path.getsize(path) if path else None
    if status != 0 or size not in (None, 106 + JOURNAL_BYTES * count):
        sys.exit(f"directoryd serve: status {status}, a journal of {size} bytes")


def served_at_once(path):
    """The seconds of `serve` for a registration of a stream, with a journal of this path, if one is given."""
    with tempfile.TemporaryFile() as stream:
        stream.write(b"".join(register_frame(number) for number in range(SERVED)))
        stream.seek(0)
        begun = time.perf_counter()
        quiet = {"stdout": subprocess.DEVNULL, "stderr": subprocess.DEVNULL}
        process = subprocess.Popen(serve_words(path), stdin=stream, **quiet)
        check_served(process, path, SERVED)
        return (time.perf_counter() - begun) / SERVED


def served_alone(path):
    """The same, where each registration waits for the reply to the one before."""
    pipes = {"stdin": subprocess.PIPE, "stdout": subprocess.PIPE, "stderr": subprocess.DEVNULL}
    process = subprocess.Popen(serve_words(path), bufsize=0, **pipes)
    for number in range(SERVED_ALONE + 1):
        if number == 1:
            begun = time.perf_counter()
        process.stdin.write(register_frame(number))
        reply = process.stdout.read(65536)
        if reply[4] != PROMISE:
            sys.exit(f"a registration got the kind {reply[4]:02x}")
    taken = time.perf_counter() - begun
    process.stdin.close()
    check_served(process, path, SERVED_ALONE + 1)
    return taken / SERVED_ALONE


def served_row(name, folder):
    """The rates of `serve` with a journal in a folder, or with none."""
    row = [name]
    for number, serve in enumerate((served_at_once, served_alone)):
        times = Spread([serve(folder and f"{folder}/journal {number} {run}") for run in range(SERVED_RUNS)])
        row += [f"{1 / times.least:,.0f}", f"{1 / times.median:,.0f}"]
    return row


def served_peak(stream, path):
    """The peak memory of `serve` over a stream, in KiB."""
    stream.seek(0)
    quiet = {"stdout": subprocess.DEVNULL, "stderr": subprocess.DEVNULL}
    process = subprocess.Popen(serve_words(path), stdin=stream, **quiet)
    _, status, used = os.wait4(process.pid, 0)
    if status != 0:
        sys.exit(f"directoryd serve: status {status}")
    return used.ru_maxrss


def peak_row(size):
    """The peak memory of a directory of so many names, and of its restart, which holds the file as it is opened."""
    with tempfile.TemporaryDirectory(dir="/dev/shm") as folder, tempfile.TemporaryFile() as stream:
        for number in range(size):
            stream.write(register_frame(number))
        close = bytes([7]) + bytes([4] * 32) + (2).to_bytes(8, "big")
        stream.write(len(close).to_bytes(4, "big") + close)
        plain = served_peak(stream, None)
        served_peak(stream, f"{folder}/journal")
        with open(os.devnull, "rb") as nothing:
            opened = served_peak(nothing, f"{folder}/journal")
        return [f"{size:,}", f"{plain / 1024:.0f}", f"{opened / 1024:.0f}", f"{opened / plain:.2f}"]


def journal(_folder):
    # First, since what `wait4` gives for a child is never less than what this interpreter has.
    rows = [peak_row(size) for size in (100_000, 1_000_000)]
    head = ["names", "without", "restart", "ratio"]
    table("peak memory of directoryd serve without a journal, and of a restart, MiB", head, rows)
    with tempfile.TemporaryDirectory(dir="/dev/shm") as memory, tempfile.TemporaryDirectory(dir=".") as disk:
        rows = [served_row(*each) for each in (("none", None), ("in memory", memory), ("on the disk", disk))]
    head = ["journal", "in a stream", "median", "one at a time", "median"]
    table("registrations a second through directoryd serve, by the clock; with a journal each piece is synced", head, rows)
    sizes = [Journals(size) for size in JOURNAL_RUNS]
    digests = Spread([time for each in sizes for time in each.digests], DIGESTS)
    print_digest(LEAF, digests)
    spread = ["least", "median", "greatest"]
    head = ["names", "plain", *spread[1:], "kept", *spread[1:], "part of the rate"]
    head += ["opened, s", *spread[1:], "ratio", "memory"]
    rows = [each.row(digests.least) for each in sizes]
    table("registrations without and with a journal, microseconds; and its opening", head, rows)


class Sessions:
    """The runs of `measure hub` with pieces of so many bytes: for each request the times of its
    steps, which are the calls, the calls with their frames written, and the hub."""

    def __init__(self, piece, top=""):
        self.piece, self.top = piece, top
        self.times = {request: ([], [], []) for request in HUB_REQUESTS}

    def events(self, request):
        """The pieces of all streams."""
        stream = HUB_REQUESTS[request] * HUB_FRAMES // HUB_SESSIONS
        return HUB_SESSIONS * -(-stream // self.piece)

    def run(self):
        requests = list(HUB_REQUESTS) * HUB_ROUNDS
        words = [HUB_NAMES, HUB_FRAMES, self.piece, HUB_ROUNDS]
        _, run_steps = steps(4 * len(requests), "hub", *words, top=self.top)
        for request in requests:
            made, *sides = run_steps[:4]
            run_steps = run_steps[4:]
            if made.number != self.events(request):
                sys.exit(f"hub: {made.number} events, and {self.events(request)} was wanted")
            if sides[1].number != sides[2].number:
                sys.exit(f"hub: {sides[2].number} bytes, and {sides[1].number} was wanted")
            for kept, step in zip(self.times[request], sides):
                kept.append(step.seconds)

    def row(self, request):
        called, written, run = self.times[request]
        spread = Spread(run, HUB_FRAMES)
        name = f"{request} before" if self.top else request
        row = [name, f"{self.piece:,}", f"{1 / spread.median:,.0f}", *spread.cells(1e6, 2)]
        for calls in (called, written):
            ratio = statistics.median(mine / its for mine, its in zip(run, calls))
            row += [*Spread(calls, HUB_FRAMES).cells(1e6, 2), f"{ratio:.2f}"]
        return row

    def head_row(self):
        spread = Spread(self.times["head"][2], HUB_FRAMES)
        return [f"{self.piece:,}", f"{1 / spread.median:,.0f}", *spread.cells(1e9, 0)]


def feed_row(frames):
    times = FEED_TAKEN // frames
    taken = []
    for _ in range(FEED_RUNS):
        _, (step,) = steps(1, "feed", frames, times)
        if step.number != FEED_TAKEN:
            sys.exit(f"feed: {step.number} frames, and {FEED_TAKEN} was wanted")
        taken.append(step.seconds)
    return [f"{frames:,}", *Spread(taken, FEED_TAKEN).cells(1e9, 1)]


def hub(_folder):
    tops = ["", BEFORE] if BEFORE else [""]
    both = [Sessions(piece, top) for piece in PIECES for top in tops]
    for _ in range(HUB_RUNS):
        for each in both:
            each.run()
    sides = [each for each in both if not each.top]
    spread = ["least", "median", "greatest"]
    head = ["", "piece", "frames/s", *spread, "calls", *spread[1:], "ratio"]
    rows = [each.row(request) for request in list(HUB_REQUESTS)[1:] for each in both]
    title = "a frame through the hub; its call; and its call with the reply's frame written, us"
    table(title, [*head, "written", *spread[1:], "ratio"], rows)
    head = ["piece", "frames/s", *spread]
    table("a frame that asks for the head, nanoseconds", head, [each.head_row() for each in sides])
    rows = [feed_row(frames) for frames in FEED_FRAMES]
    table("a frame out of a feed, nanoseconds", ["frames of the piece", *spread], rows)


def processor_time(process):
    """The processor's time that the process has used, once it waits."""
    wait_until_it_waits(process)
    with open(f"/proc/{process.pid}/schedstat", encoding="ascii") as file:
        return int(file.read().split()[0]) / 1e9


class Side:
    """A run of the crate `measure` or of `load.rs`, whose steps are taken one by one and timed by the
    clock. Another process, which answers it, may be watched meanwhile."""

    def __init__(self, *words, server=None):
        words = list(map(str, words))
        self.process = subprocess.Popen(words, bufsize=0, stdin=subprocess.PIPE, stdout=subprocess.PIPE)
        self.server = server
        self.number = look(self.process)[0]

    def step(self):
        """The number of a step, its time by the clock, and the processor's time of the server."""
        before = processor_time(self.server) if self.server else 0
        start = time.perf_counter()
        self.process.stdin.write(b"\n")
        select.select([self.process.stdout], [], [])
        taken = time.perf_counter() - start
        number = look(self.process)[0]
        return number, taken, processor_time(self.server) - before if self.server else 0

    def asked(self):
        """The steps of requests that are made, and then asked."""
        self.step()
        return self.step()

    def end(self):
        self.process.stdin.close()
        self.process.stdout.close()
        if self.process.wait(60) != 0:
            sys.exit(f"{' '.join(self.process.args)}: status {self.process.returncode}")


class Loopback:
    """A server that listens, a client of it, a hub in a process of its own, and a bare exchange of the
    bytes of a look-up. In each round all take their turns. For each the times of a frame by the clock,
    and the processor's times of the server."""

    def __init__(self):
        words = [word for key, value in SERVE_KEYS.items() for word in (f"--{key}", value * 32)]
        words = [DIRECTORYD, "listen", *words, "--idle", "0", "--until-eof", "127.0.0.1:0"]
        self.server = subprocess.Popen(words, stdin=subprocess.PIPE, stderr=subprocess.PIPE)
        port = self.port = self.server.stderr.readline().rpartition(b":")[2].decode().strip()
        self.memory = [self.look()]
        self.idle = self.idle_bytes()
        words = [HUB_NAMES, SERVE_FRAMES, IN_FLIGHT, SERVE_ROUNDS]
        self.client = Side(LOAD, "ask", port, *words, server=self.server)
        self.memory.append(self.look())
        self.hub = Side(MEASURE, "hub", HUB_NAMES, SERVE_FRAMES, PIECES[0], SERVE_ROUNDS)
        self.answer = self.bare = None
        self.times, self.used, self.bytes = {}, {}, {}
        for _ in range(SERVE_ROUNDS):
            self.round()
        self.memory.append(self.look())
        self.compare()
        for side in (self.client, self.hub, self.bare, self.answer):
            side.end()

    def end(self):
        """An order to stop."""
        self.server.stdin.close()
        if self.server.wait(60) != 0:
            sys.exit(f"directoryd listen: status {self.server.returncode}")

    def idle_bytes(self):
        """The resident memory that the server has for each of many connections that are idle."""
        before = self.look()[0]
        clients = [socket.create_connection(("127.0.0.1", int(self.port))) for _ in range(IDLE_CONNECTIONS)]
        for client in clients:
            client.sendall(bytes.fromhex("0000000106"))
            client.recv(4096)
        after = self.look()[0]
        for client in clients:
            client.close()
        return (after - before) / IDLE_CONNECTIONS

    def look(self):
        """The resident memory of the server, and its peak."""
        wait_until_it_waits(self.server)
        return tuple(int(status_field(self.server, name)) * 1024 for name in ("VmRSS", "VmHWM"))

    def keep(self, which, step):
        number, clock, used = step
        self.times.setdefault(which, []).append(clock / SERVE_FRAMES)
        self.used.setdefault(which, []).append(used / SERVE_FRAMES)
        self.bytes.setdefault(which, []).append(number)

    def compare(self):
        """The replies of the server have as many bytes as those of the hub. The client asks twice in a
        round, so that the hub is asked what the client asks in the first half of the rounds."""
        for request in HUB_REQUESTS:
            pairs = zip(self.bytes[request, 1], self.bytes[request, IN_FLIGHT])
            told = [number for pair in pairs for number in pair][:SERVE_ROUNDS]
            wanted = self.bytes[request, "hub"]
            if told != wanted:
                sys.exit(f"{request}: replies of {told} bytes, and {wanted} was wanted")

    def round(self):
        for request in HUB_REQUESTS:
            for in_flight in (1, IN_FLIGHT):
                self.keep((request, in_flight), self.client.asked())
                if (request, in_flight) == ("look-up", 1):
                    self.exchange()
            for _ in range(3):
                self.hub.step()
            self.keep((request, "hub"), self.hub.step())

    def exchange(self):
        """The bare exchange: as many bytes as the look-ups of a step before had."""
        if self.bare is None:
            reply = round(self.bytes["look-up", 1][0] / SERVE_FRAMES)
            self.answer = Side(LOAD, "answer", HUB_REQUESTS["look-up"], reply, 1, 1)
            self.answer.process.stdin.write(b"\n")
            words = [self.answer.number, HUB_NAMES, SERVE_FRAMES, SERVE_ROUNDS]
            self.bare = Side(LOAD, "exchange", *words, server=self.answer.process)
        self.keep(("look-up", "bare"), self.bare.asked())

    def row(self, request, which, name):
        times = Spread(self.times[request, which])
        used = statistics.median(self.used[request, which]) * 1e6
        size = statistics.mean(self.bytes[request, which]) / SERVE_FRAMES
        row = [request, name, f"{size:.0f}", f"{1 / times.median:,.0f}"]
        return [*row, *times.cells(1e6, 2), f"{used:.2f}" if used else "-"]

    def part(self, mine, its):
        """The median of the parts of the rounds."""
        pairs = zip(self.times["look-up", mine], self.times["look-up", its])
        return statistics.median(a / b for a, b in pairs)


class Crowd:
    """So many connections, each with so many look-ups at a time: of a server that listens on a port, and of a bare
    exchange of as many bytes, whose replies have so many. Each is asked in turn."""

    def __init__(self, connections, together, server, port, reply):
        self.connections, self.together = connections, together
        self.answer = Side(LOAD, "answer", HUB_REQUESTS["look-up"], reply, connections, together)
        self.answer.process.stdin.write(b"\n")
        # As many of each connection, as often as it takes.
        of_all = connections * together
        self.frames = max(1, CROWD_FRAMES // of_all) * of_all
        words = [HUB_NAMES, connections, self.frames, CROWD_ROUNDS, together]
        self.sides = {"": Side(LOAD, "crowd", port, *words, server=server)}
        self.sides["bare"] = Side(LOAD, "crowd", self.answer.number, *words, server=self.answer.process)
        self.rates = {name: [] for name in self.sides}
        self.times = {name: ([], [], []) for name in self.sides}

    def round(self):
        for name, side in self.sides.items():
            _, clock, _ = side.asked()
            self.rates[name].append(self.frames / clock)
            for kept in self.times[name]:
                kept.append(side.step()[0])

    def end(self):
        for side in (*self.sides.values(), self.answer):
            side.end()

    def rows(self, wanted):
        """A row of each side. The rate is also told as a part of this one."""
        for name, rates in self.rates.items():
            rate = statistics.median(rates)
            middle, late, worst = (statistics.median(times) / 1e3 for times in self.times[name])
            row = [f"{self.connections:,}", f"{self.together}", name, f"{rate:,.0f}", f"{rate / wanted:.2f}"]
            yield [*row, f"{middle:,.0f}", f"{late:,.0f}", f"{worst:,.0f}", f"{late / middle:.1f}"]


def crowds(loop):
    """Many connections at once, beside the one with many look-ups in flight."""
    wanted = 1 / statistics.median(loop.times["look-up", IN_FLIGHT])
    reply = round(loop.bytes["look-up", 1][0] / SERVE_FRAMES)
    rows = []
    for connections, together in CROWDS:
        crowd = Crowd(connections, together, loop.server, loop.port, reply)
        for _ in range(CROWD_ROUNDS):
            crowd.round()
        crowd.end()
        rows += crowd.rows(wanted)
    head = ["connections", "at a time", "", "a second", "part", "50th", "99th", "worst", "99th of the 50th"]
    title = f"look-ups by many connections, so many of each at a time, and their part of the rate of one with {IN_FLIGHT} in flight; us"
    table(title, head, rows)
    print(f"\nan idle connection: {loop.idle / 1024:.1f} KiB of resident memory")


def serve(_folder):
    # A client and a server have a file handle for each connection.
    most = resource.getrlimit(resource.RLIMIT_NOFILE)[1]
    resource.setrlimit(resource.RLIMIT_NOFILE, (most, most))
    # All run on one processor. With two, much of the time is that of waking the other one, and it
    # depends on where the system puts which process.
    os.sched_setaffinity(0, {max(os.sched_getaffinity(0))})
    loop = Loopback()
    kinds = {"hub": "hub", IN_FLIGHT: f"{IN_FLIGHT} in flight", 1: "one at a time", "bare": "bare"}
    head = ["", "", "bytes", "a second", "least", "median", "greatest", "server"]
    rows = [
        loop.row(request, which, name)
        for request in reversed(HUB_REQUESTS)
        for which, name in kinds.items()
        if (request, which) in loop.times
    ]
    table("a request by the clock, and the server's processor time, us", head, rows)
    print(f"\nlook-ups, {IN_FLIGHT} in flight: {loop.part('hub', IN_FLIGHT):.2f} of the hub's rate")
    print(f"look-ups, one at a time: {loop.part(1, 'bare'):.2f} of a bare exchange's time")
    times = ["when it listens", f"with {HUB_NAMES:,} names", "at the end"]
    rows = [
        [at, *(f"{bytes_now / 2**20:.1f}" for bytes_now in memory)]
        for at, memory in zip(times, loop.memory)
    ]
    table("resident memory of the server, MiB", ["", "now", "peak"], rows)
    crowds(loop)
    loop.end()


class Audits:
    """The runs of `measure audit` on a chain of so many roots: the times of one digest of a body and of
    one of what is signed of it; of a root that extends the chain, and of one that it has; and, for each
    kind of evidence, of its digests and of its judging."""

    def __init__(self, roots):
        self.roots = roots
        self.body, self.signature, self.taken, self.known = [], [], [], []
        self.digests = {kind: [] for kind in EVIDENCE}
        self.judged = {kind: [] for kind in EVIDENCE}
        for _ in range(AUDIT_RUNS[roots]):
            self.run()

    def run(self):
        words = [self.roots, AUDIT_MORE, AUDIT_SIBLINGS, JUDGEMENTS, DIGESTS // 10]
        _, run_steps = steps(7 + 2 * len(EVIDENCE), "audit", *words)
        body, signature, chain, taken, known, *cases, body_after, signature_after = run_steps
        numbers = [step.number for step in (chain, taken, known, *cases[1::2])]
        if numbers != [self.roots, AUDIT_MORE, AUDIT_MORE] + len(EVIDENCE) * [JUDGEMENTS]:
            sys.exit(f"audit: {numbers} roots and judgements")
        self.body += [body.seconds, body_after.seconds]
        self.signature += [signature.seconds, signature_after.seconds]
        self.taken.append(taken.seconds)
        self.known.append(known.seconds)
        for kind, digests, judged in zip(EVIDENCE, cases[::2], cases[1::2]):
            self.digests[kind].append(digests.seconds)
            self.judged[kind].append(judged.seconds)

    def root_row(self):
        body, signature = (min(taken) * 10 / DIGESTS for taken in (self.body, self.signature))
        row = [f"{self.roots:,}"]
        for times, digests in ((self.taken, body + signature), (self.known, signature)):
            spread = Spread(times, AUDIT_MORE)
            row += [f"{1 / spread.least:,.0f}", *spread.cells(1e6, 2)]
            row.append(f"{spread.least / digests:.2f}")
        return [*row, f"{body * 1e9:.0f}", f"{signature * 1e9:.0f}"]

    def evidence_row(self, kind):
        judged, digests = (Spread(times[kind], JUDGEMENTS) for times in (self.judged, self.digests))
        row = [kind, f"{1 / judged.least:,.0f}", *judged.cells(1e6, 2)]
        return [*row, f"{digests.least * 1e6:.2f}", f"{judged.least / digests.least:.2f}"]


def audit(_folder):
    chains = [Audits(roots) for roots in AUDIT_RUNS]
    spread = ["least", "median", "greatest", "ratio"]
    head = ["roots", "next/s", *spread, "known/s", *spread, "body, ns", "signature, ns"]
    rows = [each.root_row() for each in chains]
    table("a signed root observed, that extends the chain, or that it has, us", head, rows)
    head = ["kind", "judged/s", "least", "median", "greatest", "digests, us", "ratio"]
    rows = [chains[-1].evidence_row(kind) for kind in EVIDENCE]
    table("evidence judged, microseconds", head, rows)
    promise, final = (min(chains[-1].judged[kind]) for kind in EVIDENCE[-2:])
    print(f"\na broken-final takes {final / promise:.2f} times as long as a broken-promise")


class Turns:
    """Rounds in which the same replies are read and checked, taken by a client or a monitor, and read and
    checked once more: the times, and for each round the ratio of what is taken to the mean of its
    checks."""

    def __init__(self, count):
        self.count = count
        self.checks, self.taken, self.ratios = [], [], []

    def round(self, digests, before, taken, after):
        wanted = [digests, self.count, digests]
        numbers = [before.number, taken.number, after.number]
        if numbers != wanted:
            sys.exit(f"digests and looks: {numbers}, and {wanted} was wanted")
        self.checks += [before.seconds, after.seconds]
        self.taken.append(taken.seconds)
        self.ratios.append(2 * taken.seconds / (before.seconds + after.seconds))

    def cells(self):
        taken, checks = (Spread(times, self.count) for times in (self.taken, self.checks))
        row = [f"{1 / taken.median:,.0f}", *taken.cells(1e6, 2), *checks.cells(1e6, 2)]
        return [*row, f"{taken.least / checks.least:.2f}", f"{statistics.median(self.ratios):.2f}"]


TURN_HEAD = ["a second", "least", "median", "greatest", "checks", "median", "greatest", "ratio", "rounds"]


def look_row(epochs):
    """The row of a client that looked all names up at so many epochs."""
    rounds, runs_made = LOOK_RUNS[epochs]
    looks, turns, memory, searched = epochs * LOOK_NAMES, Turns(LOOK_NAMES), [], []
    for _ in range(runs_made):
        words = [LOOK_NAMES, LOOK_SIBLINGS, LOOK_ROOTS, epochs, rounds]
        _, (kept, changes, *run_steps) = steps(2 + 4 * rounds, "looks", *words)
        if changes.number != LOOK_NAMES:
            sys.exit(f"looks: {changes.number} names have no changed binding, and {LOOK_NAMES} was wanted")
        searched.append(changes.seconds)
        digests = digests_of(kept.number // epochs, LOOK_NAMES)
        memory.append((kept.memory - kept.number) / looks)
        for k in range(0, 4 * rounds, 4):
            turns.round(digests, *run_steps[k + 1 : k + 4])
    finality = statistics.median(searched) * 1e9 / looks
    return [f"{looks:,}", *turns.cells(), f"{statistics.median(memory):.0f}", f"{finality:.0f}"]


def update_row(before, piece=0, runs_made=None):
    """The row of a client that has so many lists of 64 roots, for lists that come whole or in pieces."""
    digests, taken, known = [[], []], [], []
    for _ in range(runs_made or UPDATE_RUNS[before]):
        words = [before, UPDATE_LISTS, DIGESTS // 10, piece]
        _, run_steps = steps(7, "updates", *words)
        body, signature, first, more, again, *after = run_steps
        roots = [64 * before, 64 * (before + UPDATE_LISTS)]
        if [first.number, more.number, again.number] != [*roots, roots[1]]:
            sys.exit(f"updates: the heads are {first.number}, {more.number} and {again.number}")
        for kept, steps_of in zip(digests, zip((body, signature), after)):
            kept += [step.seconds for step in steps_of]
        taken.append(more.seconds)
        known.append(again.seconds)
    body, signature = (min(times) * 10 / DIGESTS for times in digests)
    row = [f"{piece or 64 * before:,}"]
    for times, each in ((taken, body + signature), (known, signature)):
        spread = Spread(times, UPDATE_LISTS)
        row += [f"{1 / spread.least:,.0f}", *spread.cells(1e6, 1)]
        row.append(f"{spread.least / (64 * each):.2f}")
    return [*row, f"{body * 1e9:.0f}", f"{signature * 1e9:.0f}"]


def watch_row():
    turns = Turns(WATCH_EPOCHS)
    for _ in range(WATCH_RUNS):
        _, run_steps = steps(4 * WATCH_ROUNDS, "watch", LOOK_SIBLINGS, WATCH_EPOCHS, WATCH_ROUNDS)
        for k in range(0, 4 * WATCH_ROUNDS, 4):
            turns.round(WATCH_EPOCHS * (LOOK_SIBLINGS + 3), *run_steps[k + 1 : k + 4])
    return turns.cells()


def finality_rows(indices):
    """The rows of clients whose k looks of one name have so many indices in turn, or one each for 0. The growth is
    that of the time divided by k log k, from the row before."""
    before = None
    for looks, (times, runs_made) in FINALITY_RUNS.items():
        taken = [], []
        for _ in range(runs_made):
            words = [LOOK_SIBLINGS, looks, indices or looks, times]
            _, (none, _, change) = steps(3, "finality", *words)
            if [none.number, change.number] != [0, times]:
                sys.exit(f"finality: {none.number} and {change.number} changes, and 0 and {times} was wanted")
            for kept, step in zip(taken, (none, change)):
                kept.append(step.seconds / times)
        shares = [min(kept) / (looks * math.log2(looks)) for kept in taken]
        row = [f"{looks:,}", f"{indices or looks:,}"]
        for kept, share, share_before in zip(taken, shares, before or shares):
            row += [*Spread(kept).cells(1e3, 2), f"{min(kept) * 1e9 / looks:.0f}", f"{share / share_before:.2f}"]
        yield row
        before = shares


def client(_folder):
    rows = [look_row(epochs) for epochs in LOOK_RUNS]
    title = "a look, and the reading and check of its reply, microseconds; bytes kept beside the reply's; finality, ns a look"
    table(title, ["looks kept", *TURN_HEAD, "bytes", "finality"], rows)
    each = ["least", "median", "greatest", "ns a look", "growth"]
    head = ["looks of one name", "indices", *each, "last changes", *each[1:]]
    title = "finality, where no look changes a final binding, and where the last does; milliseconds"
    table(title, head, [row for indices in FINALITY_INDICES for row in finality_rows(indices)])
    rows = [update_row(before) for before in UPDATE_RUNS]
    spread = ["least", "median", "greatest", "ratio"]
    head = ["roots", "new/s", *spread, "known/s", *spread, "body, ns", "signature, ns"]
    table("an update by 64 roots, new ones and known ones, microseconds", head, rows)
    rows = [update_row(PIECES_BEFORE, size, PIECE_RUNS) for size in PIECE_SIZES]
    head = ["piece", *head[1:]]
    table("64 roots in pieces of so many bytes, new ones and known ones, microseconds", head, rows)
    title = "a step of a monitor, and the reading and check of its reply, microseconds"
    table(title, TURN_HEAD, [watch_row()])


def made_nodes(new, old, low, high, old_low, old_high, prefix=0, level=0, is_old=True):
    """The lengths of the texts of the nodes at and below a prefix of `level` bits, which sorted new[low:high] have,
    and which sorted old[old_low:old_high], all of them new ones too, have not."""
    if is_old and high - low == old_high - old_low:
        return
    if high - low < 2:
        yield LEAF if high > low else EMPTY
        return
    yield INTERIOR
    one = prefix | 1 << (255 - level)
    middle = bisect.bisect_left(new, one, low, high)
    old_middle = bisect.bisect_left(old, one, old_low, old_high)
    is_below = is_old and old_high - old_low > 1
    yield from made_nodes(new, old, low, middle, old_low, old_middle, prefix, level + 1, is_below)
    yield from made_nodes(new, old, middle, high, old_middle, old_high, one, level + 1, is_below)


class Play:
    """A script of registrations, closings, monitors and look-ups: its lines, what it prints, and how many texts
    of each length are digested for it."""

    def __init__(self):
        self.lines, self.printed, self.digests = [], [], collections.Counter()
        self.indices, self.by_name = [], {}
        names = [b"name-%05d" % number for number in range(PLAY_NAMES)]
        watched, step = names[:: PLAY_NAMES // PLAY_WATCHED], PLAY_NAMES // PLAY_CLOSINGS
        for name in watched:
            self.say(f"watch {name.hex()} -", [f"kept {name.hex()} 1"])
        for epoch in range(1, PLAY_CLOSINGS + 1):
            for name in names[epoch - 1 :: PLAY_CLOSINGS]:
                self.register(name, epoch)
            self.close(epoch + 1, watched)
            held = list(self.by_name)
            for number in range(PLAY_LOOK_UPS // PLAY_CLOSINGS):
                self.look_up(held[(number * 7919 + epoch) % len(held)], epoch + 1)

    def say(self, line, printed):
        self.lines.append(line)
        self.printed += printed

    @staticmethod
    def key(name):
        return hashlib.sha256(name).digest()

    def digest(self, *lengths):
        self.digests.update(lengths)

    def register(self, name, epoch):
        self.say(f"register {name.hex()} {self.key(name).hex()}", [f"promise {epoch}"])
        value = hashlib.sha256(b"V" + bytes([2] * 32) + name).digest()
        self.by_name[name] = int.from_bytes(hashlib.sha256(value).digest(), "big")
        # The value of the name and its index, the commitment, and the signature of the promise.
        rest = len(name) + 32
        self.digest(33 + len(name), VALUE, 38 + rest, 33 + 78 + rest)

    def close(self, epoch, watched):
        self.say(f"close {epoch}", [f"root {epoch} after {epoch - 1}"])
        old, self.indices = self.indices, sorted(self.by_name.values())
        self.digest(*made_nodes(self.indices, old, 0, len(self.indices), 0, len(old)), BODY, SIGNED_BODY)
        # The client, the auditor and each monitor hash the body and check its signature.
        self.digest(*(2 + len(watched)) * [BODY, SIGNED_BODY])
        for name in watched:
            known = name in self.by_name
            self.printed.append(f"kept {name.hex()} {epoch}")
            self.check(name) if known else self.digest(33 + len(name), VALUE, LEAF)

    def look_up(self, name, epoch):
        self.say(f"lookup {name.hex()} 0", [f"present {epoch} {self.key(name).hex()}"])
        self.check(name)

    def check(self, name):
        """The check of a reply: the value and the index, the commitment, the leaf, and the nodes above it."""
        level = level_of(self.indices, self.by_name[name])
        self.digest(33 + len(name), VALUE, 38 + len(name) + 32, LEAF, *level * [INTERIOR])


def play(folder):
    script = Play()
    with open(f"{folder}/script", "w", encoding="ascii") as file:
        file.writelines(f"{line}\n" for line in script.lines)
    printed = "".join(f"{line}\n" for line in script.printed).encode()
    each = {length: digest_times(length).least for length in script.digests}
    clock, processor = [], []
    for _ in range(PLAY_RUNS):
        taken, used = run(["play"], f"{folder}/script", printed)
        clock.append(taken)
        processor.append(used)
    count, digests = script.digests.total(), sum(each[length] * count for length, count in script.digests.items())
    times, lines = Spread(processor), len(script.lines)
    head = ["lines", "a second", "by the clock", "least", "median", "greatest", "digests", "their time", "ratio"]
    row = [f"{lines:,}", f"{lines / times.median:,.0f}", f"{statistics.median(clock):.3f}", *times.cells(1, 3)]
    row += [f"{count:,}", f"{digests:.3f}", f"{times.least / digests:.2f}"]
    table("directoryd play, seconds", head, [row])


class Asking:
    """Runs of `ask`, with the provider's keys in a file, against a server that listens."""

    def __init__(self, port, provider):
        self.port, self.provider, self.first, self.epoch = port, provider, 0, 1

    def run(self, lines, *words, state=None, free=False):
        """The seconds of a run over these lines, and what it prints."""
        words = [*words, *(["--state", state] if state else [])]
        words = [DIRECTORYD, "ask", "--provider", self.provider, *words, f"127.0.0.1:{self.port}"]
        more = {"LD_PRELOAD": os.path.abspath(FREE_SYNCS), "FREE_SYNCS": "1"} if free else {}
        script = "".join(f"{line}\n" for line in lines).encode()
        begun = time.perf_counter()
        run = subprocess.run(words, input=script, capture_output=True, env={**os.environ, **more})
        taken = time.perf_counter() - begun
        if run.returncode != 0:
            sys.exit(f"directoryd ask: status {run.returncode}, {run.stderr}")
        return taken, run.stdout

    def names(self, count):
        """So many names that are new."""
        self.first += count
        return [f"{number:08x}" for number in range(self.first - count, self.first)]

    def close(self):
        self.epoch += 1
        self.run([f"close {self.epoch}"], "--token", SERVE_KEYS["token"] * 32)

    def registered(self, count, state, free):
        """The seconds of each of so many registrations."""
        taken, said = self.run([f"register {name} 6b31" for name in self.names(count)], state=state, free=free)
        if said != f"promise {self.epoch}\n".encode() * count:
            sys.exit(f"directoryd ask: {said}")
        return taken / count

    def registrations(self, folder, count):
        ways = {"none": [], "free": [], "synced": []}
        for turn in range(ASKED_RUNS):
            for way, times in ways.items():
                state = None if way == "none" else f"{folder}/{way} {count} {turn}"
                times.append(self.registered(count, state, way == "free"))
        none, free, synced = (Spread(times) for times in ways.values())
        row = [f"{count:,}", *none.cells(1e6, 1), *free.cells(1e6, 1), f"{free.least / none.least:.2f}"]
        return [*row, *synced.cells(1e6, 1)]

    def closed(self, count, state):
        """The seconds of each of so many lines, a closing behind each registration."""
        lines = []
        for name in self.names(count // 2):
            self.epoch += 1
            lines += [f"register {name} 6b31", f"close {self.epoch}"]
        return self.run(lines, "--token", SERVE_KEYS["token"] * 32, state=state, free=state is not None)[0] / count

    def closings(self, folder, count):
        none, free = [], []
        for turn in range(ASKED_RUNS):
            none.append(self.closed(count, None))
            free.append(self.closed(count, f"{folder}/closed {count} {turn}"))
        none, free = Spread(none), Spread(free)
        return ["closings behind registrations", f"{count:,}", *none.cells(1e6, 1), *free.cells(1e6, 1), f"{free.least / none.least:.2f}"]

    def changed(self, names, state):
        """The seconds of each line of a run in which names get other keys, an epoch ends, and they are watched."""
        self.epoch += 1
        lines = [f"change {name} {self.epoch:08x}" for name in names] + [f"close {self.epoch}"]
        lines += [f"watch {name} {self.epoch:08x}" for name in names]
        return self.run(lines, "--token", SERVE_KEYS["token"] * 32, state=state, free=state is not None)[0] / len(lines)

    def changes(self, folder, count):
        """The same questions, with a state that watched the names before and without one."""
        others, names, state = self.names(count), self.names(count), f"{folder}/changed {count}"
        for each in others, names:
            self.run([f"register {name} 6b31" for name in each], state=state)
        self.close()
        none = Spread([self.changed(others, None) for _ in range(ASKED_RUNS)])
        self.run([f"watch {name} 6b31" for name in names], state=state)
        free = Spread([self.changed(names, state) for _ in range(ASKED_RUNS)])
        row = ["changes, then watched", f"{2 * count + 1:,}", *none.cells(1e6, 1), *free.cells(1e6, 1)]
        return [*row, f"{free.least / none.least:.2f}"]

    def watches(self, folder, count):
        """Rows of `watch` lines: of names that were watched before, and of those with a change that waits."""
        names, state = self.names(count), f"{folder}/watched {count}"
        self.run([f"register {name} 6b31" for name in names], state=state)
        self.close()
        self.run([f"watch {name} 6b31" for name in names], state=state)
        self.close()
        yield ["names watched before", *self.watch_row(names, state, "6b31")]
        self.run([f"watch {name} 6b31" for name in names], state=state)
        self.run([f"change {name} 6b32" for name in names], state=state)
        self.close()
        yield ["names with a change", *self.watch_row(names, state, "6b32")]

    def watch_row(self, names, state, key):
        none, free = [], []
        for turn in range(ASKED_RUNS):
            none.append(self.run([f"watch {name} {key}" for name in names])[0])
            for end in ("", ".kept"):
                shutil.copyfile(state + end, f"{state} {turn}{end}")
            free.append(self.run([f"watch {name} {key}" for name in names], state=f"{state} {turn}", free=True)[0])
        none, free = Spread(none, len(names)), Spread(free, len(names))
        return [f"{len(names):,}", *none.cells(1e6, 1), *free.cells(1e6, 1), f"{free.least / none.least:.2f}"]


def ask(folder):
    provider = f"{folder}/provider"
    with open(provider, "w", encoding="ascii") as file:
        file.write(f"provider {SERVE_KEYS['sign-key'] * 32}\n")
    words = [word for key, value in SERVE_KEYS.items() for word in (f"--{key}", value * 32)]
    server = subprocess.Popen([DIRECTORYD, "listen", *words, "127.0.0.1:0"], stderr=subprocess.PIPE)
    asking = Asking(server.stderr.readline().rpartition(b":")[2].decode().strip(), provider)
    try:
        with tempfile.TemporaryDirectory(dir=".") as disk:
            rows = [asking.registrations(disk, count) for count in ASKED]
            others = [asking.closings(disk, count) for count in CLOSED]
            others += [asking.changes(disk, count) for count in WATCHED]
            others += [row for count in WATCHED for row in asking.watches(disk, count)]
    finally:
        server.kill()
    spread = ["median", "greatest"]
    head = ["lines", "no state", *spread, "state, syncs free", *spread, "ratio", "state", *spread]
    table("registrations in a run of directoryd ask, microseconds by the clock for each", head, rows)
    head = ["what", "lines", "no state", *spread, "state, syncs free", *spread, "ratio"]
    table("closings, and watch lines, in a run of directoryd ask, microseconds by the clock for each", head, others)


def main(which):
    with tempfile.TemporaryDirectory() as folder:
        print_machine()
        of = {"root": root, "tree": tree, "changes": changes, "replies": replies}
        of |= {"reconcile": reconcile, "epochs": epochs, "journal": journal, "hub": hub, "serve": serve}
        of |= {"audit": audit, "client": client, "play": play, "ask": ask, "check": check_from_c}
        of[which](folder)
    print(f"\nload at the end {os.getloadavg()[0]:.2f}")


if __name__ == "__main__":
    main(*sys.argv[1:])
