#!/usr/bin/env python3
"""Compares `directoryd root` with its peer, the same program in plain Rust (root_peer.rs).

usage: bench/root_peer.py [BUILD..], at the top of the repository

Each BUILD, x86-64-v2 or x86-64-v3, is one for which bench/out/root_peer-BUILD is there. DIRECTORYD is the program that
is built for x86-64-v2, crates/directoryd/out/directoryd if it is not set. DIRECTORYD_V3 is one that is built for
x86-64-v3, if there is one. MEASURE and MEASURE_V3 are the programs measure of the same builds; crates/measure/out/measure
if the first is not set.

All programs have to print one root for the same items, or the status is 1. The columns:

- seconds: the processor's time, user and system; least, median and greatest of several runs, of all programs in turn
- ratio: that of directoryd divided by that of the peer of the same build
- of digests: that of directoryd, but for reading and sorting the items, divided by that of as many digests, of interior
  nodes and of leaves, all at once, just before; the median
- bytes an item: the peak of resident memory, divided by the number of items
- growth: the time of an item, of the longest random list divided by that of the shortest
- but for a start: the same, once the time of a run over no items is taken off both
"""

import os
import random
import shutil
import statistics
import subprocess
import sys
import tempfile
from typing import NamedTuple

sys.dont_write_bytecode = True

from bench import TEXTS, TEXT_ROUNDS, Spread, peak_memory, print_processor, run_over, steps_of, table, write_items

V2, V3 = "x86-64-v2", "x86-64-v3"
SELF, PEER = "directoryd", "peer"

# The random lists that are only compared, also under this nonce.
COMPARED, NONCE = (0, 1, 2, 10_000), "5a" * 32
# How often each size of a random list is measured.
RUNS = {0: 40, 1_000: 40, 100_000: 10, 1_000_000: 5}
SHORTEST, LONGEST = 1_000, 1_000_000
# The worst shapes: the pairs, the items below one prefix, the bits of that; and the runs.
PAIRS, BELOW, PREFIX, SHAPE_RUNS = 10_000, 10_000, 200, 7


class Program(NamedTuple):
    name: str
    build: str
    words: tuple


def programs(builds):
    """Those that are there."""
    found = [Program(SELF, V2, (os.environ.get("DIRECTORYD") or "crates/directoryd/out/directoryd", "root"))]
    if os.environ.get("DIRECTORYD_V3"):
        found.append(Program(SELF, V3, (os.environ["DIRECTORYD_V3"], "root")))
    return found + [Program(PEER, build, (f"bench/out/root_peer-{build}",)) for build in builds]


# ---- items


def write_shape(path, numbers, source):
    """Writes items of these indices, in any order."""
    source.shuffle(numbers)
    with open(path, "w", encoding="ascii") as file:
        for number in numbers:
            file.write(f"{number:064x} {source.getrandbits(256):064x}\n")


def write_pairs(path):
    """Writes pairs of indices that differ in the last bit alone."""
    source = random.Random(PAIRS)
    numbers = [source.getrandbits(256) for _ in range(PAIRS)]
    write_shape(path, numbers + [number ^ 1 for number in numbers], source)


def write_below_prefix(path):
    """Writes items whose indices have one prefix."""
    source, rest = random.Random(BELOW), 256 - PREFIX
    prefix = source.getrandbits(PREFIX) << rest
    write_shape(path, [prefix | source.getrandbits(rest) for _ in range(BELOW)], source)


def digests_of(path):
    """The nodes of the tree of these items, and so the digests of its root. Neighbours in order of index stand together
    in each node above the bit that tells them apart, in those of fewer bits with the neighbour before them too."""
    with open(path, encoding="ascii") as file:
        numbers = sorted(int(line[:64], 16) for line in file)
    agreed = [256 - (one ^ other).bit_length() for one, other in zip(numbers, numbers[1:])]
    interior = sum(max(0, bits - before) for before, bits in zip([-1, *agreed], agreed))
    return 2 * interior + 1


# ---- measures


def measures():
    """The program that measures digests, by build, where it is there."""
    found = {V2: os.environ.get("MEASURE", "crates/measure/out/measure"), V3: os.environ.get("MEASURE_V3", "")}
    return {build: name for build, name in found.items() if os.access(name, os.X_OK)}


def digest_time(name, digests):
    """The time of so many digests, all at once, of which half but one are of interior nodes and the others of leaves."""
    words = [name, "texts", f"{TEXTS}", f"{TEXT_ROUNDS}"]
    _, (_, interiors, _, leaves) = steps_of(words, 4)
    interior, leaf = (step.seconds / (TEXTS * TEXT_ROUNDS) for step in (interiors, leaves))
    return digests // 2 * interior + (digests + 1) // 2 * leaf


def digest_ratios(those, items, digests, reading, count):
    """By build, the median of the times of directoryd, but for reading, each divided by that of its digests just before."""
    found = {}
    for program in those:
        name = measures().get(program.build)
        if program.name == SELF and name:
            taken = [(digest_time(name, digests), run_over(program.words, items, b"root ")[2]) for _ in range(count)]
            found[program.build] = statistics.median((whole - reading[program]) / alone for alone, whole in taken)
    return found


def times_in_turn(those, name, items, count, *words):
    """The processor's times of so many runs of each program over the items of this name, by program. All have to print
    one root."""
    times, roots = {program: [] for program in those}, {}
    for _ in range(count):
        for program in those:
            answer, _, taken = run_over([*program.words, *words], items, b"root ")
            times[program].append(taken)
            roots[answer] = program
    if len(roots) != 1:
        for answer, program in roots.items():
            print(f"{program.name}, {program.build}: {answer}", file=sys.stderr)
        sys.exit(f"{name}: the roots differ")
    return {program: Spread(taken) for program, taken in times.items()}


def compare(those, folder):
    items = f"{folder}/items"
    for size in COMPARED:
        write_items(items, size)
        times_in_turn(those, f"{size:,} items", items, 1)
        times_in_turn(those, f"{size:,} items, a nonce", items, 1, "--nonce", NONCE)
    sizes = ", ".join(f"{size:,}" for size in COMPARED)
    print(f"{len(those)} programs, one root of {sizes} items, with a nonce and without one")


def builds_of(those):
    return [build for build in (V2, V3) if any(program.build == build for program in those)]


def cells(those, build, width, cells_of):
    """The cells of directoryd and those of the peer, of this build."""
    by_name = {program.name: program for program in those if program.build == build}
    for name in (SELF, PEER):
        yield from cells_of(by_name[name]) if name in by_name else ["-"] * width


def ratio(those, build, number_of):
    by_name = {program.name: number_of(program) for program in those if program.build == build}
    return f"{by_name[SELF] / by_name[PEER]:.2f}" if len(by_name) == 2 else "-"


def reading_times(those, items, count):
    """The least of the times that each directoryd takes to read and to sort the items: with a malformed line behind them it
    does no more."""
    with open(items, "a", encoding="ascii") as file:
        file.write("x\n")
    found = {}
    for program in those:
        if program.name == SELF:
            found[program] = min(time_of_refusal(program, items) for _ in range(count))
    return found


def time_of_refusal(program, items):
    with open(items, "rb") as file:
        process = subprocess.Popen(program.words, stdin=file, stdout=subprocess.DEVNULL, stderr=subprocess.DEVNULL)
        _, status, usage = os.wait4(process.pid, 0)
    process.returncode = status
    if os.waitstatus_to_exitcode(status) != 1:
        sys.exit(f"{' '.join(program.words)} does not refuse a malformed line")
    return usage.ru_utime + usage.ru_stime


class Measured(NamedTuple):
    """A list of items, the digests of its root, by program the times and the peak of memory, and by build the
    ratio to the digests."""

    name: str
    size: int
    digests: int
    times: dict
    memory: dict
    of_digests: dict

    def time_rows(self, those):
        for build in builds_of(those):
            spread = cells(those, build, 3, lambda program: self.times[program].cells(1, 4))
            part = ratio(those, build, lambda program: self.times[program].least)
            yield [self.name, f"{self.digests:,}", build, *spread, part, f"{self.of_digests[build]:.2f}" if build in self.of_digests else "-"]

    def memory_cells(self, program):
        return [f"{self.memory[program] / 2**20:.1f}", f"{self.memory[program] / self.size:.0f}"]

    def memory_rows(self, those):
        for build in builds_of(those):
            of_both = cells(those, build, 2, self.memory_cells)
            yield [self.name, build, *of_both, ratio(those, build, self.memory.get)]


def measured(those, name, size, items, count):
    times = times_in_turn(those, name, items, count)
    memory = {program: peak_memory(program.words, items) for program in those if size}
    digests = digests_of(items)
    ratios = {}
    if size:
        shutil.copyfile(items, f"{items}.refused")
        ratios = digest_ratios(those, items, digests, reading_times(those, f"{items}.refused", count), count)
    return Measured(name, size, digests, times, memory, ratios)


def measure_all(those, folder):
    items = f"{folder}/items"
    for size, count in RUNS.items():
        write_items(items, size)
        yield measured(those, f"{size:,}", size, items, count)
    write_pairs(items)
    yield measured(those, f"{PAIRS:,} pairs", 2 * PAIRS, items, SHAPE_RUNS)
    write_below_prefix(items)
    yield measured(those, f"{BELOW:,} in {PREFIX} bits", BELOW, items, SHAPE_RUNS)


def growth_row(program, lists):
    """How the time of an item grows from the shortest list to the longest."""
    start, short, long = (lists[size].times[program].least for size in (0, SHORTEST, LONGEST))
    row = [program.name, program.build, f"{short / SHORTEST * 1e9:.0f}", f"{long / LONGEST * 1e9:.0f}"]
    for off in (0, start):
        row.append(f"{(long - off) / LONGEST / ((short - off) / SHORTEST):.2f}")
    return row


def main(builds):
    those = programs(builds)
    print_processor()
    if builds:
        version = subprocess.run(["rustc", "--version"], capture_output=True, text=True, check=True).stdout
        print(f"the peer built by {version.strip()}")
    with tempfile.TemporaryDirectory() as folder:
        compare(those, folder)
        lists = list(measure_all(those, folder))
    of_each = [SELF, "median", "greatest", PEER, "median", "greatest", "ratio", "of digests"]
    rows = [row for each in lists for row in each.time_rows(those)]
    table("root of items, seconds", ["items", "digests", "built for", *of_each], rows)
    head = ["items", "built for", f"{SELF}, MiB", "bytes an item", f"{PEER}, MiB", "bytes an item", "ratio"]
    table("peak memory", head, [row for each in lists if each.size for row in each.memory_rows(those)])
    head = ["program", "built for", f"at {SHORTEST:,}", f"at {LONGEST:,}", "growth", "but for a start"]
    of_size = {each.size: each for each in lists}
    table("an item, ns", head, [growth_row(program, of_size) for program in those])
    print(f"\nload at the end {os.getloadavg()[0]:.2f}")


if __name__ == "__main__":
    main(sys.argv[1:])
