#!/usr/bin/env python3
"""Runs a command and prints what it costs in the time of processors, by crates, as Markdown.
scripts/gate/gate_cost.sh says how to call it.

The processes below the command are looked at five times a second. Each that checks, builds or runs a
crate, or is one of scripts/, is counted with all that it started. The system adds what an ended process
used to its parent's time, so what was used since the last look is found there: the sum over all is exact,
and only a process that ends within a look's time of another is counted in part as the other.
"""

import argparse
import collections
import os
import re
import signal
import subprocess
import sys
import time

TICK = os.sysconf("SC_CLK_TCK")
PAUSE = 0.2
PROOF, EDIT, RUN, SCRIPT = "proof", "edit", "run", "script"


class Stat:
    """What /proc says of a process: when it started, the ticks that it used itself, and those of its
    ended children."""

    def __init__(self, pid):
        with open(f"/proc/{pid}/stat", encoding="ascii", errors="replace") as file:
            fields = file.read().rpartition(")")[2].split()
        self.parent = int(fields[1])
        self.own = int(fields[11]) + int(fields[12])
        self.ended = int(fields[13]) + int(fields[14])
        self.start = int(fields[19])


def stat_of(pid):
    try:
        return Stat(pid)
    except OSError:
        return None


def children_of(pid):
    """The children of all threads of a process."""
    found = []
    try:
        for thread in os.listdir(f"/proc/{pid}/task"):
            with open(f"/proc/{pid}/task/{thread}/children", encoding="ascii") as file:
                found += map(int, file.read().split())
    except OSError:
        pass
    return found


def words_of(pid):
    try:
        with open(f"/proc/{pid}/cmdline", "rb") as file:
            return file.read().decode(errors="replace").split("\0")[:-1]
    except OSError:
        return []


def folder_of(pid):
    try:
        return os.readlink(f"/proc/{pid}/cwd")
    except OSError:
        return ""


def after(words, flag):
    """The word after this one."""
    at = words.index(flag) + 1 if flag in words else len(words)
    return words[at] if at < len(words) else ""


def kind_of(pid):
    """What a process is counted as, and of which crate or script; None where it is only looked through."""
    words = words_of(pid)
    name = os.path.basename(words[0]) if words else ""
    if name == "rattle" and (crate := after(words, "--crate-name")):
        # An edit is tried in a folder of its own, and so is the crate as it stands, before its edits.
        if os.path.basename(os.path.dirname(folder_of(pid) + "/")).startswith("rt-edit-"):
            return EDIT, crate
        return (RUN if "--crate-checked" in words else PROOF), crate
    if name == "rattle-link":
        return RUN, os.path.basename(after(words, "-o")).partition(".")[0]
    for word in words[:8]:
        if found := re.fullmatch(r".*/rt-run-[^/]*/bin/(\w+)", word):
            return RUN, found[1]
    for word in words[:3]:
        if found := re.fullmatch(r"(?:.*/)?(scripts/\w+/[\w.]+)", word):
            return SCRIPT, found[1]
    return None


class Tree:
    """The processes below one, and what they used so far."""

    def __init__(self, root):
        self.root = root
        # What was counted as a kind and a name, in ticks; and how many processes were.
        self.counted, self.processes = collections.Counter(), collections.Counter()
        # For the processes of the last look: their kind, parent and ticks; and their children's ticks of
        # those that are looked through.
        self.units, self.ended = {}, {}
        self.kinds, self.total, self.is_over = {}, 0, False

    def used_below(self, pid, stat):
        """The ticks of a process and of all that it started."""
        below = ((child, stat_of(child)) for child in children_of(pid))
        return stat.own + stat.ended + sum(self.used_below(*pair) for pair in below if pair[1])

    def kind(self, pid, stat):
        """The kind of a process, which it keeps once it has one: before that it may become another program."""
        key = pid, stat.start
        if not self.kinds.get(key):
            self.kinds[key] = kind_of(pid)
        return self.kinds[key]

    def walk(self, pid, units, ended):
        """Finds the topmost processes of a kind, and returns all ticks from here on."""
        stat = stat_of(pid)
        if stat is None:
            return 0
        kind = None if pid == self.root else self.kind(pid, stat)
        if kind:
            used = self.used_below(pid, stat)
            units[pid, stat.start] = kind, stat.parent, used
            return used
        ended[pid] = stat.ended
        return stat.own + stat.ended + sum(self.walk(it, units, ended) for it in children_of(pid))

    def look(self):
        units, ended = {}, {}
        total = self.walk(self.root, units, ended)
        if not ended:
            self.is_over = True
            return
        gone = collections.defaultdict(list)
        for key, unit in self.units.items():
            if key not in units:
                gone[unit[1]].append(unit)
        for parent, over in gone.items():
            # What they used after the last look, if their parent is still there.
            known = sum(used for _, _, used in over)
            rest = ended.get(parent, 0) - self.ended.get(parent, 0) - known
            for kind, _, used in over:
                self.counted[kind] += used + max(0, rest) / len(over)
                self.processes[kind] += 1
        self.units, self.ended, self.total = units, ended, max(total, self.total)

    def close(self):
        """Counts what was still there at the last look."""
        for kind, _, used in self.units.values():
            self.counted[kind] += used
            self.processes[kind] += 1
        self.units = {}


def row(*cells):
    print("| " + " | ".join(cells) + " |")


def edits_of(crate):
    folder = f"crates/{crate}/must-fail"
    names = os.listdir(folder) if os.path.isdir(folder) else []
    return sum(name.endswith(".edit") for name in names)


def print_parts(by_kind, total):
    row("Part", "Processor minutes")
    row("---", "---")
    parts = {
        "Proofs of all crates": by_kind[PROOF],
        "Edits, with one more proof of each crate that has several": by_kind[EDIT],
        "Programs built and run": by_kind[RUN],
        "Scripts": by_kind[SCRIPT],
        "The rest: layout, links and the command itself": total - sum(by_kind.values()),
    }
    for part, ticks in parts.items():
        if ticks or not part.startswith("Scripts"):
            row(part, f"{ticks / TICK / 60:.1f}")
    row("All", f"{total / TICK / 60:.1f}")


def print_crates(counted):
    names = sorted({name for kind, name in counted if kind != SCRIPT})
    if names:
        print()
        row("Crate", "Proof", "Edits", "Seconds for them", "Built and run")
        row("---", "---", "---", "---", "---")
    for name in names:
        seconds = [counted[kind, name] / TICK for kind in (PROOF, EDIT, RUN)]
        proof, edits, runs = (f"{it:.0f}" if it else "" for it in seconds)
        row(name, proof, f"{edits_of(name)}", edits, runs)


def print_scripts(counted):
    scripts = sorted((name, ticks) for (kind, name), ticks in counted.items() if kind == SCRIPT)
    if scripts:
        print()
        row("Script", "Seconds")
        row("---", "---")
    for name, ticks in scripts:
        row(name, f"{ticks / TICK:.0f}")


def report(tree, title, clock):
    counted, total = tree.counted, tree.total
    by_kind = collections.Counter()
    for (kind, _), ticks in counted.items():
        by_kind[kind] += ticks
    minutes, cores = clock / 60, os.cpu_count()
    print(f"\n{title}: {minutes:.1f} minutes by the clock on {cores} processors, in processor time:\n")
    print_parts(by_kind, total)
    print_crates(counted)
    print_scripts(counted)


def watch(tree, is_over):
    """Looks until the command is over or the user ends this."""
    start = time.monotonic()
    try:
        while not is_over() and not tree.is_over:
            tree.look()
            time.sleep(PAUSE)
    except KeyboardInterrupt:
        pass
    return time.monotonic() - start


def run(command):
    """Runs the command, and returns its status."""
    process = subprocess.Popen(command, stdout=sys.stderr)
    tree = Tree(process.pid)
    over = []

    def is_over():
        # It is not waited for before its time is read.
        flags = os.WEXITED | os.WNOHANG | os.WNOWAIT
        if not over and os.waitid(os.P_PID, process.pid, flags) is not None:
            over.append(True)
        return bool(over)

    clock = watch(tree, is_over)
    if not over:
        process.send_signal(signal.SIGINT)
    tree.look()
    tree.close()
    _, status, usage = os.wait4(process.pid, 0)
    tree.total = max(tree.total, (usage.ru_utime + usage.ru_stime) * TICK)
    report(tree, " ".join(command), clock)
    return os.waitstatus_to_exitcode(status)


def whole_gate():
    """`rt ci`, which must not use what earlier runs kept, in a kit that keeps anything."""
    said = subprocess.run(["rt", "help"], capture_output=True, text=True, errors="replace")
    return ["rt", "ci"] + ["--anew"] * ("--anew" in said.stdout + said.stderr)


def main():
    parser = argparse.ArgumentParser(description=__doc__.split("\n\n")[0])
    parser.add_argument("--watch", type=int, metavar="PID", help="a command that runs already")
    parser.add_argument("command", nargs=argparse.REMAINDER)
    given = parser.parse_args()
    if given.watch is None:
        sys.exit(run(given.command or whole_gate()))
    tree = Tree(given.watch)
    words = " ".join(map(os.path.basename, words_of(given.watch))) or f"process {given.watch}"
    clock = watch(tree, lambda: False)
    tree.close()
    report(tree, f"{words}, since the first look", clock)


if __name__ == "__main__":
    main()
