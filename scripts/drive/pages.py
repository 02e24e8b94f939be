#!/usr/bin/env python3
"""Runs the commands of README.md and docs/OPERATING.md as they are printed there, in the order of the page: each page in
one shell, and in a new folder like the repository, whose program is the built one.

    scripts/drive/pages.py PROGRAM

Only places are others: free ports stand for those of the page, a folder for /etc, /usr/local and /var/lib, and for
`rt try` the built program, or what an example is stored to print. A command has to end with status 0, unless the page
says otherwise, and what a block prints has to be the block behind it, in OPERATING with other numbers. A line of cron
is run as cron runs it. Files of systemd are written, and `systemd-analyze` looks over them if it is there. What cannot
be run is listed: `not run: COMMAND (REASON)`. Where `haproxy` or `socat` is not installed, this script stands in for
it. The last line is `N passed, M failed, K not run`, and the status is 0 where none failed and at least 40 ran. It
takes half a minute.
"""

import contextlib
import os
import pathlib
import re
import select
import shlex
import signal
import subprocess
import sys
import tempfile
import time

sys.dont_write_bytecode = True
sys.path.insert(0, str(pathlib.Path(__file__).resolve().parent.parent))

from drive.reader import OPERATING, README, Reader, cron, like, sections

FEWEST = 40
# The most seconds of a command, and of a page.
SECONDS, PAGE_SECONDS = 20, 60
# The first words of what commands print.
PRINTED = {"40", "epoch", "evidence", "kept", "known", "listening", "promise", "root", "settled", "watch", "watched"}
# Programs that a machine may lack.
TOOLS = "haproxy", "ldd", "socat"
NOT_RUN = {
    r"\brt (run|ci)\b|^\.ci/|^bench/": "proves or measures for minutes",
    r"^(scp|ssh|git clone)\b": "needs another machine",
    r"^(useradd|runuser)|-[go] directoryd": "needs a user directoryd",
    r"^(systemctl|loginctl)": "needs a running systemd",
    r"HOST:PORT|NAME KEY|^@reboot": "scripts/drive/watching.py runs it",
}
# The status of a command that has another than 0.
STATUSES = {"examples/day.script": 1}
# What a command prints, where no block has it: a pattern, or the name of a key of the server.
PRINTS = {
    r"printf '\0\0\0\1\6'": r" 00 00 00 b5 84 52 01 00.*",
    "grep -q watched": "",
    "directoryd-roots/seen 127": "",
    "said=$(/usr": "",
    "--state try": r"root \d+ after \d+",
    "-j 42": "sign-key",
    "-j 74": "vuf-key",
    "judge --key $(cut -d ' ' -f 2 keys/provider)": "evidence",
}
# Blocks of OPERATING, by heading and words, for the lines below.
BLOCKS = {
    "{keys}": ("Start a directory", "umask"),
    "{listen}": ("Keep the directory in a file", " listen "),
    "{close}": ("Close epochs", " close "),
}
# What OPERATING takes as done before a command, by heading and words: it says so, or others do it.
BEFORE = {
    ("Keep the directory in a file", " listen "): "kill $server; wait $server\n{keys}",
    ("Every minute", "* * *"): """
        mkdir -p /usr/local/bin /etc/directoryd /etc/systemd/system /var/lib/directoryd /var/lib/directoryd-roots
        cp crates/directoryd/out/directoryd /usr/local/bin/
        cp keys/operator keys/provider keys/server /etc/directoryd/""",
    ("Install it", "install -m 755"): "cp crates/directoryd/out/directoryd .",
    ("After a crash, a move or a restore", "cp "): "cp keys/journal /var/lib/directoryd/",
    ("Upgrade it", "systemctl stop directoryd-close"): "cp directoryd directoryd.new; cp keys/journal /var/lib/directoryd/",
    ("Lost keys", "-j 42"): "kill $server; wait $server\n{listen}",
    ("The first time", "$ask watch"): "cd $repository\n{close}cd ~/watching",
    ("Compare with others", "theirs"): "tail -n 1 alice > theirs",
    # The provider forks for a while: it shows another root of the latest epoch.
    ("Evidence", "alice.kept"): """
        mkdir kept; cp alice alice.kept kept
        latest=$($ask head | cut -d ' ' -f 2)
        kill $server; wait $server
        ./directoryd listen --keys $repository/keys/server --epoch $latest 127.0.0.1:7000 & sleep 1
        $ask head""",
    ("Change your key", "$ask watch"): "mv kept/* .; kill $server; wait $server; cd $repository\n{listen}cd ~/watching",
    # Another device, which has the old key.
    ("Change your key", "$ask settle"): """
        cd $repository\n{close}cd ~/watching
        ask=$(echo $ask | sed 's/--state alice/--state device/')
        $ask watch alice 6b31""",
    ("Audit a provider", " ask "): "cd $repository",
    ("Kinds of evidence", " judge "): "cp ~/watching/evidence.json .",
}


class Stopped(Exception):
    """A page is not run to its end."""


def stop(*_):
    raise Stopped(f"it took more than {PAGE_SECONDS} seconds")


def commands(part):
    """The commands of a part: lines, and a file with the line that writes it."""
    found, is_file = [], False
    for line in part.splitlines(True):
        if is_file:
            found[-1] += line
        else:
            found.append(line)
        is_file = line.endswith("<<'END'\n") or (is_file and line != "END\n")
    return found


def of(table, command):
    """What a table has for a command, by a part of it."""
    return next((value for words, value in table.items() if words in command), None)


class Page(Reader):
    """A page, and the shell of whoever reads it."""

    def __init__(self, path, program, folder):
        self.machine = folder / "machine"
        super().__init__(program, folder)
        self.path, self.blocks, self.not_run, self.number = path, sections(path), [], 0
        self.environment["repository"] = str(self.folder)
        self.shell = subprocess.Popen(["sh"], cwd=self.folder, env=self.environment, stdin=subprocess.PIPE, stdout=subprocess.PIPE,
                                      text=True, start_new_session=True)
        self.running.callback(self.end)

    def end(self):
        """Ends the shell, and all that it started."""
        with contextlib.suppress(OSError):
            os.kill(int((self.folder / "keys/haproxy.pid").read_text()), signal.SIGKILL)
        with contextlib.suppress(ProcessLookupError):
            os.killpg(self.shell.pid, signal.SIGKILL)
        self.shell.wait()

    def lines(self, text):
        return re.sub(r"(?<![\w.])/(etc|usr/local|var/lib)/", rf"{self.machine}/\1/", super().lines(text))

    def sh(self, lines):
        """What lines print in the shell: output, errors and status. Waits until what they start listens."""
        if re.search(r" (close|rotate) ", lines):
            time.sleep(1.1)  # an epoch's number is the time in seconds
        self.number += 1
        output, errors = (self.machine.parent / f"{self.number}.{name}" for name in ("out", "err"))
        with contextlib.suppress(BrokenPipeError):
            # Without the colon dash forgets where the output of a subshell goes.
            self.shell.stdin.write(f"{{ :\n{self.lines(lines).strip()}\n}} > {output} 2> {errors} < /dev/null\necho $?\n")
            self.shell.stdin.flush()
        status = self.shell.stdout.readline() if select.select([self.shell.stdout], [], [], SECONDS)[0] else "no"
        if not status.strip().isdigit():
            raise Stopped(f"{lines.strip()}: has no end, or ends the shell")
        if re.search(r" listen .*&", lines):
            if ":7000" in lines:
                self.shell.stdin.write("server=$!\n")
            for _ in range(10 * SECONDS):
                if "listening on" in errors.read_text():
                    break
                time.sleep(0.1)
            else:
                status = 1
        for tool, port in ("haproxy", "7443"), ("socat", "7002"):
            if lines.startswith(tool):
                self.until(self.ports[port])
        return output.read_text(), errors.read_text(), int(status)

    def reason(self, line):
        """Why a command is not run, or None."""
        for words, reason in NOT_RUN.items():
            if re.search(words, line):
                return reason
        return next((f"{tool} is not installed" for tool in TOOLS if re.search(rf"\b{tool}\b", line) and not self.tool(tool)), None)

    def command(self, heading, command):
        """Runs a command. Returns what it printed and its errors, or None where it was not run or failed."""
        line = command.splitlines()[0]
        for (section, words), lines in BEFORE.items():
            if self.path == OPERATING and section == heading and words in line:
                for name, block in BLOCKS.items():
                    lines = lines.replace(name, self.block(*block)[0])
                self.sh(lines)
        if reason := self.reason(line):
            self.not_run.append(f"not run: {line} ({reason})")
            if reason == "haproxy is not installed":
                self.haproxy()
            elif reason == "socat is not installed":
                self.socat()
            return None
        if line[0] in "*@":
            command = f"(cd ~ && PATH=/usr/bin:/bin exec sh -c {shlex.quote(cron(command))})"
        output, errors, status = self.sh(command)
        what, pattern = f"{self.path.name}, {heading}: {line}", of(PRINTS, line)
        if pattern in ("sign-key", "vuf-key"):
            pattern = re.search(f"{pattern} (.*)", (self.folder / "keys/server").read_text())[1]
        self.count += 1
        if status != (of(STATUSES, line) or 0):
            self.failures.append(f"{what}: status {status}, {output!r}, {errors!r}")
        elif pattern is not None and not re.fullmatch(pattern, output.strip("\n"), re.DOTALL):
            self.failures.append(f"{what}: wanted {pattern!r}, got {output!r}, {errors!r}")
        else:
            return output, errors
        return None

    def printed(self, heading, wanted, ran):
        """What commands printed is the block behind them. A script may stand on its left side."""
        what = f"{self.path.name}, {heading}"
        if not ran:
            self.failures.append(f"{what}: no command prints {wanted!r}")
        if not ran or None in ran:
            return
        output, errors = ("".join(each) for each in zip(*ran))
        got = output or errors
        wanted = re.sub(r"(?m)^.* {2,}", "", self.lines(wanted))
        if wanted.startswith("40 "):  # the page says that it is the last line
            got = got[got.rstrip().rfind("\n") + 1:]
        if self.path == OPERATING:
            wanted, got = like(wanted), like(got)
        if wanted != got:
            self.failures.append(f"{what}: wanted {wanted!r}, got {got!r}")

    def run(self):
        """Runs the page from its top."""
        for heading, parts in self.blocks.items():
            ran = []
            for part in parts:
                if part.split()[0] in PRINTED:
                    self.printed(heading, part, ran)
                    ran = []
                else:
                    ran = [self.command(heading, command) for command in commands(part)]
        if (units := self.machine / "etc/systemd/system").exists():
            self.verify(sorted(units.iterdir()))


def main(program):
    signal.signal(signal.SIGALRM, stop)
    signal.signal(signal.SIGTERM, lambda *_: sys.exit(1))
    count, failures, not_run = 0, [], []
    for path in README, OPERATING:
        with tempfile.TemporaryDirectory() as folder:
            page = Page(path, os.path.abspath(program), pathlib.Path(folder))
            with page.running:
                signal.alarm(PAGE_SECONDS)
                try:
                    page.run()
                except Stopped as stopped:
                    page.failures.append(f"{path.name} is not run to its end: {stopped}")
                signal.alarm(0)
        count, failures, not_run = count + page.count, failures + page.failures, not_run + page.not_run
    if count < FEWEST:
        failures.append(f"{count} commands were run, and {FEWEST} have to be")
    print("\n".join(failures + not_run))
    print(f"{count - len(failures)} passed, {len(failures)} failed, {len(not_run)} not run")
    return 1 if failures else 0


if __name__ == "__main__":
    sys.exit(main(*sys.argv[1:]))
