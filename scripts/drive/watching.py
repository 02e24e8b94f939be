#!/usr/bin/env python3
"""Runs the lines of docs/OPERATING.md and README.md on watching a name, as they are printed there, over some epochs:
as the owner of a name from an empty folder, with a directory behind TLS, until it forks.

    scripts/drive/watching.py PROGRAM

Only ports are others: free ones stand for those of the page. What a block of lines prints has to be the block behind
it, with other epochs. The lines of cron are run as cron runs them, and of the files of systemd the command; if there is
`systemd-analyze`, it looks over them. Where `haproxy` or `socat` is not installed, this script stands in for it. The
last line is `N passed, M failed`, and the status is 0 where none failed. It takes half a minute.
"""

import contextlib
import os
import pathlib
import re
import signal
import subprocess
import sys
import tempfile
import time

sys.dont_write_bytecode = True
sys.path.insert(0, str(pathlib.Path(__file__).resolve().parent.parent))

from drive.reader import OPERATING, SECONDS, Reader, cron, like


class Trial(Reader):
    def __init__(self, program, folder):
        super().__init__(program, folder)
        self.environment["PATH"] = f"{self.folder}/crates/directoryd/out:{self.environment['PATH']}"

    def sh(self, lines, where=None, **environment):
        """What lines print: output, errors and status."""
        run = subprocess.run(["sh", "-c", self.lines(lines)], cwd=where or self.watching, env={**self.environment, **environment},
                             stdin=subprocess.DEVNULL, capture_output=True, text=True, timeout=SECONDS)
        return run.stdout, run.stderr, run.returncode

    def start(self, line, where=None):
        """Starts what a line starts, in the place of the shell. Returns what ends it, and waits until it has."""
        command = self.lines(line).removesuffix("\n").removesuffix("&")
        words = ["sh", "-c", command if "exec " in command else f"exec {command}"]
        run = subprocess.Popen(words, cwd=where or self.folder, env=self.environment, stderr=subprocess.DEVNULL, start_new_session=True)

        def end():
            with contextlib.suppress(ProcessLookupError):
                os.killpg(run.pid, signal.SIGKILL)
            run.wait()

        self.running.callback(end)
        return end

    def prints(self, what, status, wanted, lines, **how):
        """Lines print this, but for the numbers, and have this status."""
        output, errors, got = self.sh(lines, **how)
        self.same(f"{what} ({errors.strip()})", (like(wanted), status), (like(output), got))

    def shown(self, heading, words, status=0, before="", **how):
        """A block prints the one behind it."""
        lines, wanted = self.block(heading, words)
        self.prints(f"{heading}: {lines.strip()}", status, wanted, before + lines, **how)

    def close(self):
        """The operator ends an epoch, by the line of the page. Its number is the time in seconds."""
        time.sleep(1.1)
        self.sh(self.block("Close epochs", " close ")[0], where=self.folder)

    def directory(self, *more):
        """Starts the directory, in the place of another one."""
        line = self.block("Start a directory", "directoryd listen")[0].removesuffix(" &\n")
        end = self.start(" ".join([line, *more]))
        self.until(self.ports["7000"])
        return end

    def front(self):
        """The proxy that speaks TLS."""
        certificate, _ = self.block("In front of it", "openssl req")
        made = "".join(line for line in certificate.splitlines(True) if not line.startswith("haproxy"))
        self.same("a certificate", 0, self.sh(made, where=self.folder)[2])
        if self.tool("haproxy"):
            self.start("haproxy -db -f examples/haproxy.cfg")
        else:
            self.haproxy()
        self.until(self.ports["7443"])

    def tunnel(self, line, where):
        """socat, by a line of the page. Returns what ends it."""
        end = self.start(line, where) if self.tool("socat") else self.socat()
        self.until(self.ports["7002"])

        def ended():
            end()
            self.until(self.ports["7002"], is_open=False)

        return ended

    def crontab(self, begin):
        """The command of a line of the crontab."""
        return cron(next(line for line in self.block("Every ten minutes", "*/10")[0].splitlines() if line.startswith(begin)))

    def cron(self, what, wanted, later=0):
        """What cron's line prints, which is mailed, now or so many seconds later."""
        line = self.crontab("*/10").replace("- 7200", f"- 7200 + {later}")
        output, errors, _ = self.sh(line, where=self.home, PATH="/usr/bin:/bin")
        self.same(f"{what}, by cron ({errors})", like(wanted), like(output))

    def systemd(self):
        """The files of systemd."""
        self.sh(self.block("Every ten minutes", "mkdir -p ~/.config")[0])
        units = sorted((self.home / ".config/systemd/user").iterdir())
        self.same("files of systemd", 4, len(units))
        self.service = service = dict(line.split("=", 1) for line in units[-2].read_text().replace("%h", str(self.home)).replace("%%", "%").replace("$$", "$").splitlines() if "=" in line)
        self.prints("systemd's command", 0, "watched 616c696365 1\n", service["ExecStart"], where=service["WorkingDirectory"])
        if self.tool("socat"):
            self.verify(units, "--user")


def watched(trial):
    """A new owner, up to the first lines of cron and systemd."""
    trial.sh(trial.block("Start a directory", "umask")[0], where=trial.folder)
    directory = trial.directory()
    trial.front()
    trial.sh(trial.block("The first time", "mkdir")[0], where=trial.folder)
    end = trial.tunnel(trial.block("The first time", "socat")[0], trial.watching)
    lines, wanted = trial.block("The first time", "register")
    output, errors, status = trial.sh(lines)
    trial.same("the first run", (wanted, "state: begins at epoch 1\n", 0), (output, errors, status))
    trial.close()
    ask = lines.splitlines()[0] + "\n"
    trial.shown("The first time", "$ask watch", before=ask)
    trial.prints("nothing new", 0, "watched 616c696365 1\n", ask + "$ask watch alice 6b31")
    trial.systemd()
    trial.close()
    trial.cron("a new epoch", "")
    trial.cron("an hour later", "", later=3600)
    trial.cron("two hours later", "status 3: watched 616c696365 3\nstale 3\n", later=7200)
    end()
    trial.cron("no socat", "status 1: cannot connect\n")
    trial.cron("no socat for two hours", "status 3: cannot connect\nstale 3\n", later=7200)
    end = trial.tunnel(trial.crontab("@reboot"), trial.home)
    trial.cron("socat again", "")
    away = trial.home / "away"
    away.mkdir()
    for name in "alice", "alice.kept":
        (trial.watching / name).rename(away / name)
    trial.cron("a state that is gone", "status 2: grep: alice.kept: No such file or directory\n")
    trial.prints("the same by systemd", 2, "", trial.service["ExecStart"], where=trial.watching)
    for name in "alice", "alice.kept":
        (away / name).rename(trial.watching / name)
    return ask, directory, end


def told(trial, ask):
    """Alarms, and other roots."""
    other = "directoryd ask --provider keys/provider 127.0.0.1:7000 "
    trial.sh(other + "change 616c696365 6576", where=trial.folder)
    trial.close()
    trial.cron("a key of somebody else", "status 3: alarm 616c696365 4 6576\n")
    table = next(line for line in OPERATING.read_text().splitlines() if line.startswith("| `alarm"))
    back, settle = re.findall(r"`(\$ask [^`]*)`", table)
    trial.prints("the key is put back", 0, "promise 4\n", ask + back)
    trial.prints("an alarm is settled", 0, "settled 616c696365 1\n", ask + settle)
    trial.close()
    trial.cron("the key is back", "")
    trial.prints("no key", 3, "alarm 6361726f6c 5 absent\n", ask + "$ask watch carol 6b")
    for name in "theirs", "device":
        trial.sh(ask.replace("--state alice", f"--state {name}") + "$ask watch alice 6b31")
    (trial.watching / "theirs").write_text((trial.watching / "theirs").read_text().splitlines(True)[-1])
    trial.shown("Compare with others", "audit", before=ask)


def changed(trial, ask):
    """The key is changed on one of two devices, and README's lines watch it."""
    trial.shown("Change your key", "change", before=ask.replace("6b31", "6b32"))
    trial.close()
    trial.prints("the new key", 0, "kept 616c696365 6\n", ask + "$ask watch alice 6b32")
    device = ask.replace("--state alice", "--state device")
    trial.prints("on the other device", 3, "alarm 616c696365 6 6b32\n", device + "$ask watch alice 6b31")
    trial.shown("Change your key", "settle", before=device)
    trial.prints("from there on", 0, "watched 616c696365 6\n", device + "$ask watch alice 6b32")
    socat, line = trial.block("Ask a running directory", "socat", trial.readme)[0].splitlines()
    page = trial.block("The first time", "socat")[0].strip()
    trial.same("README's socat", page, socat.replace("HOST:PORT", "localhost:7443"))
    (trial.watching / "provider.txt").write_text((trial.watching / "provider").read_text())
    trial.prints("README's watch", 0, "kept 616c696365 6\n", line.replace("NAME", "alice").replace("KEY", "6b32"))


def forked(trial, ask, directory, end):
    """The provider shows other histories, then none."""
    head = trial.sh(ask + "$ask head")[0].split()[1]
    directory()
    other = trial.directory()
    mine = ask.replace("--state alice", "--state mine")
    trial.prints("a provider that went back", 1, "client refuses root 3\nwatched 616c696365 6\n", mine + "$ask watch alice 6b32")
    other()
    trial.directory("--epoch", head)
    output, errors, status = trial.sh(trial.crontab("*/10"), where=trial.home, PATH="/usr/bin:/bin")
    trial.same(f"a fork, by cron ({errors})", "status 3: {", output[:11])
    trial.shown("Evidence", "judge", before=ask)
    end()
    output, errors, status = trial.sh(ask + "$ask watch alice 6b31")
    trial.same(f"evidence, and no socat ({errors})", ("{", 3), (output[:1], status))


def main(program):
    with tempfile.TemporaryDirectory() as folder:
        trial = Trial(os.path.abspath(program), pathlib.Path(folder))
        with trial.running:
            ask, directory, end = watched(trial)
            told(trial, ask)
            changed(trial, ask)
            forked(trial, ask, directory, end)
    for failure in trial.failures:
        print(failure)
    print(f"{trial.count - len(trial.failures)} passed, {len(trial.failures)} failed")
    return 1 if trial.failures else 0


if __name__ == "__main__":
    sys.exit(main(*sys.argv[1:]))
