#!/usr/bin/env python3
"""Runs directoryd with standard streams that are closed: alone, two of them and all.

    scripts/drive/streams.py PROGRAM

`serve`, `listen`, `ask` and `judge` have to do what they do with /dev/null in the place of each closed stream, and no
file and no connection gets what is meant for a stream. Where /dev/null cannot be opened, nothing else is. The last line
is `N passed, M failed`, and the status is 0 where none failed.
"""

import contextlib
import itertools
import os
import pathlib
import socket
import subprocess
import sys
import tempfile
import time

sys.dont_write_bytecode = True
sys.path.insert(0, str(pathlib.Path(__file__).resolve().parent.parent))

from drive.ask_runs import answering, asking, files_of, otherwise
from drive.liars import Provider
from drive.restarts import records_of
from drive.send_frames import connected, frames
from drive.states import built, bytes_of, preloaded
from model.formats import PROMISE, ROOT, request_frame
from model.sessions import SALT_KEY, SIGNING_KEY, TOKEN, VUF_KEY
from questions.worked import judged

STREAMS = "stdin", "stdout", "stderr"
SETS = [names for size in range(len(STREAMS) + 1) for names in itertools.combinations(STREAMS, size)]
CLOSED = [names for names in SETS if names]
KEYS = [word for name, key in zip(("sign", "vuf", "salt"), (SIGNING_KEY, VUF_KEY, SALT_KEY)) for word in (f"--{name}-key", key.hex())]
KEYS += ["--token", TOKEN.hex()]
REQUESTS = [("register", b"a", b"k1"), ("register", b"b", b"k1"), ("close", TOKEN, 2), ("register", b"c", b"k1")]
CANNOT_OPEN = b"cannot open /dev/null\n"
TRIES = 600
# The seconds of a run, which has nothing to wait for.
LONGEST = 10


def closing(order, names):
    """The words of a process without these streams."""
    closed = " ".join({"stdin": "<&-", "stdout": ">&-", "stderr": "2>&-"}[name] for name in names)
    return ["sh", "-c", f'exec "$0" "$@" {closed}', *order]


def ended(order, names, given=b"", **how):
    """What comes of a run without these streams: its status, and what it writes to the others."""
    try:
        run = subprocess.run(closing(order, names), input=given, capture_output=True, timeout=LONGEST, **how)
    except subprocess.TimeoutExpired:
        return f"no end after {LONGEST} seconds"
    return run.returncode, run.stdout, run.stderr


def silenced(order, names, given=b""):
    """The same with /dev/null in the place of these streams."""
    streams = {"stdin": subprocess.PIPE, "stdout": subprocess.PIPE, "stderr": subprocess.PIPE}
    run = subprocess.Popen(order, **{**streams, **dict.fromkeys(names, subprocess.DEVNULL)})
    output, errors = run.communicate(None if "stdin" in names else given, timeout=LONGEST)
    return run.returncode, output or b"", errors or b""


def different(name, wanted, got):
    return None if got == wanted else f"{name}: wanted {wanted}, got {got}"


def opened(program, journal, count):
    """What a start on a journal says otherwise than that it has so many records."""
    run = subprocess.run([program, "serve", *KEYS, "--journal", journal], stdin=subprocess.DEVNULL, capture_output=True, timeout=LONGEST)
    said = f"journal: {count} records taken\n".encode()
    return different("the next start", (0, said), (run.returncode, run.stderr))


def serves(program):
    stream = b"".join(request_frame(*request) for request in REQUESTS)
    for names in CLOSED:
        with tempfile.TemporaryDirectory() as folder:
            journals = f"{folder}/closed", f"{folder}/silent"
            for turn in range(2):
                wanted = silenced([program, "serve", *KEYS, "--journal", journals[1]], names, stream)
                got = ended([program, "serve", *KEYS, "--journal", journals[0]], names, stream)
                yield different(f"serve without {names}, start {turn}", wanted, got)
                yield different(f"the journal of serve without {names}, start {turn}", *[pathlib.Path(path).read_bytes() for path in journals[::-1]])
            count = len(records_of(journals[0]))
            if "stdin" not in names:
                yield different(f"records of serve without {names}", 1 + len(REQUESTS), count)
            wrong = opened(program, journals[0], count)
            yield wrong and f"serve without {names}: {wrong}"


def held(process):
    """What each descriptor of a process is."""
    found = {}
    for each in os.listdir(folder := f"/proc/{process.pid}/fd"):
        # It may be closed meanwhile.
        with contextlib.suppress(FileNotFoundError):
            found[int(each)] = os.readlink(f"{folder}/{each}")
    return found


def port_of(process):
    """The port that a process listens on, once it does."""
    for _ in range(TRIES):
        if process.poll() is not None:
            raise ConnectionError(f"it ended with status {process.returncode}")
        sockets = set(held(process).values())
        with open("/proc/net/tcp") as table:
            for words in map(str.split, table):
                if words[3] == "0A" and f"socket:[{words[9]}]" in sockets:
                    return int(words[1].split(":")[1], 16)
        time.sleep(0.02)
    raise TimeoutError("it does not listen")


def listens(program):
    for names in CLOSED:
        with tempfile.TemporaryDirectory() as folder:
            journal, port, answers = f"{folder}/journal", None, b""
            order = [program, "listen", *KEYS, "--journal", journal, "127.0.0.1:0"]
            run = subprocess.Popen(closing(order, names), stdin=subprocess.PIPE, stdout=subprocess.PIPE, stderr=subprocess.PIPE)
            try:
                port = port_of(run)
                streams = [held(run).get(STREAMS.index(name)) for name in names]
                yield different(f"listen holds {names}", ["/dev/null"] * len(names), streams)
                with connected(f"127.0.0.1:{port}") as client:
                    client.sendall(b"".join(request_frame(*request) for request in REQUESTS))
                    while len(frames(answers)[0]) < len(REQUESTS):
                        answers += client.recv(65536) or bytes([255] * 4)
                    kinds = [answer[4] for answer in frames(answers)[0]]
                    yield different(f"answers of listen without {names}", [PROMISE, PROMISE, ROOT, PROMISE], kinds)
            except OSError as error:
                yield f"listen without {names}: {error}"
            run.kill()
            output, errors = run.communicate(timeout=LONGEST)
            said = b"" if "stderr" in names else f"journal: 0 records taken\nlistening on 127.0.0.1:{port}\n".encode()
            yield different(f"what listen says without {names}", (b"", said), (output, errors))
            wrong = opened(program, journal, 1 + len(REQUESTS))
            yield wrong and f"listen without {names}: {wrong}"


    # A closed input has an end.
    got = ended([program, "listen", *KEYS, "--until-eof", "127.0.0.1:0"], ["stdin"])
    yield different("listen --until-eof without stdin", (0, b""), got[:2])


class Listening(Provider):
    """A provider that keeps what it was sent."""

    def __init__(self):
        super().__init__()
        self.requests = []

    def answer(self, request):
        self.requests.append(request)
        return super().answer(request)


LINES = b"register 61 6b31\nwatch 62 -\nclose 2\nhead\nregister 63 6b31\n"


def asks(program):
    """With commands of the input, and with words."""
    for names in CLOSED:
        for words in (), ("register", "61", "6b31"):
            name = f"ask {' '.join(words)} without {names}"
            with tempfile.TemporaryDirectory() as folder:
                found = []
                for number, way in enumerate((silenced, ended)):
                    state, provider = f"{folder}/{number}", Listening()
                    with answering(provider) as address:
                        came = way(asking(program, state, address, *words), names, b"" if words else LINES)
                    found.append((came, provider.requests, bytes_of(state)))
                yield different(name, *found)
                # The state of the run without streams is read again, and has what was asked.
                provider.begin()
                yield otherwise(program, provider, provider.copied(), b"head\n", state)
                if words:
                    promises = [line for line in files_of(state)[1] if line.startswith("change ")]
                    yield different(f"promises of {name}", 1, len(promises))


def judges(program):
    with tempfile.TemporaryDirectory() as folder:
        evidence = list(judged())
        for status in "0", "3":
            file = pathlib.Path(folder, f"{status}.json")
            file.write_text(next(line.split(" ", 2)[2] for line in evidence if line.startswith(f"{status} fork ")))
            order, before = [program, "judge", "--key", "01" * 32, str(file)], file.read_bytes()
            for names in CLOSED:
                got = ended(order, names)
                yield different(f"judge without {names}", silenced(order, names), got)
                yield different(f"the status of judge without {names}", int(status), got[0])
                yield different(f"the file of judge without {names}", before, file.read_bytes())


def subcommands(folder, address):
    """Each subcommand, with files that are to be made or that are not there."""
    zeros, journal = "0" * 64, f"{folder}/journal"
    yield "root",
    yield "prove", "--index", zeros
    yield "audit", "--key", zeros
    yield "play",
    yield "judge", "--key", zeros, f"{folder}/none"
    yield "serve", *KEYS, "--journal", journal
    yield "serve", *KEYS, "--keys", f"{folder}/none"
    yield "listen", *KEYS, "--journal", journal, address
    yield "ask", "--provider", f"{folder}/none", "--state", f"{folder}/state", address, "head"


def without_null(program, library):
    """/dev/null cannot be opened, and nothing else is."""
    denied = preloaded(library, DENY_OPEN="/dev/null")
    with tempfile.TemporaryDirectory() as folder, socket.create_server(("127.0.0.1", 0)) as listener:
        address = "127.0.0.1:%d" % listener.getsockname()[1]
        listener.settimeout(0)
        for words in subcommands(folder, address):
            runs = [(names, [program, *words], denied) for names in SETS]
            # There is one descriptor, that of the closed stream, and no more.
            runs += [((name,), ["sh", "-c", 'ulimit -n 3; exec "$0" "$@"', program, *words], {}) for name in STREAMS]
            for names, order, how in runs:
                wanted = 1, b"", b"" if "stderr" in names else CANNOT_OPEN
                got = ended(order, names, **how)
                yield different(f"{words[0]} without {names} and /dev/null", wanted, got)
                if got != wanted:
                    break
            files = os.listdir(folder)
            yield different(f"the files that {words[0]} made", [], files)
            for file in files:
                os.remove(f"{folder}/{file}")
        try:
            listener.accept()
            yield "a client connects without /dev/null"
        except BlockingIOError:
            yield None


def main():
    if len(sys.argv) != 2:
        sys.exit(__doc__)
    program = os.path.abspath(sys.argv[1])
    found = [run(program) for run in (serves, listens, asks, judges)]
    with tempfile.TemporaryDirectory() as folder:
        found = [difference for differences in [*found, without_null(program, built("fail_disk", folder))] for difference in differences]
    failures = [difference for difference in found if difference is not None]
    for difference in failures[:20]:
        print(difference[:1000])
    print(f"{len(found) - len(failures)} passed, {len(failures)} failed")
    return 1 if failures else 0


if __name__ == "__main__":
    sys.exit(main())
