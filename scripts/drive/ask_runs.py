"""Runs of `directoryd ask` over a state, compared with what the model of the client computes; and runs that are drawn."""

import contextlib
import pathlib
import re
import socket
import subprocess
import tempfile
import threading

from drive.liars import Provider
from model.ask_model import PROVIDER, Asked
from model.sessions import SALT_KEY, SIGNING_KEY, TOKEN, VUF_KEY

SECONDS = 60
# With what most runs of an owner begin, and what is told of an alarm that a state has.
BEGUN_LINES = "register 61 6b31", "close 2", "watch 61 6b31"
KEPT_ALARM_OF_2 = "state: FILE.kept: alarm of an earlier run for 61 at epoch 2"

# A user's file: the provider's public keys.
FILES = tempfile.TemporaryDirectory()
PROVIDER_FILE = f"{FILES.name}/provider"
pathlib.Path(PROVIDER_FILE).write_text(f"provider {PROVIDER.hex()}\n")

# Runs ---------------------------------------------------------------------------------------------------------


@contextlib.contextmanager
def answering(provider):
    """The address of a provider that answers one connection. Its client may be killed, or never come."""

    def serve():
        with contextlib.suppress(ConnectionError):
            provider.serve(listener.accept()[0])

    with socket.create_server(("127.0.0.1", 0)) as listener:
        thread = threading.Thread(target=serve, daemon=True)
        thread.start()
        yield "127.0.0.1:%d" % listener.getsockname()[1]
        # It waits still if no client came.
        socket.create_connection(listener.getsockname()).close()
        thread.join(SECONDS)


def asking(program, state, address, *words):
    """The words of a run over a state."""
    return [program, "ask", "--provider", PROVIDER_FILE, "--state", state, address, *words]


def ran(program, provider, script, state, words=(), **how):
    """What the program does at a provider: output, words and status."""
    with answering(provider) as address:
        how = {"stdout": subprocess.PIPE, "stderr": subprocess.PIPE, "timeout": SECONDS + 30, **how}
        run = subprocess.run(asking(program, state, address, *words), input=script, **how)
    return (run.stdout or b"").decode().splitlines(), run.stderr.decode().splitlines(), run.returncode


def paths(state):
    return pathlib.Path(state), pathlib.Path(f"{state}.kept")


def files_of(state):
    """The lines of the two files of a state, but for last ones that were cut short."""
    return [path.read_text().split("\n")[:-1] if path.exists() else [] for path in paths(state)]


def cut_off(state):
    """What is said of last lines that were cut short."""
    sizes = [(path, len(path.read_bytes().rpartition(b"\n")[2])) for path in paths(state) if path.exists()]
    return [f"state: {path}: {size} bytes cut off" for path, size in sizes if size]


def difference(name, program, make_lie, runs):
    """What is otherwise than in the model in these runs over one state, or None."""
    with tempfile.TemporaryDirectory() as folder:
        provider, other = Provider(make_lie()), Provider(make_lie())
        state = f"{folder}/state"
        for number, (script, words) in enumerate(runs):
            for each in provider, other:
                each.begin()
            wrong = otherwise(program, provider, other, script, state, words)
            if wrong is not None:
                return f"{name}, run {number}: {wrong}"
    return None


def otherwise(program, provider, other, script, state, words=()):
    """What the program does otherwise at a provider than the model at another one with the same answers, or None."""
    said, (roots, kept) = cut_off(state), files_of(state)
    model = Asked(other, [bytes.fromhex(root) for root in roots], kept, state, after_in(words))
    model.run(script, words)
    got = ran(program, provider, b"" if words else script, state, words)
    wanted = model.text, [*said, *model.words], model.status
    for what, a, b in zip(("output", "words", "status"), wanted, got):
        if a != b:
            return f"{what}: wanted {a!r}, got {b!r}"
    # The lines of the second file come in any order, and a promise that was given twice is one. A line of the older
    # form stays until the file is written anew.
    (roots, after), files = model.state(), files_of(state)
    newly = {line for line in files[1] if is_older_form(line)} - set(kept)
    if newly or (roots, set(after)) != (files[0], set(map(newer_form, files[1]))):
        return f"state: wanted {after}, {len(roots)} roots, got {files[1]}, {len(files[0])} roots"
    return None


def after_in(words):
    """The epoch of the option `--after` among the words, or None."""
    return next((int(word.removeprefix("--after=")) for word in words if word.startswith("--after=")), None)


def is_older_form(line):
    return re.fullmatch("watched [0-9a-f]+ [0-9]+", line) is not None


def newer_form(line):
    """A mark of the older form says nothing of what was watched before it."""
    return f"{line} {line.split(' ')[2]}" if is_older_form(line) else line


def listening(program, count=1):
    """A directory that listens for so many connections, with the keys of a script, and its address."""
    keys = ["--sign-key", SIGNING_KEY, "--vuf-key", VUF_KEY, "--salt-key", SALT_KEY, "--token", TOKEN]
    words = [word if isinstance(word, str) else word.hex() for word in keys]
    server = subprocess.Popen([program, "listen", *words, "--count", str(count), "127.0.0.1:0"], stderr=subprocess.PIPE, text=True)
    return server, server.stderr.readline().split()[-1]


def kept_epochs(first, last):
    """What is told of a name that is watched in these epochs."""
    return [f"kept 61 {epoch}" for epoch in range(first, last + 1)]


# Runs that are drawn -------------------------------------------------------------------------------------------

NAMES, KEYS = ("61", "62", "616c696365"), ("6b31", "6b32", "6b33")


def drawn_line(rng, epoch):
    name, key, policy = rng.choice(NAMES), rng.choice(KEYS), rng.choice(["open", "open", "final"])
    return rng.choice([
        f"register {name} {key}", f"register {name} {key}", f"change {name} {key}", f"promise {name}",
        f"lookup {name} {rng.choice([0, 0, 1, epoch])}", "head",
        f"history {rng.choice([0, 1, 2, epoch // 2, epoch])} {rng.choice([1, 2, 64])}",
        f"close {epoch}", f"close {epoch}", f"rotate {epoch} {'05' * 32}", f"watch {name} {key}", f"watch {name} -",
        f"register2 {name} {key} {policy}", f"change2 {name} {key} {policy}", f"watch2 {name} {key} {policy}",
    ])


def owner_line(rng, epoch):
    """What an owner does who changes one key to and fro."""
    key = rng.choice(KEYS[:2])
    return rng.choice([
        "register 61 6b31", f"change 61 {key}", f"change 61 {key}", f"change 61 {key}", "promise 61", "lookup 61 0", "head",
        f"close {epoch}", f"close {epoch}", f"close {epoch}", "watch 61 6b31", f"watch 61 {key}",
        f"change2 61 {key} open", f"watch2 61 {key} open", f"change2 61 {key} {rng.choice(['open', 'open', 'open', 'final'])}",
    ])


def final_line(rng, epoch):
    """What somebody does who has a final key, or looks at one."""
    return rng.choice([
        "register2 61 6b31 final", f"close {epoch}", f"close {epoch}", "lookup 61 0", "lookup 61 0", f"lookup 61 {rng.choice([2, 3, epoch])}",
        "watch2 61 6b31 final", "head",
    ])


def drawn_runs(rng):
    """Some runs over one state: commands of a few names, or of one owner, and a closing now and then. Alarms are
    settled between them."""
    runs, epoch, line = [], 1, rng.choice([drawn_line, owner_line, owner_line, final_line])
    for _ in range(rng.randrange(1, 6)):
        lines = []
        for _ in range(rng.randrange(1, 7)):
            epoch += rng.randrange(1, 3)
            lines.append(line(rng, epoch))
        if line == owner_line and not runs:
            lines = ["register 61 6b31", f"close {epoch + 1}", "watch 61 6b31", *lines]
        elif line == owner_line and rng.randrange(3):
            lines = [f"close {epoch + 1}", "watch 61 6b31", *lines]
        runs.append(run_of_words(lines[0]) if runs and rng.randrange(3) == 0 else run_of_lines(*lines))
        if rng.randrange(5) == 0:
            runs.append(run_of_words(f"settle {rng.choice(NAMES[:2])}"))
    return runs


def run_of_lines(*lines):
    """A script, and no words."""
    return "".join(f"{line}\n" for line in lines).encode(), ()


def run_of_words(line, after=None):
    """The words of a line, which may want the last epoch to be above one. As a script they are that line."""
    return line.encode(), line.split(" ") + ([] if after is None else [f"--after={after}"])
