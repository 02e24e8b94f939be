#!/usr/bin/env python3
"""Stops servers that keep a journal, starts them again on the file, and asks for all that was answered.

    scripts/drive/restarts.py PROGRAM FOLDER WAY..

WAY is one of

    kills COUNT SECONDS  the server is killed at so many moments of a run of registrations, changes, closings and rotations,
                         while others look names up; or at as many as there is time for, at least 100. Some bindings have a
                         policy, and the change of a final one is refused
    lives                three lives of one file, each with salts of a stream of its own
    full                 the file may not grow any more: a registration is refused 19, and look-ups go on; with room again,
                         the server is started again
    synced LIBRARY       the order of records, syncs and answers, and syncs that fail one after another, by the library of
                         sync_order.c; and a file that cannot be cut

The journals are files of the folder. Prints what is not so. The status is 0 where all is.
"""

import os
import pathlib
import random
import resource
import signal
import subprocess
import sys
import threading
import time
from typing import NamedTuple

sys.dont_write_bytecode = True
sys.path.insert(0, str(pathlib.Path(__file__).resolve().parent.parent))

from drive.send_frames import connected
from model import formats
from questions.worked import SALT_KEY, SIGNING_KEY, TOKEN, VUF_KEY, keys

KILLS_OF_A_FILE = 20
LONGEST_RUN = 0.06
# Fewer kills in the time that there is are too few.
FEWEST_KILLS = 100
BATCH = 8
AT_ONCE = 64
# So many connections look names up meanwhile.
BESIDE = 3
KEEP_FAILED = 19
UNKEPT = "journal: cannot write, edits are refused until a restart\n"
ROOM = 2048
FAILING_SYNCS = 4


def limit_files():
    signal.signal(signal.SIGXFSZ, signal.SIG_IGN)
    resource.setrlimit(resource.RLIMIT_FSIZE, (ROOM, ROOM))


def records_of(journal):
    """The whole records of a file: a start, and then others."""
    found = []
    with open(journal, "rb") as file:
        cursor = formats.Cursor(file.read())
    try:
        while True:
            found.append(formats.read_front(formats.take_later_record if found else formats.take_start_record, cursor))
    except formats.Fault:
        return found


def salts_of(records):
    """The salts of the bindings among records, in order."""
    return [record[1] for record in records[1:] if record[0] in formats.VERBS]


class Server:
    """A server on a journal. `line` is what it says of the journal."""

    def __init__(self, program, journal, **how):
        words = [program, "listen", *keys().split(), "--journal", journal, "127.0.0.1:0"]
        pipes = {"stderr": subprocess.PIPE, "stdout": subprocess.DEVNULL}
        self.journal = journal
        self.process = subprocess.Popen(words, text=True, restore_signals=False, **pipes, **how)
        self.line = self.process.stderr.readline().strip()
        self.address = self.process.stderr.readline().removeprefix("listening on ").strip()

    def stop(self):
        """What it said on standard error since it listened."""
        self.process.kill()
        self.process.wait()
        with self.process.stderr as errors:
            return errors.read()

    def ask(self, requests):
        """The replies to these requests over one connection, as (kind, body), as far as they come."""
        answers, rest = [], b""
        with connected(self.address) as client:
            for start in range(0, len(requests), AT_ONCE):
                some = requests[start : start + AT_ONCE]
                try:
                    client.sendall(b"".join(formats.request_frame(*request) for request in some))
                    while len(answers) < start + len(some):
                        piece = client.recv(65536)
                        if not piece:
                            return answers
                        found, rest, _ = formats.split_frames(rest + piece)
                        answers += found
                except OSError:
                    return answers
        return answers


def look_up_over(client):
    """Looks names up over a connection until the server is gone."""
    asked = formats.request_frame("lookup", 0, b"name 1")
    with client:
        try:
            client.sendall(8 * asked)
            while client.recv(4096):
                client.sendall(asked)
        except OSError:
            pass


def bound_by(request):
    """The verb of a request to bind a name, the name, and what it binds the name to; of another request None."""
    verb = request[0].removesuffix("2")
    if verb not in formats.VERBS:
        return None
    policy = None if verb == request[0] else request[1]
    return verb, request[-2], formats.Statement(request[-1], policy)


def any_policy():
    """Of four bindings two have no policy, one is open, and one is final."""
    return random.choice([None, None, formats.OPEN, formats.FINAL])


class Version(NamedTuple):
    """What a name was bound to, as it was promised over an epoch."""

    bound: formats.Statement
    epoch: int
    promise: bytes


class Answered:
    """What a server answered: the root of each epoch, and the versions of each name."""

    def __init__(self):
        self.roots, self.names = {}, {}
        # What changes without an answer bind, by name. Such a name is not changed again.
        self.doubted = {}
        # How many changes of final bindings were refused.
        self.refused = 0
        self.made, self.epoch, self.head = 0, 1, 1

    def is_shown(self, name):
        """Whether the last version of a name is on the last page, so that nothing waits."""
        return self.names[name][-1].epoch < self.head

    def is_final(self, name):
        """Whether the last version of a name is final."""
        return self.names[name][-1].bound.policy == formats.FINAL

    def shown_name(self, is_final):
        """Some name of which nothing waits, and whose binding is final or not, if one is found."""
        for name in random.sample(list(self.names), min(len(self.names), 4)):
            if name not in self.doubted and self.is_shown(name) and self.is_final(name) == is_final:
                return name
        return None

    def first(self):
        """Registrations and a closing, so that there is something to change."""
        for _ in range(BATCH):
            self.made += 1
            yield formats.bind_request("register", b"name %d" % self.made, b"first key", any_policy())
        self.epoch += 1
        yield "close", TOKEN, self.epoch

    def batch(self):
        """Registrations of new names and changes of others, perhaps of a final one, and a closing or a rotation."""
        taken = {None}
        for _ in range(random.randrange(1, BATCH)):
            self.made += 1
            name = self.shown_name(is_final=False)
            if random.random() < 0.5 and name not in taken:
                taken.add(name)
                yield formats.bind_request("change", name, b"key %d of " % self.made + name, any_policy())
            else:
                name = b"name %d" % self.made
                yield formats.bind_request("register", name, b"key of " + name, any_policy())
        final = self.shown_name(is_final=True)
        if random.random() < 0.3 and final is not None:
            yield formats.bind_request("change", final, b"never the key", any_policy())
        if random.random() < 0.3:
            self.epoch += 1
            closing, rotation = ("close", TOKEN, self.epoch), ("rotate", TOKEN, self.epoch, random.randbytes(32))
            yield random.choice([closing, rotation])

    def take(self, request, kind, body):
        """Keeps an answer, and says what is wrong with it."""
        verb, name, bound = bound_by(request) or (None, None, None)
        if verb == "change" and self.is_final(name):
            if (kind, body) != (formats.REFUSED, formats.u8(formats.FINAL_BINDING)):
                yield f"{request[0]} of {name}, which is final, got the kind {kind:02x} and {body[:8].hex()}"
            self.refused += 1
        elif verb and kind == formats.PROMISE:
            promise = formats.SignedPromise.read(body).promise
            if (promise.name, promise.statement()) != (name, bound):
                yield f"{request[0]} of {name} got the promise of {promise.name}"
            self.names.setdefault(name, []).append(Version(bound, promise.epoch, body))
        elif request[0] in ("close", "rotate") and kind == formats.ROOT:
            self.roots[request[2]] = body
            self.head = request[2]
        else:
            yield f"{request[0]} got the kind {kind:02x} and {body[:8].hex()}"

    def doubt(self, requests):
        """These got no answer."""
        for verb, name, bound in filter(None, map(bound_by, requests)):
            if verb == "change" and not self.is_final(name):
                self.doubted.setdefault(name, set()).add(bound)

    def ask(self, server, requests):
        """Asks, and keeps what comes."""
        answers = server.ask(requests)
        for request, answer in zip(requests, answers):
            yield from self.take(request, *answer)
        self.doubt(requests[len(answers) :])

    def run(self, server, seconds):
        """Asks until the server is gone, which is killed after this time."""
        killed = threading.Event()

        def kill():
            killed.set()
            server.process.kill()

        timer = threading.Timer(seconds, kill)
        beside = [threading.Thread(target=look_up_over, args=(connected(server.address),)) for _ in range(BESIDE)]
        asked, rest = [], b""
        with connected(server.address) as client:
            timer.start()
            for each in beside:
                each.start()
            try:
                while True:
                    asked = list(self.batch())
                    client.sendall(b"".join(formats.request_frame(*request) for request in asked))
                    while asked:
                        piece = client.recv(65536)
                        if not piece:
                            raise ConnectionError
                        found, rest, _ = formats.split_frames(rest + piece)
                        for answer in found:
                            yield from self.take(asked.pop(0), *answer)
            except OSError:
                if not killed.is_set():
                    yield "the connection ended before the server was killed"
        timer.join()
        server.stop()
        for each in beside:
            each.join()
        self.doubt(asked)

    def check(self, server, roots_from, names):
        """Asks a server for the roots from this epoch on and for these names, and says what is missing or other."""
        ((_, head),) = server.ask([("head",)])
        root = formats.SignedRoot.read(head)
        self.epoch, self.head = max(self.epoch, root.epoch), root.epoch
        roots, start = {}, roots_from
        while start <= root.epoch:
            ((kind, body),) = server.ask([("history", start, 64)])
            if kind != formats.ROOTS:
                yield f"history from {start} got the kind {kind:02x}"
                return
            for one in formats.read_list(body):
                roots[one.epoch] = one.write()
            start = max(roots) + 1
        for epoch, body in self.roots.items():
            if epoch >= roots_from and roots.get(epoch) != body:
                yield f"the root of epoch {epoch} is gone or another"
        self.roots.update(roots)
        salts = {record[2:]: record[1] for record in records_of(server.journal)[1:] if record[0] in formats.VERBS}
        questions = [question for name in names for question in self.questions(name)]
        answers = server.ask([request for request, *_ in questions])
        if len(answers) < len(questions):
            yield f"{len(answers)} answers to {len(questions)} questions"
        for (request, version, others), (kind, body) in zip(questions, answers):
            name = request[-1]
            if request[0] == "promise":
                if (kind, body) != (formats.PROMISE, version.promise):
                    yield f"the promise of {name} is gone or another"
            else:
                shown = self.shown(request[1] or root.epoch, name, body) if kind == formats.PROOF else None
                if shown is None or shown[1:] not in others | {version.bound}:
                    yield f"{name}, promised over epoch {version.epoch}, is not in epoch {request[1]}"
                elif shown.salt != salts.get((name, *shown[1:])):
                    yield f"{name} in epoch {request[1]} has not the salt of its record"

    def questions(self, name):
        """What to ask of each version of a name: the request, the version, and what may have come after it."""
        versions, others = self.names[name], self.doubted.get(name, set())
        for version, later in zip(versions, versions[1:]):
            yield ("lookup", later.epoch, name), version, set()
        last = versions[-1]
        if self.is_shown(name):
            yield ("lookup", 0, name), last, others
        else:
            yield ("promise", name), last, set()

    def shown(self, epoch, name, body):
        """What a reply to a look-up shows under the root of an epoch, where it is accepted."""
        root = formats.SignedRoot.read(self.roots[epoch])
        try:
            accepted = formats.accept(formats.sha256, formats.KeyedVuf, root.body, name, body)
        except formats.Refusal:
            return None
        end = accepted.reply.end
        return end if root.verifies(SIGNING_KEY) and isinstance(end, formats.Opening) else None


def kills(program, folder, count, seconds):
    """Kills the server so often, or as often as these seconds allow."""
    counted, changes, refused, end = 0, 0, 0, time.monotonic() + float(seconds)
    for number in range(int(count)):
        if number % KILLS_OF_A_FILE == 0:
            journal, answered = f"{folder}/journal {number}", Answered()
            server = Server(program, journal)
            begun = time.monotonic()
            yield from answered.ask(server, [*answered.first()])
            longest = max(LONGEST_RUN, 4 * (time.monotonic() - begun))
        else:
            server = Server(program, journal)
        before = {name: len(versions) for name, versions in answered.names.items()}
        roots_from = answered.epoch
        yield from answered.run(server, random.random() * longest)
        server = Server(program, journal)
        is_over = number + 1 == int(count) or time.monotonic() > end
        is_last = is_over or (number + 1) % KILLS_OF_A_FILE == 0
        new = [name for name, versions in answered.names.items() if len(versions) != before.get(name)]
        yield from answered.check(server, 1 if is_last else roots_from, answered.names if is_last else new)
        server.stop()
        counted += len(new)
        changes += sum(len(answered.names[name]) > 1 for name in new)
        refused += answered.refused if is_last else 0
        if is_last and len(set(salts := salts_of(records_of(journal)))) < len(salts):
            yield "a salt was drawn twice"
        if is_over:
            break
    names = f"{counted} names, {changes} of them changed, were asked for after one"
    print(f"{number + 1} kills; {names}; {refused} changes of final ones were refused", file=sys.stderr)
    if not counted or not changes or not refused:
        yield "nothing was answered, changed or refused"
    if number + 1 < min(int(count), FEWEST_KILLS):
        yield f"only {number + 1} kills in {seconds} seconds"


def lives(program, folder):
    """Three lives of one file. Each draws the salts of the stream whose number is that of the records it found."""
    journal, answered = f"{folder}/lives", Answered()
    for life in range(1, 4):
        found = len(records_of(journal)) if os.path.exists(journal) else 0
        server = Server(program, journal)
        if server.line != f"journal: {found} records taken":
            yield f"life {life}: {server.line}"
        yield from answered.check(server, 1, answered.names)
        shown = [name for name in answered.names if answered.is_shown(name)]
        changes = [formats.bind_request("change", name, b"key of life %d" % life, any_policy()) for name in shown]
        kept = sum(not answered.is_final(name) for name in shown)
        policies = (None, formats.OPEN, formats.FINAL)
        names = [b"name %d of life %d" % (n, life) for n in range(3)]
        registers = [formats.bind_request("register", name, b"key", policy) for name, policy in zip(names, policies)]
        closing, waits = ("close", TOKEN, 10 * life), ("register", b"waits in life %d" % life, b"key")
        yield from answered.ask(server, changes + registers + [closing, waits])
        server.stop()
        drawn = salts_of(records_of(journal))[len(salts_of(records_of(journal)[: max(found, 1)])) :]
        if len(drawn) != kept + 4 or any(one != two for one, two in zip(drawn, formats.salts(SALT_KEY, found))):
            yield f"life {life}: the salts are not those of stream {found}"
    server = Server(program, journal)
    yield from answered.check(server, 1, answered.names)
    server.stop()


def full(program, folder):
    journal, answered = f"{folder}/full", Answered()
    server = Server(program, journal, preexec_fn=limit_files)
    if server.line != "journal: 0 records taken":
        yield f"a new journal: {server.line}"
    refused = None
    for number in range(100):
        # The first record for which there is no room, that of name 18, has a policy.
        policy = (formats.FINAL, formats.OPEN, None)[number % 3]
        request = formats.bind_request("register", b"name %d" % number, b"key" * 20, policy)
        ((kind, body),) = server.ask([request])
        if kind == formats.REFUSED:
            refused = body
            break
        yield from answered.take(request, kind, body)
    if refused != formats.u8(KEEP_FAILED):
        yield f"a journal without room: {refused}"
    requests = ("head",), ("promise", b"name 0"), ("lookup", 0, b"name 0")
    for request, wanted in zip(requests, (formats.ROOT, formats.PROMISE, formats.PROOF)):
        ((kind, body),) = server.ask([request])
        if kind != wanted:
            yield f"{request[0]} without room got the kind {kind:02x}"
    for request in (("register", b"other", b"key"), ("register2", formats.OPEN, b"other", b"key"), ("close", TOKEN, 2)):
        ((kind, body),) = server.ask([request])
        if (kind, body) != (formats.REFUSED, formats.u8(KEEP_FAILED)):
            yield f"{request[0]} after a lost record got the kind {kind:02x}"
    told = server.stop()
    if told != UNKEPT:
        yield f"without room: {told}"
    server = Server(program, journal)
    if not server.line.startswith(f"journal: {len(answered.names) + 1} records taken"):
        yield f"with room again: {server.line}"
    yield from answered.check(server, 1, answered.names)
    yield from answered.ask(server, [("register2", formats.FINAL, b"other", b"key"), ("close", TOKEN, 2)])
    told = server.stop()
    if told:
        yield f"with room: {told}"
    server = Server(program, journal)
    yield from answered.check(server, 1, answered.names)
    server.stop()


class Call(NamedTuple):
    name: str
    descriptor: int
    is_well: bool
    # That of the descriptor; of a rename the new one.
    path: str


class Log:
    """The calls of a process that hand bytes to files and connections, as the library logs them."""

    def __init__(self, path, library, fails=0, **more):
        self.path = path
        self.file = open(path, "wb")
        words = {"LD_PRELOAD": library, "SYNC_LOG": str(self.file.fileno()), "FAIL_SYNC": str(fails), **more}
        self.how = {"env": {**os.environ, **words}, "pass_fds": (self.file.fileno(),)}

    def calls(self):
        """Each call so far."""
        with open(self.path) as file:
            words = [[*line.rstrip("\n").split(" ", 3), ""] for line in file]
        return [Call(name, int(descriptor), int(result) >= 0, path) for name, descriptor, result, path, *_ in words]

    def count(self, name):
        return sum(call.name == name for call in self.calls())


def synced_file(calls):
    """The descriptor of the one file that is synced."""
    (journal,) = {call.descriptor for call in calls if call.name == "fdatasync"}
    return journal


def unsynced_entry(calls, folder):
    """Says whether a file was written before its entry was synced in this folder."""
    journal = synced_file(calls)
    first = next(call for call in calls if call.name == "fsync" or call[:2] == ("write", journal))
    if (first.name, first.path) != ("fsync", os.path.realpath(folder)):
        yield f"the entry of the file is not synced in {folder}, but there is {first}"


def wrong_order(calls):
    """Says what left before its records were on the disk, and what came after a sync that failed."""
    journal = synced_file(calls)
    is_synced, has_failed = False, False
    for name, descriptor, is_well, _ in calls:
        if name == "fdatasync":
            has_failed = has_failed or not is_well
            is_synced = not has_failed
        elif descriptor == journal and name == "write":
            is_synced = False
            if has_failed:
                yield "a record was written after a sync that failed"
        elif name == "send" or descriptor == 1:
            if has_failed:
                yield "an answer left after a sync that failed"
            elif not is_synced:
                yield "an answer left before its record was on the disk"


def ordered(program, folder, library):
    """Records are on the disk before their answers leave, and what needs no sync makes none."""
    log, answered = Log(f"{folder}/log", library), Answered()
    server = Server(program, f"{folder}/synced", **log.how)
    for _ in range(50):
        yield from answered.ask(server, list(answered.batch()))
    syncs = log.count("fdatasync")
    # A call is logged once it is over, so the last send may not be there yet.
    if not 50 <= syncs < log.count("write") or log.count("send") < 49:
        yield f"{syncs} syncs, {log.count('write')} writes, {log.count('send')} sends"
    server.ask([("head",), ("lookup", 0, b"name 1"), ("register", b"name 1", b"key")])
    if log.count("fdatasync") != syncs:
        yield "a sync without a record"
    yield from wrong_order(log.calls())
    yield from unsynced_entry(log.calls(), folder)
    server.stop()


def bare(program, folder, library):
    """The entry of a file whose path is a name alone is synced in the folder of the process."""
    log = Log(f"{folder}/log of a name", library)
    words = [os.path.abspath(program), "serve", *keys().split(), "--journal", "bare"]
    subprocess.run(words, input=formats.request_frame("head"), capture_output=True, cwd=folder, **log.how)
    yield from wrong_order(log.calls())
    yield from unsynced_entry(log.calls(), folder)


def failing(program, folder, library, number):
    """The sync of this number fails: none of its answers leaves and none after them, and a restart has the others."""
    log, answered = Log(f"{folder}/log {number}", library, number), Answered()
    journal = f"{folder}/failing {number}"
    server = Server(program, journal, **log.how)
    asked = []
    for _ in range(number):
        batch = list(answered.batch())
        asked += batch
        yield from answered.ask(server, batch)
    if sum(map(len, answered.names.values())) + len(answered.roots) + answered.refused >= len(asked):
        yield f"sync {number} fails, and all is answered"
    for request in ("head",), ("register", b"other", b"key"), ("head",):
        if server.ask([request]):
            yield f"an answer to {request[0]} after sync {number} failed"
    yield from wrong_order(log.calls())
    told = server.stop()
    if told != UNKEPT:
        yield f"sync {number} failed: {told}"
    server = Server(program, journal)
    yield from answered.check(server, 1, answered.names)
    server.stop()


def told_of(journal, errors):
    """Whether a line says what the system said of the journal, and the line behind it."""
    said, fault = errors.split(b"\n")[-3:-1]
    return said.startswith(f"journal: {journal}: ".encode()) and said.endswith(b")"), fault


def unserved(program, folder, library):
    """`serve` ends where its sync fails, and writes nothing."""
    log = Log(f"{folder}/log of serve", library, 1)
    journal = f"{folder}/unserved"
    words = [program, "serve", *keys().split(), "--journal", journal]
    served = subprocess.run(words, input=formats.request_frame("head"), capture_output=True, **log.how)
    told = (served.returncode, served.stdout, *told_of(journal, served.stderr))
    if told != (1, b"", True, b"cannot write"):
        yield f"serve, whose sync fails: {told}"
    yield from wrong_order(log.calls())


def uncut(program, folder, library):
    """A file that cannot be cut stays as it was."""
    journal, start = f"{folder}/uncut", formats.start_record(1, formats.ZERO32, SIGNING_KEY, VUF_KEY)
    words = [program, "serve", *keys().split(), "--journal", journal]
    for data in (start, start + formats.turned_record(2) + b"C", start[:-1]):
        with open(journal, "wb") as file:
            file.write(data)
        log = Log(f"{folder}/log of cuts", library, FAIL_CUT="1")
        served = subprocess.run(words, input=formats.request_frame("head"), capture_output=True, **log.how)
        told = (served.returncode, served.stdout, *told_of(journal, served.stderr))
        if told != (1, b"", True, b"cannot write"):
            yield f"serve, which cannot cut its journal: {told}"
        with open(journal, "rb") as file:
            if file.read() != data:
                yield "a journal that cannot be cut is another"


def synced(program, folder, library):
    yield from ordered(program, folder, library)
    yield from bare(program, folder, library)
    for number in range(1, FAILING_SYNCS + 1):
        yield from failing(program, folder, library, number)
    yield from unserved(program, folder, library)
    yield from uncut(program, folder, library)


WAYS = {"kills": kills, "lives": lives, "full": full, "synced": synced}


def main(program, folder, way, *words):
    wrong = list(WAYS[way](program, folder, *words))
    for line in wrong[:20]:
        print(line)
    return 1 if wrong else 0


if __name__ == "__main__":
    if len(sys.argv) < 4 or sys.argv[3] not in WAYS:
        sys.exit(__doc__)
    sys.exit(main(*sys.argv[1:]))
