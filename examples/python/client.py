#!/usr/bin/env python3
"""A client of a directory, to copy: it follows the chain of roots, and checks each reply with the proved library.

    client.py LIBRARY ADDRESS PORT KEY COMMAND..

LIBRARY is the shared library that coniks.py loads, with a slash, as ./libconiks.so, and KEY the provider's public key in
hex. Needs Python 3.10 or later.

A COMMAND, and what it prints:

    head                        root E
    lookup NAME                 present E KEY, with a policy behind it if it has one, or absent E
    register NAME KEY [POLICY]  promise E, and kept NAME E once the next root has the key
    change NAME KEY [POLICY]    the same, of a name that has another key
    watch NAME KEY [POLICY]     kept NAME E, or alarm NAME E and what was found, for each epoch from the latest on

NAME is text, a KEY is in hex, POLICY is `open` or `final`. `watch` goes on until it is interrupted (SIGINT), or the
connection ends. With `-` for KEY it expects that the name has none.

The status is 0; 1 if nothing can be said, as where the directory does not answer, or refuses; 2 if the words are wrong; 3
after an alarm, or if what the directory sent is refused or is evidence, which is printed as JSON. `Refused(N)` is a number
of coniks.h, `Declined(N)` one of docs/FORMATS.md, "Refusals".

The stand-ins check signatures and values, and give no security: put your own in the place of `Keyed`. The chain begins
anew in each run. A real client stores all that `Client` keeps, and how far it watched, and bounds the time of a whole reply.
"""

import socket
import sys
import time

from coniks import (
    FINAL,
    KEPT,
    OPEN,
    PROMISED,
    PROOF,
    REFUSED,
    ROOT,
    ROOTS,
    BadSignature,
    Caught,
    Client,
    Keyed,
    Library,
    NotAsked,
    Refused,
    Watch,
)

SECONDS = 60
POLICIES = {"": 0, "open": OPEN, "final": FINAL}


class Declined(Exception):
    """The number with which the directory refuses a request."""


class Session:
    """A client, and the connection over which it asks."""

    def __init__(self, library, scheme, key, address, port):
        self.library, self.received = library, b""
        self.stream = socket.create_connection((address, port), timeout=SECONDS)
        self.client = Client(library, scheme, key, self.ask(library.write_head(), ROOT))

    def ask(self, request, kind):
        """The body of the answer, which has to be of this kind."""
        self.stream.sendall(request)
        while (frame := self.library.read_frame(self.received)) is None:
            piece = self.stream.recv(65536)
            if not piece:
                raise ConnectionError("no reply")
            self.received += piece
        found, body = frame
        self.received = self.received[5 + len(body) :]
        if found == REFUSED:
            raise Declined(self.library.read_refused(body))
        if found != kind:
            raise NotAsked
        return body

    def follow(self):
        """Takes the roots up to the latest, which must not be older than one that the client has."""
        root, last = self.ask(self.library.write_head(), ROOT), self.client.last()
        epoch = self.client.verify(root).epoch
        self.catch_up(epoch)
        self.client.take(root)
        if epoch < last:
            raise NotAsked

    def catch_up(self, epoch):
        """Takes lists of roots until the chain has come to an epoch."""
        while (last := self.client.last()) < epoch:
            self.client.take_list(self.library.read_roots(self.ask(self.library.write_history(last + 1), ROOTS)))
            if self.client.last() == last:
                raise NotAsked

    def reply(self, name, root):
        """The reply to a look-up at a root of the chain."""
        return self.ask(self.library.write_lookup(name, self.client.epoch(root)), PROOF)

    def look(self, name):
        return self.client.look(name, self.reply(name, self.client.roots[-1]))

    def register(self, name, key, policy, is_change=False):
        """Registers or changes a key. The client keeps the promise, whose epoch this returns."""
        promise, last = self.ask(self.library.write_put(is_change, name, key, policy), PROMISED), self.client.last()
        epoch = self.client.verify_promise(promise).epoch
        if epoch < last:
            raise NotAsked
        self.catch_up(epoch)
        self.client.keep(promise, name, key, policy)
        return epoch

    def test(self):
        """Tests the promises that are due: the name of each, the epoch of the root, and whether it was kept."""
        for promise, name, root in self.client.due():
            answer = self.client.test(promise, root, self.reply(name, root))
            yield name, self.client.epoch(root), answer == KEPT

    def step(self, watch):
        """Watches the roots that are new: the epoch of each, whether the name is as expected, and what was found."""
        while root := watch.next():
            yield watch.step(self.reply(watch.name, root))


def say(*words):
    print(*words, flush=True)


def text(found):
    """A key and its policy in words."""
    if found is None:
        return "absent"
    key, policy = found
    return " ".join([key.hex(), *(word for word, number in POLICIES.items() if number == policy != 0)])


def head(session):
    say("root", session.client.last())


def look(session, name):
    found, epoch = session.look(name), session.client.last()
    say(f"present {epoch} {text(found)}" if found else f"absent {epoch}")


def register(session, name, key, policy, is_change):
    say("promise", session.register(name, key, policy, is_change))
    while session.client.promises:
        time.sleep(1)
        session.follow()
        for _, epoch, is_kept in session.test():
            if not is_kept:
                raise NotAsked
            say("kept", name.decode(), epoch)


def watch(session, name, expected):
    """The status: 3 after an alarm, whatever ends the watch."""
    watched, status = Watch(session.client, name, expected), 0
    try:
        while True:
            for epoch, is_kept, found in session.step(watched):
                if not is_kept:
                    status = 3
                say(*(["kept", name.decode(), epoch] if is_kept else ["alarm", name.decode(), epoch, text(found)]))
            time.sleep(1)
            session.follow()
    except KeyboardInterrupt:
        return status
    except (Declined, OSError):
        if status == 0:
            raise
        return status


def order_of(library, command):
    """What a command does with a session."""
    match command:
        case ["head"]:
            return head
        case ["lookup", name]:
            name = name.encode()
            library.write_lookup(name)  # refuses a name that is too long
            return lambda session: look(session, name)
        case ["watch", name, "-"]:
            name = name.encode()
            library.write_lookup(name)
            return lambda session: watch(session, name, None)
        case ["register" | "change" | "watch" as verb, name, key, *policy]:
            name, key, policy = name.encode(), bytes.fromhex(key), POLICIES[" ".join(policy)]
            library.write_put(False, name, key, policy)
            if verb == "watch":
                return lambda session: watch(session, name, (key, policy))
            return lambda session: register(session, name, key, policy, verb == "change")
    raise ValueError("no such command")


def main(words):
    try:
        path, address, port, key, *command = words
        library = Library(path)
        key, port, order = bytes.fromhex(key), int(port), order_of(library, command)
        if len(key) != 32:
            raise ValueError("a public key has 32 bytes")
    except (LookupError, OSError, ValueError, Refused) as why:
        print(__doc__, file=sys.stderr)
        print(f"wrong words: {why!r}", file=sys.stderr)
        return 2
    try:
        return order(Session(library, Keyed(library), key, address, port)) or 0
    except Caught as caught:
        say(caught.json())
        return 3
    except (BadSignature, NotAsked, Refused) as why:
        print(f"refused: {why!r}", file=sys.stderr)
        return 3
    except (Declined, OSError) as why:
        print(f"no answer: {why!r}", file=sys.stderr)
        return 1


if __name__ == "__main__":
    sys.exit(main(sys.argv[1:]))
