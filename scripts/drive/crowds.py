#!/usr/bin/env python3
"""Asks a directory that listens over many connections at once.

    scripts/drive/crowds.py HOST:PORT WAY..

WAY is one of

    checked COUNT SILENT   COUNT clients register, look up and change names, all at once, beside so many that are silent;
                           each reply is checked as a client checks it. The bindings of a client have no policy, are open,
                           or are final
    kept COUNT             the names of `checked` are there, in a server that began with its journal
    slow                   a client that sends one byte a second, and others beside it
    deaf                   one that asks and takes no reply, others beside it, and then its replies
    resets COUNT           COUNT clients that reset their connections, and one beside them
    idle SECONDS           silent clients are closed after so long, and one that asks is not
    late SECONDS           a client that is answered in a round longer than so long asks again, and another asks in that
                           round
    suspended SECONDS PID  a client asks the server, which is suspended for longer than so long
    full PLACES            a client waits for a place, and has it once another is gone
    many COUNT             COUNT clients of a server with fewer file handles: each is answered
    stopped                what each client has of a server that is ordered to stop, once `ready` is printed

The server has the keys of `scripts/questions/worked.py --keys`, and for `checked` it has just begun. Prints what is not
so. The status is 0 where all is.
"""

import os
import pathlib
import select
import signal
import socket
import struct
import sys
import time

sys.dont_write_bytecode = True
sys.path.insert(0, str(pathlib.Path(__file__).resolve().parent.parent))

from drive.send_frames import connected, frames, one_reply
from model.formats import (
    FINAL,
    FINAL_BINDING,
    OPEN,
    KeyedVuf,
    SignedPromise,
    Statement,
    bind_request,
    read_response,
    request_frame,
    sha256,
    split_frames,
    write_list,
)
from model.sessions import Client
from questions.worked import SIGNING_KEY, TOKEN, VUF_KEY

HEAD = request_frame("head")
PATIENCE = 0.3
NAMES = 2
# More bytes than a server reads of a client that takes no reply.
MOST_READ = 4_000_000
# For so long a client that takes no reply can send nothing more, once its replies are too many.
FULL_SECONDS = 1
# How long a server that is ordered to stop waits for such a client.
LAST_SECONDS = 5


def ask(client, *request):
    """The value of the response to one request."""
    client.sendall(request_frame(*request))
    return response_of(one_reply(client))


def response_of(reply):
    (found,), rest, _ = split_frames(reply)
    assert not rest
    return read_response(*found)


def answers(client, count):
    """The values of the next responses, of which there are so many."""
    found, rest = [], b""
    while len(found) < count:
        piece = client.recv(65536)
        if not piece:
            break
        some, rest, _ = split_frames(rest + piece)
        found += [read_response(*one) for one in some]
    return found


def is_answered(address):
    with connected(address) as client:
        client.sendall(HEAD)
        return len(frames(one_reply(client))[0]) == 1


def narrow(address):
    """A connection for which the system keeps few bytes."""
    client = socket.socket()
    client.setsockopt(socket.SOL_SOCKET, socket.SO_RCVBUF, 65536)
    client.setsockopt(socket.SOL_SOCKET, socket.SO_SNDBUF, 4096)
    host, _, port = address.rpartition(":")
    client.connect((host, int(port)))
    return client


def ask_on(client):
    """Asks until the server reads no more, and counts the bytes that were sent."""
    client.settimeout(FULL_SECONDS)
    sent = 0
    try:
        while sent < MOST_READ:
            sent += client.send(HEAD * 1000)
    except TimeoutError:
        pass
    client.settimeout(60)
    return sent


def reset(client):
    """Closes a connection with no time to linger, which resets it."""
    client.setsockopt(socket.SOL_SOCKET, socket.SO_LINGER, struct.pack("ii", 1, 0))
    client.close()


def is_closed(client, seconds):
    """The server closes the connection within so long."""
    client.settimeout(seconds)
    try:
        while client.recv(65536):
            pass
    except TimeoutError:
        return False
    except ConnectionError:
        pass
    return True


def names_of(count):
    return [[b"name %d of %d" % (k, n) for k in range(NAMES)] for n in range(count)]


def binding_of(n):
    """What a client binds its names to."""
    return Statement(b"key of %d" % n, (None, OPEN, FINAL)[n % 3])


def bind_frame(verb, name, bound):
    """The frame of a request to bind a name so."""
    return request_frame(*bind_request(verb, name, *bound))


def checked(address, count, silent):
    count = int(count)
    still = [connected(address) for _ in range(int(silent))]
    operator = connected(address)
    first = ask(operator, "head")
    clients = [connected(address) for _ in range(count)]
    names = names_of(count)
    users = [Client(SIGNING_KEY, first.write(), sha256, KeyedVuf(VUF_KEY)) for _ in range(count)]
    for k in range(NAMES):
        for n, client in enumerate(clients):
            frame = bind_frame("register", names[n][k], binding_of(n))
            client.sendall(frame[:7])
        for n, client in enumerate(clients):
            frame = bind_frame("register", names[n][k], binding_of(n))
            client.sendall(frame[7:] + request_frame("lookup", 0, names[n][k]))
    for n, client in enumerate(clients):
        told = answers(client, 2 * NAMES)
        for name, promise, absent in zip(names[n], told[::2], told[1::2], strict=True):
            users[n].keep_promise(promise.write())
            if users[n].look(name, 0, absent.write()) is not None:
                yield f"client {n}: a name is there before its epoch"
    ask(operator, "close", TOKEN, first.body.epoch + 1)
    roots = ask(operator, "history", first.body.epoch + 1, 64)
    for n, client in enumerate(clients):
        other = (n + 1) % count
        client.sendall(b"".join(request_frame("lookup", 0, name) for name in names[n] + names[other][:1]))
    for n, client in enumerate(clients):
        users[n].update(write_list(roots))
        replies = answers(client, NAMES + 1)
        for name, reply in zip(names[n], replies):
            if users[n].due(name, reply.write()) != "kept":
                yield f"client {n}: a promise is not kept"
            if users[n].look(name, 0, reply.write()) != binding_of(n):
                yield f"client {n}: another binding"
        other = (n + 1) % count
        if users[n].look(names[other][0], 0, replies[-1].write()) != binding_of(other):
            yield f"client {n}: another binding of the next client"
    yield from changed_by_each(clients, users, names)
    for client in [operator, *clients, *still]:
        client.close()


def changed_by_each(clients, users, names):
    """Each client changes its first name, to an open binding or one without a policy."""
    changed = [Statement(b"other key of %d" % n, (None, OPEN)[n % 2]) for n in range(len(clients))]
    for n, client in enumerate(clients):
        client.sendall(bind_frame("change", names[n][0], changed[n]))
    for n, client in enumerate(clients):
        (told,) = answers(client, 1)
        if binding_of(n).policy == FINAL:
            if told != FINAL_BINDING:
                yield f"client {n}: a final binding is changed"
        elif not isinstance(told, SignedPromise):
            yield f"client {n}: a change is refused"
        else:
            users[n].keep_promise(told.write())
            if (told.promise.name, told.promise.statement()) != (names[n][0], changed[n]):
                yield f"client {n}: the promise of another change"


def kept(address, count):
    with connected(address) as client:
        user = Client(SIGNING_KEY, ask(client, "head").write(), sha256, KeyedVuf(VUF_KEY))
        for n, names in enumerate(names_of(int(count))):
            client.sendall(b"".join(request_frame("lookup", 0, name) for name in names))
            for name, reply in zip(names, answers(client, NAMES), strict=True):
                if user.look(name, 0, reply.write()) != binding_of(n):
                    yield f"another binding of {name.decode()}"


def slow(address):
    with connected(address) as client:
        for byte in HEAD * 2:
            client.sendall(bytes([byte]))
            if not is_answered(address):
                yield "no answer beside a slow client"
            time.sleep(1)
        if len(answers(client, 2)) != 2:
            yield "the slow client was not answered"


def deaf(address):
    with narrow(address) as client:
        sent = ask_on(client)
        if sent >= MOST_READ:
            yield "the server reads on, though no reply is taken"
        for _ in range(5):
            if not is_answered(address):
                yield "no answer beside a client that takes no reply"
        whole, more = divmod(sent, len(HEAD))
        if len(answers(client, whole)) != whole:
            yield "replies are missing once they are taken"
        client.sendall(HEAD[more:])
        if len(answers(client, 1)) != 1:
            yield "no reply to the last request"


def resets(address, count):
    with connected(address) as asking:
        for number in range(int(count)):
            client = narrow(address)
            # In the middle of a frame, before the replies are read, and in the middle of them.
            client.sendall([HEAD[:3], HEAD * 100, HEAD * 100][number % 3])
            if number % 3 == 2:
                client.recv(200)
            reset(client)
            ask(asking, "head")
        client = narrow(address)
        ask_on(client)
        reset(client)
        ask(asking, "head")
    if not is_answered(address):
        yield "no answer after resets"


def idle(address, seconds):
    seconds = float(seconds)
    still, asking = [connected(address) for _ in range(10)], connected(address)
    half = connected(address)
    half.sendall(HEAD[:4])
    end = time.monotonic() + 2 * seconds
    while time.monotonic() < end:
        ask(asking, "head")
        time.sleep(seconds / 4)
    for number, client in enumerate([*still, half]):
        if not is_closed(client, PATIENCE):
            yield f"silent client {number} was not closed"
    ask(asking, "head")


def late(address, seconds):
    seconds = float(seconds)
    with connected(address) as client, connected(address) as beside:
        for number in (1, 2):
            ask(beside, "head")
            start = time.monotonic()
            client.sendall(bind_frame("register", b"name %d" % number, binding_of(number)))
            time.sleep(0.2 * seconds)
            beside.sendall(HEAD)
            if len(answers(client, 1)) != 1:
                yield f"request {number} was not answered"
                return
            if time.monotonic() - start < seconds:
                yield f"the round of request {number} took less than {seconds} seconds"
            if len(answers(beside, 1)) != 1:
                yield f"a client that asked in the round of request {number} was not answered"
                return
            time.sleep(0.4 * seconds)
        client.sendall(HEAD)
        if len(answers(client, 1)) != 1:
            yield "the last request was not answered"
        if not is_closed(client, 2 * seconds):
            yield "a silent client was not closed"


def suspended(address, seconds, server):
    with connected(address) as client:
        ask(client, "head")
        time.sleep(PATIENCE)
        os.kill(int(server), signal.SIGSTOP)
        client.sendall(HEAD)
        time.sleep(1.5 * float(seconds))
        os.kill(int(server), signal.SIGCONT)
        if len(answers(client, 1)) != 1:
            yield "a client that asked meanwhile was not answered"


def full(address, places):
    clients = [connected(address) for _ in range(int(places))]
    for client in clients:
        ask(client, "head")
    with connected(address) as last:
        last.sendall(HEAD)
        last.settimeout(PATIENCE)
        try:
            yield f"answered {last.recv(65536).hex()} with no free place"
        except TimeoutError:
            pass
        clients[0].close()
        last.settimeout(60)
        if len(answers(last, 1)) != 1:
            yield "not answered once a place was free"
    for client in clients[1:]:
        ask(client, "head")


def many(address, count):
    """Those who were taken go one by one, and those who wait behind them come."""
    clients = [connected(address) for _ in range(int(count))]
    for number, client in enumerate(clients):
        client.sendall(HEAD)
        if len(answers(client, 1)) != 1:
            yield f"client {number} was not answered"
        client.close()


def stopped(address):
    """Who is silent is closed at once, and one that takes no reply after some seconds. Answers that were made come."""
    still, half, asking, full = connected(address), connected(address), connected(address), narrow(address)
    half.sendall(HEAD[:3])
    ask(asking, "head")
    asking.sendall(HEAD * 3)
    ask_on(full)
    print("ready", flush=True)
    if not is_closed(still, 60):
        yield "a silent client was not closed"
    start = time.monotonic()
    if not is_closed(half, PATIENCE):
        yield "a client with half a request was not closed"
    if len(answers(asking, 4)) != 3:
        yield "answers did not come"
    end = select.poll()
    end.register(full, select.POLLRDHUP)
    end.poll(20_000)
    taken = time.monotonic() - start
    if not LAST_SECONDS - 1 < taken < LAST_SECONDS + 3:
        yield f"one that takes no reply was closed after {taken:.1f} seconds"


WAYS = {"checked": checked, "kept": kept, "slow": slow, "deaf": deaf, "resets": resets, "idle": idle, "late": late, "suspended": suspended, "full": full, "many": many, "stopped": stopped}


def main(address, way, *words):
    wrong = list(WAYS[way](address, *words))
    for line in wrong:
        print(line)
    return 1 if wrong else 0


if __name__ == "__main__":
    if len(sys.argv) < 3 or sys.argv[2] not in WAYS:
        sys.exit(__doc__)
    try:
        sys.exit(main(*sys.argv[1:]))
    except OSError as error:
        sys.exit(f"{sys.argv[1]}: {error}")
