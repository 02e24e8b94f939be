#!/usr/bin/env python3
"""Asks a directory that listens for its head over many connections.

    scripts/drive/connections.py HOST:PORT WAY..

WAY is one of

    exactly COUNT  COUNT clients are answered, and two that wait behind them are not
    heads COUNT    COUNT clients, one after another, each of whom is answered
    beside         a second client is answered while the first is silent, and then the first
    fails          a client that resets its connection, one that takes no reply, and one that is answered after them: three
                   connections

Prints what is not so. The status is 0 where all is.
"""

import pathlib
import socket
import struct
import sys

sys.dont_write_bytecode = True
sys.path.insert(0, str(pathlib.Path(__file__).resolve().parent.parent))

from drive.send_frames import connected, frames

HEAD = bytes.fromhex("0000000106")


def all_received(client):
    """The bytes up to the end of the connection, or to its reset."""
    received = b""
    try:
        while piece := client.recv(65536):
            received += piece
    except ConnectionError:
        pass
    return received


def is_root(received):
    """The bytes are one whole frame, of a root."""
    found, rest = frames(received)
    return len(found) == 1 and not rest and found[0][4] == 0x84


def ask(client):
    """All that comes back for one head, after which the client sends no more."""
    try:
        client.sendall(HEAD)
        client.shutdown(socket.SHUT_WR)
    except OSError:
        pass
    return all_received(client)


def exactly(address, count):
    """Those who wait behind are not taken, and their connections end with the server."""
    count = int(count)
    clients = [connected(address) for _ in range(count + 2)]
    for number, client in enumerate(clients, 1):
        with client:
            received = ask(client)
        if number <= count and not is_root(received):
            yield f"client {number} of {count} got {received.hex()}"
        if number > count and received:
            yield f"client {number} was answered, after {count}"


def heads(address, count):
    for number in range(int(count)):
        with connected(address) as client:
            if not is_root(ask(client)):
                yield f"client {number} was not answered"


def beside(address):
    first, second = connected(address), connected(address)
    if not is_root(ask(second)):
        yield "the second client was not answered while the first was silent"
    if not is_root(ask(first)):
        yield "the first client was not answered"


def fails(address):
    with connected(address) as client:
        client.sendall(HEAD[:3])
        # With no time to linger, closing resets the connection.
        client.setsockopt(socket.SOL_SOCKET, socket.SO_LINGER, struct.pack("ii", 1, 0))
    with connected(address) as client:
        client.sendall(HEAD * 2000)
    yield from heads(address, 1)


WAYS = {"exactly": exactly, "heads": heads, "beside": beside, "fails": fails}


def main(address, way, *words):
    wrong = list(WAYS[way](address, *words))
    for line in wrong:
        print(line)
    return 1 if wrong else 0


if __name__ == "__main__":
    if len(sys.argv) < 3 or sys.argv[2] not in WAYS:
        sys.exit(__doc__)
    try:
        sys.exit(main(*sys.argv[1:]))
    except OSError as error:
        sys.exit(f"{sys.argv[1]}: {error}")
