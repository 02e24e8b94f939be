#!/usr/bin/env python3
"""Sends bytes to a directory that listens, and prints the frames that come back, one a line in hex.

    scripts/drive/send_frames.py HOST:PORT HEX..

The words of HEX are joined, so that the parts of a frame can stand apart: 00000001 06 asks for the
head. The connection is one session. The status is 0 where the bytes that came back are whole frames.
"""

import socket
import sys
import time

SECONDS = 60
TRIES = 20


def connected(address):
    """A connection. A server that was just started may not listen yet, so it tries for two seconds."""
    host, _, port = address.rpartition(":")
    for _ in range(TRIES):
        try:
            return socket.create_connection((host.strip("[]"), port), timeout=SECONDS)
        except ConnectionRefusedError as error:
            refused = error
            time.sleep(0.1)
    raise refused


def frames(stream):
    """The whole frames at the front of a stream, and what is left."""
    found = []
    while len(stream) >= 4:
        end = 4 + int.from_bytes(stream[:4], "big")
        if len(stream) < end:
            break
        found.append(stream[:end])
        stream = stream[end:]
    return found, stream


def one_reply(connection):
    """The bytes of the next frame."""
    received = b""
    while not frames(received)[0]:
        piece = connection.recv(65536)
        if not piece:
            break
        received += piece
    return received


def told(address, sent):
    """All that comes back for these bytes."""
    received = b""
    with connected(address) as connection:
        connection.sendall(sent)
        connection.shutdown(socket.SHUT_WR)
        while piece := connection.recv(65536):
            received += piece
    return received


def main(address, *words):
    found, rest = frames(told(address, bytes.fromhex("".join(words))))
    for frame in found:
        print(frame.hex())
    return 1 if rest else 0


if __name__ == "__main__":
    if len(sys.argv) < 2:
        sys.exit(__doc__)
    try:
        sys.exit(main(*sys.argv[1:]))
    except (OSError, ValueError) as error:
        sys.exit(f"{sys.argv[1]}: {error}")
