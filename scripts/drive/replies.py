#!/usr/bin/env python3
"""Asks a directory that listens what the worked frames ask, and compares its replies with those of the model.

    scripts/drive/replies.py HOST:PORT          asks a directory that has just begun
    scripts/drive/replies.py HOST:PORT --again  the same over another connection, without the changes

The directory has the keys of `scripts/questions/worked.py --keys`. The status is 0 if all replies have the right bytes.
"""

import pathlib
import sys

sys.dont_write_bytecode = True
sys.path.insert(0, str(pathlib.Path(__file__).resolve().parent.parent))

from drive.send_frames import connected, one_reply
from model.formats import POLICIES, PROMISE, REFUSED, ROOT, ROOTS, read_response
from questions.worked import again, exchanges


def in_words(reply):
    """A reply in a word, with the numbers that tell most."""
    kind, value = reply[4], read_response(reply[4], reply[5:])
    if kind == REFUSED:
        return f"refused {value}"
    if kind == ROOTS:
        return f"roots: {len(value)}"
    if kind == PROMISE:
        return f"promise over epoch {value.promise.epoch}"
    if kind == ROOT:
        return f"root of epoch {value.epoch}"
    found = value.statement()
    if found is None:
        return f"epoch {value.body.epoch}, no key"
    policy = "" if found.policy is None else f", {POLICIES[found.policy]}"
    return f"epoch {value.body.epoch}, key {found.key.decode()}{policy}"


def ask(address, asked):
    """Asks one request at a time, and compares the bytes of each reply."""
    same = other = 0
    with connected(address) as connection:
        for exchange in asked:
            connection.sendall(b"".join(exchange.request))
            received = one_reply(connection)
            print(f"{exchange.words}: {in_words(exchange.reply)}")
            if received == exchange.reply:
                same += 1
            else:
                other += 1
                print(f"wanted {exchange.reply.hex()}\n   got {received.hex()}")
    print(f"{same} replies with the bytes that are computed here, {other} with others")
    return 1 if other else 0


def main(words):
    match words:
        case [address]:
            return ask(address, exchanges())
        case [address, "--again"]:
            return ask(address, again())
    print(__doc__, file=sys.stderr)
    return 2


if __name__ == "__main__":
    try:
        sys.exit(main(sys.argv[1:]))
    except OSError as error:
        sys.exit(f"{sys.argv[1]}: {error}")
