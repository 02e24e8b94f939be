#!/usr/bin/env python3
"""Compares two builds of directoryd: one for x86-64-v3, and the one that `rt ci` made.

    scripts/drive/avx2.py PROGRAM OTHER

Both print the root of lists of items, and the path of an index; for a short list both are compared with the model's. A
directory that PROGRAM's `listen` serves is asked by replies.py. Prints what differs. The status is 0 if nothing does.
"""

import pathlib
import random
import subprocess
import sys

sys.dont_write_bytecode = True
sys.path.insert(0, str(pathlib.Path(__file__).resolve().parent.parent))

from model.formats import ZERO32, Empty, Other, Present, Tree, sha256

# The counts of random items, those of the worst shapes, and up to which count the model is asked.
COUNTS, SHAPE, MODEL_MOST = (0, 1, 2, 3, 7, 8, 9, 15, 16, 17, 100, 1_000, 100_000), 1_000, 1_000
NONCE = bytes([0x5A]) * 32
# How long a program may take, in seconds.
LIMIT = 60


def drawn_items(numbers, source):
    """Items of these indices, in any order."""
    source.shuffle(numbers)
    return {number.to_bytes(32, "big"): source.randbytes(32) for number in numbers}


def lists():
    """Lists of items, each with its name."""
    source = random.Random(3)
    for count in COUNTS:
        yield f"{count:,} items", drawn_items([source.getrandbits(256) for _ in range(count)], source)
    halves = [source.getrandbits(255) << 1 for _ in range(SHAPE)]
    yield "pairs apart in the last bit", drawn_items(halves + [number + 1 for number in halves], source)
    prefix = source.getrandbits(200) << 56
    yield "items below one prefix", drawn_items([prefix | source.getrandbits(56) for _ in range(SHAPE)], source)


def printed(program, words, items):
    text = "".join(f"{index.hex()} {commitment.hex()}\n" for index, commitment in items.items())
    ran = subprocess.run([program, *words], input=text, capture_output=True, text=True, timeout=LIMIT)
    return ran.returncode, ran.stdout


def path_text(tree, index):
    """What `prove` prints of a path by the model."""
    path = tree.path(index)
    match path.end:
        case Present(commitment):
            end = f"present {commitment.hex()}"
        case Empty():
            end = "empty"
        case Other(other, commitment):
            end = f"other {other.hex()} {commitment.hex()}"
    siblings = "".join(f"sibling {sibling.hex()}\n" for sibling in path.siblings)
    return f"level {len(path.siblings)}\n{end}\n{siblings}root {tree.root().hex()}\n"


def answers(tree, index):
    """What `root` and `prove` print by the model, or none where it takes too long."""
    if len(tree.items) > MODEL_MOST:
        return None, None
    return (0, f"root {tree.root().hex()}\n"), (0, path_text(tree, index))


def compare(programs):
    """How many answers are the same, and how many are not."""
    same = other = 0
    source = random.Random(5)
    for name, items in lists():
        for nonce in (ZERO32, NONCE):
            index = source.choice([*items, source.randbytes(32)])
            tree = Tree(sha256, nonce, items)
            commands = ["root", "--nonce", nonce.hex()], ["prove", "--nonce", nonce.hex(), "--index", index.hex()]
            for words, wanted in zip(commands, answers(tree, index)):
                found = {printed(program, words, items) for program in programs}
                if len(found) == 1 and wanted in (None, *found):
                    same += 1
                else:
                    other += 1
                    print(f"{words[0]} of {name}: {str(sorted(found))[:300]}, wanted {str(wanted)[:300]}")
    return same, other


def is_served(program):
    """Whether a directory of this program replies as the model does."""
    keys = subprocess.run(["scripts/questions/worked.py", "--keys"], capture_output=True, text=True, check=True).stdout
    words = [program, "listen", *keys.split(), "--count", "1", "127.0.0.1:0"]
    with subprocess.Popen(words, stderr=subprocess.PIPE, text=True) as server:
        address = server.stderr.readline().removeprefix("listening on ").strip()
        asked = subprocess.run(["scripts/drive/replies.py", address], capture_output=True, text=True, timeout=LIMIT)
        server.kill()
    print(asked.stdout.splitlines()[-1])
    return asked.returncode == 0


def main(words):
    same, other = compare(words)
    print(f"{same} answers the same in both builds, {other} not")
    return 1 if other or not is_served(words[0]) else 0


if __name__ == "__main__":
    sys.exit(main(sys.argv[1:]))
