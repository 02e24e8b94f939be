"""Compares the answers on room for roots with the stored ones, where one allocation failed.

    scripts/drive/room_first.py QUESTIONS ANSWERS STORED

A call that has no room for the roots of a list is refused for want of memory and changes nothing; asked again, it
answers as it would have. So at most one answer differs: before the stored one it tells the state that this begins with,
and that refusal. The status is 0 if that is so. Prints the question that was answered so, if there is one.
"""

import pathlib
import sys

sys.dont_write_bytecode = True
sys.path.insert(0, str(pathlib.Path(__file__).resolve().parent.parent))

from drive.unlike import unlike

LACKS = (" refused 22 out of memory ", " out of memory ")


def lacked(answer, stored):
    """Whether the call lacked memory at first, changed nothing, and then answered as it is stored."""
    before = answer.removesuffix(stored)
    return any(
        before.endswith(lack) and stored.startswith(before.removesuffix(lack) + " ") for lack in LACKS if before != lack
    )


def main():
    differ = unlike(*sys.argv[1:])
    if differ is None or len(differ) != 1 or " room" not in differ[0][0] or not lacked(*differ[0][1:]):
        return 1
    print(differ[0][0])
    return 0


sys.exit(main())
