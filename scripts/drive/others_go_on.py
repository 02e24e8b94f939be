"""Compares the answers to questions on many connections with the stored ones, where one allocation failed.

    scripts/drive/others_go_on.py QUESTIONS ANSWERS STORED

Where memory is wanting for a connection, it is closed, and a line tells of it; all others go on. So at most one answer
differs, and in it at most one connection, which is closed for want of memory and took a beginning of what it takes
else. If the line could not be told, nothing differs but that line. If more connections come than there are places, the
next one is taken sooner; there, and where an answer has only the digest of what it tells, the lines are counted alone.
The status is 0 if that is so.
"""

import pathlib
import re
import sys

sys.dont_write_bytecode = True
sys.path.insert(0, str(pathlib.Path(__file__).resolve().parent.parent))

from drive.unlike import unlike

FEW = 8
LINE = "out of memory|"


def parts(question, answer):
    """Of each connection how many bytes were read, why it was closed and what it took; and the number of lines."""
    places = int(question.split()[1])
    comers = sum(int(count) for count in re.findall(r" come (\d+)", question))
    words = answer.split(" ")
    count = comers if comers <= min(FEW, places) else 0
    each = [words[3 * place : 3 * place + 3] for place in range(count)]
    return each, answer.count(LINE)


def is_beginning(taken, wanted):
    """Whether a connection took a beginning. Long bytes are told by their number and digest."""
    return taken == "-" or "/" in taken + wanted or wanted.startswith(taken)


def go_on(question, answer, stored):
    each, lines = parts(question, answer)
    wanted, before = parts(question, stored)
    lost = [(told, was) for told, was in zip(each, wanted) if told != was]
    if not each:
        return before - 1 <= lines <= before + 1
    if not lost:
        return lines == before - 1
    (told, was), more = lost[0], lost[1:]
    is_closed = told[1] == "memory" and is_beginning(told[2], was[2])
    return is_closed and not more and lines == before + (was[1] != "memory")


def main():
    differ = unlike(*sys.argv[1:])
    return 0 if differ is not None and len(differ) <= 1 and all(go_on(*lines) for lines in differ) else 1


sys.exit(main())
