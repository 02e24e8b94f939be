"""The answers of the program `faults` on many connections at once, by the definitions of the crate `connections`.

`crowd PLACES OPEN COUNT IDLE ACT..` runs the loop at so many places, over sessions of which at most OPEN may be open. The
loop takes COUNT connections (0: no end), and closes one that was idle for IDLE milliseconds (0: never). A connection is idle
from the end of the round in which something was last read from it or taken by it, or in which it was taken from those that
come; a round ends when the next one begins. A session answers each line with its number, the line's number and the line; a
line that begins with X with 30,000 bytes; and for one that begins with M memory is wanting. ACT is one of

    at TIME                 a round begins at this time, with the acts up to the next `at`
    come N                  N connections come; they are counted from 0
    stop, unsynced          a stop is ordered; what is answered in this round does not get on its disk
    VERB FIRST N ..         what happens to N connections, from FIRST on:
      give BYTES, over      the peer sends bytes, or no more
      piece N, width N      a read gives, or a write takes, at most N bytes
      room N                the peer takes N bytes from now on, and then none; at first there is no end
      read-fails N          the connection fails at the read that follows N bytes
      write-fails N         at the write that follows them

Once all acts are done, rounds follow each other until one finds nothing to do. Then a stop is ordered.

The answer says of each connection how many bytes were read of it, why it was closed (or `waiting`) and what it took; of
more than eight their number, and a line for each. Then come the lines to the errors.

`reports EVERY PLACES OPEN COUNT IDLE ACT..` is the same with a report at the end of the first round that is EVERY milliseconds
or more after the start, and then after the round of the last report (0: never): how many sessions are open, and how many
connections.
"""

import itertools
from math import inf

from model.answers import BadQuestion, told, told_text

MOST, MOST_BYTES = 1024, 1 << 20
FEW = 8
# The most bytes that are read at once, and that may wait for a connection; and the milliseconds that one has to take the
# last of them after an order to stop, and that a round waits.
PIECE, FULL, LAST, PAUSE = 4096, 65536, 5000, 1000

# What is told once of what could not be kept.
UNKEPT = b"journal: cannot write, edits are refused until a restart\n"


class Closed(Exception):
    """A connection is to be closed."""

    def __init__(self, why):
        self.why = why


class Connection:
    """A connection, what its peer does, and its session."""

    def __init__(self):
        self.given, self.is_over = b"", False
        self.piece = self.width = self.room = self.read_fails = self.write_fails = inf
        self.read = 0
        self.taken = b""
        self.why = "waiting"

    def begin(self, place):
        # Since when it is idle. None as long as the round is not over in which something was read, taken or came.
        self.place, self.idle_since = place, None
        self.unheard = self.untold = self.line = b""
        self.lines = 0
        self.has_ended = False

    def reading(self):
        """The bytes that a read gives, none at the end, or `None` where it would wait."""
        if self.read >= self.read_fails:
            raise Closed("fault")
        size = min(len(self.given) - self.read, self.piece, PIECE, self.read_fails - self.read)
        if size == 0:
            return b"" if self.is_over else None
        self.read += size
        self.idle_since = None
        return self.given[self.read - size : self.read]

    def rest(self, now):
        """A round is over."""
        if self.idle_since is None:
            self.idle_since = now

    def attend(self):
        """Reads if nothing waits to be heard or told beyond measure, and hears what it may. Whether anything was done."""
        reads = not self.unheard and not self.has_ended and len(self.untold) <= FULL
        if reads:
            data = self.reading()
            if data is None:
                return False
            self.has_ended = not data
            self.unheard = data
        return self.hear() or reads

    def hear(self):
        has_heard = False
        while self.unheard and len(self.untold) <= FULL:
            end = self.unheard.find(b"\n") + 1 or len(self.unheard)
            self.untold += self.answer(self.unheard[:end])
            self.unheard = self.unheard[end:]
            has_heard = True
        return has_heard

    def answer(self, part):
        self.line += part
        if not part.endswith(b"\n"):
            return b""
        line, self.line = self.line, b""
        self.lines += 1
        if line.startswith(b"M"):
            raise Closed("memory")
        return b"X" * 30_000 if line.startswith(b"X") else b"%d.%d %s" % (self.place, self.lines, line)

    def tell(self, is_synced):
        """Writes once. Whether the peer took anything."""
        if not self.untold:
            return False
        if not is_synced:
            raise Closed("unsynced")
        if len(self.taken) >= self.write_fails:
            raise Closed("fault")
        size = min(len(self.untold), self.width, self.room, self.write_fails - len(self.taken))
        if size == 0:
            return False
        self.taken += self.untold[:size]
        self.untold = self.untold[size:]
        self.room -= size
        self.idle_since = None
        return True

    def patience(self, now, stopped, idle):
        """How long it may stay as it is."""
        if self.has_ended and not self.unheard and not self.untold:
            raise Closed("done")
        if stopped is not None and (not self.untold or stopped + LAST <= now):
            raise Closed("stopped")
        is_idle = bool(idle) and self.idle_since is not None
        if is_idle and self.idle_since + idle <= now:
            raise Closed("idle")
        return min(inf if stopped is None else stopped + LAST - now, self.idle_since + idle - now if is_idle else inf)


class Crowd:
    """The loop."""

    def __init__(self, report, places, most_open, count, idle):
        self.report = self.report_at = report
        self.places, self.most_open = [None] * places, most_open
        self.left, self.idle = count or inf, idle
        self.connections, self.coming = [], 0
        self.now, self.is_ordered, self.stopped = 0, False, None
        self.errors, self.is_told = b"", False

    def run(self, steps):
        pause = 0
        for step in itertools.chain(steps, itertools.repeat(None)):
            self.is_synced = True
            if step is not None:
                for act in step:
                    act(self)
            elif pause:
                self.is_ordered = True
                self.now += pause
            if self.is_ordered and self.stopped is None:
                self.stopped = self.now
            pause = self.round()
            if not self.is_synced and not self.is_told:
                self.errors += UNKEPT
                self.is_told = True
            self.tell_report()
            if (self.left == 0 or self.stopped is not None) and not any(self.places):
                return

    def tell_report(self):
        if self.report and self.now >= self.report_at:
            self.report_at = self.now + self.report
            count = len(self.places) - self.places.count(None)
            self.errors += b"report: sessions=%d connections=%d\n" % (count, count)

    def round(self):
        """A round, and how long the next one may wait."""
        self.is_busy = False
        self.at_each(lambda one: one.rest(self.now))
        if self.stopped is None:
            self.take()
            self.at_each(lambda one: one.attend())
        self.at_each(lambda one: one.tell(self.is_synced))
        pauses = [PAUSE]
        self.at_each(lambda one: pauses.append(one.patience(self.now, self.stopped, self.idle)))
        return 0 if self.is_busy else min(pauses)

    def take(self):
        for place, there in enumerate(self.places):
            if there is None and self.left and self.coming < len(self.connections):
                one = self.connections[self.coming]
                self.coming += 1
                self.left -= 1
                self.is_busy = True
                if len(self.places) - self.places.count(None) < self.most_open:
                    self.places[place] = one
                    one.begin(place)
                else:
                    one.why = "refused"

    def at_each(self, deed):
        for place, one in enumerate(self.places):
            try:
                self.is_busy |= one is not None and bool(deed(one))
            except Closed as closed:
                one.why = closed.why
                self.errors += b"out of memory\n" if closed.why == "memory" else b""
                self.places[place], self.is_busy = None, True


def at(time):
    def act(crowd):
        crowd.now = time

    return act


def come(count):
    return lambda crowd: crowd.connections.extend(Connection() for _ in range(count))


def stop(crowd):
    crowd.is_ordered = True


def unsynced(crowd):
    crowd.is_synced = False


def give(one, data):
    one.given += data


def change(first, count, what):
    def act(crowd):
        for one in crowd.connections[first : first + count]:
            what(one)

    return act


def kept_as(field, value):
    return lambda one: setattr(one, field, value)


CHANGES = {"piece": "piece", "width": "width", "room": "room", "read-fails": "read_fails", "write-fails": "write_fails"}


def read_change(verb, words):
    if verb == "give":
        data = words.bytes()
        return lambda one: give(one, data)
    if verb == "over":
        return kept_as("is_over", True)
    if verb not in CHANGES:
        raise BadQuestion
    return kept_as(CHANGES[verb], words.number(MOST_BYTES))


def read_act(verb, words):
    if verb == "come":
        return come(words.number(MOST))
    if verb in ("stop", "unsynced"):
        return {"stop": stop, "unsynced": unsynced}[verb]
    return change(words.number(MOST), words.number(MOST), read_change(verb, words))


def answer(words, has_reports=False):
    crowd = Crowd(words.number() if has_reports else 0, words.number(MOST), words.number(MOST), words.number(), words.number())
    steps = []
    while words.left():
        verb = words.word()
        if verb == "at":
            steps.append([at(words.number())])
        else:
            if not steps:
                steps.append([])
            steps[-1].append(read_act(verb, words))
    crowd.run(steps)
    some = crowd.connections
    if len(some) > FEW:
        rows = [str(len(some)), told(b"".join(b"%s %s\n" % (one.why.encode(), one.taken) for one in some))]
    else:
        rows = [f"{one.read} {one.why} {told(one.taken)}" for one in some]
    return [*rows, told_text(crowd.errors)]
