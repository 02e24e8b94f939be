"""Scripts for the built `directoryd play`, beside those of session_scripts.py: more of them, the examples, and
scripts that are drawn.

What each prints is computed by `sessions.played`. drive/play.py compares the program with it.
"""

import pathlib
import random

from model.formats import POLICIES, frame, request_frame, u32
from model.sessions import TOKEN, played
from questions import session_scripts
from questions.session_scripts import (
    HEAD,
    TOP,
    change,
    change2,
    closing,
    key_of,
    lookup,
    name_of,
    piece,
    promise,
    register,
    register2,
    rotation,
    split,
    watch,
    watch2,
)

ROOT = pathlib.Path(__file__).resolve().parents[2]
FOLDER, FOLDER_OF_EXAMPLES = "scripts/questions/plays", "examples"
# Scripts of more bytes are made when they are needed, and not stored.
MOST_STORED = 65536
SCRIPTS = {}


def script(of):
    """Marks a function that gives the lines of a script, which has its name."""
    SCRIPTS[of.__name__] = of
    return of


# Lines ----------------------------------------------------------------------------------------------------


@script
def no_line():
    return iter(())


@script
def notes_alone():
    yield from ["# Notes and empty lines print nothing.", "", "#", "## register 61 6b", ""]


@script
def each_command_once():
    yield "# Each command once, with what it prints when nothing is refused."
    yield from ["register 616c696365 6b31", "promise 616c696365", "watch 616c696365 -", "close 2"]
    yield from ["change 616c696365 6b32", f"rotate 3 {'07' * 32}", "lookup 616c696365 0", "history 0 64", "head"]
    yield from ["register2 626f62 6b31 open", "close 4", "watch2 626f62 6b31 open", "change2 626f62 6b31 final", "close 5"]
    yield from ["bytes 1 0000000106", "end 1"]


@script
def stops_behind_other_lines():
    yield "# Each line counts, also notes, empty lines, and pieces that print nothing."
    yield from ["", "head", "bytes 1 00", "end 1", "watch 61 -", "close 2", "#", "close two", "head", "close 3"]


@script
def stops_at_first_line():
    yield from ["look-up 61 0", "head"]


@script
def greatest_numbers():
    yield "# The greatest number of each kind."
    yield from [f"lookup 61 {TOP}", f"history {TOP} 64", f"history {TOP} 65535", "history 0 65535"]
    yield from [piece(2**32 - 1, HEAD), f"end {2**32 - 1}", piece(2**32 - 1, HEAD[:4]), piece(2**32 - 1, HEAD[4:])]


# Names, keys and closings -----------------------------------------------------------------------------------


@script
def names_of_all_bytes():
    yield "# A name is any bytes: 00 and ff, a line feed, and names that begin one another."
    names = [b"\0", b"\0\0", b"\xff", b"\xff" * 255, b"\n", b"#", b"-", b" ", b"a", b"a\0", b"\xc3\x28"]
    for number, name in enumerate(names):
        yield register(name, bytes([number]))
    yield "close 2"
    for name in names:
        yield lookup(name, 0)
    for name in [b"\0\0\0", b"\xff" * 254, b"a\0\0"]:
        yield lookup(name, 2)


@script
def refused_closings():
    yield "# A refused closing changes nothing: no monitor steps, and what waits goes on waiting."
    yield from [watch(b"a"), register(b"a", b"k"), "close 1", "close 0", piece(1, closing(1)), piece(1, closing(0))]
    yield from [piece(1, closing(5, b"\1" * 32)), promise(b"a"), "head", "close 5", "close 5", "close 4", "head"]


@script
def greatest_epoch_from_another_session():
    yield "# The last two epochs are closed in one piece. Nothing comes behind them, and nobody asks for it."
    yield from [watch(b"a"), register(b"a", b"k"), watch(b"b", b"l")]
    yield piece(1, closing(TOP - 1) + request_frame("change", b"a", b"l") + closing(TOP) + closing(TOP))
    yield from [register(b"c", b"k"), watch(b"a", b"l"), lookup(b"a", TOP - 1), lookup(b"a", TOP), lookup(b"c", 0)]
    yield from [f"history {TOP - 1} 64", f"history {TOP} 1", piece(2, request_frame("history", TOP, 64)), "close 9"]


# What monitors see ------------------------------------------------------------------------------------------


@script
def closings_at_the_limit_of_histories():
    yield "# 63, 64, 65, 128 and 129 epochs are closed in one piece, each by one line."
    yield from [watch(b"a"), register(b"a", b"k"), watch(b"b")]
    epoch = 1
    for count in [63, 64, 65, 128, 129]:
        yield piece(1, b"".join(closing(epoch + each) for each in range(1, count + 1)))
        epoch += count
        yield "head"
        yield change(b"a", key_of(count))


@script
def monitors_of_names_without_a_key():
    yield "# A monitor that expects a key which was never registered, and two whose names get one."
    yield from [watch(b"a", b"k"), watch(b"b"), watch(b"c"), "close 2", register(b"b", b"k")]
    yield from [piece(3, request_frame("register", b"c", b"k")), "close 3", "close 4"]


@script
def forty_monitors_of_one_name():
    yield "# 40 monitors of one name, of which half expect another key. All get the promise of its change."
    yield from [register(b"a", b"k"), "close 2"]
    for number in range(40):
        yield watch(b"a", b"k" if number % 2 else b"l")
    yield from ["close 3", change(b"a", b"m"), "close 4", "close 9"]


@script
def promises_for_other_names():
    yield "# A promise is given to the monitors of its own name alone, and a promise that is asked for to none."
    yield from [watch(b"a"), watch(b"b"), watch(b"a", b"l"), register(b"a", b"k"), "close 2", register(b"b", b"l")]
    yield from [piece(1, request_frame("change", b"a", b"m")), promise(b"a"), "close 3", change(b"a", b"k"), "close 4"]


@script
def replies_before_steps():
    yield "# In one piece: look-ups before and behind two closings, and then a length that ends the stream."
    yield from [watch(b"a"), register(b"a", b"k")]
    asked = request_frame("lookup", 0, b"a")
    yield piece(1, asked + closing(2) + asked + closing(7) + asked + request_frame("history", 1, 64) + bytes(4) + HEAD)
    yield from [piece(1, HEAD), "lookup 61 7", "end 1", piece(1, asked)]


# Sessions ---------------------------------------------------------------------------------------------------


@script
def session_ended_in_a_message():
    yield "# What a session holds is gone when it ends. The next one of its number begins anew."
    frames = request_frame("register", b"a", b"k")
    for cut in [0, 1, 3, 4, 5, 8, len(frames) - 1]:
        yield from [piece(7, frames[:cut]), "end 7", piece(7, HEAD)]
        yield from [piece(7, frames[:cut]), "end 7", "end 7"]
    yield from [piece(7, frames[:9]), piece(8, HEAD), "end 8", piece(7, frames[9:])]


@script
def longest_frames():
    yield "# Frames of the greatest length and longer, and names and keys that just fit into one. Not stored."
    yield piece(1, u32(65536) + bytes([9]) + bytes(65535))
    yield piece(2, u32(65536) + bytes([6]) + bytes(65535))
    yield piece(3, u32(65537) + bytes([6]))
    yield register(b"a", b"k" * 65530)
    yield register(b"a" * 65530, b"k")
    yield register2(b"a", b"k" * 65529, "open")
    yield change2(b"a" * 65529, b"k", "final")
    yield lookup(b"a" * 65525, 0)
    yield promise(b"a" * 65533)
    yield piece(4, request_frame("register", b"a" * 255, b"k" * 2048) + closing(2))
    yield lookup(b"a" * 255, 0)


@script
def frames_of_other_kinds():
    yield "# Each byte of a kind, alone and with a body."
    for kind in range(256):
        yield piece(1, frame(kind, b"") + frame(kind, b"\0"))


@script
def thousand_messages_in_one_piece():
    yield "# 1,000 messages in one piece, and the same a byte before and behind it."
    yield watch(b"a")
    frames = []
    for number in range(250):
        name = name_of(number % 40)
        frames += [request_frame("register", name, key_of(number)), request_frame("lookup", 0, name)]
        frames += [HEAD, request_frame("promise", name) if number % 50 else closing(number + 2)]
    stream = b"".join(frames)
    yield from [piece(1, stream), piece(2, stream[:1]), piece(2, stream[1:-1]), piece(2, stream[-1:]), "head"]


# Examples ---------------------------------------------------------------------------------------------------

EXAMPLES = {}


def example(of):
    EXAMPLES[of.__name__] = of
    return of


@example
def day():
    yield "# A day in a directory. alice (616c696365) and bob (626f62) register keys; the provider closes epoch 2."
    yield "# `promise 1`: the provider signs that the key will be in the epoch after 1. Until then alice is absent."
    yield "# `present 2 6b31`: from epoch 2 on her key is 6b31 (k1). carol (6361726f6c) never registered, and is absent."
    yield "# alice changes her key to 6b33. Others see it from epoch 3 on; a look-up of epoch 2 shows the old one."
    yield "# For each `present` and `absent` the client checked a proof under a signed root of the chain that it holds."
    yield from [register(b"alice", b"k1"), register(b"bob", b"k2"), lookup(b"alice", 0), "close 2", lookup(b"alice", 0)]
    yield from [lookup(b"carol", 0), change(b"alice", b"k3"), lookup(b"alice", 0), "close 3", lookup(b"alice", 0)]
    yield from [lookup(b"alice", 2), register(b"bob", b"k4"), "history 1 64"]


@example
def changed_key():
    yield "# A key is changed behind its owner's back. The owner of alice (616c696365), who has no key yet, watches it."
    yield "# `kept 616c696365 2`: she registered the key herself and has the promise, so her monitor expects it."
    yield "# Session 1 is somebody else, who asks to change the key to 6576696c (evil). The directory cannot tell who asks."
    yield "# `alarm 616c696365 3 6576696c`: in epoch 3 her monitor finds a key that she did not ask for."
    yield "# A look-up accepts that key, and its proof is right: only the owner can tell that the key is not hers."
    yield from [watch(b"alice"), register(b"alice", b"k1"), "close 2"]
    yield piece(1, request_frame("change", b"alice", b"evil"))
    yield from ["close 3", lookup(b"alice", 0)]
    yield "# She changes it back. The alarm ends with the next epoch."
    yield from [change(b"alice", b"k1"), "close 4"]


@example
def interleaved():
    yield "# Two sessions whose messages come in pieces. A message is answered when its last byte arrives."
    yield "# Session 1 sends 7 bytes of a look-up of alice in the latest epoch. Session 2 registers her."
    yield "# The operator closes epoch 2, and only then do the other bytes of the look-up come."
    yield "# `1: proof 2`: so it is answered in epoch 2, though it began in epoch 1. Two messages of a piece come in order."
    yield "# `2: refused 2`: a message of no known kind. The session goes on."
    asked, registration = request_frame("lookup", 0, b"alice"), request_frame("register", b"alice", b"k1")
    yield from [piece(1, asked[:7]), piece(2, registration), "close 2", piece(1, asked[7:])]
    yield from [piece(1, HEAD + request_frame("history", 1, 64)), piece(2, frame(0x63, b"")), piece(2, HEAD)]


@example
def greatest_epoch():
    yield "# The numbers of epochs rise, up to 18446744073709551615. A provider may leave numbers out."
    yield "# alice's monitor steps from epoch 2 to the greatest one, and finds her key there."
    yield "# `refused 11`: no epoch is above the latest one, so none can be closed any more."
    yield "# bob's registration is still promised, and never shown."
    yield "# The roots can still be read, and nobody asks for those behind the greatest epoch."
    yield from [register(b"alice", b"k1"), "close 2", watch(b"alice", b"k1"), f"close {TOP}", f"close {TOP}", "close 3"]
    yield from [register(b"bob", b"k2"), lookup(b"bob", 0), lookup(b"alice", TOP), "history 2 64", f"history {TOP} 1"]


# Drawn scripts ------------------------------------------------------------------------------------------------


class Drawing:
    """Lines drawn at random, about few names, so that many of them meet. Some are refused, and a few are no
    command."""

    def __init__(self, rng):
        self.rng = rng
        self.epoch, self.streams = 1, {}

    def name(self):
        rare = [b"", b"a" * 255, b"a" * 256, b"\0", b"abc"]
        return self.rng.choice(rare) if self.rng.randrange(25) == 0 else self.rng.choice([b"a", b"b", b"c", b"d"])

    def key(self):
        rare = [b"", b"k" * 2048, b"k" * 2049]
        return self.rng.choice(rare) if self.rng.randrange(25) == 0 else b"k%d" % self.rng.randrange(4)

    def policy(self):
        return self.rng.choice(list(POLICIES.values()))

    def policy_byte(self):
        return self.rng.choice([0, 3, 255]) if self.rng.randrange(12) == 0 else self.rng.choice(list(POLICIES))

    def old_epoch(self):
        near = [self.epoch, max(self.epoch - self.rng.randrange(8), 0), min(self.epoch + 1, TOP)]
        return self.rng.choice([0, 0, *near])

    def next_epoch(self):
        """The epoch of a closing, which is often the next one, now and then none or one of the last."""
        far = max(self.epoch, TOP - self.rng.randrange(4)) if self.rng.randrange(120) == 0 else self.epoch + 1
        epoch = self.rng.choice([self.epoch + 1, self.epoch + 1, self.epoch + self.rng.randrange(9), far, 0])
        if self.rng.randrange(8) and epoch <= self.epoch:
            epoch = self.epoch + 1
        epoch = min(epoch, TOP)
        self.epoch = max(self.epoch, epoch)
        return epoch

    def nonce(self):
        return bytes([self.rng.randrange(3)]) * 32

    def turn(self):
        """A command that ends the epoch."""
        epoch = self.next_epoch()
        return f"close {epoch}" if self.rng.randrange(4) else f"rotate {epoch} {self.nonce().hex()}"

    def turning(self, token=TOKEN):
        """The frame of a request that ends the epoch."""
        epoch = self.next_epoch()
        return closing(epoch, token) if self.rng.randrange(4) else rotation(epoch, self.nonce(), token)

    def command(self):
        """A command through session 0."""
        rng = self.rng
        match rng.randrange(13):
            case 10:
                return register2(self.name(), self.key(), self.policy())
            case 11 | 12:
                return change2(self.name(), self.key(), self.policy())
            case 0 | 1:
                return register(self.name(), self.key())
            case 2 | 3:
                return change(self.name(), self.key())
            case 4:
                return promise(self.name())
            case 5 | 6:
                return lookup(self.name(), self.old_epoch())
            case 7:
                return f"history {self.old_epoch()} {rng.choice([0, 1, 2, 64, 64, 65, 65535])}"
            case 8:
                return "head"
        return self.turn()

    def request(self):
        """The frame of a message: a request, or a frame that is none."""
        rng = self.rng
        match rng.randrange(20):
            case 16 | 17:
                return request_frame("register2", self.policy_byte(), self.name(), self.key())
            case 18 | 19:
                return request_frame("change2", self.policy_byte(), self.name(), self.key())
            case 0 | 1 | 2:
                return request_frame("register", self.name(), self.key())
            case 3 | 4 | 5:
                return request_frame("change", self.name(), self.key())
            case 6:
                return request_frame("promise", self.name())
            case 7 | 8:
                return request_frame("lookup", self.old_epoch(), self.name())
            case 9:
                return request_frame("history", self.old_epoch(), rng.choice([0, 1, 64, 65]))
            case 10:
                return HEAD
            case 11 | 12 | 13:
                return self.turning(TOKEN if rng.randrange(8) else b"\1" * 32)
            case 14:
                return frame(rng.randrange(256), bytes(rng.randrange(3)))
        return rng.choice([HEAD, HEAD, HEAD, bytes(4), u32(65537), HEAD[:4]])

    def message(self):
        """A piece of some session: the next part of what it was sending, or of new messages."""
        rng = self.rng
        session = rng.choice([1, 2, 3, 4294967295])
        if not self.streams.get(session):
            count = rng.randrange(60, 140) if rng.randrange(40) == 0 else rng.randrange(1, 5)
            ask = self.turning if count > 5 else self.request
            stream = b"".join(ask() for _ in range(count))
            self.streams[session] = [stream] if count > 5 else split(rng, stream, 4)
        return piece(session, self.streams[session].pop(0))

    def line(self):
        rng = self.rng
        match rng.randrange(20):
            case 0 | 1:
                return rng.choice([
                    watch(self.name(), rng.choice([b"", b"", self.key()])),
                    watch2(self.name(), self.key() or b"k", self.policy()),
                ])
            case 2:
                return f"end {rng.choice([1, 2, 3, 4294967295])}"
            case 3:
                return rng.choice(["close 02", "lookup 6 0"] if rng.randrange(8) == 0 else ["", "#", "# note", "head"])
            case 4 | 5 | 6 | 7 | 8 | 9:
                return self.message()
            case 10 | 11:
                return self.turn()
        return self.command()


def drawn(seed):
    """The bytes of the script of this seed."""
    rng = random.Random(seed)
    drawing = Drawing(rng)
    lines = [drawing.line() for _ in range(rng.randrange(4, 60))]
    return "\n".join(lines).encode() + rng.choice([b"", b"\n"])


def cut_places(seed, text, count):
    """So many places, at most, at which a script is cut: each beginning of it is a script too. A line is drawn, and
    then a place in it."""
    rng = random.Random(-seed - 1)
    ends = [0, *(at + 1 for at, byte in enumerate(text) if byte == 10), len(text)]
    lines = rng.choices(range(len(ends) - 1), k=count)
    return sorted({rng.randint(ends[line], ends[line + 1]) for line in lines})


# Stored scripts -----------------------------------------------------------------------------------------------


def text_of(of):
    return "".join(f"{line}\n" for line in of())


def printed(script):
    """What the program writes, the line of its fault, and its status."""
    lines, stop = played(script)
    fault = "" if stop is None else f"line {stop}: not a command\n"
    return "".join(f"{line}\n" for line in lines).encode(), fault.encode(), 0 if stop is None else 1


def files():
    """The stored files, by their paths in the repository: each script, and beside it what it prints."""
    stored = {}
    for folder, scripts in (FOLDER, SCRIPTS), (FOLDER_OF_EXAMPLES, EXAMPLES):
        for name, of in scripts.items():
            text = text_of(of)
            if len(text) <= MOST_STORED:
                stored[f"{folder}/{name}.script"] = text
                stored[f"{folder}/{name}.script.stdout"] = printed(text.encode())[0].decode()
    # The first script without its note is what the gate runs by itself.
    first = "".join(text_of(session_scripts.two_epochs).splitlines(True)[1:])
    stored["crates/directoryd/stdin"] = first
    stored["crates/directoryd/stdout"] = printed(first.encode())[0].decode()
    return stored


def scripts():
    """The name and the bytes of each script: those that are stored, and those that are too long."""
    for folder in FOLDER, FOLDER_OF_EXAMPLES, session_scripts.FOLDER:
        for file in sorted(ROOT.glob(f"{folder}/*.script")):
            yield str(file.relative_to(ROOT)), file.read_bytes()
    for name, of in SCRIPTS.items():
        if len(text := text_of(of)) > MOST_STORED:
            yield name, text.encode()
