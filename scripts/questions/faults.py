"""The questions of the program `faults`. What a question means stands in the head of model/fault_answers.py."""

from model import sessions
from model.fault_answers import READS, SIGNING_KEY, TOKEN, WRITES, Sweeps
from model.formats import FINAL, MAX_EPOCH, OPEN, Body, RootEvidence, SignedRoot, evidence_json, request_frame, sha256
from questions import crowd_questions, session_scripts
from questions.values import run
from questions.writing import Questions


def digits(data):
    return data.hex().encode()


def item_lines(*firsts):
    """Items at the indices that begin with these digits, with zero commitments."""
    return b"".join(b"%s %s\n" % (first.ljust(64, b"0"), b"0" * 64) for first in firsts)


def of_texts(q):
    q.note("A text is written whole, by however many writes.")
    for devices in WRITES:
        q.ask("write", b"bad hex\n", devices, 1, b"")
        q.ask("write", b"bad hex\n", devices, 3, b"")
    q.ask("write", b"x" * 1000, "never", 1, b"")
    q.ask("write", b"x" * 300, "write-interrupted", 1, b"")
    q.ask("write", b"", "write-takes-nothing", 1, b"")
    q.note("The lines of faults.")
    for devices in WRITES:
        q.ask("tell", MAX_EPOCH, devices, 5, b"")
    q.ask("tell", 1, "write-fails", 1, b"")
    q.note("Bytes, as many at once as there are and as there is room for.")
    for devices in READS + WRITES:
        q.ask("read 7", devices, 3, b"abcdefghij")
        q.ask("read 2", devices, 5, b"abcdefghij")
    q.ask("read 4096 never 1", b"x" * 3000)
    q.ask("read 1 never 4096", b"x" * 3000)
    q.ask("read 4096 read-fails 4096", b"x" * 12289)
    q.ask("read 4096 read-interrupted-twice 4096", b"x" * 8192)
    q.ask("read 4096 read-fails 1", b"")
    q.note("Lines: of few bytes, of none, with bytes that are no LF, longer than is kept, and the last without LF.")
    text = b"a\n\nb\r\tc\r\n" + b"y" * 131 + b"\nd"
    for devices in READS + WRITES:
        q.ask("lines", devices, 50, text)
    q.ask("lines read-fails 1", text[:12])
    q.ask("lines read-fails 1", b"x" * 300)
    q.ask("lines read-interrupted 1", b"x" * 300 + b"\n")
    q.ask("lines never 1", b"x" * 1000 + b"\n" + b"x" * 130 + b"\n" + b"x" * 129)
    q.ask("lines read-fails 9", b"")


def of_items(q):
    q.note("The root and a path. Nothing is written before the whole input is read.")
    two = item_lines(b"00", b"80")
    q.let("two", two)
    index = q.let("index", b"c0".ljust(64, b"0"))
    nonce = q.let("nonce", digits(run(0xA0)))
    for devices in READS + WRITES:
        q.ask("root sum none", devices, 50, two)
        q.ask("root sha256", nonce, devices, 12, two)
        q.ask("prove", index, "sum none", devices, 50, two)
        q.ask("prove", index, "sha256", nonce, devices, 80, two[:-1])
    q.ask("root sum none read-fails 50", b"")
    q.ask("prove", index, "sum none write-fails 6", b"")
    q.note("A nonce or an index that is malformed is refused before anything is read.")
    for bad in (nonce[1:], nonce + b"0", b"g" + nonce[1:]):
        q.ask("root sum", bad, "read-fails 50", b"x\n")
        q.ask("prove", bad, "sum none read-fails 50", b"x\n")
        q.ask("prove", index, "sum", bad, "read-fails 50", b"x\n")
    q.note("An input of thousands of reads, and the longest path, of two indices that differ in their last bit.")
    hundreds = q.let("hundreds", item_lines(*(b"%04d" % number for number in range(300))))
    q.ask("root sum none never 1", hundreds)
    q.ask("prove", b"0150".ljust(64, b"0"), "sha256 none never 1", hundreds)
    zeros, one = b"0" * 64, b"1".rjust(64, b"0")
    neighbours = q.let("neighbours", b"%s %s\n%s %s\n" % (one, zeros, zeros, zeros))
    q.ask("prove", zeros, "sum none never 1", neighbours)
    q.ask("prove", one, "sum none write-fails 4096", neighbours)


def signed_root(epoch, previous=None, nonce=b"\4" * 32):
    """A root under the signing key, after another one."""
    hashed = sha256(previous.body.write()) if previous else b"\7" * 32
    body = Body(epoch, previous.epoch if previous else epoch - 1, b"\3" * 32, hashed, nonce, b"\5" * 32)
    return SignedRoot.signed(body, SIGNING_KEY)


def of_audits(q):
    q.note("An audit answers each line before the next one is read.")
    key = q.let("key", digits(SIGNING_KEY))
    roots = [signed_root(3)]
    for epoch in (7, 9, 12, 13, 20, 21):
        roots.append(signed_root(epoch, roots[-1]))
    lines = [digits(root.write()) + b"\n" for root in roots]
    for number, line in enumerate(lines):
        q.let(f"line{number}", line)
    known, fork = lines[0] + lines[0], digits(signed_root(7, roots[0], b"\6" * 32).write())
    q.let("fork", fork)
    for devices in READS + WRITES:
        q.ask("audit", key, devices, 100, known)
        q.ask("audit", key, devices, 99, lines[0] + lines[1] + b"x\n" + fork)
    for devices in ("read-fails", "write-fails"):
        q.ask("audit", key, devices, 361, b"".join(lines))
        q.ask("audit", key, devices, 300, lines[0] + lines[1] + fork + b"\n" + fork)
    q.ask("audit", key, "write-fails 3", known)
    q.ask("audit", key[1:], "read-fails 100", known)
    q.ask("audit", key, "read-fails 100", b"")
    q.ask("audit", key, "never 1", b"".join(lines))
    q.ask("audit", key, "never 4096 780a*1001")
    q.note("The verdict on a file is written whole.")
    forked = evidence_json(RootEvidence("fork", roots[1], SignedRoot.read(bytes.fromhex(fork.decode())))).encode()
    none = evidence_json(RootEvidence("fork", roots[1], roots[1])).encode()
    q.let("forked", forked)
    q.let("no_evidence", none)
    for devices in WRITES:
        q.ask("judge", key, forked, devices, 2, b"")
        q.ask("judge", key, none, devices, 5, b"")
    q.ask("judge", key, b"{}", "write-fails 1", b"")
    q.ask("judge", key[1:], b"{}", "write-fails 1", b"")


HEAD = request_frame("head")
# Each command; and a session that changes a watched name and closes an epoch.
PLAYED = """watch 61 -
register 61 6b
close 2
change 61 6c
promise 61
lookup 61 0
history 0 64
head
close 3
bytes 1 000000070200016100016d00000029%s0000000000000007
end 1
lookup 62 0
""" % ("07" + "00" * 32)


def of_short_script(q):
    q.ask("play never 64", PLAYED.encode())


def of_scripts(q):
    q.note("What a script prints is written before a read that may wait. At a failure it is a beginning.")
    script = q.let("script", PLAYED.encode())
    stopped = q.let("stopped", b"# note\nhead\n\nclose 2\nclose two\nhead\n")
    for devices in READS + WRITES:
        q.ask("play", devices, 40, script)
        q.ask("play", devices, 9, script[:-1])
        q.ask("play", devices, 5, stopped)
    q.ask("play read-fails 1", stopped)
    q.ask("play read-fails 5", stopped[:-6])
    q.ask("play write-fails 1", script)
    for text in (b"", b"\n", b"x", b"# note"):
        q.ask("play read-fails 50", text)
    q.note("Lines of thousands of reads.")
    for text in (b"#" + b"x" * 5000, b"bytes 1 " + b"00000001ff" * 700 + b"\n", b"bytes 1 " + b"0" * 5001):
        q.ask("play never 1", text)


def times(data, count):
    return f"{data.hex()}*{count}"


def of_sessions(q):
    q.note("A session: what was written is a beginning of the replies to what was read, and the session is ended.")
    talk = [request_frame("register", b"a", b"k"), request_frame("close", TOKEN, 2), request_frame("lookup", 2, b"a")]
    talk = q.let("talk", b"".join(talk))
    more = [request_frame("change", b"a", b"l"), request_frame("close", TOKEN, 9), request_frame("history", 0, 64)]
    more = q.let("more", b"".join(more))
    for devices in READS + WRITES:
        for verb, piece, frames in (("serve", 20, talk), ("sessions", 30, talk), ("sessions", 100, talk + more)):
            q.ask(verb, devices, piece, frames)
    q.ask("sessions read-fails 1", talk)
    q.ask("serve write-fails 4096", talk + more)
    q.ask("sessions read-fails 30", b"")
    q.note("The end comes within a frame, and frames that are no request.")
    q.ask("sessions read-fails 30", talk[:-1])
    q.ask("sessions read-fails 2", HEAD + bytes.fromhex("00000001090000000206000000000301"))
    q.note("A length that no frame has: the session is told so once, and the rest is read to its end.")
    for length in ("00000000", "00010001", "ffffffff"):
        for piece in (1, 4, 4096):
            q.ask("sessions read-fails", piece, HEAD + bytes.fromhex(length) + HEAD * 2)
    q.ask("serve read-interrupted-twice 4096", f"{HEAD.hex()}+{'00' * 4}+" + times(HEAD, 2000))
    q.note("Thousands of reads of one byte, full reads of 4,096 bytes, and replies of hundreds of thousands of bytes.")
    q.ask("sessions never 1", times(HEAD, 600))
    q.ask("sessions never 1", times(b"\0\0\0\1\x09", 600))
    q.ask("sessions read-fails 4096", times(HEAD, 3000))
    q.ask("sessions write-fails 4096", times(HEAD, 400))
    q.note("A session asks for 4,096 bytes at once, whatever its reader could give.")
    for piece in (4090, 8192):
        q.ask("sessions read-fails", piece, times(HEAD, 2500))
    q.ask("serve read-fails 8192", times(HEAD, 820))
    q.ask("serve read-interrupted 1", times(HEAD, 6))


def messages_of(script):
    """The requests of a script's lines, as they go through session 0."""
    for line in script:
        if line and not line.startswith("#"):
            command, words = sessions.command_of(line.encode())
            if command not in ("watch", "bytes", "end"):
                request = sessions.request_of(command, words)
                yield (command, TOKEN, *request[2:]) if command in ("close", "rotate") else request


LOST_OPERATIONS = [
    "register 61 6b", "register 62 6c", "promise 62", "register 62 6c", "head", "close 2", "promise 61", "head",
    "lookup 61 0", "lookup 62 0", "register 61 6d", "change 61 6d", "promise 61", "change 61 6e", "change 63 6d",
    "close 2", "rotate 3 " + "07" * 32, "history 0 64", "promise 61", "lookup 61 0", "lookup 61 2", "lookup 62 3", "register 63 6f",
    "change 62 70", "close 18446744073709551615", "close 18446744073709551615", "lookup 61 0", "lookup 62 0",
    "lookup 63 0", "lookup 63 3", "history 0 64",
]
SCRIPTS = ("two_epochs", "promises", "changes", "greatest_epoch", "limits_of_names_and_keys")


def of_keepers(q):
    q.note("A record that is not kept: that call is refused and changes nothing, and its salt serves the next one.")
    scripts = [list(messages_of(session_scripts.SCRIPTS[name]())) for name in SCRIPTS]
    many = [("register", b"n%d" % number, b"k") for number in range(5)]
    many += [("close", TOKEN, 2), *(("lookup", 0, b"n%d" % number) for number in range(5)), ("head",)]
    for requests in [list(messages_of(LOST_OPERATIONS)), *scripts, many]:
        frames = [request_frame(*request) for request in requests]
        q.ask("directory", *(frame[4:] for frame in frames))
        q.ask("hub 4096", b"".join(frames))
    frames = [request_frame(*request) for request in messages_of(LOST_OPERATIONS)]
    q.ask("hub 1", b"".join(frames))
    q.ask("hub 4096", frames[0] + request_frame("close", SIGNING_KEY, 2) + frames[5] + frames[0])
    q.ask("hub 15", HEAD * 3)


def of_a_piece(q):
    q.ask("piece", HEAD * 3)


# Two registrations, a change, two closings and a rotation; and what shows roots, promises that wait, and their salts.
RECORDED = [
    ("register", b"a", b"k"), ("register", b"bb", b"kk"), ("close", TOKEN, 2), ("change", b"a", b"l"),
    ("close", TOKEN, 5), ("rotate", TOKEN, 6, SIGNING_KEY),
]
SHOWN = [
    ("head",), ("history", 0, 64), ("promise", b"a"), ("promise", b"bb"), ("lookup", 0, b"a"), ("lookup", 0, b"bb"),
    ("close", TOKEN, MAX_EPOCH), ("lookup", 0, b"a"), ("lookup", 0, b"bb"),
]


def of_journals(q):
    q.note("A journal that stops at each byte, or before each record, opens to a beginning of the run.")

    def ask(piece, run, shown=SHOWN):
        q.ask("journal", piece, len(run), *(request_frame(*request)[4:] for request in [*run, *shown]))

    for piece in [1, 7, 40, 4096]:
        ask(piece, RECORDED)
    ask(1, [])
    for script in SCRIPTS[:3]:
        run = list(messages_of(session_scripts.SCRIPTS[script]()))
        names = dict.fromkeys(request[1] for request in run if request[0] == "register")
        shows = [(verb, *words, name) for name in names for verb, *words in [("promise",), ("lookup", 0)]]
        ask(1, run, [("head",), ("history", 0, 64), *shows, ("close", TOKEN, MAX_EPOCH), *shows])
    q.note("Commands that are refused have no record.")
    refused = [("register", b"a", b"m"), ("change", b"c", b"m"), ("close", TOKEN, 1), ("promise", b"a")]
    ask(1, [step for request in RECORDED for step in (request, *refused)])
    q.note("Names and keys at their limits.")
    ask(100, [("register", b"n" * 255, b"k" * 2048), ("close", TOKEN, 2), ("change", b"n" * 255, b"k")])


# Each command with a policy, some of them refused; and a session that finalises a watched name.
POLICIES_PLAYED = b"""watch 61 -
register2 61 6b open
close 2
watch2 61 6b open
change2 61 6c final
lookup 61 0
bytes 1 000000080b0200016100016d
close 3
change 61 6d
lookup 61 0
"""
POLICY_OPERATIONS = [
    "register2 61 6b open", "register2 62 6c final", "register 63 6d", "promise 62", "register2 62 6c final", "close 2",
    "promise 61", "lookup 61 0", "lookup 62 0", "change2 61 6d final", "change2 62 6d open", "change 62 6d", "change2 63 6e open",
    "promise 61", "close 3", "change 61 6e", "change 63 6f", "change2 63 6f final", "lookup 61 0", "lookup 61 2", "lookup 63 0",
    "rotate 4 " + "07" * 32, "lookup 62 0", "lookup 63 0", "history 0 64",
]
POLICIES_RECORDED = [
    ("register2", OPEN, b"a", b"k"), ("register2", FINAL, b"bb", b"kk"), ("close", TOKEN, 2), ("change2", FINAL, b"a", b"l"),
    ("close", TOKEN, 5), ("rotate", TOKEN, 6, SIGNING_KEY),
]


def of_short_policies(q):
    q.ask("play never 64", POLICIES_PLAYED)


def of_policies(q):
    q.note("A session.")
    frames = [request_frame(*request) for request in messages_of(POLICY_OPERATIONS)]
    talk = q.let("talk", b"".join(frames[:12]))
    for devices in READS + WRITES:
        q.ask("sessions", devices, 50, talk)
    q.note("What a script prints is written before a read that may wait. At a failure it is a beginning.")
    script = q.let("script", POLICIES_PLAYED)
    for devices in READS + WRITES:
        q.ask("play", devices, 40, script)
    q.note("A record that is not kept: that call is refused and changes nothing, and its salt serves the next one.")
    bad = [request_frame("register2", 3, b"a", b"k"), request_frame("change2", 0, b"a", b"k")]
    q.ask("directory", *(frame[4:] for frame in [*frames[:7], *bad, *frames[7:]]))
    q.ask("hub 4096", b"".join(frames))
    q.ask("hub 1", b"".join(frames))
    q.note("A journal that stops at each byte, or before each record, opens to a beginning of the run.")
    for piece in [1, 7, 4096]:
        messages = [request_frame(*request)[4:] for request in [*POLICIES_RECORDED, *SHOWN]]
        q.ask("journal", piece, len(POLICIES_RECORDED), *messages)


SUBJECTS = {
    "texts": of_texts,
    "items": of_items,
    "audits": of_audits,
    "sessions": of_sessions,
    "in a few lines: a script": of_short_script,
    "scripts": of_scripts,
    "in a few lines: three Heads in one piece": of_a_piece,
    "keepers of records": of_keepers,
    "journals": of_journals,
    "many connections at once": crowd_questions.ask_all,
    "in a few lines: a script with policies": of_short_policies,
    "bindings with a policy": of_policies,
}


def questions():
    q = Questions()
    for text, of in SUBJECTS.items():
        q.subject(text)
        of(q)
    return q.lines[1:]


FOLDER = "crates/faults"


def files():
    """The stored files, by their paths in the repository."""
    lines = questions()
    stored = {"stdin": lines, "stdout": Sweeps().answers(lines)}
    return {f"{FOLDER}/{name}": "".join(f"{line}\n" for line in told) for name, told in stored.items()}
