#!/usr/bin/env python3
"""Asks the library for C what the model answers too: of roots, replies, promises, pairs and frames, honest ones and each of
them altered in each byte, cut at each length and with a byte more; and the stored questions that it has calls for. Then the
examples in Python and C ask directories with it, which are honest or not.

    scripts/drive/checker.py LIBRARY      LIBRARY is crates/coniks/out/libconiks.a

Prints what is not so, and last how much was asked. The status is 0 where nothing differs. Needs a C compiler, `cc`: it
says so where there is none, and asks nothing.
"""

import collections
import contextlib
import importlib.util
import json
import pathlib
import random
import shutil
import subprocess
import sys
import tempfile
import unittest.mock
from ctypes import byref, c_size_t, c_uint8, create_string_buffer, sizeof
from dataclasses import replace

sys.dont_write_bytecode = True
sys.path.insert(0, str(pathlib.Path(__file__).resolve().parent.parent))
TOP = pathlib.Path(__file__).resolve().parents[2]
sys.path.insert(0, str(TOP / "examples/python"))

from client import Declined, Session
from coniks import (
    BROKEN,
    CHANGED,
    KEPT,
    OTHER_INDEX,
    SAME,
    TWO_VALUES,
    BadSignature,
    Binding,
    Caught,
    Client,
    Frame,
    Keyed,
    Lens,
    Library,
    NotAsked,
    Part,
    Refused,
    Watch,
)
from coniks import Promise as PromiseParts
from coniks import Reply as ReplyParts
from coniks import Root as RootParts
from drive.ask_runs import answering
from drive.checker_answers import ask_stored
from drive.liars import LIES, Provider, close, closed_around, closed_between, flipped, is_of, nothing, rob
from model import formats
from model.sessions import KEPT as MONITOR_KEPT
from model.sessions import SIGNING_KEY, Monitor, MonitorRefusal, judge_file, keyed_directory
from model.sessions import Client as ModelClient

KEY, VUF_KEY, SALT_KEY = bytes(range(32)), bytes(range(32, 64)), bytes(range(64, 96))
NAMES = [b"a", b"bob", b"n" * 255, bytes(range(1, 200)), b"nobody", b"no one", b"x"]
KINDS = {formats.FORK: 16, formats.LINK: 17, formats.SKIP: 18}
# What the caller says of the values of two replies.
SAID = [(True, True), (True, False), (False, True), (False, False)]
FILL = 0xA5


class AnyVuf:
    """What the caller says of a value."""

    def __init__(self, is_accepted):
        self.is_accepted = is_accepted

    def accepts(self, _key, _name, _value):
        return self.is_accepted


def built(archive, folder):
    """The library as a shared one."""
    library = f"{folder}/libconiks.so"
    whole = ["-Wl,--whole-archive", archive, "-Wl,--no-whole-archive"]
    subprocess.run(["cc", "-shared", "-o", library, *whole], check=True)
    return library


def directory_of(names, changed=()):
    directory = keyed_directory(1, formats.ZERO32, KEY, VUF_KEY, SALT_KEY)
    policies = [None, formats.OPEN, formats.FINAL]
    for k, name in enumerate(names):
        key = bytes([k + 1]) * (2048 if k == 1 else k + 1)
        if policies[k % 3] is None:
            directory.register(name, key)
        else:
            directory.register2(name, key, policies[k % 3])
    directory.close(2)
    for name in changed:
        directory.register(name, b"later")
    directory.close(5)
    directory.rotate(9, b"\x07" * 32)
    return directory


def altered(data, step=1):
    """The data, each byte of it altered, each beginning, and one byte more; of a long one each byte so far apart."""
    yield data
    for at in range(0, len(data), step):
        yield data[:at] + bytes([data[at] ^ (1 << at % 8)]) + data[at + 1 :]
    for end in range(0, len(data), step):
        yield data[:end]
    yield data + b"\0"


def root_answer(data):
    try:
        root = formats.SignedRoot.read(data)
    except formats.RootRefusal:
        return 1
    return root.epoch, root.body.previous_epoch, root.body.write(), root.body.vuf_key, root.signature


def asked_root(library, data):
    try:
        parts = library.read_root(data)
    except Refused as why:
        return why.args[0]
    return (parts.epoch, parts.previous_epoch, *(part.of(data) for part in (parts.body, parts.vuf_key, parts.signature)))


def pair_answer(one, other):
    """Whether the second root follows the first, and the kind of what both show."""
    try:
        one, other = formats.SignedRoot.read(one), formats.SignedRoot.read(other)
    except formats.RootRefusal:
        return 1, 1
    follows = 0 if formats.linked(formats.sha256, one, other) else 4
    # Kinds are told of roots that verify, so the model gets two that do.
    sign = formats.KeyedSign(KEY).sign
    one, other = (formats.SignedRoot(each.body, sign(each.body.write())) for each in (one, other))
    shown = [number for kind, number in KINDS.items() if formats.RootEvidence(kind, one, other).holds(formats.sha256, KEY)]
    return follows, *(shown or [0])


def asked_pair(library, one, other):
    answers = []
    for call in library.follows, library.evidence:
        try:
            answers.append(call(one, other) or 0)
        except Refused as why:
            answers.append(why.args[0])
    return tuple(answers)


def reply_answer(data):
    try:
        reply = formats.Reply.read(data)
    except formats.ReplyRefusal as why:
        return why.number
    return reply.body.epoch, reply.body.write(), reply.body.vuf_key, reply.value


def asked_reply(library, data):
    try:
        parts = library.read_reply(data)
    except Refused as why:
        return why.args[0]
    return (parts.epoch, *(part.of(data) for part in (parts.body, parts.vuf_key, parts.value)))


def check_answer(body, name, data, is_accepted):
    try:
        body = formats.Body.read(body)
    except formats.RootRefusal:
        return 9
    if not 1 <= len(name) <= 255:
        return 8
    try:
        found = formats.accept(formats.sha256, AnyVuf(is_accepted), body, name, data).statement()
    except formats.ReplyRefusal as why:
        return why.number
    return None if found is None else (found.key, found.policy or 0)


def asked_check(library, body, name, data, is_accepted):
    try:
        return library.check(body, name, data, is_accepted)
    except Refused as why:
        return why.args[0]


def promise_answer(data):
    try:
        signed = formats.SignedPromise.read(data)
    except formats.RootRefusal:
        return 1
    promise = signed.promise
    return promise.epoch, promise.body_hash, promise.write(), signed.signature, promise.name, promise.key, promise.policy or 0


def asked_promise(library, data):
    try:
        parts = library.read_promise(data)
    except Refused as why:
        return why.args[0]
    taken = [part.of(data) for part in (parts.body_hash, parts.promise, parts.signature, parts.name, parts.key)]
    return (parts.epoch, *taken, parts.policy)


def test_answer(data, root, reply, is_accepted):
    try:
        promise = formats.SignedPromise.read(data).promise
    except formats.RootRefusal:
        return 10
    try:
        body = formats.SignedRoot.read(root).body
    except formats.RootRefusal:
        return 11
    if (body.previous_epoch, body.previous_hash) != (promise.epoch, promise.body_hash):
        return 12
    try:
        accepted = formats.accept(formats.sha256, AnyVuf(is_accepted), body, promise.name, reply)
    except formats.ReplyRefusal as why:
        return why.number
    if accepted.index != promise.index:
        return OTHER_INDEX
    return KEPT if accepted.statement() == promise.statement() else BROKEN


def asked_test(library, *words):
    try:
        return library.test_promise(*words)
    except Refused as why:
        return why.args[0]


def compare_answer(body, name, first, second, first_said, second_said):
    try:
        body = formats.Body.read(body)
    except formats.RootRefusal:
        return 9
    if not 1 <= len(name) <= 255:
        return 8
    accepted = []
    for above, data, said in (0, first, first_said), (32, second, second_said):
        try:
            accepted.append(formats.accept(formats.sha256, AnyVuf(said), body, name, data))
        except formats.ReplyRefusal as why:
            return above + why.number
    answer = formats.same_or_collision(formats.sha256, *accepted)
    return {"same": SAME, "two values": TWO_VALUES}[answer]


def asked_compare(library, *words):
    try:
        return library.compare(*words)
    except Refused as why:
        return why.args[0]


def final_answer(name, root, reply, later_root, later_reply, first_said, later_said):
    if not 1 <= len(name) <= 255:
        return 8
    try:
        root, later_root = formats.SignedRoot.read(root), formats.SignedRoot.read(later_root)
    except formats.RootRefusal:
        return 11
    if later_root.epoch <= root.epoch:
        return 14
    accepted = []
    for above, each, data, said in (0, root, reply, first_said), (32, later_root, later_reply, later_said):
        try:
            accepted.append(formats.accept(formats.sha256, AnyVuf(said), each.body, name, data))
        except formats.ReplyRefusal as why:
            return above + why.number
    one, other = accepted
    is_changed = formats.is_final(one.statement()) and one.index == other.index and one.statement() != other.statement()
    return CHANGED if is_changed else 0


def asked_final(library, *words):
    try:
        return library.test_final(*words)
    except Refused as why:
        return why.args[0]


class Asked:
    """How much was asked, and what differed."""

    def __init__(self):
        self.count, self.wrong = 0, []

    def same(self, what, wanted, got):
        self.count += 1
        if wanted != got:
            self.wrong.append(f"{what}: wanted {wanted!r}, got {got!r}")


def ask_roots(library, asked):
    first, other = directory_of(NAMES[:4]), directory_of(NAMES[:3], NAMES[4:5])
    roots = [page.root for each in (first, other) for page in each.pages]
    longest = formats.SignedRoot(roots[0].body, b"s" * 256)
    skips = formats.SignedRoot(formats.Body(4, 1, b"r" * 32, b"p" * 32, formats.ZERO32, VUF_KEY), b"s")
    later = formats.SignedRoot(formats.Body(7, 2, b"r" * 32, b"p" * 32, formats.ZERO32, VUF_KEY), b"s")
    roots += [longest, formats.SignedRoot(roots[0].body, b"s"), skips, later]
    for root in roots:
        for data in altered(root.write()):
            asked.same("root", root_answer(data), asked_root(library, data))
    for one in roots:
        for second in roots:
            one_data, other_data = one.write(), second.write()
            asked.same("roots", pair_answer(one_data, other_data), asked_pair(library, one_data, other_data))
    one_data, other_data = roots[0].write(), roots[1].write()
    for data in altered(other_data):
        asked.same("roots", pair_answer(one_data, data), asked_pair(library, one_data, data))
        asked.same("roots", pair_answer(data, one_data), asked_pair(library, data, one_data))


def ask_replies(library, asked):
    directory = directory_of(NAMES[:4], NAMES[4:5])
    other = directory_of(NAMES[:3])
    bodies = [page.root.body.write() for each in (directory, other) for page in each.pages]
    for name in NAMES:
        for page in directory.pages:
            data, body = directory.lookup(name, page.epoch).write(), page.root.body.write()
            for each in altered(data, 1 if len(data) < 1000 else 97):
                asked.same("reply", reply_answer(each), asked_reply(library, each))
                for said in True, False:
                    asked.same(f"check {name!r}", check_answer(body, name, each, said), asked_check(library, body, name, each, said))
            for each in bodies:
                asked.same(f"check {name!r}", check_answer(each, name, data, True), asked_check(library, each, name, data, True))
    # Absence that is shown by the name's own leaf, and by one that is not on its way.
    body, absent = directory.page(2).root.body, directory.lookup(b"nobody", 2)
    index = formats.sha256(absent.value)
    for leaf in index, bytes([index[0] ^ 0x80]) + index[1:], bytes([index[0] ^ 0x01]) + index[1:]:
        for siblings in (), (b"s" * 32,), (b"s" * 32,) * 9:
            data = formats.Reply(body, absent.value, formats.Other(leaf, b"c" * 32), siblings).write()
            for said in True, False:
                words = body.write(), b"nobody", data, said
                asked.same("absence", check_answer(*words), asked_check(library, *words))
    data, body = directory.lookup(b"a", 2).write(), directory.page(2).root.body.write()
    for name in b"", b"b", b"a" * 255, b"a" * 256, b"a" * 3000:
        asked.same(f"name {len(name)}", check_answer(body, name, data, True), asked_check(library, body, name, data, True))
    for each in altered(body):
        asked.same("body", check_answer(each, b"a", data, True), asked_check(library, each, b"a", data, True))


def ask_pairs(library, asked):
    """Pairs of replies. Some are of another value, whose index the tree does not have. No two texts with one SHA-256
    value are known, so a collision never comes."""
    directory = directory_of(NAMES[:4], NAMES[4:5])
    for page in directory.pages[1:]:
        body = page.root.body
        for name in NAMES[0], NAMES[2], NAMES[-1]:
            replies = [directory.lookup(name, page.epoch).write()]
            for value in b"v", b"w" * 256:
                siblings, end = page.tree.path(formats.sha256(value))
                end = formats.Other(end.index, end.commitment) if isinstance(end, formats.Other) else formats.Empty()
                replies.append(formats.Reply(body, value, end, tuple(siblings)).write())
            replies += [replies[0][:-1], replies[0] + b"\0", directory.lookup(b"x", directory.pages[0].epoch).write(), b""]
            for first in replies:
                for second in replies:
                    for said in SAID:
                        words = body.write(), name, first, second, *said
                        asked.same("compare", compare_answer(*words), asked_compare(library, *words))
    for body, name in (b"", b"a"), (body.write(), b""), (body.write(), b"a" * 256):
        words = body, name, replies[0], replies[0], True, True
        asked.same("compare", compare_answer(*words), asked_compare(library, *words))
    short, lens = create_string_buffer(2399), Lens()
    for one, other in (short, create_string_buffer(2400)), (create_string_buffer(2400), short):
        found = library.calls.coniks_compare(*4 * (b"", 0), True, True, one, len(one), other, len(other), lens)
        asked.same("short buffer", 13, found)


def ask_promises(library, asked):
    """Promises of both versions that are kept, broken, of another index, and of another epoch."""
    for broken in False, True:
        directory = keyed_directory(1, formats.ZERO32, KEY, VUF_KEY, SALT_KEY)
        directory.close(2)
        promises = [directory.register(b"a", b"k1"), directory.register2(b"b", b"k" * 2048, formats.FINAL)]
        if broken:
            directory.let_wait(b"a", b"k2", None, None)
            directory.let_wait(b"b", b"k" * 2048, None, formats.OPEN)
        directory.close(4)
        directory.close(5)
        roots = [page.root.write() for page in directory.pages]
        for signed in promises:
            name, data = signed.promise.name, signed.write()
            reply = directory.lookup(name, 4).write()
            for each in altered(data, 1 if len(data) < 1000 else 97):
                asked.same("promise", promise_answer(each), asked_promise(library, each))
                asked.same("test", test_answer(each, roots[-2], reply, True), asked_test(library, each, roots[-2], reply, True))
            for root in roots:
                for said in True, False:
                    asked.same("test", test_answer(data, root, reply, said), asked_test(library, data, root, reply, said))
            for each in altered(roots[-2]):
                asked.same("test", test_answer(data, each, reply, True), asked_test(library, data, each, reply, True))
            for each in altered(reply, 1 if len(reply) < 1000 else 97):
                asked.same("test", test_answer(data, roots[-2], each, True), asked_test(library, data, roots[-2], each, True))
            moved = replace(signed.promise, index=b"i" * 32)
            data = formats.SignedPromise.signed(moved, KEY).write()
            asked.same("test", OTHER_INDEX, asked_test(library, data, roots[-2], reply, True))


def ask_finals(library, asked):
    """Names that are final, and keep their key, get another one or none, or become open; and one that is not final."""
    directory = keyed_directory(1, formats.ZERO32, KEY, VUF_KEY, SALT_KEY)
    for name, policy in (b"a", formats.FINAL), (b"b", formats.FINAL), (b"c", formats.FINAL), (b"d", formats.OPEN), (b"e", None):
        directory.register(name, b"k") if policy is None else directory.register2(name, b"k", policy)
    directory.close(2)
    directory.let_wait(b"b", b"l", None, formats.FINAL)
    directory.let_wait(b"c", b"k", None, formats.OPEN)
    directory.let_wait(b"d", b"l", None, formats.OPEN)
    directory.close(3)
    pages = directory.pages
    for name in b"a", b"b", b"c", b"d", b"e", b"x":
        shown = [(page.root.write(), directory.lookup(name, page.epoch).write()) for page in pages]
        for root, reply in shown:
            for later_root, later_reply in shown:
                for said in SAID:
                    words = name, root, reply, later_root, later_reply, *said
                    asked.same("final", final_answer(*words), asked_final(library, *words))
        (root, reply), (later_root, later_reply) = shown[1:]
        for each in altered(reply, 3):
            words = name, root, each, later_root, later_reply, True, True
            asked.same("final", final_answer(*words), asked_final(library, *words))
        for each in altered(later_reply, 3):
            words = name, root, reply, later_root, each, True, True
            asked.same("final", final_answer(*words), asked_final(library, *words))
        for each in altered(later_root, 3):
            words = name, root, reply, each, later_reply, True, True
            asked.same("final", final_answer(*words), asked_final(library, *words))
    for name in b"", b"a" * 256, b"b":
        words = name, root, reply, later_root, later_reply, True, True
        asked.same("final", final_answer(*words), asked_final(library, *words))


def first_of(*refusals):
    """The number of the first refusal that applies, or 0."""
    return next((number for number, applies in refusals if applies), 0)


def ask_written(asked, what, call, words, refusal, wanted):
    """A request is written to the front of a buffer with room for it, and a refusal leaves all as it was."""
    for room in 0, 2399, 2400, 2401:
        buffer, size = create_string_buffer(bytes([FILL]) * room, room), c_size_t(FILL)
        answer = call(*words, buffer, room, byref(size))
        number = 13 if room < 2400 else refusal
        frame, length = (b"", FILL) if number else (wanted(), len(wanted()))
        same = number, length, frame + bytes([FILL]) * (room - len(frame))
        asked.same(f"{what} in {room}", same, (answer, size.value, buffer.raw))


def name_refusal(name):
    return 8, not 1 <= len(name) <= 255


def ask_requests(library, asked):
    """Each request with its words within their limits and outside of them."""
    calls = library.calls
    names, keys = (b"a", bytes(range(255)), b"", b"n" * 256, b"n" * 70000), (b"k", bytes(range(256)) * 8, b"", b"k" * 2049, b"k" * 70000)
    for name in names:
        for verb in "register", "change":
            for key in keys:
                for policy in 0, 1, 2, 3, 255:
                    words = verb == "change", name, len(name), key, len(key), policy
                    refusal = first_of(name_refusal(name), (24, not 1 <= len(key) <= 2048), (25, policy > 2))
                    wanted = lambda: formats.request_frame(*formats.bind_request(verb, name, key, policy or None))
                    ask_written(asked, "put", calls.coniks_write_put, words, refusal, wanted)
        words, refusal = (name, len(name)), first_of(name_refusal(name))
        ask_written(asked, "promise", calls.coniks_write_promise, words, refusal, lambda: formats.request_frame("promise", name))
        for epoch in 0, 1, 0x0102030405060708, formats.MAX_EPOCH:
            wanted = lambda: formats.request_frame("lookup", epoch, name)
            ask_written(asked, "lookup", calls.coniks_write_lookup, (*words, epoch), refusal, wanted)
    for start in 0, 1, 0x0102030405060708, formats.MAX_EPOCH:
        for count in 0, 1, 64, 65, 0x0102, 65535:
            wanted = lambda: formats.request_frame("history", start, count)
            ask_written(asked, "history", calls.coniks_write_history, (start, count), 0, wanted)
        for token in bytes(range(31)), bytes(range(32)), bytes(range(33)), b"":
            for nonce in b"", bytes(range(31)), bytes(range(64, 96)), bytes(range(33)):
                words = token, len(token), start, nonce, len(nonce)
                refusal = first_of((26, len(token) != 32), (27, len(nonce) not in (0, 32)))
                request = ("rotate", token, start, nonce) if nonce else ("close", token, start)
                ask_written(asked, "turn", calls.coniks_write_turn, words, refusal, lambda: formats.request_frame(*request))
    ask_written(asked, "head", calls.coniks_write_head, (), 0, lambda: formats.request_frame("head"))


def frame_answer(data):
    """The kind of the frame in front, and where its body is."""
    found, _, is_bad = formats.split_frames(data)
    if found:
        kind, body = found[0]
        return kind, 5, len(body)
    return 1 if is_bad else 28


def asked_frame(library, data):
    frame = Frame.from_buffer_copy(bytes([FILL]) * sizeof(Frame))
    if answer := library.calls.coniks_read_frame(data, len(data), frame):
        return answer if bytes(frame) == bytes([FILL]) * sizeof(Frame) else "changed"
    return frame.kind, frame.body.start, frame.body.len


def ask_frames(library, asked):
    directory = directory_of(NAMES[:4])
    roots = [page.root for page in directory.pages]
    promise = directory.register(b"later", b"key")
    values = [(formats.PROMISE, promise), (formats.PROOF, directory.lookup(b"a", 2))]
    values += [(formats.ROOTS, roots), (formats.ROOT, roots[0]), (formats.REFUSED, 6)]
    frames = [formats.response_frame(*value) for value in values]
    frames += [formats.request_frame("head"), formats.frame(0, b""), formats.frame(7, b"b" * 300)]
    for data in frames:
        for each in [*altered(data), data + frames[0], data + b"\0\0\0\0", data + b"\xff" * 9]:
            asked.same("frame", frame_answer(each), asked_frame(library, each))
        kind, body = library.read_frame(data)
        asked.same("frame in Python", (data[4], data[5:]), (kind, body))
    for size in 0, 1, 2, 255, 256, 65535, 65536, 65537, 1 << 17, 1 << 24, 1 << 31, (1 << 32) - 1:
        data = formats.u32(size) + b"k" * 65540
        for end in [*range(12), *range(11, 65544, 997), size + 3, size + 4, size + 5, 65539, 65540, 65541, 65544]:
            asked.same(f"frame of {size} cut", frame_answer(data[:end]), asked_frame(library, data[:end]))
    for code in range(256):
        asked.same("refusal", code, library.read_refused(bytes([code])))
    for body in b"", b"\x06\x07", b"\x06" * 300:
        number = c_uint8(FILL)
        answer = library.calls.coniks_read_refused(body, len(body), byref(number))
        asked.same("refusal", (1, FILL), (answer, number.value))


def roots_answer(data, room):
    """Where each root of a list is."""
    if room < 64:
        return 13
    try:
        roots = formats.read_list(data)
    except formats.RootRefusal:
        return 1
    sizes = [len(root.write()) for root in roots]
    return [(2 + sum(sizes[:at]), size) for at, size in enumerate(sizes)]


def asked_roots(library, data, room):
    parts = (Part * room).from_buffer_copy(bytes([FILL]) * sizeof(Part) * room)
    count = c_size_t(FILL)
    answer = library.calls.coniks_read_roots(data, len(data), parts, room, byref(count))
    taken = 0 if answer else count.value
    if bytes(parts)[taken * sizeof(Part) :] != bytes([FILL]) * sizeof(Part) * (room - taken) or answer and count.value != FILL:
        return "changed"
    return answer or [(part.start, part.len) for part in parts[:taken]]


def ask_lists(library, asked):
    """Lists of roots. The reader asks neither whether they are a chain nor who signed them."""
    roots = [page.root for page in directory_of(NAMES[:4], NAMES[4:5]).pages]
    short, long = formats.SignedRoot(roots[0].body, b"s"), formats.SignedRoot(roots[1].body, b"s" * 256)
    for some in [], [roots[0]], [short, long], roots, [long] * 63, [long] * 64, [short] * 64, [long] * 65, [roots[0]] * 65:
        data = formats.write_list(some)
        for room in 0, 63, 64, 65:
            for each in data, data[:-1], data + b"\0":
                asked.same(f"{len(some)} roots in {room}", roots_answer(each, room), asked_roots(library, each, room))
        for each in altered(data, 1 if len(data) < 1000 else 97):
            asked.same(f"{len(some)} roots", roots_answer(each, 64), asked_roots(library, each, 64))
        if len(some) <= 64:
            asked.same("roots in Python", [root.write() for root in some], library.read_roots(data))
    for count in 0, 1, 2, 64, 65, 255, 256, 65535:
        data = formats.u16(count) + short.write()
        asked.same(f"{count} roots said", roots_answer(data, 64), asked_roots(library, data, 64))


def ask_stand_ins(library, asked):
    signature, value = formats.KeyedSign(KEY).sign(b"text"), formats.KeyedVuf(VUF_KEY).value(b"a")
    for key in KEY, KEY[:31], KEY + b"\0", VUF_KEY, b"":
        asked.same("signature", key == KEY, library.keyed_verifies(key, b"text", signature))
    for each in altered(signature):
        asked.same("signature", each == signature, library.keyed_verifies(KEY, b"text", each))
    for name in b"a", b"", b"a" * 256, b"b":
        asked.same("value", name == b"a", library.keyed_accepts(VUF_KEY, name, value))
    for each in altered(value):
        asked.same("value", each == value, library.keyed_accepts(VUF_KEY, b"a", each))


def ask_refused(library, asked):
    """A refusal leaves what the last pointer leads to as it was."""
    directory = directory_of(NAMES[:4])
    body, late = directory.page(2).root.body.write(), directory.lookup(b"a", 2).write()[:-1] + b"\0"
    for parts, call in (
        (Binding, lambda out: library.calls.coniks_check(body, len(body), b"a", 1, late, len(late), True, out)),
        (Binding, lambda out: library.calls.coniks_check(body, len(body), b"a", 1, late, len(late), False, out)),
        (RootParts, lambda out: library.calls.coniks_read_root(b"R", 1, out)),
        (PromiseParts, lambda out: library.calls.coniks_read_promise(b"P", 1, out)),
        (ReplyParts, lambda out: library.calls.coniks_read_reply(b"R", 1, out)),
        (Binding, lambda out: library.calls.coniks_check(b"R", 1, b"a", 1, b"R", 1, True, out)),
    ):
        out = parts.from_buffer_copy(b"\x01" * (size := bytes(parts()).__len__()))
        call(out)
        asked.same(parts.__name__, b"\x01" * size, bytes(out))


def ask_client(library, asked):
    """The client of the example follows a directory's chain, and looks names up."""
    directory = directory_of(NAMES[:4], NAMES[4:5])
    pages = directory.pages
    client = Client(library, Keyed(library), KEY, pages[0].root.write())
    for page in pages[1:]:
        client.take(page.root.write())
        for name in NAMES:
            reply = directory.lookup(name, page.epoch)
            found = formats.check(formats.sha256, formats.KeyedVuf(VUF_KEY), page.root.body, name, reply).statement()
            asked.same(f"look {name!r}", found and (found.key, found.policy or 0), client.look(name, reply.write()))
    promise = directory.register(b"later", b"key")
    client.take(directory.close(12).write())
    reply = directory.lookup(b"later", 12).write()
    for wanted, signed, *words in (
        (NotAsked, promise, b"late", b"key"),
        (NotAsked, promise, b"later", b"keys"),
        (NotAsked, promise, b"later", b"key", formats.OPEN),
        (NotAsked, formats.SignedPromise.signed(replace(promise.promise, body_hash=b"h" * 32), KEY), b"later", b"key"),
        (NotAsked, formats.SignedPromise.signed(replace(promise.promise, epoch=8), KEY), b"later", b"key"),
        (NotAsked, formats.SignedPromise.signed(replace(promise.promise, epoch=13), KEY), b"later", b"key"),
        (BadSignature, formats.SignedPromise(promise.promise, b"s"), b"later", b"key"),
        (Refused, formats.SignedPromise(promise.promise, b""), b"later", b"key"),
    ):
        asked.same(f"a promise that is {wanted.__name__}", False, expects(wanted, client.keep, signed.write(), *words))
    client.keep(promise.write(), b"later", b"key")
    [(kept, name, root)] = client.due()
    asked.same("promise of a client", (promise.write(), b"later", 12), (kept, name, client.epoch(root)))
    asked.same("promise of a client", (KEPT, []), (client.test(promise.write(), root, reply), client.promises))


def other_roots(pages):
    """Roots that are not of this history: forks, links, skips, one that is ahead, and one that does not verify."""
    bodies = [replace(page.root.body, root=b"r" * 32) for page in pages]
    bodies += [replace(body, epoch=body.epoch + 1) for body in bodies]
    bodies += [replace(page.root.body, previous_hash=b"p" * 32) for page in pages[1:]]
    bodies += [formats.Body(20, page.epoch, b"r" * 32, b"p" * 32, formats.ZERO32, VUF_KEY) for page in pages]
    bodies += [formats.Body(20, 15, b"r" * 32, b"p" * 32, formats.ZERO32, VUF_KEY)]
    unsigned = [formats.SignedRoot(pages[2].root.body, b"s"), formats.SignedRoot.signed(pages[3].root.body, VUF_KEY)]
    return [formats.SignedRoot.signed(body, KEY) for body in bodies] + unsigned


def list_answer(chain, roots):
    """What a chain says of a list of roots, and its roots then."""
    try:
        chain.take_list(roots)
        said = None
    except formats.ListRefusal as why:
        shown = why.evidence
        said = (KINDS[shown.kind], shown.a.write(), shown.b.write()) if shown else why.why
    return said, [root.write() for root in chain.roots]


def asked_list(client, roots):
    try:
        client.take_list([root.write() for root in roots])
        said = None
    except BadSignature:
        said = "bad signature"
    except Caught as why:
        said = why.args
    except Refused as why:
        said = why.args[0]
    return said, client.roots


def ask_chains(library, asked):
    """The chain of the example takes lists of roots as the model's does."""
    directory = keyed_directory(1, formats.ZERO32, KEY, VUF_KEY, SALT_KEY)
    for epoch in 2, 3, 5, 8, 9:
        directory.register(b"%d" % epoch, b"key")
        directory.close(epoch)
    own, others = [page.root for page in directory.pages], other_roots(directory.pages)
    rng = random.Random(1)
    for _ in range(2000):
        first = rng.randrange(3)
        client = Client(library, Keyed(library), KEY, own[first].write())
        chain = formats.Chain(formats.sha256, KEY, [own[first]])
        for _ in range(3):
            at = rng.randrange(len(own))
            roots = own[at : at + rng.randrange(4)] + rng.sample(others, rng.choice([0, 0, 1]))
            roots = roots if rng.randrange(4) else rng.sample(roots, len(roots))
            said, after = list_answer(chain, roots)
            said = 4 if said in ("ahead", "before start") else said
            asked.same("a list of roots", (said, after), asked_list(client, roots))


def expects(refusal, call, *words):
    """Whether a promise is not refused."""
    try:
        call(*words)
    except refusal:
        return False
    return True


def ask_watch(library, asked):
    """A watch of the example finds what the model's monitor does, with changes of the owner's and of others."""
    rng = random.Random(2)
    for _ in range(100):
        directory = keyed_directory(1, formats.ZERO32, KEY, VUF_KEY, SALT_KEY)
        first = directory.head().write()
        client = Client(library, Keyed(library), KEY, first)
        model = ModelClient(KEY, first, formats.sha256, formats.KeyedVuf)
        watch, monitor = Watch(client, b"a", None), Monitor(model, b"a", None)
        epoch, given = 1, []
        for _ in range(8):
            key, policy, act = rng.choice([b"k1", b"k2"]), rng.choice([None, formats.OPEN]), rng.choice(["own", "rob", ""])
            if act:
                promise = directory.let_wait(b"a", key, None, policy).write()
            if act == "own":
                given.append(promise)
                # Sometimes it is one that comes too late.
                promise = rng.choice([*given, promise, promise])
                statement = formats.SignedPromise.read(promise).promise.statement()
                client.keep(promise, b"a", statement.key, statement.policy or 0)
                is_expected = expects(MonitorRefusal, monitor.expect, statement, promise)
                asked.same("an expected promise", is_expected, expects(NotAsked, watch.expect, promise))
            while rng.randrange(4) and (watched := monitor.next_epoch()) is not None:
                reply = directory.lookup(b"a", watched)
                step, found = monitor.step(reply.write()), reply.statement()
                wanted = watched, step == MONITOR_KEPT, found and (found.key, found.policy or 0)
                asked.same("a step of a watch", wanted, watch.step(reply.write()))
            epoch += rng.randrange(1, 3)
            root = directory.close(epoch)
            client.take(root.write())
            monitor.update(formats.write_list([root]))


def is_cut(provider, _request, reply):
    """The connection ends within the second reply."""
    provider.is_cut = provider.count == 2
    return reply[:9] if provider.is_cut else reply


def c_program(archive, folder, source):
    """A program in C over the library, with sanitizers where the compiler has them."""
    program = f"{folder}/{pathlib.Path(source).stem}"
    build = ["cc", "-Wall", "-Wextra", "-Werror", "-I", str(TOP / "include"), "-o", program, str(TOP / source), archive]
    if subprocess.run([*build, "-fsanitize=address,undefined"], capture_output=True).returncode:
        subprocess.run(build, check=True)
    return program


def guarded_roots():
    """Calls on roots and lists of them: name, words, and what the model answers."""
    roots = [page.root for page in directory_of(NAMES[:4]).pages]
    longest, shortest = (formats.SignedRoot(roots[1].body, b"s" * size) for size in (256, 1))
    for root in roots[0], longest, shortest:
        for data in altered(root.write()):
            yield "read_root", [data], root_answer(data)
    one = roots[0].write()
    for data in altered(roots[1].write()):
        for pair in (one, data), (data, one):
            follows, shown = pair_answer(*pair)
            yield "follows", pair, follows
            yield "evidence", pair, shown
    for some in [], [shortest, longest], [longest] * 64, [longest] * 65:
        data = formats.write_list(some)
        for room in 0, 63, 65:
            yield "read_roots", [data, room], roots_answer(data, room)
        for each in altered(data, 1 if len(data) < 1000 else 397):
            yield "read_roots", [each, 64], roots_answer(each, 64)


def guarded_replies():
    """Calls on replies and promises."""
    directory = keyed_directory(1, formats.ZERO32, KEY, VUF_KEY, SALT_KEY)
    promises = [directory.register(b"a", b"k"), directory.register2(b"b", b"k" * 2048, formats.FINAL)]
    before = directory.head().write()
    directory.close(2)
    directory.let_wait(b"b", b"l", None, formats.FINAL)
    pages = [directory.last(), directory.page(directory.close(3).epoch)]
    root, later_root = (page.root.write() for page in pages)
    body = pages[0].root.body.write()
    for name in b"a", b"b", b"c", b"n" * 255:
        reply, later = (directory.lookup(name, page.epoch).write() for page in pages)
        for data in altered(reply, 1 if len(reply) < 1000 else 97):
            yield "read_reply", [data], reply_answer(data)
            for words in (body, name, data, True), (body, name, data, False):
                yield "check", words, check_answer(*words)
        for data in altered(reply, 3 if len(reply) < 1000 else 97):
            for pair in (reply, data), (data, reply):
                words = body, name, *pair, True, True
                yield "compare", [*words, 2400, 2400], compare_answer(*words)
            for words in (name, root, data, later_root, later), (name, root, reply, later_root, data):
                yield "test_final", [*words, True, True], final_answer(*words, True, True)
        for data in altered(body, 5):
            yield "check", [data, name, reply, True], check_answer(data, name, reply, True)
        for rooms in (2399, 2400), (2400, 2399):
            yield "compare", [body, name, reply, reply, True, True, *rooms], 13
    for name in b"", b"n" * 256:
        yield "check", [body, name, reply, True], 8
    for signed in promises:
        reply = directory.lookup(signed.promise.name, 2).write()
        for data in altered(signed.write(), 1 if len(signed.write()) < 1000 else 97):
            yield "read_promise", [data], promise_answer(data)
            for each in root, later_root, before:
                words = data, each, reply, True
                yield "test_promise", words, test_answer(*words)


def guarded_frames():
    """Calls that write and read frames, and the stand-ins."""
    names, keys = (b"a", b"n" * 255, b"", b"n" * 256), (b"k", b"k" * 2048, b"", b"k" * 2049)
    for room in 0, 2399, 2400, 2401:
        short = 13, room < 2400
        yield "write_head", [room], first_of(short)
        yield "write_history", [1, 64, room], first_of(short)
        for name in names:
            yield "write_promise", [name, room], first_of(short, name_refusal(name))
            yield "write_lookup", [name, 1, room], first_of(short, name_refusal(name))
            for key in keys:
                for policy in 0, 2, 3:
                    refusal = first_of(short, name_refusal(name), (24, not 1 <= len(key) <= 2048), (25, policy > 2))
                    yield "write_put", [True, name, key, policy, room], refusal
        for token in b"t" * 31, b"t" * 32, b"t" * 33:
            for nonce in b"", b"n" * 31, b"n" * 32, b"n" * 33:
                refusal = first_of(short, (26, len(token) != 32), (27, len(nonce) not in (0, 32)))
                yield "write_turn", [token, 1, nonce, room], refusal
    whole = [formats.request_frame("head"), formats.frame(formats.REFUSED, b"\x06"), formats.frame(7, b"b" * 300)]
    for data in [*whole, formats.u32(0), formats.u32(65537), formats.frame(7, b"b" * 65535)]:
        for each in altered(data, 1 if len(data) < 1000 else 9973):
            yield "read_frame", [each], frame_answer(each)
    for data in b"", b"\x06", b"\x06\x07":
        yield "read_refused", [data], 0 if len(data) == 1 else 1
    signature, value = formats.KeyedSign(KEY).sign(b"text"), formats.KeyedVuf(VUF_KEY).value(b"a")
    for each in altered(signature):
        yield "keyed_verifies", [KEY, b"text", each], int(each == signature)
    for each in altered(value):
        yield "keyed_accepts", [VUF_KEY, b"a", each], int(each == value)
    for key in KEY[:31], KEY + b"\0", b"":
        yield "keyed_verifies", [key, b"text", signature], 0
        yield "keyed_accepts", [key, b"a", value], 0


# What a call answers, beside 0, that is no refusal.
TELLS = {"evidence": (16, 17, 18), "compare": (21, 22), "keyed_verifies": (1,), "keyed_accepts": (1,)}


def guarded_word(word):
    return f"x{word.hex()}" if isinstance(word, bytes) else str(int(word))


def ask_guarded(archive, folder, asked):
    """Each call of the library on buffers that end at a page which must not be touched, or begin behind one."""
    program = c_program(archive, folder, "scripts/drive/guarded.c")
    cases = [*guarded_roots(), *guarded_replies(), *guarded_frames()]
    lines = [" ".join([call, *map(guarded_word, words)]) for call, words, _ in cases]
    for place in "ends", "begins":
        run = subprocess.run([program, place], input="\n".join(lines) + "\n", capture_output=True, text=True)
        told = run.stdout.splitlines()
        asked.same(f"guarded {place}: calls before a fault", (len(cases), 0), (len(told), run.returncode))
        for (call, _, wanted), line, (answer, *outputs) in zip(cases, lines, map(str.split, told)):
            wanted = wanted if isinstance(wanted, int) else 0
            is_untouched = wanted in (0, *TELLS.get(call, ())) or all(each == "a5" * (len(each) // 2) for each in outputs)
            asked.same(f"{place} {line[:200]}", (wanted, True), (int(answer), is_untouched))
        past = subprocess.run([program, place], input="past x00\n", capture_output=True, text=True)
        asked.same(f"guarded {place}: past the end", (True, ""), (past.returncode != 0, past.stdout))


def ask_example(archive, folder, asked):
    """The example in C looks names up at a directory that is honest, or alters a byte of what it sends."""
    look = c_program(archive, folder, "examples/c/look.c")

    def found(name, key=SIGNING_KEY, lie=None):
        provider = Provider(lie)
        directory = provider.hub.directory
        directory.register(b"a", b"k1")
        directory.register2(b"b", b"k2", formats.FINAL)
        directory.close(2)
        with answering(provider) as address:
            words = [look, *address.split(":"), key.hex(), name]
            run = subprocess.run(words, capture_output=True, text=True, timeout=60)
        return run.stdout + run.stderr, run.returncode

    for name, wanted in ("a", "6b31\n"), ("b", "6b32 final\n"), ("c", "absent\n"):
        asked.same(f"look {name}", (wanted, 0), found(name))
    asked.same("another key", ("bad signature\n", 3), found("a", formats.ZERO32))
    asked.same("no name", ("look ADDRESS PORT KEY NAME\n", 2), found(""))
    asked.same("cut", ("no reply\n", 1), found("a", lie=is_cut))
    asked.same("longest name", ("absent\n", 0), found("n" * 255))
    refuse = lambda provider, request, reply: formats.response_frame(formats.REFUSED, 14) if is_of(request, "lookup") else reply
    asked.same("refused", ("the directory refuses: 14\n", 1), found("a", lie=refuse))
    for sent, wanted in (
        (formats.frame(formats.REFUSED, b""), "refusal refused: 1\n"),
        (formats.frame(formats.REFUSED, b"\x0e\0"), "refusal refused: 1\n"),
        (formats.frame(formats.PROMISE, b""), "kind refused: 129\n"),
        (formats.u32(0) + b"\x84", "frame refused: 1\n"),
        (formats.u32(65537) + b"\x84", "frame refused: 1\n"),
        (formats.frame(formats.ROOT, b"k" * 65535), "root refused: 1\n"),
    ):
        asked.same(f"answer {sent[:6].hex()}", (wanted, 3), found("a", lie=lambda *_: sent))
    for at in range(5, 180, 7):
        for place in 1, 2:
            lie = lambda provider, _request, reply: flipped(reply, at) if provider.count == place else reply
            text, status = found("a", lie=lie)
            asked.same(f"byte {at} of reply {place}", (3, True), (status, "refused" in text or text == "bad signature\n"))


# Each of these is a lie of a provider (liars.py) that a client which follows asks for the head now and then.


def after_heads(*acts):
    """At the second request for the head the first act comes before the answer, and so on. Then the connection ends."""
    left = list(acts)

    def lie(provider, request, reply):
        if not is_of(request, "head") or provider.count == 1:
            return reply
        if not left:
            provider.is_cut = True
            return b""
        left.pop(0)(provider)
        return provider.hub.bytes(0, request)

    return lie


def robbing(provider):
    rob(provider, b"a")
    close(provider)


def forgetting(provider):
    provider.hub.directory.waiting = {}
    close(provider)


def unpinning(provider):
    provider.hub.directory.let_wait(b"b", b"k2", None, formats.OPEN)
    close(provider)


def forking(provider):
    """The last root is another one, of the same epoch."""
    page = provider.hub.directory.pages.pop()
    provider.hub.directory.rotate(page.epoch, b"f" * 32)


def going_back(provider):
    provider.hub.directory.pages.pop()


def ran_client(library, asked, command, *acts, lie=None, key=SIGNING_KEY):
    """What the client prints, and its status. JSON is judged, and stands as its kind."""
    provider = Provider(lie or after_heads(*acts))
    directory = provider.hub.directory
    directory.register(b"a", b"k1")
    directory.register2(b"b", b"k2", formats.FINAL)
    directory.close(2)
    with answering(provider) as address:
        words = [sys.executable, "-B", str(TOP / "examples/python/client.py"), library, *address.split(":"), key.hex(), *command.split()]
        run = subprocess.run(words, capture_output=True, text=True, timeout=60)
    lines = run.stdout.splitlines()
    with contextlib.suppress(IndexError, json.JSONDecodeError, TypeError):
        kind = json.loads(lines[-1])["kind"]
        asked.same(f"judged {kind}", (0, b"evidence\n"), judge_file(SIGNING_KEY.hex().encode(), lines[-1].encode()))
        lines[-1] = kind
    return lines, run.returncode


def ask_client_program(library, asked):
    """The client in Python follows a directory that is honest, or not."""
    epochs = lambda word, first, end: [f"{word} {epoch}" for epoch in range(first, end)]
    grow = lambda provider: close(provider, 70)
    for command, acts, *wanted in (
        ("head", [], ["root 2"], 0),
        ("lookup a", [], ["present 2 6b31"], 0),
        ("lookup b", [], ["present 2 6b32 final"], 0),
        ("lookup c", [], ["absent 2"], 0),
        (f"lookup {'n' * 255}", [], ["absent 2"], 0),
        (f"lookup {'n' * 256}", [], [], 2),
        ("register a", [], [], 2),
        ("register a 6b31 any", [], [], 2),
        ("watch a 6b3", [], [], 2),
        ("register a 6b31", [], [], 1),
        ("register c 6b33", [close], ["promise 2", "kept c 3"], 0),
        ("register c 6b33 open", [lambda _: None, grow], ["promise 2", "kept c 3"], 0),
        ("register c 6b33", [], ["promise 2"], 1),
        ("register c 6b33", [forgetting], ["promise 2", "broken-promise"], 3),
        ("watch a 6b31", [close, close], ["kept a 2", "kept a 3", "kept a 4"], 1),
        ("watch a 6b31", [grow], epochs("kept a", 2, 73), 1),
        ("watch a 6b31", [robbing, close], ["kept a 2", "alarm a 3 6576", "alarm a 4 6576"], 3),
        ("watch a -", [close], ["alarm a 2 6b31", "alarm a 3 6b31"], 3),
        ("watch c -", [close], ["kept c 2", "kept c 3"], 1),
        ("watch c 6b31", [], ["alarm c 2 absent"], 3),
        ("watch b 6b32", [], ["alarm b 2 6b32 final"], 3),
        ("watch b 6b32 final", [close, unpinning], ["kept b 2", "kept b 3", "broken-final"], 3),
        ("watch a 6b31", [close, forking], ["kept a 2", "kept a 3", "fork"], 3),
        ("watch a 6b31", [close, going_back], ["kept a 2", "kept a 3"], 3),
    ):
        asked.same(f"client {command}", tuple(wanted), ran_client(library, asked, command, *acts))
    asked.same("another key", ([], 3), ran_client(library, asked, "head", key=formats.ZERO32))
    for at in range(5, 180, 35):
        for place in 1, 2:
            lie = lambda provider, _request, reply: flipped(reply, at) if provider.count == place else reply
            asked.same(f"byte {at} of reply {place}", ([], 3), ran_client(library, asked, "lookup a", lie=lie))


# Epochs of these end at any time.
HONEST = nothing, closed_between, closed_around


class Stream:
    """A connection to a provider without a socket."""

    def __init__(self, provider):
        self.provider, self.sent = provider, b""

    def sendall(self, request):
        if not self.provider.is_cut:
            self.sent += self.provider.answer(request)

    def recv(self, size):
        piece, self.sent = self.sent[:size], self.sent[size:]
        return piece


def lied_to(session, provider, rng):
    """Looks a name up, registers it, and watches it over some epochs, in any order."""
    watch = Watch(session.client, b"a", None)
    for _ in range(12):
        match rng.randrange(5):
            case 0:
                session.look(rng.choice([b"a", b"b"]))
            case 1:
                with contextlib.suppress(Declined):
                    session.register(b"a", b"k1", rng.choice([0, formats.OPEN, formats.FINAL]))
            case 2:
                close(provider, rng.choice([1, 1, 70]))
            case 3:
                session.follow()
                list(session.test())
            case 4:
                list(session.step(watch))


def ask_lied_to(library, asked):
    """The client in Python asks directories, most of which lie. It fails in its own words, and never where they do not.
    Its chain stays one, and its evidence holds."""
    ends = collections.Counter()
    for seed in range(600):
        rng = random.Random(seed)
        lie = rng.choice([*LIES, *4 * HONEST])
        provider = Provider(lie(rng.randrange(1, 8), seed))
        with unittest.mock.patch("socket.create_connection", lambda *_, **__: Stream(provider)):
            try:
                session = Session(library, Keyed(library), SIGNING_KEY, "", 0)
            except (BadSignature, ConnectionError, Declined, NotAsked, Refused):
                continue
        try:
            lied_to(session, provider, rng)
        except (BadSignature, Caught, ConnectionError, Declined, NotAsked, Refused) as why:
            ends[type(why).__name__] += 1
            asked.same(f"honest {lie.__name__} {seed}", None, repr(why) if lie in HONEST else None)
        roots = [formats.SignedRoot.read(root) for root in session.client.roots]
        is_chain = all(formats.linked(formats.sha256, *pair) for pair in zip(roots, roots[1:]))
        asked.same("a chain", True, is_chain and all(root.verifies(SIGNING_KEY) for root in roots))
        for caught in session.client.evidence:
            asked.same("evidence", (0, b"evidence\n"), judge_file(SIGNING_KEY.hex().encode(), caught.json().encode()))
    asked.same("ways to end", 6, len(ends))


def ask_signed_example(library, asked):
    """The example with real signatures, and the same where the package for them is missing."""
    shown = ["taken: epochs 1, 2, 3", "refused: the altered root", "evidence: fork"]
    missing = ["the package cryptography is not installed: nothing was shown"]
    is_installed = importlib.util.find_spec("cryptography") is not None
    for options, wanted in ("-B", shown if is_installed else missing), ("-BES", missing):
        words = [sys.executable, options, str(TOP / "examples/python/ed25519.py"), library]
        run = subprocess.run(words, capture_output=True, text=True, timeout=60)
        asked.same(f"Ed25519 {options}", (wanted, 0, ""), (run.stdout.splitlines(), run.returncode, run.stderr))


ASKED = (
    ask_roots, ask_replies, ask_pairs, ask_promises, ask_finals, ask_requests, ask_frames, ask_lists, ask_stand_ins,
    ask_refused, ask_client, ask_chains, ask_watch, ask_lied_to,
)


def main(archive):
    if shutil.which("cc") is None:
        print("no C compiler: nothing was asked")
        return 0
    asked = Asked()
    with tempfile.TemporaryDirectory() as folder:
        path = built(archive, folder)
        library = Library(path)
        for ask in ASKED:
            ask(library, asked)
        before = asked.count
        ask_stored(library, asked)
        stored = asked.count - before
        ask_guarded(archive, folder, asked)
        ask_example(archive, folder, asked)
        ask_client_program(path, asked)
        ask_signed_example(path, asked)
    for line in asked.wrong[:20]:
        print(line)
    print(f"{asked.count:,} answers of the library for C, {stored:,} of them to stored questions, {len(asked.wrong)} wrong")
    return 1 if asked.wrong else 0


if __name__ == "__main__":
    if len(sys.argv) != 2:
        sys.exit(__doc__)
    sys.exit(main(sys.argv[1]))
