#!/usr/bin/env python3
"""Runs `directoryd ask` against directories, honest or lying, and compares the output, the
files of the state, the words and the status with what a model of the client computes.

    scripts/drive/asks.py PROGRAM [--drawn N] [--lies N] [--seed N]

The scripts are those of `play` without its lines about other sessions, and N drawn ones (40 unless given), asked of
`directoryd listen`: what they print is the text of `play`. As many honest directories follow, whose epochs end at any
time: none of their lists of roots may be refused. Then come N times (400 unless given) some runs over one state, of a
directory that may lie: it alters or cuts a reply, answers with what was right earlier, leaves roots out, signs another
history, breaks its promises, or lets others change keys, also final ones. The runs that are stored have to end as it
says here too. Runs that go on from the states in version1 do what is stored there. One more directory is silent, and one
takes no connection: each is given up after a minute. The last line is `N passed, M failed`, and the status is 0 where
none failed.
"""

import argparse
import contextlib
import os
import pathlib
import random
import socket
import subprocess
import sys
import tempfile
import threading
import time
from dataclasses import replace
from typing import NamedTuple

sys.dont_write_bytecode = True
sys.path.insert(0, str(pathlib.Path(__file__).resolve().parent.parent))

from drive import old_files
from drive.ask_runs import (
    BEGUN_LINES,
    FILES,
    KEPT_ALARM_OF_2,
    PROVIDER_FILE,
    SECONDS,
    answering,
    asking,
    difference,
    drawn_runs,
    files_of,
    kept_epochs,
    listening,
    paths,
    ran,
    run_of_lines,
    run_of_words,
)
from drive.liars import (
    EVIL,
    LIES,
    OTHER_KEY,
    Provider,
    begin_anew,
    begun,
    close,
    closed_around,
    flipped,
    from_run,
    is_of,
    over,
    rob,
    root_behind,
    with_older,
    with_roots,
    words_of,
)
from model.ask_model import Asked
from model.formats import (
    FINAL,
    FORK,
    LINK,
    OPEN,
    PROMISE,
    PROOF,
    REFUSED,
    ROOT,
    ROOTS,
    ZERO32,
    BrokenFinal,
    BrokenPromise,
    KeyedVuf,
    RootEvidence,
    Tree,
    evidence_json,
    frame,
    lines_of,
    read_response,
    response_frame,
    write_list,
)
from model.sessions import SALT_KEY, SIGNING_KEY, VUF_KEY, keyed_directory, played
from questions import play_scripts

# Runs ---------------------------------------------------------------------------------------------------------


def is_of_other_sessions(line):
    return line.split(b" ")[0] in (b"bytes", b"end")


def scripts(drawn, seed):
    """The scripts of `play` without the lines of other sessions."""
    for name, script in play_scripts.scripts():
        if len(script) <= 65536:
            yield name, script
    for each in range(seed, seed + drawn):
        yield f"drawn script {each}", play_scripts.drawn(each)


def honest(program, drawn, seed):
    for name, script in scripts(drawn, seed):
        script = b"".join(line + b"\n" for line in lines_of(script) if not is_of_other_sessions(line))
        lines, stop = played(script)
        server, address = listening(program)
        order = [program, "ask", "--provider", PROVIDER_FILE, address]
        run = subprocess.run(order, input=script, capture_output=True, timeout=120)
        server.wait(60)
        fault = run.stderr.decode().splitlines()[-1:] if stop is not None else []
        if run.stdout.decode().splitlines() != lines:
            yield f"{name}: wanted {lines!r}, got {run.stdout!r} and {run.stderr!r}"
        elif stop is not None and fault != [f"line {stop}: not a command"]:
            yield f"{name}: no fault at line {stop}, but {fault}"
        else:
            yield None


def roots_line(rng):
    """What somebody does who mostly asks for roots."""
    history = f"history {rng.randrange(9)} {rng.choice([1, 2, 3, 64])}"
    return rng.choice([history, history, "lookup 61 0", "close 8", "close 9", "watch 61 -"])


def honest_roots(program, drawn, seed):
    """Roots that a directory sends are not refused, whenever its epochs end and its client begins."""
    for each in range(seed, seed + drawn):
        rng = random.Random(each)
        lines = [roots_line(rng) for _ in range(6)]
        epochs, other = rng.randrange(5), rng.randrange(2**32)
        yield difference(f"honest roots {each}", program, lambda: begun(epochs, closed_around(1, other)), [run_of_lines(*lines)])
        provider = Provider(begun(epochs, closed_around(1, other)))
        provider.begin()
        model = Asked(provider)
        model.run(run_of_lines(*lines)[0])
        refused = [line for line in model.text if line.startswith("client refuses")]
        yield f"honest roots {each}: {refused}" if refused else None


def lying(program, lies, seed):
    for each in range(seed, seed + lies):
        rng = random.Random(each)
        runs, lie = drawn_runs(rng), rng.choice(LIES)
        first, place, other = rng.randrange(1, 4), rng.choice([rng.randrange(1, 12), rng.randrange(1, 4)]), rng.randrange(2**32)
        epochs = rng.choice([0, 0, 2])
        yield difference(f"{lie.__name__} {each}", program, lambda: begun(epochs, from_run(first, lie(place, other))), runs)


# Stored runs ----------------------------------------------------------------------------------------------------


class Ending(NamedTuple):
    """What a run prints, its status, and its words, where FILE is `FILE`."""

    text: list
    status: int
    words: list


def lies(*cases):
    """What a directory does in some runs: in the run of a number, with the replies to a command, or with the first
    reply where there is no command. It may send something else."""

    def lie(provider, request, reply):
        for run, command, act in cases:
            if provider.runs == run and (provider.count == 1 if command is None else is_of(request, command)):
                reply = act(provider, request, reply)
        return reply

    return lambda: lie


def key_is_robbed(provider, _request, reply):
    rob(provider, b"a")
    return reply


def keys_are_robbed(provider, _request, reply):
    """Those of two names."""
    for name in (b"a", b"b"):
        rob(provider, name)
    return reply


def binding_becomes(key, policy):
    """The name has this key and policy from the next epoch on, whatever it has."""

    def act(provider, _request, reply):
        provider.hub.directory.let_wait(b"a", key, None, policy)
        return reply

    return act


def promised_key_is_opened(provider, _request, reply):
    """The key that was promised as final is shown as open."""
    let_wait_as_open(provider.hub.directory, b"a")
    return reply


def let_wait_as_open(directory, name):
    """What waits for a name is open, whatever was promised."""
    directory.waiting[name] = directory.waiting[name]._replace(policy=OPEN)


def name_goes(provider, _request, reply):
    """The next page has no name."""
    directory = provider.hub.directory
    directory.pages[-1] = directory.last()._replace(bindings={}, tree=Tree(directory.digest, directory.last().root.body.nonce))
    return reply


def names_move(provider, _request, _reply):
    """The page that a closing adds has another key of the verifiable function."""
    move_names(provider.hub.directory)
    return frame(ROOT, provider.hub.directory.head().write())


def move_names(directory):
    """On the last page each name has another index."""
    page = directory.pages.pop()
    commitments = {name: page.tree.items[directory.index_of(name)] for name in page.bindings}
    directory.vuf = KeyedVuf(OTHER_KEY)
    tree = Tree(directory.digest, page.root.body.nonce, {directory.index_of(name): each for name, each in commitments.items()})
    directory.pages.append(directory.page_of(replace(page.root.body, vuf_key=OTHER_KEY), page.bindings, tree))


def other_final_key_between(provider, request, reply):
    """The promised key waits for the epoch after the next one, and another final key for that."""
    directory = provider.hub.directory
    promised = directory.waiting.copy()
    directory.let_wait(b"a", EVIL, None, FINAL)
    close(provider)
    directory.waiting |= promised
    close(provider)
    return reply


def key_is_changed_and_put_back(provider, request, _reply):
    """Another device of the owner's changes the key, and somebody puts the old one back."""
    close(provider)
    for key in (b"k2", b"k1"):
        provider.hub.directory.change(b"a", key)
        close(provider)
    return provider.hub.bytes(0, request)


def root_1_is_in_front(provider, request, reply):
    return with_older(provider, request, reply, 0)


def memory_runs_out(_provider, _request, _reply):
    return response_frame(REFUSED, 14)


def is_first_of(epoch, provider, request):
    """Whether this is the first look-up of an epoch."""
    is_first = words_of(request)[0] == epoch and epoch not in provider.noted
    provider.noted.add(words_of(request)[0])
    return is_first


def memory_runs_out_at(epoch):
    """The first look-up of an epoch finds no memory."""
    return lambda provider, request, reply: response_frame(REFUSED, 14) if is_first_of(epoch, provider, request) else reply


def memory_runs_out_for(epoch):
    """No look-up of an epoch finds memory."""
    return lambda provider, request, reply: response_frame(REFUSED, 14) if words_of(request)[0] == epoch else reply


def memory_runs_out_but_once_for(epoch):
    """Only the first look-up of an epoch finds memory."""
    refuse = memory_runs_out_for(epoch)
    return lambda provider, request, reply: reply if is_first_of(epoch, provider, request) else refuse(provider, request, reply)


def proof_is_altered_at(epoch, distance=1):
    """The first proof of an epoch is altered, in the byte that is so far from its end."""
    return lambda provider, request, reply: flipped(reply, len(reply) - distance) if is_first_of(epoch, provider, request) else reply


def key_is_altered_at(epoch):
    """The first proof of an epoch has another key than the leaf. Two bytes follow it, as the proof has no siblings."""
    return proof_is_altered_at(epoch, 3)


def promise_is_of_epoch_3(provider, _request, reply):
    return frame(PROMISE, over(provider, provider.hub.directory.page(3), read_response(reply[4], reply[5:])).write())


def head_is_root_1(provider, _request, _reply):
    return frame(ROOT, provider.hub.directory.pages[0].root.write())


def change_is_taken_again(provider, request, _reply):
    provider.hub.directory.waiting.clear()
    return provider.hub.bytes(0, request)


def epochs_end(provider, request, _reply):
    """One ends before the reply, and one behind it."""
    close(provider)
    reply = provider.hub.bytes(0, request)
    close(provider)
    return reply


def change_is_taken_between(provider, request, reply):
    """One epoch ends before a change is taken, and one behind it."""
    provider.hub.directory.waiting.clear()
    return epochs_end(provider, request, reply)


def epoch_is_hidden(provider, _request, reply):
    """An epoch ends, and the reply is the one from before it."""
    close(provider)
    return reply


def look_up_is_refused_at(epoch):
    """No look-up of an epoch finds it."""
    return lambda provider, request, reply: response_frame(REFUSED, 10) if words_of(request)[0] == epoch else reply


def look_up_is_of(epoch):
    """Each look-up gets the proof of this epoch."""
    return lambda provider, _request, _reply: response_frame(PROOF, provider.hub.directory.lookup(b"a", epoch))


def directory_goes_back(epochs):
    def act(provider, request, _reply):
        begin_anew(provider, b"a", epochs)
        return provider.hub.bytes(0, request)

    return act


def policy_is_left_out(_provider, _request, _reply):
    """The promise of a directory that was asked for the key without a policy."""
    directory = keyed_directory(1, ZERO32, SIGNING_KEY, VUF_KEY, SALT_KEY)
    return response_frame(PROMISE, directory.register(b"a", b"k1"))


def nothing_is_kept(provider, _request, reply):
    provider.hub.directory.waiting.clear()
    return reply


def roots_of(key):
    """The roots of epochs 2 and 3 of a directory that was given this key for the name."""
    directory = keyed_directory(1, ZERO32, SIGNING_KEY, VUF_KEY, SALT_KEY)
    directory.register(b"a", key)
    return directory.close(2), directory.close(3)


def root_2(key):
    return roots_of(key)[0]


def forked_3():
    """The evidence of an epoch 3 with two roots."""
    second, third = roots_of(b"k1")
    return evidence_json(RootEvidence(FORK, third, root_behind(second)))


def list_is_forked_and_older(provider, _request, _reply):
    return frame(ROOTS, write_list([root_2(EVIL), provider.hub.directory.pages[0].root]))


def list_is_forked(_provider, _request, _reply):
    return frame(ROOTS, write_list([root_2(EVIL)]))


def list_is_of_others(_provider, _request, _reply):
    return frame(ROOTS, write_list([roots_of(EVIL)[1]]))


def list_is_altered(_provider, _request, reply):
    """The last root has a bad signature."""
    return flipped(reply, len(reply) - 1)


def nothing_comes(provider, _request, _reply):
    provider.is_cut = True
    return b""


def many_epochs_end(epochs):
    """So many epochs end before the reply."""

    def act(provider, request, _reply):
        close(provider, epochs)
        return provider.hub.bytes(0, request)

    return act


def roots_without_end(provider, request, reply):
    """An epoch ends before each list of roots. Who takes 2,000 of them gets no more."""
    provider.noted.add(provider.count)
    return nothing_comes(provider, request, reply) if len(provider.noted) > 2000 else many_epochs_end(1)(provider, request, reply)


def behind_first(act):
    """This is done behind the first reply."""
    return lambda provider, request, reply: act(provider, request, reply) if provider.count > 1 else reply


def roots_are(change):
    """A list of roots, changed so."""
    return lambda _provider, _request, reply: with_roots(reply, change)


def first_is_of_another(_provider, _request, reply):
    """The first root of a list is that of a directory that began under another nonce."""
    other = keyed_directory(1, bytes([7]) * 32, SIGNING_KEY, VUF_KEY, SALT_KEY).head()
    return with_roots(reply, lambda roots: [other, *roots[1:]])


def root_is_behind(_provider, _request, reply):
    """A list of roots has one more, which the directory has not."""
    return with_roots(reply, lambda roots: [*roots, root_behind(roots[-1])])


def root_is_forked(provider, request, reply):
    """A list of roots has one more, and then an epoch ends with another root."""
    forked = root_is_behind(provider, request, reply)
    close(provider)
    return forked


def from_epoch(epoch, act):
    """This is done where roots are asked for from an epoch on."""
    return lambda provider, request, reply: act(provider, request, reply) if words_of(request)[0] == epoch else reply


def epochs_ended(epochs, *cases):
    """Some epochs end before the first run."""
    return lambda: begun(epochs, lies(*cases)())


def promise_and_root(epochs=1):
    """The evidence of a promise that was not kept, once so many epochs ended."""
    directory = keyed_directory(1, ZERO32, SIGNING_KEY, VUF_KEY, SALT_KEY)
    promise = directory.register(b"a", b"k1")
    directory.waiting.clear()
    roots = [directory.close(epoch) for epoch in range(2, 2 + epochs)]
    return evidence_json(BrokenPromise(promise, roots[0], directory.lookup(b"a", 2).write()))


def broken_change():
    """The evidence of a change that was promised over epoch 2, and is not in epoch 3."""
    directory = keyed_directory(1, ZERO32, SIGNING_KEY, VUF_KEY, SALT_KEY)
    directory.register(b"a", b"k1")
    directory.close(2)
    promise = directory.change(b"a", b"k2")
    directory.waiting.clear()
    return evidence_json(BrokenPromise(promise, directory.close(3), directory.lookup(b"a", 3).write()))


def final_promise_and_root():
    """The evidence of a key that was promised as final, and is shown as open."""
    directory = keyed_directory(1, ZERO32, SIGNING_KEY, VUF_KEY, SALT_KEY)
    promise = directory.register2(b"a", b"k1", FINAL)
    let_wait_as_open(directory, b"a")
    return evidence_json(BrokenPromise(promise, directory.close(2), directory.lookup(b"a", 2).write()))


def final_directory(*acts):
    """A directory whose name has a final key in epoch 2. Each act comes before the end of one more epoch."""
    directory = keyed_directory(1, ZERO32, SIGNING_KEY, VUF_KEY, SALT_KEY)
    directory.register2(b"a", b"k1", FINAL)
    directory.close(2)
    for act in acts:
        act(directory)
        directory.close(directory.last().epoch + 1)
    return directory


def change_in(directory, before=None, first=2, later=3, name=b"a"):
    """The evidence of a final binding that was changed, by the replies for two epochs. The first may be of a directory as it
    was before."""
    replies = [each.lookup(name, epoch).write() for each, epoch in ((before or directory, first), (directory, later))]
    return evidence_json(BrokenFinal(name, directory.page(first).root, replies[0], directory.page(later).root, replies[1]))


def becomes(key, policy):
    return lambda directory: directory.let_wait(b"a", key, None, policy)


def stays(_directory):
    """Nothing waits."""


def without_names(directory):
    directory.pages[-1] = directory.last()._replace(bindings={}, tree=Tree(directory.digest, ZERO32))


def others_final():
    """A directory that changes another's final key to one of its own."""
    directory = keyed_directory(1, ZERO32, SIGNING_KEY, VUF_KEY, SALT_KEY)
    directory.register2(b"a", EVIL, FINAL)
    directory.close(2)
    directory.let_wait(b"a", b"k1", None, FINAL)
    directory.close(3)
    return directory


def two_finals():
    """A directory that changes the final keys of two names."""
    directory, names = keyed_directory(1, ZERO32, SIGNING_KEY, VUF_KEY, SALT_KEY), (b"a", b"b")
    for name in names:
        directory.register2(name, b"k1", FINAL)
    directory.close(2)
    for name in names:
        directory.let_wait(name, EVIL, None, None)
    directory.close(3)
    return directory


def moved_final():
    """A directory whose name has another index, and a final key, in epoch 2, and then another key."""
    directory = final_directory()
    move_names(directory)
    directory.let_wait(b"a", EVIL, None, None)
    directory.close(3)
    return directory


def robbed_there():
    """A directory whose name has a final key in epoch 2, another index in epoch 3, and there another key in epoch 4."""
    directory = final_directory()
    directory.close(3)
    move_names(directory)
    directory.let_wait(b"a", EVIL, None, None)
    directory.close(4)
    return directory


def robbed_later():
    """A directory whose name has an open key in epoch 2, a final one in epoch 3, and another key in epoch 4."""
    directory = keyed_directory(1, ZERO32, SIGNING_KEY, VUF_KEY, SALT_KEY)
    directory.register(b"a", b"k1")
    directory.close(2)
    directory.change2(b"a", b"k1", FINAL, None)
    directory.close(3)
    directory.let_wait(b"a", EVIL, None, None)
    directory.close(4)
    return directory


def final_between():
    """The directory of `other_final_key_between`, and the promise that it broke."""
    directory = keyed_directory(1, ZERO32, SIGNING_KEY, VUF_KEY, SALT_KEY)
    promise = directory.register2(b"a", b"k1", FINAL)
    promised = directory.waiting.copy()
    directory.let_wait(b"a", EVIL, None, FINAL)
    directory.close(2)
    directory.waiting |= promised
    directory.close(3)
    return directory, promise


def broken_between():
    directory, promise = final_between()
    return evidence_json(BrokenPromise(promise, directory.page(2).root, directory.lookup(b"a", 2).write()))


BEGUN = run_of_lines(*BEGUN_LINES)
BEGUN_FINAL = run_of_lines("register2 61 6b31 final", "close 2", "watch2 61 6b31 final")
WATCH_FINAL = run_of_lines("close 3", "watch2 61 6b31 final")
IS_FINAL = "refused 25: the binding of the name in the latest epoch is final"
BEGUN_LATER = run_of_lines("close 5", "close 6")
THREE_ROOTS = [run_of_lines("close 2", "close 3"), run_of_words("history 1 64")]
ALL_ROOTS = [BEGUN_LATER, run_of_words("history 1 64")]
WATCH, SETTLE = run_of_words("watch 61 6b31"), run_of_words("settle 61")
REPLY_25 = "client refuses reply 25: the reply is not to what was asked"
OTHER_ROOTS = Ending(["client refuses reply 25"], 1, [REPLY_25])
ROOT_3 = "client refuses root 3: the epoch is not above that of the head of the chain"
ROOT_2 = "client refuses root 2: the signature does not verify"
ROOT_21 = "client refuses root 21: the root contradicts the chain"
PROOF_7 = "client refuses proof 7: the siblings do not lead from the root to the end"
PROMISE_26 = "client refuses promise 26: the name has another index"
NO_MEMORY, NO_EPOCH = "refused 14: out of memory", "refused 10: there is no such epoch"
BEGINS = "state: begins at epoch 1"
ALARM, KEPT_ALARM = "alarm 61 3 6576", "state: FILE.kept: alarm of an earlier run for 61 at epoch 3"
FORKED = evidence_json(RootEvidence(FORK, root_2(b"k1"), root_2(EVIL)))
LINKED = evidence_json(RootEvidence(LINK, root_2(b"k1"), roots_of(EVIL)[1]))
AFTER_1027 = "no root is taken after epoch 1027"
EARLIER_EVIDENCE = "state: FILE.kept: evidence of an earlier run"
BROKEN_CHANGE = broken_change()
FINAL_CHANGED = "final binding of 61: it was changed"
ROBBED_FINAL = change_in(final_directory(becomes(EVIL, None)))
OTHERS_FINAL = change_in(others_final())
GONE_FINAL = change_in(final_directory(without_names), final_directory())
LATER_FINAL = change_in(final_directory(stays, becomes(EVIL, FINAL)), later=4)
MOVED_FINAL = change_in(moved_final())
ROBBED_THERE = change_in(robbed_there(), first=3, later=4)
ROBBED_LATER = change_in(robbed_later(), first=3, later=4)
TWO_FINALS = [change_in(two_finals(), name=name) for name in (b"a", b"b")]
BEGUN_TWO_FINALS = run_of_lines("register2 61 6b31 final", "register2 62 6b31 final", "close 2")
LOOK_AT_TWO = "lookup 61 0", "lookup 62 0"

# Of a name: what the directory does, the runs over one state, and how the last of them ends.
STORED_LIES = {
    # 1. A list of new roots with an older one is refused before client or monitor takes any of it, so the mark is no
    # further than the monitors' chains, and a later run finds the change.
    "an epoch that no monitor looked at": (
        lies((2, None, key_is_robbed), (2, "history", root_1_is_in_front)),
        [run_of_lines("register 61 6b31", "close 2", "close 3"), run_of_lines("watch 61 6b31", "close 4")],
        Ending(["kept 61 3", "client refuses reply 25"], 1, [REPLY_25, "no root is taken after epoch 3"]),
    ),
    "an epoch that is watched later": (
        lies((2, None, key_is_robbed), (2, "history", root_1_is_in_front)),
        [run_of_lines("register 61 6b31", "close 2", "close 3"), run_of_lines("watch 61 6b31", "close 4"), WATCH],
        Ending(["alarm 61 4 6576"], 3, []),
    ),
    "an older root among new ones, and no monitor": (
        lies((2, "history", root_1_is_in_front)),
        [BEGUN, run_of_lines("close 3", "lookup 61 0")],
        Ending(["client refuses reply 25"], 1, [REPLY_25, "no root is taken after epoch 2"]),
    ),
    "evidence in a list with an older root": (
        lies((2, "history", list_is_forked_and_older)),
        [BEGUN, run_of_words("history 2 64")],
        Ending(["client refuses reply 25"], 1, [REPLY_25]),
    ),
    # 2. The change stays expected until it was watched, though its promise was tested. One that no mark awaits gives way
    # to the key that is given.
    "a change whose first monitor was held up": (
        lies((2, "lookup", memory_runs_out_for(4))),
        [run_of_lines("register 61 6b31", "close 2", "change 61 6b32"), run_of_lines("close 3", "close 4", "watch 61 6b31"), WATCH],
        Ending(["alarm 61 4 6b32"], 3, []),
    ),
    "a change whose monitor was held up twice": (
        lies((1, "lookup", memory_runs_out_at(3)), (2, None, memory_runs_out)),
        [run_of_lines("register 61 6b31", "close 2", "watch 61 6b31", "change 61 6b32", "close 3"), WATCH],
        Ending(["refused 14", "kept 61 3"], 1, [NO_MEMORY]),
    ),
    "two changes whose monitor was held up, in a file that was written anew": (
        lies((2, "lookup", memory_runs_out_for(3))),
        [
            BEGUN,
            run_of_lines("close 3", "watch 61 6b31", "change 61 6b32", "register 62 6b31", "close 4", "change 61 6b33"),
            run_of_lines("close 5", "watch 61 6b31"),
        ],
        Ending(["root 5 after 4", "kept 61 3", "kept 61 4", "kept 61 5"], 0, []),
    ),
    "a change whose proof came late": (
        lies((1, "lookup", proof_is_altered_at(3))),
        [run_of_lines("register 61 6b31", "close 2", "watch 61 6b31", "change 61 6b32", "close 3"), WATCH],
        Ending(["kept 61 3"], 0, []),
    ),
    "a key that was promised before the name was watched": (
        lies((2, None, key_is_changed_and_put_back)),
        [run_of_words("register 61 6b31"), run_of_words("watch 61 6b32")],
        Ending(["alarm 61 4 6b31"], 3, []),
    ),
    "a change of this run": (
        lies(),
        [BEGUN, run_of_lines("change 61 6b32", "watch 61 6b31", "close 3", "watch 61 6b31")],
        Ending(["promise 2", "watched 61 2", "root 3 after 2", "kept 61 3"], 0, []),
    ),
    "a change of this run from behind the first root": (
        lies(),
        [BEGUN, run_of_lines("close 3", "change 61 6b32", "close 4", "watch 61 6b31", "watch 61 6b31")],
        Ending(["root 3 after 2", "promise 3", "root 4 after 3", *["kept 61 3", "kept 61 4"] * 2], 0, []),
    ),
    "a change of this run of a name that was not watched before": (
        lies(),
        [run_of_lines("register 61 6b31", "close 2"), run_of_lines("change 61 6b32", "close 3", "watch 61 6b31")],
        Ending(["promise 2", "root 3 after 2", "alarm 61 3 6b32"], 3, []),
    ),
    "a promise that is found kept before it is remembered": (
        lies((1, "register", change_is_taken_between)),
        [run_of_lines("register 61 6b31")],
        Ending(["promise 2"], 0, [BEGINS]),
    ),
    # 3. What answers is not older than the head, and a monitor's refusal is told.
    "an old promise for a change": (
        lies((2, "change", promise_is_of_epoch_3)),
        [
            run_of_lines(
                *BEGUN_LINES, "change 61 6b32", "close 3", "change 61 6b31", "close 4", "change 61 6b32", "close 5"),
            run_of_words("change 61 6b31"),
        ],
        Ending(["client refuses reply 25"], 1, [REPLY_25]),
    ),
    "an old promise that is asked for": (
        lies((2, "promise", promise_is_of_epoch_3)),
        [run_of_lines("register 61 6b31", "close 2", "close 3", "close 4", "change 61 6b32"), run_of_words("promise 61")],
        Ending(["client refuses reply 25"], 1, [REPLY_25]),
    ),
    "an old root as the latest": (
        lies((2, "head", head_is_root_1)),
        [run_of_lines("close 2", "close 3", "close 4"), run_of_words("head")],
        Ending(["client refuses root 3"] * 2, 1, [ROOT_3] * 2),
    ),
    "two changes of one epoch": (
        lies((2, "change", change_is_taken_again)),
        [BEGUN, run_of_lines("close 3", "watch 61 6b31", "change 61 6b32", "change 61 6b33")],
        Ending(["root 3 after 2", "kept 61 3", "promise 3", "promise 3", "client refuses promise 24"], 1, [
            "watching 61: client refuses promise 24: the promise is not one of this change, or comes too late"]),
    ),
    # 4. A look-up of the latest epoch is checked under the root of its own.
    "an epoch that ends behind a look-up": (
        lies((2, "lookup", epochs_end)),
        [run_of_lines("register 61 6b31", "close 2"), run_of_words("lookup 61 0")],
        Ending(["present 3 6b31"], 0, []),
    ),
    # 5. Roots that are asked for are those of the chain.
    "roots in the middle are left out": (
        lies((2, "history", roots_are(lambda roots: roots[:1] + roots[2:]))),
        THREE_ROOTS,
        OTHER_ROOTS,
    ),
    "the first roots are left out": (lies((2, "history", roots_are(lambda roots: roots[1:]))), THREE_ROOTS, OTHER_ROOTS),
    "the last roots are left out": (lies((2, "history", roots_are(lambda roots: roots[:-1]))), THREE_ROOTS, OTHER_ROOTS),
    "all roots are left out": (lies((2, "history", roots_are(lambda _: []))), THREE_ROOTS, OTHER_ROOTS),
    "roots backwards": (lies((2, "history", roots_are(lambda roots: roots[::-1]))), THREE_ROOTS, OTHER_ROOTS),
    "a root twice": (lies((2, "history", roots_are(lambda roots: [*roots, roots[-1]]))), THREE_ROOTS, OTHER_ROOTS),
    "another root of an epoch of the chain": (
        lies((2, "history", roots_are(lambda roots: [roots[0], root_2(EVIL)]))),
        [BEGUN, run_of_words("history 1 64")],
        Ending([FORKED, "client refuses root 21"], 3, [ROOT_21]),
    ),
    "another root of an epoch that the chain gets": (
        lies((2, "history", from_epoch(1, root_is_forked))),
        [BEGUN, run_of_words("history 1 64")],
        Ending([forked_3(), "client refuses root 21"], 3, [ROOT_21]),
    ),
    "a root that the chain does not get": (
        lies((2, "history", from_epoch(1, root_is_behind))), THREE_ROOTS, OTHER_ROOTS,
    ),
    "older roots": (
        epochs_ended(3),
        [BEGUN_LATER, run_of_words("history 0 5")],
        Ending(["roots 1 2 3 4 5"], 0, []),
    ),
    "some of the older roots": (
        epochs_ended(3),
        [BEGUN_LATER, run_of_words("history 2 1")],
        Ending(["roots 2"], 0, []),
    ),
    "older roots that do not link": (epochs_ended(3, (2, "history", first_is_of_another)), ALL_ROOTS, OTHER_ROOTS),
    "older roots that are left out": (
        epochs_ended(3, (2, "history", roots_are(lambda roots: roots[3:]))), ALL_ROOTS, OTHER_ROOTS,
    ),
    "the last of the older roots is left out": (
        epochs_ended(3, (2, "history", roots_are(lambda roots: roots[:2] + roots[3:]))), ALL_ROOTS, OTHER_ROOTS,
    ),
    "older roots alone": (
        epochs_ended(3, (2, "history", roots_are(lambda roots: roots[:2]))), ALL_ROOTS, OTHER_ROOTS,
    ),
    "epochs that end around roots": (
        lies((2, "history", from_epoch(2, epochs_end))),
        [BEGUN, run_of_words("history 2 64")],
        Ending(["roots 2 3"], 0, []),
    ),
    # 6. Each run sees where the directory's head stands.
    "a directory that went back": (
        lies((2, None, directory_goes_back(1))),
        [run_of_lines("register 61 6b31", "close 2", "close 3", "watch 61 6b31"), WATCH],
        Ending([FORKED, "client refuses root 21", "watched 61 3"], 3, [ROOT_21]),
    ),
    "a directory that went back to a known root": (
        lies((2, None, directory_goes_back(0))),
        [run_of_lines("register 61 6b31", "close 2", "close 3", "watch 61 6b31"), WATCH],
        Ending(["client refuses root 3", "watched 61 3"], 1, [ROOT_3]),
    ),
    # 7. Alarms are told until they are settled, and evidence for good.
    "an alarm that was told": (
        lies((2, None, key_is_robbed)),
        [BEGUN, run_of_lines("close 3", "watch 61 6b31"), WATCH],
        Ending([ALARM, "watched 61 3"], 3, [KEPT_ALARM]),
    ),
    "an alarm, and new epochs": (
        lies((2, None, key_is_robbed)),
        [BEGUN, run_of_lines("close 3", "watch 61 6b31"), run_of_lines("close 4", "watch 61 6576", "watch 61 6b31")],
        Ending(["root 4 after 3", ALARM, "kept 61 4", ALARM, "alarm 61 4 6576"], 3, [KEPT_ALARM]),
    ),
    "an alarm that is settled": (
        lies((2, None, key_is_robbed)),
        [BEGUN, run_of_lines("close 3", "watch 61 6b31"), SETTLE],
        Ending(["settled 61 1"], 0, [KEPT_ALARM]),
    ),
    "an alarm that was told, and no reply": (
        lies((2, None, key_is_robbed), (3, None, nothing_comes)),
        [BEGUN, run_of_lines("close 3", "watch 61 6b31"), WATCH],
        Ending([], 1, [KEPT_ALARM, "no reply"]),
    ),
    "an alarm that was settled": (
        lies((2, None, key_is_robbed)),
        [BEGUN, run_of_lines("close 3", "watch 61 6b31"), run_of_words("settle 62"), SETTLE, WATCH],
        Ending(["watched 61 3"], 0, []),
    ),
    "evidence that was told": (
        lies((2, None, directory_goes_back(1))),
        [run_of_lines("register 61 6b31", "close 2", "close 3", "watch 61 6b31"), WATCH, SETTLE],
        Ending([FORKED, "settled 61 0"], 3, [EARLIER_EVIDENCE]),
    ),
    "a broken promise that was told": (
        lies((1, "register", nothing_is_kept)),
        [run_of_lines("register 61 6b31", "close 2"), SETTLE],
        Ending([promise_and_root(), "settled 61 0"], 3, [EARLIER_EVIDENCE]),
    ),
    # 8. A provider that is caught has status 3, whatever comes behind it, and nothing to say has status 1.
    "a promise that was not kept": (
        lies((1, "register", nothing_is_kept)),
        [run_of_lines("register 61 6b31", "close 2")],
        Ending(["promise 1", "root 2 after 1", promise_and_root()], 3, ["state: begins at epoch 1", "promise for 61: it was not kept"]),
    ),
    # The reply that a monitor is shown tests the promise too, and what would have tested it then may be refused.
    "a promise that was not kept, which a monitor is shown": (
        lies((2, "change", nothing_is_kept), (2, "lookup", memory_runs_out_but_once_for(3))),
        [BEGUN, run_of_lines("change 61 6b32", "close 3", "watch 61 6b32")],
        Ending(
            ["promise 2", "root 3 after 2", "alarm 61 3 6b31", BROKEN_CHANGE, "refused 14"], 3,
            ["promise for 61: it was not kept", NO_MEMORY]),
    ),
    "a promise that was not kept, which a monitor is shown, and then the client": (
        lies((2, "change", nothing_is_kept)),
        [BEGUN, run_of_lines("change 61 6b32", "close 3", "watch 61 6b32")],
        Ending(
            ["promise 2", "root 3 after 2", "alarm 61 3 6b31", BROKEN_CHANGE, BROKEN_CHANGE], 3,
            ["promise for 61: it was not kept"] * 2),
    ),
    "a promise that was not kept, which a monitor is shown, and a run later": (
        lies((2, "change", nothing_is_kept), (2, "lookup", memory_runs_out_but_once_for(3))),
        [BEGUN, run_of_lines("change 61 6b32", "close 3", "watch 61 6b32"), SETTLE],
        Ending([BROKEN_CHANGE, "settled 61 1"], 3, [EARLIER_EVIDENCE, KEPT_ALARM]),
    ),
    "evidence among roots that were asked for": (
        lies((2, "history", list_is_forked)),
        [BEGUN, run_of_words("history 2 64")],
        Ending([FORKED, "client refuses root 21"], 3, [ROOT_21]),
    ),
    "evidence among new roots": (
        lies((2, "history", list_is_of_others)),
        [BEGUN, run_of_lines("close 3")],
        Ending([LINKED, "client refuses root 21"], 3, [ROOT_21, "no root is taken after epoch 2"]),
    ),
    "evidence, and new roots that are refused": (
        lies((2, None, directory_goes_back(1)), (2, "lookup", epochs_end), (2, "history", memory_runs_out)),
        [BEGUN, run_of_words("lookup 61 0")],
        Ending([FORKED, "client refuses root 21", "refused 14"], 3, [ROOT_21, NO_MEMORY, "no root is taken after epoch 2"]),
    ),
    "evidence, and no reply": (
        lies((2, None, directory_goes_back(1)), (2, "lookup", nothing_comes)),
        [BEGUN, run_of_words("lookup 61 0")],
        Ending([FORKED, "client refuses root 21"], 3, [ROOT_21, "no reply"]),
    ),
    "evidence, and a line that is no command": (
        lies((2, None, directory_goes_back(1))),
        [BEGUN, run_of_lines("bogus")],
        Ending([FORKED, "client refuses root 21"], 3, [ROOT_21, "line 1: not a command"]),
    ),
    "evidence that was told, and no reply": (
        lies((2, None, directory_goes_back(1)), (3, None, nothing_comes)),
        [BEGUN, WATCH, WATCH],
        Ending([FORKED], 3, [EARLIER_EVIDENCE, "no reply"]),
    ),
    "no reply": (
        lies((2, None, nothing_comes)),
        [BEGUN, WATCH],
        Ending([], 1, ["no reply"]),
    ),
    # 9. Each `watch` prints a line: where no epoch is new, up to which one was watched.
    "no epoch that is new": (
        lies(),
        [BEGUN, WATCH, WATCH],
        Ending(["watched 61 2"], 0, []),
    ),
    "no epoch that is new at first": (
        lies(),
        [BEGUN, run_of_lines("watch 61 6b31", "watch 61 6b31", "close 3", "watch 61 6b31", "watch 61 6b31")],
        Ending(["watched 61 2", "watched 61 2", "root 3 after 2", "kept 61 3", "kept 61 3"], 0, []),
    ),
    "no proof of an epoch that is new": (
        lies((2, "lookup", proof_is_altered_at(3)), (3, "lookup", memory_runs_out)),
        [BEGUN, run_of_lines("close 3", "watch 61 6b31"), WATCH],
        Ending(["refused 14"], 1, [NO_MEMORY]),
    ),
    # 10. Roots are taken up to the reply that they are for, in at most 1,024 lists. Before a further one all that is new is
    # watched, written and saved, and the next run goes on from there.
    "roots without end": (
        lies((2, "head", many_epochs_end(1)), (2, "history", roots_without_end)),
        [BEGUN, WATCH],
        Ending(["kept 61 3", "kept 61 4"], 0, []),
    ),
    "roots without end behind a reply": (
        lies((2, "lookup", epochs_end), (2, "history", roots_without_end)),
        [BEGUN, run_of_words("lookup 61 0")],
        Ending(["present 3 6b31"], 0, []),
    ),
    "more than one list of roots": (
        lies((2, "head", behind_first(many_epochs_end(150)))),
        [BEGUN, run_of_lines("close 3", "watch 61 6b31", "head")],
        Ending(
            ["root 3 after 2", "kept 61 3", *kept_epochs(4, 131), "root 153 after 152", *kept_epochs(132, 153)], 0, []),
    ),
    "1,024 lists of roots": (
        lies((2, "head", many_epochs_end(1024)), (2, "history", roots_are(lambda roots: roots[:1]))),
        [BEGUN, WATCH],
        Ending(kept_epochs(3, 1026), 0, []),
    ),
    "more than 1,024 lists of roots": (
        lies((2, "head", many_epochs_end(1025)), (2, "history", roots_are(lambda roots: roots[:1]))),
        [BEGUN, WATCH],
        Ending([], 1, ["no root is taken after epoch 1026"]),
    ),
    "more than 1,024 lists of roots, and a run later": (
        lies((2, "head", many_epochs_end(1025)), (2, "history", roots_are(lambda roots: roots[:1]))),
        [BEGUN, WATCH, WATCH],
        Ending(kept_epochs(3, 1027), 0, []),
    ),
    "a monitor, and more than 1,024 lists of roots": (
        lies((2, "head", behind_first(many_epochs_end(1025))), (2, "history", roots_are(lambda roots: roots[:1]))),
        [BEGUN, run_of_lines("close 3", "watch 61 6b31", "head", "head"), WATCH],
        Ending(["kept 61 1028"], 0, []),
    ),
    "an alarm among more than 1,024 lists of roots": (
        lies(
            (2, "head", behind_first(key_is_robbed)), (2, "head", behind_first(many_epochs_end(1025))),
            (2, "history", roots_are(lambda roots: roots[:1]))),
        [BEGUN, run_of_lines("close 3", "watch 61 6b31", "head")],
        Ending(["root 3 after 2", "kept 61 3", *[f"alarm 61 {epoch} 6576" for epoch in range(4, 1028)]], 3, [AFTER_1027]),
    ),
    "a look-up that fails once between lists of roots": (
        lies(
            (2, "head", behind_first(many_epochs_end(100))), (2, "lookup", memory_runs_out_at(4)),
            (2, "history", from_epoch(68, roots_are(lambda _: [])))),
        [BEGUN, run_of_lines("close 3", "watch 61 6b31", "head"), WATCH],
        Ending(kept_epochs(68, 103), 0, []),
    ),
    "a broken promise, and more than one list of roots": (
        lies((2, "register", nothing_is_kept), (2, "head", behind_first(many_epochs_end(150)))),
        [run_of_lines("head"), run_of_lines("register 61 6b31", "head")],
        Ending(
            ["promise 1", "root 151 after 150", promise_and_root(150)], 3, ["promise for 61: it was not kept"]),
    ),
    "a root that is refused": (
        lies((2, "history", list_is_altered)),
        [BEGUN, run_of_lines("close 3")],
        Ending(["client refuses root 2"], 1, [ROOT_2, "no root is taken after epoch 2"]),
    ),
    # 11. With `--after` a run tells that the last epoch that was watched, or the head's, is not above one, whatever the
    # cause.
    "a quiet directory": (
        lies(),
        [BEGUN, run_of_words("watch 61 6b31", 2)],
        Ending(["watched 61 2", "stale 2"], 3, []),
    ),
    "an epoch that is late enough": (
        lies(),
        [BEGUN, run_of_words("watch 61 6b31", 1)],
        Ending(["watched 61 2"], 0, []),
    ),
    "a new epoch that is late enough": (
        lies(),
        [BEGUN, run_of_lines("close 3"), run_of_words("watch 61 6b31", 2)],
        Ending(["kept 61 3"], 0, []),
    ),
    "a new epoch that is not late enough": (
        lies(),
        [BEGUN, run_of_lines("close 3"), run_of_words("watch 61 6b31", 9)],
        Ending(["kept 61 3", "stale 3"], 3, []),
    ),
    "a new epoch that is hidden": (
        lies((2, "head", epoch_is_hidden)),
        [BEGUN, run_of_words("watch 61 6b31", 2)],
        Ending(["watched 61 2", "stale 2"], 3, []),
    ),
    "a new epoch that is refused for ever": (
        lies(*[(run, "lookup", look_up_is_refused_at(3)) for run in (3, 4)]),
        [BEGUN, run_of_lines("close 3", "close 4"), WATCH, run_of_words("watch 61 6b31", 2)],
        Ending(["refused 10", "stale 2"], 3, [NO_EPOCH]),
    ),
    "a later epoch that is refused for ever": (
        lies((3, "lookup", look_up_is_refused_at(4))),
        [BEGUN, run_of_lines("close 3", "close 4"), run_of_words("watch 61 6b31", 3)],
        Ending(["kept 61 3", "refused 10", "stale 3"], 3, [NO_EPOCH]),
    ),
    "a reply that is refused": (
        lies((3, "lookup", proof_is_altered_at(3))),
        [BEGUN, run_of_lines("close 3"), run_of_words("watch 61 6b31", 2)],
        Ending(["client refuses reply 3", "stale 2"], 3, ["client refuses reply 3: the body is not of the form of its kind"]),
    ),
    "new roots that are refused": (
        lies((2, "head", epochs_end), (2, "history", list_is_altered)),
        [BEGUN, run_of_words("watch 61 6b31", 2)],
        Ending(["client refuses root 2", "stale 2"], 3, [ROOT_2, "no root is taken after epoch 2"]),
    ),
    "a directory that finds no memory": (
        lies((3, "lookup", memory_runs_out)),
        [BEGUN, run_of_lines("close 3"), run_of_words("watch 61 6b31", 2)],
        Ending(["refused 14", "stale 2"], 3, [NO_MEMORY]),
    ),
    "no reply, and a name that was watched": (
        lies((2, None, nothing_comes)),
        [BEGUN, run_of_words("watch 61 6b31", 2)],
        Ending(["stale 2"], 3, ["no reply"]),
    ),
    "no reply, and a name that was watched late enough": (
        lies((2, None, nothing_comes)),
        [BEGUN, run_of_words("watch 61 6b31", 1)],
        Ending([], 1, ["no reply"]),
    ),
    "no reply to a look-up": (
        lies((3, "lookup", nothing_comes)),
        [BEGUN, run_of_lines("close 3"), run_of_words("watch 61 6b31", 2)],
        Ending(["stale 2"], 3, ["no reply"]),
    ),
    "a first run": (
        lies(),
        [run_of_words("watch 61 -", 0)],
        Ending(["kept 61 1"], 0, [BEGINS]),
    ),
    "a first run that is not late enough": (
        lies(),
        [run_of_words("watch 61 -", 1)],
        Ending(["kept 61 1", "stale 1"], 3, [BEGINS]),
    ),
    "a first run, and no reply": (
        lies((1, None, nothing_comes)),
        [run_of_words("watch 61 -", 0)],
        Ending(["stale 0"], 3, ["no reply"]),
    ),
    "a first look-up that is refused": (
        lies((1, "lookup", look_up_is_refused_at(1))),
        [run_of_words("watch 61 -", 7)],
        Ending(["refused 10", "stale 0"], 3, [BEGINS, NO_EPOCH]),
    ),
    # An epoch that the directory chose counts only once the name was looked up in it.
    "a first look-up that is refused at a late epoch": (
        lies((2, "lookup", look_up_is_refused_at(6))),
        [BEGUN_LATER, run_of_words("watch 61 -", 3)],
        Ending(["refused 10", "stale 0"], 3, [NO_EPOCH]),
    ),
    "a first look-up that is refused at a late epoch for ever": (
        lies(*[(run, "lookup", look_up_is_refused_at(6)) for run in (2, 3)]),
        [BEGUN_LATER, run_of_words("watch 61 -", 3), run_of_words("watch 61 -", 3)],
        Ending(["refused 10", "stale 0"], 3, [NO_EPOCH]),
    ),
    "a first look-up that is refused at a late epoch, and then no reply": (
        lies((2, "lookup", look_up_is_refused_at(6)), (3, None, nothing_comes)),
        [BEGUN_LATER, run_of_words("watch 61 -"), run_of_words("watch 61 -", 3)],
        Ending(["stale 0"], 3, ["no reply"]),
    ),
    "a late epoch that is watched first": (
        lies(),
        [BEGUN_LATER, run_of_words("watch 61 -", 5)],
        Ending(["kept 61 6"], 0, []),
    ),
    "a late epoch that was watched first": (
        lies(),
        [BEGUN_LATER, run_of_words("watch 61 -"), run_of_words("watch 61 -", 5)],
        Ending(["watched 61 6"], 0, []),
    ),
    "a name that was not watched before": (
        lies(),
        [BEGUN, run_of_lines("close 3", "close 4"), run_of_words("watch 62 -", 3)],
        Ending(["kept 62 4"], 0, []),
    ),
    "a name that is not watched, and no reply": (
        lies((2, None, nothing_comes)),
        [BEGUN, run_of_words("watch 62 -", 1)],
        Ending(["stale 0"], 3, ["no reply"]),
    ),
    "an alarm that is late enough": (
        lies((2, None, key_is_robbed)),
        [BEGUN, run_of_lines("close 3"), run_of_words("watch 61 6b31", 2)],
        Ending([ALARM], 3, []),
    ),
    "an alarm of an earlier run, and no new epoch": (
        lies((2, None, key_is_robbed)),
        [BEGUN, run_of_lines("close 3", "watch 61 6b31"), run_of_words("watch 61 6b31", 3)],
        Ending([ALARM, "watched 61 3", "stale 3"], 3, [KEPT_ALARM]),
    ),
    "evidence of an earlier run, no reply, and no new epoch": (
        lies((2, None, directory_goes_back(1)), (3, None, nothing_comes)),
        [BEGUN, WATCH, run_of_words("watch 61 6b31", 2)],
        Ending([FORKED, "stale 2"], 3, [EARLIER_EVIDENCE, "no reply"]),
    ),
    "a directory that went back, and no new epoch": (
        lies((2, None, directory_goes_back(0))),
        [run_of_lines("register 61 6b31", "close 2", "close 3", "watch 61 6b31"), run_of_words("watch 61 6b31", 3)],
        Ending(["client refuses root 3", "watched 61 3", "stale 3"], 3, [ROOT_3]),
    ),
    "a fork, and no new epoch": (
        lies((2, None, directory_goes_back(1))),
        [run_of_lines("register 61 6b31", "close 2", "close 3", "watch 61 6b31"), run_of_words("watch 61 6b31", 3)],
        Ending([FORKED, "client refuses root 21", "watched 61 3", "stale 3"], 3, [ROOT_21]),
    ),
    "a head that is late enough": (
        lies(),
        [BEGUN, run_of_lines("close 3"), run_of_words("head", 2)],
        Ending(["root 3 after 2"], 0, []),
    ),
    "a head that is not late enough": (
        lies(),
        [BEGUN, run_of_words("head", 2)],
        Ending(["root 2 after 1", "stale 2"], 3, []),
    ),
    "a head, and new roots that are refused": (
        lies((2, "head", epochs_end), (2, "history", list_is_altered)),
        [BEGUN, run_of_words("head", 2)],
        Ending(["client refuses root 2", "stale 2"], 3, [ROOT_2, "no root is taken after epoch 2"]),
    ),
    "a head, and no reply": (
        lies((2, None, nothing_comes)),
        [BEGUN, run_of_words("head", 2)],
        Ending(["stale 2"], 3, ["no reply"]),
    ),
    "a first head, and no reply": (
        lies((1, None, nothing_comes)),
        [run_of_words("head", 0)],
        Ending(["stale 0"], 3, ["no reply"]),
    ),
    "words that are no command, and an epoch that is wanted": (
        lies(),
        [BEGUN, run_of_words("watch 6 6b31", 9)],
        Ending([], 1, ["line 1: not a command"]),
    ),
    # 12. A policy belongs to the key: in what is asked, told and remembered, and in what an owner expects.
    "a policy that the owner does not expect": (
        lies(),
        [run_of_lines("register2 61 6b31 open", "close 2", "watch 61 6b31"), WATCH],
        Ending(["alarm 61 2 6b31 open", "watched 61 2"], 3, [KEPT_ALARM_OF_2]),
    ),
    "another policy than the owner expects": (
        lies(),
        [run_of_lines("register2 61 6b31 open", "close 2", "watch2 61 6b31 final"), SETTLE],
        Ending(["settled 61 1"], 0, [KEPT_ALARM_OF_2]),
    ),
    "a change to a final key whose monitor was held up": (
        lies((2, "lookup", memory_runs_out_for(3))),
        [BEGUN, run_of_lines("watch 61 6b31", "change2 61 6b32 final", "close 3"), WATCH],
        Ending(["kept 61 3"], 0, []),
    ),
    "changes of a final key": (
        lies(),
        [BEGUN_FINAL, run_of_lines("change 61 6b32", "change2 61 6b31 final", "close 3", "watch2 61 6b31 final")],
        Ending(["refused 25", "refused 25", "root 3 after 2", "kept 61 3"], 1, [IS_FINAL, IS_FINAL]),
    ),
    "a promise with no policy where one was asked for": (
        lies((1, "register2", policy_is_left_out)),
        [run_of_words("register2 61 6b31 final")],
        Ending(["client refuses reply 25"], 1, [BEGINS, REPLY_25]),
    ),
    "a final key, and no new epoch": (
        lies(),
        [BEGUN_FINAL, run_of_words("watch2 61 6b31 final", 2)],
        Ending(["watched 61 2", "stale 2"], 3, []),
    ),
    "a final key, and an epoch that is late enough": (
        lies(),
        [BEGUN_FINAL, run_of_lines("close 3"), run_of_words("watch2 61 6b31 final", 2)],
        Ending(["kept 61 3"], 0, []),
    ),
    "a policy of no key, and an epoch that is wanted": (
        lies(),
        [BEGUN_FINAL, run_of_words("watch2 61 - final", 9)],
        Ending([], 1, ["line 1: not a command"]),
    ),
    # 13. A provider that cheats can show another key for a final binding, and the owner finds it by watching. What was
    # promised as final, and is not, is evidence.
    "another key in the place of a final one": (
        lies((2, None, key_is_robbed)),
        [BEGUN_FINAL, WATCH_FINAL],
        Ending(["root 3 after 2", ALARM, ROBBED_FINAL], 3, [FINAL_CHANGED]),
    ),
    "another key in the place of a final one, and a run later": (
        lies((2, None, key_is_robbed)),
        [BEGUN_FINAL, WATCH_FINAL, run_of_words("watch2 61 6b31 final")],
        Ending([ROBBED_FINAL, ALARM, "watched 61 3"], 3, [EARLIER_EVIDENCE, KEPT_ALARM]),
    ),
    "another final key in the place of a final one": (
        lies((2, None, binding_becomes(EVIL, FINAL))),
        [BEGUN_FINAL, WATCH_FINAL],
        Ending(["root 3 after 2", "alarm 61 3 6576 final", change_in(final_directory(becomes(EVIL, FINAL)))], 3, [FINAL_CHANGED]),
    ),
    "a final key that is shown as open": (
        lies((2, None, binding_becomes(b"k1", OPEN))),
        [BEGUN_FINAL, WATCH_FINAL],
        Ending(["root 3 after 2", "alarm 61 3 6b31 open", change_in(final_directory(becomes(b"k1", OPEN)))], 3, [FINAL_CHANGED]),
    ),
    "a final key that is shown without a policy": (
        lies((2, None, binding_becomes(b"k1", None))),
        [BEGUN_FINAL, WATCH_FINAL],
        Ending(["root 3 after 2", "alarm 61 3 6b31", change_in(final_directory(becomes(b"k1", None)))], 3, [FINAL_CHANGED]),
    ),
    "a final key that was promised, and is shown as open": (
        lies((1, "register2", promised_key_is_opened)),
        [run_of_lines("register2 61 6b31 final", "close 2")],
        Ending(["promise 1", "root 2 after 1", final_promise_and_root()], 3, [BEGINS, "promise for 61: it was not kept"]),
    ),
    "a broken promise of a final key that was told": (
        lies((1, "register2", promised_key_is_opened)),
        [run_of_lines("register2 61 6b31 final", "close 2"), SETTLE],
        Ending([final_promise_and_root(), "settled 61 0"], 3, [EARLIER_EVIDENCE]),
    ),
    # 14. The first reply that stated a final key is remembered. One that shows with it that the binding was changed is
    # told as evidence, behind what it prints: of a look-up, of a step of a monitor, of the test of a promise.
    "a final key that is looked up": (
        lies((2, None, key_is_robbed)),
        [run_of_lines("register2 61 6b31 final", "close 2", "lookup 61 0"), run_of_lines("close 3", "lookup 61 0")],
        Ending(["root 3 after 2", "present 3 6576", ROBBED_FINAL], 3, [FINAL_CHANGED]),
    ),
    "a final key of somebody else's": (
        lies((2, None, key_is_robbed)),
        [run_of_lines("register2 61 6b31 final", "close 2"), run_of_words("lookup 61 2"), run_of_lines("close 3", "lookup 61 3")],
        Ending(["root 3 after 2", "present 3 6576", ROBBED_FINAL], 3, [FINAL_CHANGED]),
    ),
    "a final key that was changed in one run": (
        lies((1, "close", binding_becomes(EVIL, None))),
        [run_of_lines("register2 61 6b31 final", "close 2", "close 3", "lookup 61 2", "lookup 61 3")],
        Ending(["promise 1", "root 2 after 1", "root 3 after 2", "present 2 6b31 final", "present 3 6576", ROBBED_FINAL], 3, [BEGINS, FINAL_CHANGED]),
    ),
    "an older reply that a final key changed": (
        lies((1, None, binding_becomes(EVIL, FINAL)), (1, "close", binding_becomes(b"k1", FINAL))),
        [run_of_lines("close 2", "close 3", "lookup 61 3", "lookup 61 2")],
        Ending(["root 2 after 1", "root 3 after 2", "present 3 6b31 final", "present 2 6576 final", OTHERS_FINAL], 3, [BEGINS, FINAL_CHANGED]),
    ),
    "an older reply of an open key": (
        lies((1, None, binding_becomes(EVIL, OPEN)), (1, "close", binding_becomes(b"k1", FINAL))),
        [run_of_lines("close 2", "close 3", "lookup 61 3", "lookup 61 2")],
        Ending(["root 2 after 1", "root 3 after 2", "present 3 6b31 final", "present 2 6576 open"], 0, [BEGINS]),
    ),
    "a final key that stays": (
        lies(),
        [BEGUN_FINAL, WATCH_FINAL, run_of_lines("close 4", "lookup 61 0", "watch2 61 6b31 final", "lookup 61 2")],
        Ending(["root 4 after 3", "present 4 6b31 final", "kept 61 4", "present 2 6b31 final"], 0, []),
    ),
    "a final name that goes": (
        lies((2, None, name_goes)),
        [BEGUN_FINAL, WATCH_FINAL],
        Ending(["root 3 after 2", "alarm 61 3 absent", GONE_FINAL], 3, [FINAL_CHANGED]),
    ),
    "a final name that goes, and a look-up": (
        lies((2, None, name_goes)),
        [BEGUN_FINAL, run_of_lines("close 3", "lookup 61 0")],
        Ending(["root 3 after 2", "absent 3", GONE_FINAL], 3, [FINAL_CHANGED]),
    ),
    "a final key that a promise's test finds changed": (
        lies((1, "register2", other_final_key_between), (1, "lookup", memory_runs_out_for(2))),
        [run_of_lines("register2 61 6b31 final", "lookup 61 0"), run_of_words("head")],
        Ending([broken_between(), change_in(final_between()[0]), "root 3 after 2"], 3, ["promise for 61: it was not kept", FINAL_CHANGED]),
    ),
    "a changed final key, and more epochs": (
        lies((2, None, key_is_robbed)),
        [BEGUN_FINAL, WATCH_FINAL, run_of_lines("close 4", "close 5", "lookup 61 0", "watch 61 6576")],
        Ending(
            [ROBBED_FINAL, "root 4 after 3", "root 5 after 4", "present 5 6576", ALARM, "kept 61 4", "kept 61 5"], 3, [EARLIER_EVIDENCE, KEPT_ALARM]),
    ),
    "a final key that is changed twice": (
        lies((2, None, binding_becomes(EVIL, FINAL)), (3, None, binding_becomes(b"k1", FINAL))),
        [BEGUN_FINAL, WATCH_FINAL, run_of_lines("close 4", "lookup 61 0", "lookup 61 3")],
        Ending([change_in(final_directory(becomes(EVIL, FINAL))), "root 4 after 3", "present 4 6b31 final", "present 3 6576 final"], 3, [EARLIER_EVIDENCE, KEPT_ALARM]),
    ),
    "two changes of a final key in one run": (
        lies((1, "close", binding_becomes(EVIL, FINAL))),
        [run_of_lines("register2 61 6b31 final", "close 2", "close 3", "close 4", "lookup 61 3", "lookup 61 4", "lookup 61 3")],
        Ending(
            [
                "promise 1", "root 2 after 1", "root 3 after 2", "root 4 after 3",
                "present 3 6576 final", change_in(final_directory(becomes(EVIL, FINAL))), "present 4 6576 final", "present 3 6576 final",
            ], 3, [BEGINS, FINAL_CHANGED]),
    ),
    "two final keys that are changed": (
        lies((2, None, keys_are_robbed)),
        [BEGUN_TWO_FINALS, run_of_lines("close 3", *LOOK_AT_TWO, *LOOK_AT_TWO)],
        Ending(
            ["root 3 after 2", "present 3 6576", TWO_FINALS[0], "present 3 6576", TWO_FINALS[1], *["present 3 6576"] * 2],
            3, [FINAL_CHANGED, "final binding of 62: it was changed"]),
    ),
    "two final keys that are changed, and a run later": (
        lies((2, None, keys_are_robbed)),
        [BEGUN_TWO_FINALS, run_of_lines("close 3", "lookup 62 0"), run_of_lines(*LOOK_AT_TWO)],
        Ending([TWO_FINALS[1], "present 3 6576", TWO_FINALS[0], "present 3 6576"], 3, [EARLIER_EVIDENCE, FINAL_CHANGED]),
    ),
    # A reply that is refused is neither kept nor compared.
    "a final key whose proof is altered": (
        lies((1, None, binding_becomes(b"k1", FINAL)), (1, "lookup", key_is_altered_at(2)), (2, None, key_is_robbed)),
        [run_of_lines("close 2", "lookup 61 2"), run_of_lines("close 3", "lookup 61 3", "lookup 61 2")],
        Ending(["root 3 after 2", "present 3 6576", "present 2 6b31 final", ROBBED_FINAL], 3, [FINAL_CHANGED]),
    ),
    "a final key whose proof is altered, and its own proof later": (
        lies((1, None, binding_becomes(b"k1", FINAL)), (1, "lookup", key_is_altered_at(2)), (2, None, key_is_robbed)),
        [run_of_lines("close 2", "lookup 61 2"), run_of_lines("close 3", "lookup 61 3"), run_of_words("lookup 61 2"), run_of_words("lookup 61 0")],
        Ending(["present 3 6576", ROBBED_FINAL], 3, [FINAL_CHANGED]),
    ),
    "a final key that stays, and a proof that is altered": (
        lies((2, "lookup", key_is_altered_at(3))),
        [BEGUN_FINAL, run_of_lines("close 3", "lookup 61 3")],
        Ending(["root 3 after 2", "client refuses proof 7"], 1, [PROOF_7]),
    ),
    "a changed final key whose proof is altered, and then its own proof": (
        lies((2, None, key_is_robbed), (2, "lookup", key_is_altered_at(3))),
        [BEGUN_FINAL, run_of_lines("close 3", "lookup 61 3", "lookup 61 3")],
        Ending(["root 3 after 2", "client refuses proof 7", "present 3 6576", ROBBED_FINAL], 3, [PROOF_7, FINAL_CHANGED]),
    ),
    "a changed final key whose proof a monitor refuses": (
        lies((2, None, key_is_robbed), (2, "lookup", key_is_altered_at(3))),
        [BEGUN_FINAL, WATCH_FINAL],
        Ending(["root 3 after 2", "client refuses proof 7"], 1, [f"watching 61 at epoch 3: {PROOF_7}"]),
    ),
    "a changed final key whose proof a monitor refuses, and a run later": (
        lies((2, None, key_is_robbed), (2, "lookup", key_is_altered_at(3))),
        [BEGUN_FINAL, WATCH_FINAL, run_of_words("watch2 61 6b31 final")],
        Ending([ALARM, ROBBED_FINAL], 3, [FINAL_CHANGED]),
    ),
    "a final key whose proof a monitor refuses": (
        lies((1, None, binding_becomes(b"k1", FINAL)), (1, "lookup", key_is_altered_at(2)), (2, None, key_is_robbed)),
        [run_of_lines("close 2", "watch2 61 6b31 final"), run_of_lines("close 3", "watch2 61 6b31 final")],
        Ending(["root 3 after 2", "kept 61 2", ALARM, ROBBED_FINAL], 3, [FINAL_CHANGED]),
    ),
    "a final key whose proof a promise's test refuses": (
        lies((1, "lookup", key_is_altered_at(2)), (2, None, key_is_robbed)),
        [run_of_lines("register2 61 6b31 final", "close 2"), run_of_lines("close 3", "lookup 61 3")],
        Ending(["root 3 after 2", "present 3 6576", ROBBED_FINAL], 3, [FINAL_CHANGED]),
    ),
    "a changed final key in the reply to another question": (
        lies((2, None, key_is_robbed), (2, "lookup", look_up_is_of(3))),
        [BEGUN_FINAL, run_of_lines("close 3", "lookup 61 2")],
        Ending(["root 3 after 2", "client refuses reply 25"], 1, [REPLY_25]),
    ),
    # Replies with two indices show no change. The reply to a promise that is refused for its index counts as any other.
    "another key in the place of a final one, at another index": (
        lies((2, None, key_is_robbed), (2, "close", names_move)),
        [BEGUN_FINAL, run_of_lines("close 3", "lookup 61 0", "watch2 61 6b31 final")],
        Ending(["root 3 after 2", "present 3 6576", ALARM], 3, []),
    ),
    "a final key at another index than was promised": (
        lies((1, "close", names_move), (2, None, key_is_robbed)),
        [run_of_lines("register2 61 6b31 final", "close 2"), run_of_lines("close 3", "lookup 61 3")],
        Ending(
            ["client refuses promise 26", "root 3 after 2", "client refuses promise 26", "present 3 6576", MOVED_FINAL],
            3, [PROMISE_26, PROMISE_26, FINAL_CHANGED]),
    ),
    # Replies are compared with the first one, and looks of one run with each other, whatever their order.
    "an older final key than the first that was seen": (
        lies((1, None, binding_becomes(b"k1", FINAL)), (2, None, binding_becomes(EVIL, FINAL))),
        [run_of_lines("close 2", "close 3"), run_of_lines("close 4", "lookup 61 4"), run_of_words("lookup 61 2")],
        Ending(["present 2 6b31 final", LATER_FINAL], 3, [FINAL_CHANGED]),
    ),
    "a final key that was changed and put back before it was first seen": (
        lies(*[(run, None, binding_becomes(*bound)) for run, bound in enumerate([(b"k1", FINAL), (EVIL, None), (b"k1", FINAL)], 1)]),
        [*map(run_of_lines, ("close 2", "close 3")), run_of_lines("close 4", "lookup 61 4"), run_of_lines("lookup 61 2", "lookup 61 3")],
        Ending(["present 2 6b31 final", "present 3 6576", ROBBED_FINAL], 3, [FINAL_CHANGED]),
    ),
    "the same, and its look-ups in two runs": (
        lies(*[(run, None, binding_becomes(*bound)) for run, bound in enumerate([(b"k1", FINAL), (EVIL, None), (b"k1", FINAL)], 1)]),
        [*map(run_of_lines, ("close 2", "close 3")), run_of_lines("close 4", "lookup 61 4"), run_of_words("lookup 61 2"), run_of_words("lookup 61 3")],
        Ending(["present 3 6576"], 0, []),
    ),
    "a final key that is seen after the one that took its place": (
        lies((1, None, binding_becomes(b"k1", FINAL)), (2, None, binding_becomes(EVIL, None))),
        [run_of_lines("close 2"), run_of_lines("close 3", "lookup 61 3", "lookup 61 2", "lookup 61 2")],
        Ending(["root 3 after 2", "present 3 6576", "present 2 6b31 final", ROBBED_FINAL, "present 2 6b31 final"], 3, [FINAL_CHANGED]),
    ),
    "a final key that its monitor sees first, between two look-ups": (
        lies((2, "close", key_is_robbed), (2, "lookup", memory_runs_out_but_once_for(4))),
        [BEGUN, run_of_lines("change2 61 6b31 final", "close 3", "close 4", "lookup 61 4", "watch2 61 6b31 final", "lookup 61 3")],
        Ending(
            ["promise 2", "root 3 after 2", "root 4 after 3", "present 4 6576", "kept 61 3", "refused 14", "present 3 6b31 final", ROBBED_LATER],
            3, [NO_MEMORY, FINAL_CHANGED]),
    ),
    "a final key that gets another index, and is changed there": (
        lies((1, None, binding_becomes(b"k1", FINAL)), (2, "close", names_move), (3, None, key_is_robbed)),
        [run_of_lines("close 2", "lookup 61 0"), run_of_lines("close 3"), run_of_lines("close 4", "lookup 61 3", "lookup 61 4")],
        Ending(["root 4 after 3", "present 3 6b31 final", "present 4 6576", ROBBED_THERE], 3, [FINAL_CHANGED]),
    ),
}


def stored_lies(program):
    """Runs over one state in which a directory cheats, and how the last one has to end."""
    for name, (make_lie, runs, ending) in STORED_LIES.items():
        yield difference(name, program, make_lie, runs)
        with tempfile.TemporaryDirectory() as folder:
            got = last_ending(program, make_lie, runs, f"{folder}/state")
        yield None if got == ending else f"{name}: the last run wanted {ending}, got {got}"


def last_ending(program, make_lie, runs, state):
    provider = Provider(make_lie())
    for script, words in runs:
        provider.begin()
        text, said, status = ran(program, provider, b"" if words else script, state, words)
    return Ending(text, status, [line.replace(state, "FILE") for line in said])


# Other runs -----------------------------------------------------------------------------------------------------


def silent(program):
    """A directory that takes a connection, and says nothing."""
    with socket.create_server(("127.0.0.1", 0)) as listener:
        address = "127.0.0.1:%d" % listener.getsockname()[1]
        run = subprocess.run([program, "ask", "--provider", PROVIDER_FILE, address, "head"], capture_output=True, timeout=SECONDS + 30)
    got = run.stdout, run.stderr, run.returncode
    return None if got == (b"", b"no reply\n", 1) else f"a silent directory: {got}"


def unanswered(program):
    """A listener whose queue is full, so that nobody's connection comes about. It takes a minute."""
    with contextlib.ExitStack() as stack:
        listener = stack.enter_context(socket.create_server(("127.0.0.1", 0), backlog=0))
        for _ in range(8):
            waiting = stack.enter_context(socket.socket())
            waiting.setblocking(False)
            waiting.connect_ex(listener.getsockname())
        address = "127.0.0.1:%d" % listener.getsockname()[1]
        begun = time.monotonic()
        run = subprocess.run([program, "ask", "--provider", PROVIDER_FILE, address, "head"], capture_output=True, timeout=SECONDS + 30)
        taken = time.monotonic() - begun
    got = run.stdout, run.stderr, run.returncode
    if got != (b"", b"cannot connect\n", 1):
        return f"a queue that is full: {got}"
    return None if SECONDS - 1 <= taken <= SECONDS + 10 else f"a queue that is full: given up after {taken:.0f} seconds"


def last_of(program, runs):
    """What the last of some runs prints, and its status. Each is a script, whether it has the state of the others,
    and whether its output can be written."""
    server, address = listening(program, len(runs))
    with tempfile.TemporaryDirectory() as folder, open("/dev/full", "wb") as full:
        for script, has_state, is_written in runs:
            state = ["--state", f"{folder}/state"] if has_state else []
            order = [program, "ask", "--provider", PROVIDER_FILE, *state, address]
            output = subprocess.PIPE if is_written else full
            run = subprocess.run(order, input=script, stdout=output, stderr=subprocess.PIPE, timeout=60)
    server.wait(60)
    return run.stdout, run.returncode


def changed_by_another(program):
    """Somebody else changes a key, and the owner asks for the promise of it: in the next run that is still an alarm."""
    got = last_of(program, [
        (b"register 61 6b31\nclose 2\nwatch 61 6b31\n", True, True), (b"change 61 6576\n", False, True),
        (b"promise 61\nclose 3\n", True, True), (b"watch 61 6b31\n", True, True),
    ])
    return None if got == (b"alarm 61 3 6576\n", 3) else f"a change by somebody else: {got}"


def alarm_unwritten(program):
    """An alarm that could not be written is told by the next run."""
    runs = [(b"register 61 6b31\nclose 2\n", True, True), *[(b"watch 61 6b32\n", True, is_written) for is_written in (False, True)]]
    got = last_of(program, runs)
    return None if got == (b"alarm 61 2 6b31\n", 3) else f"an alarm that was not written: {got}"


def change_unwritten(program):
    """A change of the owner's is no alarm, though the run that first watched it could not write."""
    begun = [(b"register 61 6b31\nclose 2\nwatch 61 6b31\n", True, True), (b"change 61 6b32\nclose 3\n", True, True)]
    got = last_of(program, [*begun, *[(b"watch 61 6b31\n", True, is_written) for is_written in (False, True)]])
    return None if got == (b"kept 61 3\n", 0) else f"a change that was not written: {got}"


def alarm_and_fault(program):
    """The status of an alarm stays if a fault follows."""
    got = last_of(program, [(b"register 61 6b31\nclose 2\nwatch 61 6b32\nbogus\n", True, True)])
    wanted = b"promise 1\nroot 2 after 1\nalarm 61 2 6b31\n", 3
    return None if got == wanted else f"an alarm and a fault: {got}"


def line_by_line(program):
    """Each line is asked, and what is told of it written, before the next one is read."""
    server, address = listening(program)
    pipes = {"stdin": subprocess.PIPE, "stdout": subprocess.PIPE}
    run = subprocess.Popen([program, "ask", "--provider", PROVIDER_FILE, address], bufsize=0, **pipes)
    timer = threading.Timer(60, run.kill)
    timer.start()
    got = []
    for line in (b"head\n", b"register 61 6b31\n", b"close 2\n", b"lookup 61 0\n"):
        run.stdin.write(line)
        got.append(run.stdout.readline())
    run.stdin.close()
    got.append(run.wait())
    timer.cancel()
    server.wait(60)
    wanted = [b"root 1 after 0\n", b"promise 1\n", b"root 2 after 1\n", b"present 2 6b31\n", 0]
    return None if got == wanted else f"line by line: {got}"


def input_of_others(program):
    """Where words are asked, or a key is bad, the input is not read: it has no end here."""
    server, address = listening(program)
    reader, writer = os.pipe()
    bad = f"{FILES.name}/bad"
    pathlib.Path(bad).write_text("provider 0g\n")
    got = []
    for keys in (PROVIDER_FILE, bad):
        order = [program, "ask", "--provider", keys, address, "head"]
        run = subprocess.run(order, stdin=reader, capture_output=True, timeout=60)
        got.append((run.stdout, run.stderr, run.returncode))
    server.wait(60)
    os.close(reader)
    os.close(writer)
    return None if got == [(b"root 1 after 0\n", b"", 0), (b"", b"bad hex\n", 1)] else f"an input without end: {got}"


def list_by_list(program):
    """What is told of a list is written, and its roots and how far names were watched are saved, before the next one is
    asked for."""
    found = []

    def lie(provider, request, reply):
        if is_of(request, "history"):
            roots, kept = files_of(state)
            marks = [line.split(" ")[-1] for line in kept if line.startswith("watched ")]
            found.append((len(roots), len(output.read_text().splitlines()), marks[-1:]))
        return many_epochs_end(200)(provider, request, reply) if is_of(request, "head") and provider.count > 1 else reply

    provider = Provider(begun(0, from_run(2, lie)))
    with tempfile.TemporaryDirectory() as folder:
        state, output = f"{folder}/state", pathlib.Path(f"{folder}/output")
        for script, _ in (BEGUN, run_of_lines("close 3", "watch 61 6b31", "head")):
            provider.begin()
            with output.open("wb") as file:
                ran(program, provider, script, state, stdout=file)
    # Of each list that is asked for: how many roots are saved by then, how many lines are written, and the last mark.
    wanted = [(2, 0, ["2"]), *[(3 + 64 * lists, 2 + 64 * lists, [f"{3 + 64 * lists}"]) for lists in range(4)]]
    return None if found == wanted else f"list by list: wanted {wanted}, got {found}"


def many_honest_epochs(program):
    """The epochs of two weeks of minutes are taken in one run, in two parts."""
    provider = Provider(lies((2, "head", many_epochs_end(10080)))())
    with tempfile.TemporaryDirectory() as folder:
        for script, words in (BEGUN, run_of_words("head")):
            provider.begin()
            got = ran(program, provider, b"" if words else script, f"{folder}/state", words)
    wanted = ["root 20162 after 20161"], [], 0
    return None if got == wanted else f"many epochs: {got}"


def evidence_unwritten(program):
    """Evidence that could not be written is kept."""
    provider = Provider(lies((2, None, directory_goes_back(1)))())
    with tempfile.TemporaryDirectory() as folder, open("/dev/full", "wb") as full:
        for (script, words), how in ((BEGUN, {}), (WATCH, {"stdout": full}), (SETTLE, {})):
            provider.begin()
            got = ran(program, provider, b"" if words else script, f"{folder}/state", words, **how)
    return None if got[::2] == ([FORKED, "settled 61 0"], 3) else f"evidence that was not written: {got}"


def evidence_and_fault(program):
    """The status of evidence stays if its line cannot be written, also where a name is settled."""
    provider, got = Provider(lies((2, None, directory_goes_back(1)))()), []
    with tempfile.TemporaryDirectory() as folder, open("/dev/full", "wb") as full:
        for (script, words), how in ((BEGUN, {}), *[(run, {"stdout": full}) for run in (WATCH, SETTLE, WATCH)]):
            provider.begin()
            _, said, status = ran(program, provider, b"" if words else script, f"{folder}/state", words, **how)
            got.append((said[-1], status))
    wanted = [("state: begins at epoch 1", 0), *[("cannot write", 3)] * 3]
    return None if got == wanted else f"evidence and a fault: {got}"


def older_form(program):
    """A mark of the older form is read as one that says nothing of earlier epochs, and is written in the new form."""
    provider, found = Provider(), []
    with tempfile.TemporaryDirectory() as folder:
        state = f"{folder}/state"
        for script, words in (BEGUN, run_of_words("head"), run_of_lines("close 3", "watch 61 6b31")):
            provider.begin()
            ran(program, provider, b"" if words else script, state, words)
            found.append(files_of(state)[1])
            if len(found) == 1:
                paths(state)[1].write_text("watched 61 2\n")
    wanted = [["watched 61 1 2"], ["watched 61 2 2"], ["watched 61 2 3"]]
    return None if found == wanted else f"a mark of the older form: wanted {wanted}, got {found}"


def changes_turned_round(program):
    """Changes are expected in the order of their epochs, whatever the order of the lines is."""
    provider = Provider(lies()())
    changes = run_of_lines("close 3", "change 61 6b32", "close 4", "change 61 6b33", "close 5")
    with tempfile.TemporaryDirectory() as folder:
        state = f"{folder}/state"
        for script, words in (BEGUN, changes, WATCH):
            provider.begin()
            got = ran(program, provider, b"" if words else script, state, words)
            kept = paths(state)[1]
            kept.write_text("".join(reversed(kept.read_text().splitlines(True))))
    wanted = ["kept 61 3", "kept 61 4", "kept 61 5"], [], 0
    return None if got == wanted else f"changes in another order: wanted {wanted}, got {got}"


def settled_alone(program):
    """The directory is not asked, so it need not be there."""
    provider = Provider(lies((2, None, key_is_robbed))())
    with tempfile.TemporaryDirectory() as folder:
        for script, _ in (BEGUN, run_of_lines("close 3", "watch 61 6b31")):
            provider.begin()
            ran(program, provider, script, f"{folder}/state")
        order = asking(program, f"{folder}/state", "127.0.0.1:1", "settle", "61")
        run = subprocess.run(order, capture_output=True, timeout=SECONDS)
    got = run.stdout, run.stderr.replace(os.fsencode(folder), b""), run.returncode
    wanted = b"settled 61 1\n", b"state: /state.kept: alarm of an earlier run for 61 at epoch 3\n", 0
    return None if got == wanted else f"settle without a directory: {got}"


def unconnected(program):
    """Where no connection comes about, evidence of an earlier run is told, and whether the last epoch is late enough."""
    provider, got = Provider(lies((2, None, directory_goes_back(1)))()), []

    def ended(*words, path="state"):
        order = asking(program, f"{folder}/{path}", "127.0.0.1:1", *words)
        run = subprocess.run(order, capture_output=True, timeout=SECONDS)
        got.append(Ending(run.stdout.decode().splitlines(), run.returncode, run.stderr.decode().replace(f"{folder}/state", "FILE").splitlines()))

    with tempfile.TemporaryDirectory() as folder:
        for script, words in BEGUN, WATCH:
            provider.begin()
            ran(program, provider, b"" if words else script, f"{folder}/state", words)
            for after in ("--after=1",), ("--after=2",), ():
                ended("watch", "61", "6b31", *after)
            ended("head", "--after=2")
        ended("watch", "61", "-", "--after=0", path="new")
        ended("head", "--after=0", path="new")
        ended("watch", "61", "-", path="new")
    none, stale = Ending([], 1, ["cannot connect"]), Ending(["stale 2"], 3, ["cannot connect"])
    again = [Ending([FORKED, *each.text], 3, [EARLIER_EVIDENCE, "cannot connect"]) for each in (none, stale, none, stale)]
    new = Ending(["stale 0"], 3, ["cannot connect"])
    wanted = [none, stale, none, stale, *again, new, new, none]
    return None if got == wanted else f"no connection: wanted {wanted}, got {got}"


def without_state(program):
    """Without a state the last epoch is the one that this run watched."""
    server, address = listening(program, 4)
    order, got = [program, "ask", "--provider", PROVIDER_FILE, address], []
    for words in ("watch 61 - --after=0", "watch 61 - --after=1", "head --after=0", "head --after=1"):
        run = subprocess.run([*order, *words.split(" ")], capture_output=True, timeout=SECONDS)
        got.append((run.stdout, run.returncode))
    server.wait(60)
    wanted = [(b"kept 61 1\n", 0), (b"kept 61 1\nstale 1\n", 3), (b"root 1 after 0\n", 0), (b"root 1 after 0\nstale 1\n", 3)]
    return None if got == wanted else f"no state: wanted {wanted}, got {got}"


def stale_unwritten(program):
    """The status of a last epoch that is not late enough stays if its line cannot be written."""
    provider = Provider()
    with tempfile.TemporaryDirectory() as folder, open("/dev/full", "wb") as full:
        for (script, words), how in ((BEGUN, {}), (run_of_words("watch 61 6b31", 2), {"stdout": full})):
            provider.begin()
            _, said, status = ran(program, provider, b"" if words else script, f"{folder}/state", words, **how)
    return None if (said[-1:], status) == (["cannot write"], 3) else f"a last epoch that was not written: {said}, {status}"


# Words with a name that is text, and what they print.
WITH_TEXT = [
    (("register", "alice", "6b31"), b"promise 1\n"), (("promise", "alice"), b"promise 1\n"), (("close", "2"), b"root 2 after 1\n"),
    (("lookup", "alice", "0"), b"present 2 6b31\n"), (("watch", "alice", "6b31"), b"kept 616c696365 2\n"),
    (("change", "alice", "6b32"), b"promise 2\n"), (("rotate", "3", "05" * 32), b"root 3 after 2\n"), (("head",), b"root 3 after 2\n"),
    (("history", "1", "2"), b"roots 1 2\n"), (("lookup", "616c696365", "0"), b"absent 3\n"),
    (("register", "Zo\u00eb 1", "6b"), b"promise 3\n"), (("register2", "bob", "6b31", "final"), b"promise 3\n"),
    (("change2", "alice", "6b33", "open"), b"promise 3\n"), (("close", "4"), b"root 4 after 3\n"),
    (("lookup", "bob", "0"), b"present 4 6b31 final\n"), (("watch2", "bob", "6b31", "final"), b"kept 626f62 4\n"),
    (("settle", "alice"), b"settled 616c696365 0\n"),
]


def names_as_text(program):
    """With `--text` the name behind the command is text, and nothing else."""
    server, address = listening(program, len(WITH_TEXT) - 1)
    with tempfile.TemporaryDirectory() as folder:
        order = [program, "ask", "--provider", PROVIDER_FILE, "--state", f"{folder}/state", "--text", address]
        got = [subprocess.run([*order, *words], capture_output=True, timeout=SECONDS).stdout for words, _ in WITH_TEXT]
    server.wait(60)
    wanted = [printed for _, printed in WITH_TEXT]
    return None if got == wanted else f"names as text: wanted {wanted}, got {got}"


BAD_SETTLES = (
    ["settle"], ["settle", "6"], ["settle", "0g"], ["settle", "-"], ["settle", "61" * 256], ["settle", "61", "61"],
    ["settle", "61", "61", "61"],
)


def settled_badly(program):
    """Without a state, without a good name, with more words or in a script it is not a command, and nothing is dropped."""
    provider = Provider(lies((2, None, key_is_robbed))())

    def ended(has_state, script, *words):
        provider.begin()
        state = ["--state", f"{folder}/state"] if has_state else []
        with answering(provider) as address:
            order = [program, "ask", "--provider", PROVIDER_FILE, *state, address, *words]
            run = subprocess.run(order, input=script, capture_output=True, timeout=SECONDS)
        return run.stdout, run.stderr.splitlines()[-1:], run.returncode

    with tempfile.TemporaryDirectory() as folder:
        for script in (BEGUN[0], b"close 3\nwatch 61 6b31\n"):
            ended(True, script)
        before = files_of(f"{folder}/state")
        found = [ended(True, b"", *words) for words in BAD_SETTLES]
        found += [ended(True, b"settle 61\n"), ended(False, b"settle 61\n"), ended(False, b"", "settle", "61")]
        after = files_of(f"{folder}/state")
    wanted = [(b"", [b"line 1: not a command"], 1)] * len(found)
    return None if (found, after) == (wanted, before) else f"a bad settle: {found}, {before}, {after}"


OTHERS = (
    changed_by_another, alarm_unwritten, change_unwritten, alarm_and_fault, line_by_line, input_of_others,
    list_by_list, many_honest_epochs, evidence_unwritten, evidence_and_fault, older_form, changes_turned_round, settled_alone, settled_badly, names_as_text, unconnected, without_state,
    stale_unwritten,
)


def main():
    parser = argparse.ArgumentParser(usage=__doc__)
    parser.add_argument("program")
    for name, default in ("--drawn", 40), ("--lies", 400), ("--seed", 1):
        parser.add_argument(name, type=int, default=default)
    words = parser.parse_args()
    program = os.path.abspath(words.program)
    waited = []
    threads = [threading.Thread(target=lambda run=run: waited.append(run(program))) for run in (silent, unanswered)]
    for thread in threads:
        thread.start()
    found = [*honest(program, words.drawn, words.seed), *honest_roots(program, words.drawn, words.seed)]
    found += [*lying(program, words.lies, words.seed), *stored_lies(program), *old_files.states(program)]
    for thread in threads:
        thread.join()
    waited += [run(program) for run in OTHERS]
    failures = [difference for difference in [*found, *waited] if difference is not None]
    for difference in failures[:20]:
        print(difference)
    print(f"{len(found) + len(waited) - len(failures)} passed, {len(failures)} failed")
    return 1 if failures else 0


if __name__ == "__main__":
    sys.exit(main())
