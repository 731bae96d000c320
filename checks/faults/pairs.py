#!/usr/bin/env python3
"""Checks that two runs come to what they come to one after the other, in the order in which they get the lock.

    checks/faults/pairs.py [PAIRS]      400 unless given

One run is over an older repository and one over a newer one. One of them is held before its Nth call of the system, for N
from 1 to its last, while the other one runs until it has ended or waits for the lock; then the first goes on. So each order
of their steps is forced, with either run as the one that is held, in three ways:

  state    both have `--state s --out s`
  copies   the same, with `--into out`
  places   each has a state of its own, and both have `--into out`

The remaining pairs, up to PAIRS, are stopped and continued at random moments, in each way in turn. Then three runs have one
state: one is held as soon as it has the lock, another one begins to wait, the first is held again before each of its further
calls, so also behind the renaming of the state, and a third begins.

With one state, the newer state and the newer copy are there at the end; the run over the newer repository has status 0, and
the other one status 0 or the rollback's; and once the held run has stored its state, no other ends before it. With two
states, each is that of its run alone, and the copy is that of the run that came second. Nothing lies beside the state and
the copy. The repositories are signed by tuf.py, and the library of holding.py needs `cc`. `rt run` in crates/tufcheck proves
and builds the program, once, unless PROGRAM in the environment names another. A minute.
"""
import os
import pathlib
import random
import shutil
import signal
import sys
import time

sys.path.insert(0, os.path.dirname(os.path.dirname(os.path.abspath(__file__))))
import common
import holding
import tuf

WAYS = ("state", "copies", "places")
COPY = {"newer": b"abc", "older": b"abd"}
GOOD = 'root 1\nend ready\nok "abc.txt" 3 "targets"\n'
ROLLBACK = 'root 1\nend timestamp Rollback\nno "abc.txt" NotSearched\n'
OTHER = {"newer": "older", "older": "newer"}
RUNS = []


class Wrong(Exception):
    """What was seen that must not be."""


def state_of(way, name):
    return f"{name}.state" if way == "places" else "s.state"


def start(way, name, held=(), call=""):
    state = state_of(way, name)
    into = [] if way == "state" else ["--into", "out"]
    words = [common.PROGRAM, *common.verify(*into, "abc.txt", state=state, out=state, repo=name)]
    RUNS.append(holding.Run(os.path.abspath("hold.so"), words, ".", name + call, held))
    return RUNS[-1]


def end_runs():
    """Ends runs that a fault has left."""
    for begun in RUNS:
        begun.kill()
    RUNS.clear()


def read(name):
    return common.read(name) if os.path.exists(name) else None


def prepare():
    """Makes the library and the repositories. Returns the states to which the runs come alone."""
    holding.build(".")
    for name, version in [("older", 1), ("newer", 2)]:
        tuf.repository(name, tuf.Key(1, 4), {"abc.txt": COPY[name]}, version)
    common.run("init", "newer/metadata/1.root.json", "--out", "first", check=True)
    alone = {}
    for name in COPY:
        begin()
        if start("places", name).end() != 0:
            sys.exit(f"the run over the {name} repository isn't done")
        alone[name] = read(f"{name}.state")
    return alone


def begin():
    end_runs()
    shutil.rmtree("out", ignore_errors=True)
    for path in pathlib.Path(".").glob("*.state*"):
        path.unlink()
    for path in pathlib.Path(".").glob("*.held*"):
        path.unlink()
    for name in ("s", "newer", "older"):
        shutil.copy("first", f"{name}.state")


def left(way):
    """What lies beside the states and the copy."""
    beside = [str(path) for path in pathlib.Path(".").glob("*.state.*")]
    copies = sorted(os.listdir("out")) if os.path.isdir("out") else []
    return beside + [name for name in copies if name != "abc.txt" or way == "state"]


def check_run(name, lock, ended):
    status, printed = ended.end(), ended.printed()
    good = (status, printed) == (0, GOOD)
    rollback = name == "older" and lock and (status, printed) == (2, ROLLBACK)
    if not good and not rollback:
        raise Wrong(f"the {name} run: status {status}, {printed!r}")


def check(way, alone, runs, last):
    """Checks what is there after the runs, pairs of a name and a run. Of two states `last` came second, if that is known."""
    for name, ended in runs:
        check_run(name, way != "places", ended)
    if left(way):
        raise Wrong(f"{', '.join(left(way))} is left")
    for name in COPY:
        if way == "places" and read(f"{name}.state") != alone[name]:
            raise Wrong(f"the {name} run's state isn't there")
    if way != "places" and read("s.state") != alone["newer"]:
        raise Wrong("the newer state is lost")
    wanted = list(COPY.values()) if way == "places" and not last else [COPY[last if way == "places" else "newer"]]
    if way != "state" and read("out/abc.txt") not in wanted:
        raise Wrong(f"the copy has the bytes {read('out/abc.txt')}, in place of {' or '.join(map(str, wanted))}")


def beside(way, alone, slow, held):
    """The other run, while the one that is held is at its place."""
    stored = way != "places" and read("s.state") != read("first")
    copied = way == "places" and os.path.exists("out/abc.txt")
    other = start(way, OTHER[slow])
    ended = other.settle()
    held.go()
    if held.end() is None:
        raise Wrong(f"the {slow} run didn't end")
    last = slow if ended and not copied else OTHER[slow]
    check(way, alone, [(slow, held), (OTHER[slow], other)], last)
    if stored and ended:
        raise Wrong(f"the {OTHER[slow]} run ended while the {slow} one had stored its state and not ended")


def forced(way, alone, slow, faults):
    """One run is held at each of its calls. Returns how many there are."""
    calls = 0
    while True:
        begin()
        held = start(way, slow, [calls + 1])
        if not held.has_met():
            return calls
        calls += 1
        noted(faults, f"{way}: {slow} held at call {calls}", lambda: beside(way, alone, slow, held))


def third(way, alone, slow, first):
    """A run is held once it has the lock, and again at a later call; another one waits by then, and a third begins."""
    fast = OTHER[slow]
    waiting = start(way, fast, call=".1")
    early = waiting.settle()
    first.go()
    stored = first.has_met(1) and read("s.state") != read("first")
    begun = start(way, fast, call=".2")
    ended = begun.settle()
    first.go(1)
    check(way, alone, [(slow, first), (fast, waiting), (fast, begun)], None)
    if early or (stored and ended):
        raise Wrong(f"the {fast} run ended while the {slow} one had the lock, or had stored its state and not ended")


def threes(way, alone, slow, faults):
    """Three runs on one state, the first of which is held at each of its calls. Returns how many there are."""
    calls, first = 0, None
    while not first or 1 in first.met:
        begin()
        first = start(way, slow, ["read:s.state", f"+{calls + 1}"])
        if not first.has_met():
            faults.append(f"{way}: the {slow} run doesn't read its state")
            break
        calls += 1
        what = f"{way}: {slow} held at call {calls} behind its lock, beside two"
        noted(faults, what, lambda: third(way, alone, slow, first))
    return calls


def noted(faults, what, attempt):
    """Makes an attempt, and notes what was wrong of it."""
    try:
        attempt()
    except Wrong as wrong:
        faults.append(f"{what}: {wrong}")


def at_random(way, alone, draws):
    begin()
    runs = {}
    for name in draws.sample(["newer", "older"], 2):
        runs[name] = start(way, name)
        time.sleep(draws.random() * 0.004)
    for name in draws.sample(["newer", "older"], 2):
        runs[name].process.send_signal(signal.SIGSTOP)
        time.sleep(draws.random() * 0.004)
    for name in draws.sample(["newer", "older"], 2):
        runs[name].process.send_signal(signal.SIGCONT)
    check(way, alone, list(runs.items()), None)


def told(what, count, faults):
    """Prints what was tried, and the first of each kind of fault. Returns how many there are."""
    print(f"{what}: {count}, {len(faults)} of them wrong", flush=True)
    first = {fault.rsplit(": ", 1)[1]: fault for fault in reversed(faults)}
    for fault in sorted(first.values()):
        print(f"  {fault}", flush=True)
    return len(faults)


def all_pairs(alone, pairs):
    """All that is forced, and then what is left at random. Returns how much was wrong."""
    wrong = done = 0
    for way in WAYS:
        faults = []
        orders = sum([forced(way, alone, slow, faults) for slow in COPY])
        wrong += told(f"{way}, forced orders of two runs", orders, faults)
        done += orders
    faults = []
    orders = sum([threes(way, alone, slow, faults) for way in WAYS[:2] for slow in COPY])
    wrong += told("forced orders of three runs on one state", orders, faults)
    draws, faults = random.Random(1), []
    for number in range(pairs - done):
        way = WAYS[number % len(WAYS)]
        noted(faults, f"{way}: random pair {number}", lambda: at_random(way, alone, draws))
    return wrong + told("random pairs", max(0, pairs - done), faults)


def main():
    pairs = int(sys.argv[1]) if len(sys.argv) > 1 else 400
    signal.signal(signal.SIGTERM, lambda *_: sys.exit(143))
    with common.room():
        try:
            wrong = all_pairs(prepare(), pairs)
        finally:
            end_runs()
    sys.exit(1 if wrong else 0)


main()
