#!/usr/bin/env python3
"""Runs the merge gate and then prints where its time went.

    checks/gate/gate-times.py [LOG [WORD..]]

What the gate prints goes to LOG, gate.log unless given, and the words to `rt ci`, as `--anew` in a kit whose gate would
otherwise reuse earlier proofs. A line for each crate and task has the minute in which it began, the minute in which it ended
and its seconds of a processor; the tasks are its proof, the proof of its tests, the seed (one more proof, over which its
must-fail edits are tried), and the edits. Then come the thirty edits that took longest, and the sums. So whoever adds a crate
or an edit sees its cost.

It looks at the prover's processes each second, so a task of less than that may be missing. Other work on the machine
lengthens all of them. It takes as long as the gate, and ends with its status.
"""
import collections
import os
import pathlib
import subprocess
import sys
import time

TOP = pathlib.Path(__file__).resolve().parents[2]
TICKS = os.sysconf("SC_CLK_TCK")
Process = collections.namedtuple("Process", "crate task edit")


def texts_of(crate, edit):
    """Returns the files that an edit changes, by their path in the crate, as it leaves them."""
    path, old, texts = "", "", {}
    for line in edit.read_text().split("\n"):
        if line.startswith("file: "):
            path = line[len("file: ") :].strip()
        elif line.startswith("old: "):
            old = line[len("old: ") :]
        elif line.startswith("new:"):
            new = line[len("new:") :].removeprefix(" ")
            texts[path] = texts.get(path, (crate / path).read_text()).replace(old, new)
    return texts


def edits():
    """Returns the edits of each crate: their names and what they leave."""
    found = {}
    for edit in sorted(TOP.glob("crates/*/must-fail/*.edit")):
        crate = edit.parent.parent
        found.setdefault(crate.name, []).append((edit.stem, texts_of(crate, edit)))
    return found


def edit_in(room, known):
    """Returns the name of the edit that was made in a folder, or an empty string for a crate as it stands."""
    for name, texts in known:
        if all((room / path).is_file() and (room / path).read_text() == text for path, text in texts.items()):
            return name
    return ""


def read(pid, gate, known):
    """Returns what a process of the prover works on, or None if it isn't one of this gate."""
    words = pathlib.Path(f"/proc/{pid}/cmdline").read_bytes().decode(errors="replace").split("\0")
    room = pathlib.Path(os.readlink(f"/proc/{pid}/cwd"))
    if "--crate-name" not in words:
        return None
    crate = words[words.index("--crate-name") + 1]
    if f"rt-edit-{gate}-" in room.name:
        edit = edit_in(room, known.get(crate, []))
        return Process(crate, "edits" if edit else "seed", edit)
    if TOP in room.parents:
        return Process(crate, "tests" if "--test" in words else "proof", "")
    return None


def look(gate, known, seen, now):
    """Notes the processor time of each process that there is."""
    for pid in filter(str.isdigit, os.listdir("/proc")):
        try:
            stat = pathlib.Path(f"/proc/{pid}/stat").read_text()
            if "(rattle)" not in stat:
                continue
            fields = stat[stat.rindex(")") + 2 :].split()
            key = pid, fields[19]
            if key not in seen:
                seen[key] = [read(pid, gate, known), now, now, 0]
            seen[key][2:] = now, (int(fields[11]) + int(fields[12])) / TICKS
        except OSError:
            continue


def clock(seconds):
    return f"{int(seconds) // 60:3}:{int(seconds) % 60:02}"


def report(seen):
    """Prints the tasks in the order in which they began, the edits that took longest, and the sums."""
    tasks, slowest, sums = {}, collections.Counter(), collections.Counter()
    for process, began, ended, took in seen.values():
        if process is None:
            continue
        key = process.crate, process.task
        first, last, so_far = tasks.get(key, (began, ended, 0))
        tasks[key] = min(first, began), max(last, ended), so_far + took
        sums[process.task] += took
        if process.edit:
            slowest[f"{process.crate}/{process.edit}"] += took
    for (crate, task), (began, ended, took) in sorted(tasks.items(), key=lambda row: row[1]):
        print(f"{clock(began)} {clock(ended)} {took:6.0f} s  {crate} {task}")
    for edit, took in slowest.most_common(30):
        print(f"{took:6.0f} s  {edit}")
    for task, took in sums.most_common():
        print(f"{clock(took)} of the processors: {task}")


def main():
    log, words = (sys.argv[1:] or ["gate.log"])[0], sys.argv[2:]
    known, seen, began = edits(), {}, time.time()
    with open(log, "w", encoding="utf-8") as out:
        gate = subprocess.Popen(["rt", "ci", *words], cwd=TOP, stdout=out, stderr=subprocess.STDOUT)
        while gate.poll() is None:
            look(gate.pid, known, seen, time.time() - began)
            time.sleep(1)
    report(seen)
    last = pathlib.Path(log).read_text().rstrip().split("\n")[-1]
    print(f"{clock(time.time() - began)} in all: {last}")
    sys.exit(gate.returncode)


main()
