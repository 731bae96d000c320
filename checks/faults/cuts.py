#!/usr/bin/env python3
"""Truncates each metadata file of a repository at each length from one byte less than the whole down to none.

  checks/faults/cuts.py [STEP]      each length unless given, else each STEPth

The repository has a second root, and a role that two others delegate to, each for one of two wanted paths and by a key
of its own, of which the role has signed with one. Its timestamp lists the length of the snapshot, its snapshot those of
the targets files, and no file those of the root and the timestamp. A run of `tufcheck verify`, without workers and with
eight, must print that file's fault and store what was trusted before it. `rt run` in crates/tufcheck proves and builds
the program. The script ends with status 1 at the first run that does otherwise.
"""
import os
import shutil
import sys
import tempfile
from concurrent.futures import ThreadPoolExecutor

sys.path.insert(0, os.path.dirname(os.path.dirname(os.path.abspath(__file__))))
import common

SCRIPT = """\
key 1 5
key 2 5
key 3 5
key 4 5
key 5 5
key 6 5
top root 1 1
top timestamp 1 2
top snapshot 1 3
top targets 1 4
write root 1 1
write root 2 1
delegate targets a 1 4 go paths x/*
delegate targets b 1 4 go paths y/*
delegate a c 1 5 go paths x/*
delegate b c 1 6 go paths y/*
target c x/1 31 sha256
target c y/1 32 sha256
write a 1 4
write b 1 4
write c 1 5
write targets 1 4
write snapshot 1 3
write timestamp 1 2
"""
STOPPED = 'no "x/1" NotSearched\nno "y/1" NotSearched\n'
REFUSED = 'role "a" 1\nrole "b" 1\nno "x/1" LengthWrong "c"\nno "y/1" LengthWrong "c"\n'
# the lines of a cut file, its status, and the members of the state
CASES = {
    "2.root": (f"root 1\nend root Malformed\n{STOPPED}", 2, ["root"]),
    "timestamp": (f"root 2\nend timestamp Malformed\n{STOPPED}", 2, ["root"]),
    "snapshot": (f"root 2\nend snapshot LengthWrong\n{STOPPED}", 2, ["root", "timestamp"]),
    "targets": (f"root 2\nend targets LengthWrong\n{STOPPED}", 2, ["root", "snapshot", "timestamp"]),
    "c": (f"root 2\nend ready\n{REFUSED}", 1, ["root", "snapshot", "targets", "timestamp"]),
}


def state_of(files, root, members):
    """The text of a state with those members (see docs/FORMATS.md, State file)."""
    names = {"root": root, "snapshot": "snapshot", "targets": "targets", "timestamp": "timestamp"}
    return "{" + ",".join(f'"{member}":"{files[names[member]].hex()}"' for member in members) + "}"


def cut(name, step):
    """Truncates one file at each length. Returns how many runs there were, or what went wrong."""
    lines, status, members = CASES[name]
    with tempfile.TemporaryDirectory() as room:
        shutil.copytree("repo", f"{room}/repo")
        files = {file[:-5]: common.read(f"repo/metadata/{file}") for file in os.listdir("repo/metadata")}
        state = state_of(files, "1.root" if name == "2.root" else "2.root", members)
        common.run("init", "repo/metadata/1.root.json", "--out", "old", cwd=room)
        lengths = range(len(files[name]) - 1, -1, -step)
        for length in lengths:
            os.truncate(f"{room}/repo/metadata/{name}.json", length)
            for workers in ("0", "8"):
                ran = common.run(*common.verify("x/1", "y/1", state="old", repo="repo", workers=workers), cwd=room, text=True)
                seen = ran.stdout, ran.returncode, ran.stderr, common.read(f"{room}/new").decode()
                if seen != (lines, status, "", state):
                    return f"{name}.json cut to {length} bytes, {workers} workers: status {ran.returncode}\n{ran.stdout}"
        return 2 * len(lengths)


def main():
    step = int(sys.argv[1]) if len(sys.argv) > 1 else 1
    with common.room():
        common.write("script", SCRIPT.encode())
        common.run("make", "script", "repo")
        with ThreadPoolExecutor() as pool:
            runs = dict(zip(CASES, pool.map(cut, CASES, [step] * len(CASES))))
    for name, count in runs.items():
        if not isinstance(count, int):
            sys.exit(count)
        print(f"{name}.json: {count} runs, all as they should be")


main()
