#!/usr/bin/env python3
"""Times a second run of `tufcheck verify --into` over an unchanged mirror, beside one without copies.

    checks/speed/copies.py [--program PROGRAM] [--before PROGRAM] [--rounds N] [--folder FOLDER] [FILES [BYTES]]

The mirror has that many target files (1,000) of so many bytes (100,000), all wanted by `--every`. It and the copies are made
in a folder below FOLDER, or else below the one for temporary files. Each round has, one after the other and with 0 and
with 4 workers, a run without copies and one into a folder that has them all, of each program. The columns are the median
and least seconds from start to end and the median seconds of the processor. Below them are the calls of one more run, by
`strace`: how many write, flush and rename files below the folder of copies, and how many flush a folder there. The status
is 1 if a run isn't good, or if the program writes, flushes or renames a copy, or flushes a folder. Nothing else should run meanwhile.
"""
import argparse
import os
import re
import shutil
import statistics
import subprocess
import sys

sys.path.insert(0, os.path.dirname(os.path.dirname(os.path.abspath(__file__))))
import common
import streamed
import tuf

FOLDERS = 100
CALLS = "trace=write,pwrite64,fsync,fdatasync,rename,renameat,renameat2,mkdir,openat"
COUNTED = {
    "writes": r"\bp?write(?:64)?\(\d+<{out}/",
    "flushes": r"\bf(?:data)?sync\(\d+<{out}/(?:d\d+/|\.tufcheck\.)",
    "renames": r"\brename(?:at2?)?\(.*copies/",
    "files made": r"\bopenat\(.*copies/.*O_CREAT",
    "folders flushed": r"\bf(?:data)?sync\(\d+<{out}(?:/d\d+)?>",
}


def words(program, workers, *more):
    return [program, *common.verify("--every", *more, workers=workers)]


def good(words, files):
    """Runs them, and returns what it took. Leaves if not all targets are accepted."""
    status, took = common.timed(words)
    accepted = sum(1 for line in common.read("lines").splitlines() if line.startswith(b"ok "))
    if status or accepted != files:
        sys.exit(f"{' '.join(words)}: status {status}, {common.read('lines')[:200]} {common.read('errors')[:200]}")
    return took


def counts(program, files):
    """How many calls of each kind a run makes below the folder of copies."""
    traced = ["strace", "-f", "-y", "-e", CALLS, "-o", "trace", *words(program, "0", "--into", "copies")]
    good(traced, files)
    lines = common.read("trace").decode(errors="replace").splitlines()
    out = re.escape(os.path.realpath("copies"))
    return {name: sum(1 for line in lines if re.search(kind.replace("{out}", out), line)) for name, kind in COUNTED.items()}


def main():
    parser = argparse.ArgumentParser()
    parser.add_argument("--program", default=common.PROGRAM)
    parser.add_argument("--before")
    parser.add_argument("--rounds", type=int, default=5)
    parser.add_argument("--folder")
    parser.add_argument("files", nargs="?", type=int, default=1000)
    parser.add_argument("bytes", nargs="?", type=int, default=100_000)
    given = parser.parse_args()
    programs = {"before": given.before, "program": given.program}
    programs = {name: os.path.abspath(program) for name, program in programs.items() if program}
    with common.room(given.folder):
        make(programs["program"], given.files, given.bytes)
        good(words(programs["program"], "0", "--into", "copies"), given.files)
        took = {}
        for _ in range(given.rounds):
            for name, program in programs.items():
                for workers in ("0", "4"):
                    for how in ((), ("--into", "copies")):
                        run = good(words(program, workers, *how), given.files)
                        took.setdefault((name, workers, " ".join(how)), []).append(run)
        for (name, workers, how), runs in took.items():
            seconds = [run.seconds for run in runs]
            print(f"{name:8} {workers} workers {how:14} {statistics.median(seconds):7.2f} {min(seconds):7.2f}"
                  f" {statistics.median(run.processor for run in runs):7.2f}", flush=True)
        if not shutil.which("strace"):
            sys.exit("strace is missing: the calls weren't counted")
        for name, program in programs.items():
            seen = counts(program, given.files)
            print(name, seen, flush=True)
        sys.exit(1 if any(seen.values()) else 0)


def make(program, files, size):
    """Writes the targets, a repository that lists them, and a state that trusts its root."""
    for folder in range(FOLDERS):
        os.makedirs(f"targets/d{folder}")
    paths = [f"d{number % FOLDERS}/t{number}" for number in range(files)]
    key, listed = tuf.Key(1, 4), {path: streamed.write_drawn(path, size) for path in paths}
    metadata = {
        "1.root": tuf.root(key),
        "timestamp": tuf.timestamp(key),
        "snapshot": tuf.snapshot(key, ["targets"]),
        "targets": tuf.signed(tuf.part("targets", targets=listed), key),
    }
    for name, content in metadata.items():
        common.write(f"metadata/{name}.json", content)
    subprocess.run([program, "init", "metadata/1.root.json", "--out", "state"], check=True, stdout=subprocess.DEVNULL)


if __name__ == "__main__":
    main()
