#!/usr/bin/env python3
"""Times repositories of 20,000 targets that lie in hash bins, as a package index would lay them out.

  checks/speed/bins.py [TARGETS [BITS..]]      20,000 targets in 64, 256 and 1,024 bins (6, 8 and 10 bits) unless given

For each number of bins it prints the sizes of the files, and for runs of `tufcheck` the seconds from start to end, the
processor's seconds and the peak memory: `make` of the repository, `verify` of one path and of a hundred by 0 and 4
workers, and `replay` of the repository without workers, once and twice in a row. Checks that each run finds every target.
`rt run` in crates/tufcheck proves and builds the program. Nothing else should run meanwhile.
"""
import os
import shutil
import sys

sys.path.insert(0, os.path.dirname(os.path.dirname(os.path.abspath(__file__))))
import common
import hostile


def timed(name, words, good):
    """Runs the program, prints what it took, and checks for status 0 and that many accepted targets."""
    status, took = common.timed([common.PROGRAM, *words])
    found = common.read("lines").count(b"\nok ")
    if status or found != good:
        sys.exit(f"bins.py: {name}: status {status}, {found} good targets of {good}")
    print(f"  {name}: {took.seconds:.2f} s, {took.processor:.2f} s of processor, {took.memory} MB", flush=True)


def measure(targets, bits):
    mirror = hostile.hashed(targets, bits)
    common.write("script", mirror.script.encode())
    shutil.rmtree("made", ignore_errors=True)
    timed("make", ["make", "script", "made"], 0)
    sizes = {name: os.path.getsize(f"made/metadata/{name}") for name in os.listdir("made/metadata")}
    bins = [size for name, size in sizes.items() if name.startswith("bin-")]
    print(f"  targets.json {sizes['targets.json']} bytes, snapshot.json {sizes['snapshot.json']}, a bin {max(bins)} at most")
    timed("init", ["init", "made/metadata/1.root.json", "--out", "state"], 0)
    for count in (1, 100):
        paths = mirror.paths[:: targets // count][:count]
        for workers in ("0", "4"):
            timed(f"verify {count} by {workers} workers", common.verify(*paths, repo="made", workers=workers), count)
    words = ["replay", "--state", "state", "--now", common.NOW, "--workers", "0", "--keep", "4096", "--out", "new"]
    for folders in (["made"], ["made", "made"]):
        timed(f"replay {len(folders)} by 0 workers", [*words, mirror.paths[0], *folders], len(folders))


def main():
    targets = int(sys.argv[1]) if len(sys.argv) > 1 else 20000
    sizes = [int(word) for word in sys.argv[2:]] or [6, 8, 10]
    with common.room():
        for bits in sizes:
            print(f"{targets} targets in {2 ** bits} bins", flush=True)
            measure(targets, bits)


if __name__ == "__main__":
    main()
