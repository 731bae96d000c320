#!/usr/bin/env python3
"""Prints which functions took longest to prove.

    checks/gate/proof-times.py CRATE [LINES]     the longest, 20 unless given

It reads when the files of crates/CRATE/out/incremental were written, which a check leaves there, and takes the time from one
file to the next for that of the later. So it shows something only after a check that wrote all of them on one core:

    rm -rf crates/CRATE/out/incremental && rt check CRATE && checks/gate/proof-times.py CRATE

`Lts` is the lifetimes of a function, which has each drop of a value on each way out; `Proof` and `Tie` for what its
clauses need. Other work on the machine lengthens all of them.
"""
import pathlib
import re
import sys

TOP = pathlib.Path(__file__).resolve().parents[2]
NAME = re.compile(r"Rattle-\w+?-(?:specs|proofs)\.(.+?)(?:\.decls)?\.oantt$")


def main():
    if len(sys.argv) not in (2, 3):
        sys.exit(__doc__)
    folder = TOP / "crates" / sys.argv[1] / "out" / "incremental"
    files = sorted((path.stat().st_mtime, path.name) for path in folder.rglob("*.oantt"))
    if not files:
        sys.exit(f"no check left files in {folder.relative_to(TOP)}")
    took = {}
    for (before, _), (after, name) in zip(files, files[1:]):
        found = NAME.match(name)
        part = found.group(1) if found else name
        took[part] = took.get(part, 0) + after - before
    for part, seconds in sorted(took.items(), key=lambda row: -row[1])[: int((sys.argv[2:] or [20])[0])]:
        print(f"{seconds:8.1f} s  {part}")
    print(f"{files[-1][0] - files[0][0]:8.1f} s  from the first file to the last")


main()
