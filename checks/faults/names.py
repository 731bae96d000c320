#!/usr/bin/env python3
"""Verifies targets, and roles, with each odd character in their names.

  checks/faults/names.py

For each character that a file's name and a word may hold (all below 128 but NUL and the slash, and some above), a role
`rX` lists a target `pX`, and the last argument is a target that no role lists. All metadata is signed by `tuf.py`
of `checks`. A run of `tufcheck verify`, without workers and with eight, must find each target and escape the names
as in docs/USERS.md. Then a file whose name isn't UTF-8 is in one of the two folders: the run must fail with
status 4, print nothing and store nothing. `rt run` in crates/tufcheck proves and builds the program.
"""
import hashlib
import os
import sys

sys.path.insert(0, os.path.dirname(os.path.dirname(os.path.abspath(__file__))))
import common
from common import quoted, write
import tuf

ABOVE = "\x80\x85\xa0\xad\xe9\u0301\u200b\u200e\u2028\u202e\ud7ff\ue000\ufeff\ufffd\uffff\U0001f600\U0010ffff"
ODD = [chr(code) for code in range(1, 128) if chr(code) != "/"] + list(ABOVE)
KEYS = [tuf.Key(1 + number) for number in range(len(ODD) // 30 + 2)]


def delegations():
    """One delegation a role, by the hash value of its path, so that no character matches another."""
    roles = []
    for number, odd in enumerate(ODD):
        prefix = hashlib.sha256(f"p{odd}".encode()).hexdigest()
        roles.append(tuf.delegation(f"r{odd}", KEYS[1 + number // 30], path_hash_prefixes=[prefix]))
    return {"keys": {key.id: key.object for key in KEYS}, "roles": roles}


def make():
    write("metadata/1.root.json", tuf.root(KEYS[0]))
    write("metadata/targets.json", tuf.signed(tuf.part("targets", targets={}, delegations=delegations()), KEYS[0]))
    write("metadata/snapshot.json", tuf.snapshot(KEYS[0], ["targets"] + [f"r{odd}" for odd in ODD]))
    write("metadata/timestamp.json", tuf.timestamp(KEYS[0]))
    for number, odd in enumerate(ODD):
        part = tuf.part("targets", targets={f"p{odd}": tuf.target(odd.encode())})
        write(f"metadata/r{odd}.json", tuf.signed(part, KEYS[1 + number // 30]))
        write(f"targets/p{odd}", odd.encode())


def refuse(folder, name):
    path = folder.encode() + b"/" + name
    write(path, b"{}")
    run = common.run(*common.verify("p"))
    os.remove(path)
    if run.returncode != 4 or run.stdout or run.stderr != b"tufcheck: folder\n" or os.path.exists("new"):
        sys.exit(f"names.py: {path}: status {run.returncode}\n{run.stdout}{run.stderr}")


def main():
    wanted = [f"p{odd}" for odd in ODD]
    lines = ["root 1", "end ready"]
    lines += [f"role {quoted(role)} 1" for role in sorted((f"r{odd}" for odd in ODD), key=str.encode)]
    lines += [f"ok {quoted(f'p{odd}')} {len(odd.encode())} {quoted(f'r{odd}')}" for odd in ODD]
    lines += ['no "p" NotFound', ""]
    with common.room():
        make()
        common.run("init", "metadata/1.root.json", "--out", "state", check=True)
        for workers in ("0", "8"):
            run = common.run(*common.verify(*wanted, "p", workers=workers))
            if run.stdout.decode().split("\n") != lines or run.returncode != 1 or run.stderr:
                sys.exit(f"names.py: by {workers} workers: status {run.returncode}\n{run.stdout.decode()}{run.stderr.decode()}")
        os.remove("new")
        for folder in ("metadata", "targets"):
            for name in (b"\xff", b"a\x80.json", b"\xed\xa0\x80"):
                refuse(folder, name)
    print("6 names that aren't UTF-8: all refused")
    print(f"{len(ODD)} characters in names of roles and targets, by 0 and by 8 workers: all found, and quoted as they should be")


main()
