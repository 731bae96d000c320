#!/usr/bin/env python3
"""Checks of the Python module what no verdict shows: which error a missing library is, one of another kind, of another
version or without a call; what a number is that the module doesn't know, a digest of another length, and what a first
state trusts.

  module.py FOLDER

TUFCHECK_LIBRARY names the library, and PYTHONPATH has its module and tuf.py; libraries that are none are compiled in FOLDER. The status
is 0, or 1 if something is not as it must be, which is printed. It needs cc.
"""
import os
import subprocess
import sys

import tuf
import tufcheck
from tufcheck import Digests, End, Fault, Job, Kind, Place, Status, Trusted, TrustedFile

VERSION = "unsigned tufcheck_version(void) { return %d; }"
FIRST = "import tufcheck; tufcheck.first(b'{}')"


def raised(call):
    """What a call raises."""
    try:
        return call()
    except (tufcheck.TufcheckError, ValueError, MemoryError) as error:
        return type(error)


def with_library(library):
    """The last line of what a call prints with that library."""
    ran = subprocess.run([sys.executable, "-c", FIRST], env={**os.environ, "TUFCHECK_LIBRARY": library}, capture_output=True,
                         text=True, check=False)
    return ran.stderr.strip().split("\n")[-1].split(":")[0]


def compiled(folder, name, code):
    subprocess.run(["cc", "-shared", "-fPIC", "-x", "c", "-", "-o", f"{folder}/{name}"], input=code, text=True, check=True)
    return f"{folder}/{name}"


def tried(folder):
    """Each thing, what it is and what it must be."""
    own = os.environ["TUFCHECK_LIBRARY"]
    yield "its own library", with_library(own), "tufcheck.StateError"
    for what, library in {"no library": f"{folder}/none", "a text": __file__, "the C library": "libc.so.6",
                          "a later version": compiled(folder, "later.so", VERSION % 2_000_000),
                          "a library without calls": compiled(folder, "bare.so", VERSION % 1_000_000)}.items():
        yield what, with_library(library), "tufcheck.LibraryError"
    for family in (End, Kind, Fault, Place):
        number = family(99)
        yield f"an unknown number of {family.__name__}", (number.name, int(number), number in list(family)), ("UNKNOWN_99", 99, False)
        yield "its text", number.text, "unknown number"
    yield "texts", (Fault.EXPIRED.text, Status.STOPPED.text, Place.TARGETS.text), ("the file has expired", "the cycle stopped", "targets")
    tuf.repository(f"{folder}/repo", tuf.Key(1, 4), {})
    with open(f"{folder}/repo/metadata/1.root.json", "rb") as root:
        state = tufcheck.first(root.read())
    for digests in (Digests(1, sha256=bytes(31)), Digests(1, sha256=bytes(64)), Digests(1, sha512=bytes(32))):
        job = Job(state, ["a"], 0, digests={"a": digests})
        yield f"{digests}", raised(job.verify), ValueError
    for moment in (-1, 1 << 64, 253402300800):
        yield f"moment {moment}", raised(Job(state, [], moment).list), tufcheck.MomentError
    for limit in (-1, 0, 257, 1 << 64):
        yield f"limit {limit}", raised(Job(state, [], 0, limit=limit).next), tufcheck.LimitError
    yield "a name that isn't UTF-8", raised(Job(state, ["\ud800"], 0).verify), tufcheck.TextError
    yield "no state", raised(Job(b"", [], 0).verify), tufcheck.StateError
    root = TrustedFile(1, 1893456000)
    yield "what a first state trusts", tufcheck.show(state), Trusted(root, None, None, None)
    for text in (b"", b"{}", state[:-1]):
        trusted = raised(lambda text=text: tufcheck.show(text))
        yield f"what {text[:2]!r} trusts", trusted, tufcheck.StateError


def main():
    wrong = [row for row in tried(sys.argv[1]) if row[1] != row[2]]
    for what, seen, want in wrong:
        print(f"{what}: {seen}, not {want}")
    return bool(wrong)


if __name__ == "__main__":
    sys.exit(main())
