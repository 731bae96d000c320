#!/usr/bin/env python3
"""Checks LMS signatures of checks/tuf.py by the library: each is valid for its message and key, and not after a change.

  signatures.py

TUFCHECK_LIBRARY names the library, and PYTHONPATH has its module and tuf.py. A key, a message or a signature that is
changed at any of some bytes, cut, or longer must not be valid. The status is 1 if something is not as it must be.
"""
import sys

import tuf
from tufcheck import lms_verify

MESSAGES = [b"", b"abc", bytes(range(256)) * 20]


def changed(data):
    """The bytes with a bit changed, at some places; with one less; with one more."""
    for place in range(0, len(data), max(1, len(data) // 20)):
        yield data[:place] + bytes([data[place] ^ 1]) + data[place + 1:]
    if data:
        yield data[:-1]
    yield data + b"\0"


def wrong(width):
    key = tuf.Key(7, width)
    public = bytes.fromhex(key.object["keyval"]["public"])
    for message in MESSAGES:
        signature = key.sign(message)
        if not lms_verify(public, message, signature):
            yield f"W{width}: a message of {len(message)} bytes isn't valid"
        damaged = [(other, message, signature) for other in changed(public)]
        damaged += [(public, other, signature) for other in changed(message)]
        damaged += [(public, message, other) for other in changed(signature)]
        yield from (f"W{width}: a change is valid: {[part.hex() for part in parts]}" for parts in damaged if lms_verify(*parts))


def main():
    found = [text for width in (4, 8) for text in wrong(width)]
    print(*found, sep="\n", end="\n" if found else "")
    return bool(found)


if __name__ == "__main__":
    sys.exit(main())
