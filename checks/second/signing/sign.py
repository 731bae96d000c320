#!/usr/bin/env python3
"""Signs standard input with a test key of tuf.py, and writes the signature in hexadecimal digits, or raw; or writes the public
key.

  sign.py SEED LEAVES [--raw]
  sign.py SEED --public

The file LEAVES has the number of the next leaf. The number after it is stored before the signature is written.
"""
import os
import sys

sys.path.insert(0, os.path.dirname(os.path.dirname(os.path.dirname(os.path.abspath(__file__)))))
import tuf


def stored(path, leaf):
    """Replaces the file as a whole, and flushes it to the device, with its folder."""
    with open(f"{path}.new", "w", encoding="ascii") as file:
        file.write(str(leaf))
        file.flush()
        os.fsync(file.fileno())
    os.replace(f"{path}.new", path)
    folder = os.open(os.path.dirname(os.path.abspath(path)), os.O_RDONLY)
    os.fsync(folder)
    os.close(folder)


def main():
    key = tuf.Key(int(sys.argv[1]))
    if sys.argv[2] == "--public":
        print(key.object["keyval"]["public"])
        return
    if os.path.exists(sys.argv[2]):
        with open(sys.argv[2], encoding="ascii") as file:
            key.used = int(file.read())
    if key.used == 32:
        sys.exit("sign.py: no leaf is left")
    signature = key.sign(sys.stdin.buffer.read())
    stored(sys.argv[2], key.used)
    sys.stdout.buffer.write(signature if "--raw" in sys.argv else signature.hex().encode() + b"\n")


main()
