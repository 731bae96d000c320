#!/usr/bin/env python3
"""Signs a small repository with four test keys, and writes it below the folder that the command line names.

  example.py FOLDER

docs/SIGNING.md has its timestamp, and signing.py in the folder above checks that.
"""
import os
import sys

sys.path.insert(0, os.path.dirname(os.path.dirname(os.path.dirname(os.path.abspath(__file__)))))
import tuf

ROLES = ["root", "timestamp", "snapshot", "targets"]
keys = {role: tuf.Key(number) for number, role in enumerate(ROLES, 1)}


def listing(content):
    return {**tuf.target(content), "version": 1}


root = tuf.signed(
    tuf.part(
        "root",
        consistent_snapshot=False,
        keys={key.id: key.object for key in keys.values()},
        roles={role: {"keyids": [key.id], "threshold": 1} for role, key in keys.items()},
    ),
    keys["root"],
)
targets = tuf.signed(tuf.part("targets", targets={"abc.txt": tuf.target(b"abc")}), keys["targets"])
snapshot = tuf.signed(tuf.part("snapshot", meta={"targets.json": listing(targets)}), keys["snapshot"])
timestamp = tuf.signed(tuf.part("timestamp", meta={"snapshot.json": listing(snapshot)}), keys["timestamp"])
files = {
    "metadata/1.root.json": root,
    "metadata/targets.json": targets,
    "metadata/snapshot.json": snapshot,
    "metadata/timestamp.json": timestamp,
    "targets/abc.txt": b"abc",
}
for name, content in files.items():
    path = os.path.join(sys.argv[1], name)
    os.makedirs(os.path.dirname(path), exist_ok=True)
    with open(path, "wb") as file:
        file.write(content)
