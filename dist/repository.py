#!/usr/bin/env python3
"""Publishes a release in a TUF repository, which `tufcheck` then fetches and verifies as it does any other.

    dist/repository.py [--now TEXT] --trial REPOSITORY [RELEASE]
    dist/repository.py [--now TEXT] --roles FILE --signer PROGRAM REPOSITORY [RELEASE]

The folder REPOSITORY gets `metadata` and `targets`, with names of consistent snapshots. The targets are the files that the
sums of RELEASE list, the sums and their signatures, each with the path VERSION/NAME; those of earlier releases stay. Without
RELEASE snapshot and timestamp are signed anew, and root and targets if they expire within 90 days. Each part has the next
version. Roots and targets expire after 365 days, snapshots and timestamps after 30, from the clock's moment on or from TEXT,
as 2026-01-01T00:00:00Z.

FILE has an object in JSON: each of root, timestamp, snapshot and targets with `threshold` and `keys`, a list of key objects
(docs/SIGNING.md, section 1). If the last root has others, the next one is made, which the old keys sign too. PROGRAM is called
with the id of a key and a role, for one signature: it reads the text that is signed, and writes the signature's bytes. If its
status isn't 0, another key is tried; too few signatures are refused. Each call uses a leaf of an LMS key, so PROGRAM has to
store its leaves (section 5).

--trial takes keys that anybody can make, one a role, by checks/tuf.py, which begins with the first leaf each time: it shows
that all this works, and protects nothing. What is in REPOSITORY is taken as it is: verify it before, if others can write it.
All is signed before the first file is written; the timestamp is the last, and each is written as a whole. The status is 0, or
1 if something is refused, which is printed; then nothing was written, and leaves may be used. It is 2 for other arguments.
"""
import argparse
import datetime
import hashlib
import json
import os
import pathlib
import re
import subprocess
import sys

TOP = pathlib.Path(__file__).resolve().parents[1]
sys.path.insert(0, str(TOP / "checks"))
sys.dont_write_bytecode = True
import tuf  # noqa: E402

SOON = 90
DAYS = {"root": 365, "targets": 365, "snapshot": 30, "timestamp": 30}
SUMS = re.compile(r"SHA256SUMS(-dev)?(\.asc|\.minisig)?")


def refused(why):
    sys.exit(f"repository.py: {why}")


def identifier(key):
    return hashlib.sha256(tuf.canonical(key)).hexdigest()


class Trial:
    """A key that anybody can make for each role."""

    def __init__(self):
        self.made = {role: tuf.Key(number) for number, role in enumerate(DAYS, 1)}
        self.roles = {role: {"threshold": 1, "keys": [key.object]} for role, key in self.made.items()}

    def sign(self, key_id, _role, message):
        return next(key for key in self.made.values() if key.id == key_id).sign(message)


class Signer:
    """The keys of a file, and the program that has their secrets."""

    def __init__(self, file, program):
        roles, self.program = json.loads(pathlib.Path(file).read_text()), program
        if set(roles) != set(DAYS):
            refused(f"{file} has other roles than {list(DAYS)}")
        self.roles = {role: {"threshold": it["threshold"], "keys": it["keys"]} for role, it in roles.items()}

    def sign(self, key_id, role, message):
        ran = subprocess.run([self.program, key_id, role], input=message, stdout=subprocess.PIPE, check=False)
        return ran.stdout if ran.returncode == 0 else None


class Repository:
    """A repository in a folder, and the files that are made for it."""

    def __init__(self, folder, signer, now):
        self.metadata, self.targets, self.signer, self.now = folder / "metadata", folder / "targets", signer, now
        self.made = {}

    def last(self, role):
        """The content of the role's file with the highest version, or None."""
        if role == "timestamp":
            path = self.metadata / "timestamp.json"
            return path.read_bytes() if path.exists() else None
        made = [path for path in self.made if path.match(f"metadata/*.{role}.json")]
        files = {int(path.name.split(".")[0]): path for path in [*self.metadata.glob(f"*.{role}.json"), *made]}
        path = files[max(files)] if files else None
        return self.made.get(path) or path.read_bytes() if path else None

    def part(self, role):
        """What the role's last file says."""
        content = self.last(role)
        return json.loads(content)["signed"] if content else None

    def is_fresh(self, part):
        return part["expires"] > self.moment(SOON)

    def moment(self, days):
        return (self.now + datetime.timedelta(days=days)).strftime("%Y-%m-%dT%H:%M:%SZ")

    def add(self, role, *asked, **members):
        """Makes the next file of a role."""
        old = self.part(role)
        version = old["version"] + 1 if old else 1
        part = {"_type": role, "spec_version": "1.0.31", "version": version, "expires": self.moment(DAYS[role]), **members}
        name = "timestamp.json" if role == "timestamp" else f"{version}.{role}.json"
        self.made[self.metadata / name] = self.signed(role, part, *asked)

    def signed(self, role, part, *asked):
        """The file of a part, with the signatures that each of the asked roles requires."""
        message, entries = tuf.canonical(part), {}
        for keys in asked:
            tried = [key for key in keys["keys"] if identifier(key) not in entries]
            while sum(identifier(key) in entries for key in keys["keys"]) < keys["threshold"] and tried:
                key_id = identifier(tried.pop(0))
                sig = self.signer.sign(key_id, role, message)
                if sig:
                    entries[key_id] = sig.hex()
            if sum(identifier(key) in entries for key in keys["keys"]) < keys["threshold"]:
                refused(f"too few signatures of {role}")
        return tuf.canonical({"signatures": [{"keyid": key, "sig": sig} for key, sig in entries.items()], "signed": part})

    def known(self, root):
        """The keys and thresholds of a root, in the form of FILE."""
        return {role: {"threshold": it["threshold"], "keys": [root["keys"][key] for key in it["keyids"]]}
                for role, it in root["roles"].items()}

    def add_root(self):
        """Makes the first root, or the next one if keys or thresholds changed, or the last one expires soon. Returns whether
        those of targets changed."""
        old, roles = self.part("root"), self.signer.roles
        before = self.known(old) if old else None
        if before == roles and self.is_fresh(old):
            return False
        self.add("root", *[it["root"] for it in (before, roles) if it], consistent_snapshot=True,
                 keys={identifier(key): key for it in roles.values() for key in it["keys"]},
                 roles={role: {"keyids": [identifier(key) for key in it["keys"]], "threshold": it["threshold"]}
                        for role, it in roles.items()})
        return not before or before["targets"] != roles["targets"]

    def add_targets(self, release, changed):
        """Makes the next targets file, if there is a release, its keys changed, or the last one expires soon."""
        old = self.part("targets")
        listed = dict(old["targets"]) if old else {}
        for name, content in files(release).items() if release else []:
            listed[name] = tuf.target(content)
            path = self.targets / name
            self.made[path.with_name(f"{listed[name]['hashes']['sha256']}.{path.name}")] = content
        if release or changed or not self.is_fresh(old):
            self.add("targets", self.signer.roles["targets"], targets=listed)

    def add_listing(self, role, listed):
        """Makes the next file of a role that lists another one's."""
        content = self.last(listed)
        meta = {f"{listed}.json": {**tuf.target(content), "version": json.loads(content)["signed"]["version"]}}
        self.add(role, self.signer.roles[role], meta=meta)

    def write(self):
        """Writes what was made, each file as a whole, in the order in which it was made."""
        for path, content in self.made.items():
            path.parent.mkdir(parents=True, exist_ok=True)
            new = path.with_name(f".{path.name}.new")
            with open(new, "wb") as file:
                file.write(content)
                file.flush()
                os.fsync(file.fileno())
            new.rename(path)


def files(release):
    """The files of a release by their paths in the repository: what its sums list, the sums, and their signatures."""
    found, version = {}, None
    for sums in sorted(release.glob("SHA256SUMS*")):
        if not SUMS.fullmatch(sums.name):
            continue
        found[sums.name] = sums.read_bytes()
        for line in found[sums.name].decode().splitlines() if sums.suffix == "" else []:
            digest, name = line.split("  ")
            if name != os.path.basename(name) or hashlib.sha256((release / name).read_bytes()).hexdigest() != digest:
                refused(f"{sums.name} hasn't the sum of {name}")
            found[name] = (release / name).read_bytes()
            version = re.search(r"[0-9]+\.[0-9]+\.[0-9]+", name)
    if not version:
        refused(f"{release} has no sums")
    return {f"{version[0]}/{name}": content for name, content in found.items()}


def moment(text):
    return datetime.datetime.strptime(text, "%Y-%m-%dT%H:%M:%SZ").replace(tzinfo=datetime.timezone.utc)


def main():
    words = argparse.ArgumentParser(usage="repository.py [--now TEXT] (--trial | --roles FILE --signer PROGRAM) REPOSITORY [RELEASE]")
    words.add_argument("--now", type=moment, default=datetime.datetime.now(datetime.timezone.utc))
    words.add_argument("--trial", action="store_true")
    words.add_argument("--roles")
    words.add_argument("--signer")
    words.add_argument("repository", type=pathlib.Path)
    words.add_argument("release", type=pathlib.Path, nargs="?")
    given = words.parse_args()
    if given.trial == bool(given.roles and given.signer):
        words.error("either --trial, or --roles and --signer")
    repository = Repository(given.repository, Trial() if given.trial else Signer(given.roles, given.signer), given.now)
    if not given.release and not repository.last("targets"):
        refused(f"{given.repository} has no targets: give a release")
    changed = repository.add_root()
    repository.add_targets(given.release, changed)
    repository.add_listing("snapshot", "targets")
    repository.add_listing("timestamp", "snapshot")
    repository.write()


if __name__ == "__main__":
    main()
