#!/usr/bin/env python3
"""Verifies drawn repositories by the program and by a second reading of the standard, and compares all their results.

  checks/second/second.py [COUNT [SEED]]      1,000 histories from seed 1 unless given

A history is a first root and then three states of one repository: roots that rotate, files that come and go, delegations
by patterns, prefixes and bins that meet and lead round, thresholds, keys of both widths, one public value under two ids,
keys that count for nothing, ids of no key and many of them. In most states up to two files are damaged: in their contents,
in their signatures, in their bytes, in how they are listed. Each is verified from the trusted state of the one before, by
`tufcheck verify` with 0 or 4 workers, with and without `--why`, then the last one twice more by `tufcheck replay --why`, and
by reading.py beside this script, which was written from the pages of docs and shares no code with the crates. The lines, the
status and the bytes of the new state must be the same; those of the run without `--why` must be those of the other without
the lines that begin with `why`. The last lines count each end, each verdict, each form of such a line behind an end, and
what those behind a verdict say together. A history that differs is left in a folder, whose name is printed, and the status
is then 1; so it is if 1,000 histories or more lack a form of REASONS.

Where Debian's python3-securesystemslib is installed, which is the canonical JSON of TUF's reference implementation, each
text that is signed must also be what that makes of it. `rt run` in crates/tufcheck proves and builds the program.
"""
import collections
import copy
import hashlib
import json
import os
import random
import re
import shutil
import sys
import tempfile
from multiprocessing import Pool

sys.path.insert(0, os.path.dirname(os.path.dirname(os.path.abspath(__file__))))
import common
from common import NOW
import reading
import tuf

try:
    from securesystemslib.formats import encode_canonical
except ImportError:
    encode_canonical = None

LATER = "2030-01-01T00:00:00Z"
SOON = "2026-01-01T00:00:01Z"
TIMES = [LATER, NOW, "2025-12-31T23:59:59Z", SOON, "0000-02-29T00:00:00Z"]
# The last one has 257 bytes, and is cut within a letter
PATHS = ["a", "b", "ab", "d/a", "d/b", "d/e/a", "\u00e9", 'd/"\u00e9*', 2 * f"{126 * 'd'}/" + "x\u00e9"]
PATTERNS = ["*", "a*", "?", "d/*", "d/?", "*/*", "d/e/*", "ab", "\u00e9", "nobody", "*a*b*", "d/??*", ""]
ROLES = ["r", "s", "t", "u", "bin-0", "bin-1", "bin-2", "bin-3", 'v/"w']
ODD = [None, True, False, 0, 1, -1, 2**63 - 1, 2**63, 2**64, 1.5, "", "1.1", "x", [], ["x"], {}, {"x": 1}]
WRONG = "ab" * 32
# Keys that count for nothing, by ids that roles list too, and ids of no key
STRANGE = {
    "odd": {"keytype": "ed25519", "keyval": {"public": "00"}, "scheme": "ed25519"},
    "odd scheme": {"keytype": "lms", "keyval": {"public": "00"}, "scheme": "x"},
    "odd type": {"keytype": 'the "type"\n\u00e9\\' + 25 * "0123456789"},
    "no type": {"keytype": 1},
    "odd kind": {"keytype": "lms", "keyval": {"public": "00" * 56}, "scheme": "lms-sha256"},
    "no value": {"keytype": "lms", "keyval": {}, "scheme": "lms-sha256"},
}
UNKNOWN = ["unknown", "", 'an "\u00e9" id', "\u00e9" * 129]
MANY = [f"id {number}" for number in range(70)]
POOL = []
# The forms of the lines of `--why`, without names and numbers, and with `target` those of a target's file together
REASONS = """
absent; expires moment; file; form; json; object; float; signatures; length listed; length most; more; name gone;
name trusted; sha256 listed; sha512 listed; snapshot names; snapshot trusted; trusted expires moment; version expected;
version trusted; keys threshold signed; key absent; key again; key invalid hexadecimal; key invalid kind;
key invalid leaf; key invalid length; key invalid root; key signed; key unsigned; key unusable id; key unusable kind;
key unusable type; target; target absent path; target absent sha256; target absent sha512;
target absent sha256 absent sha512; target absent cut; target file path; target file path longer; target file path shorter;
target file path sha256; target file path sha512; target file path sha256 sha512; target file sha256 longer;
target file sha256 shorter; target file sha256 sha256; target file sha256 sha512; target file sha256 sha256 sha512;
target file sha512 longer; target file sha512 shorter; target file sha512 sha512; target file cut longer;
target file cut shorter
"""


def pool():
    """Keys, some of which have a second id: that of an object that says more, or one that is none of theirs."""
    if not POOL:
        POOL.extend(tuf.Key(1 + seed, 8 if seed < 2 else 4) for seed in range(12))
        for key in POOL[4:8]:
            other = copy.copy(key)
            other.object = {**key.object, "note": "the same\n\"key\" \u00e9"} if key is not POOL[7] else key.object
            other.id = tuf.digest(tuf.canonical(other.object)).hex() if key is not POOL[7] else WRONG
            POOL.append(other)
    return POOL


class History:
    """A repository that goes on from state to state."""

    def __init__(self, seed):
        self.draw = random.Random(seed)
        self.metadata, self.targets, self.hurt = {}, {}, set()
        self.signers = {role: self.some_keys() for role in ROLES}
        self.versions = collections.Counter()
        self.last, self.has_many = None, False

    def chance(self, share):
        return self.draw.random() < share

    def some_keys(self):
        keys = self.draw.sample(pool(), self.draw.choice([1, 1, 2, 3]))
        twins = [key for key in pool() if key not in keys and key.name in {it.name for it in keys}]
        return keys + twins[:1] if len(keys) < 3 and self.chance(0.3) else keys

    # ---- parts

    def role(self, keys):
        most = len(keys if self.chance(0.1) else {key.object["keyval"]["public"] for key in keys if key.id != WRONG}) or 1
        ids = [key.id for key in keys]
        if self.chance(0.3):
            ids.insert(self.draw.choice([0, len(ids)]), self.draw.choice([ids[-1], self.draw.choice(UNKNOWN), *STRANGE]))
        if self.chance(0.03):
            ids = self.draw.choice([[*MANY, *ids], [*ids, *MANY]])
        return {"keyids": ids, "threshold": self.draw.randint(1, most)}

    def as_before(self, name):
        """A role as the root before has it, or with its ids in another order."""
        role = self.last["roles"][name]
        return {**role, "keyids": role["keyids"][::-1]} if self.chance(0.3) else role

    def ring(self, *many):
        ring = {key.id: key.object for keys in many for key in keys}
        return {**ring, **STRANGE} if self.chance(0.8) else ring

    def part(self, kind, name, **members):
        """A signed part, a version above the one before more often than not."""
        self.versions[name] = max(1, self.versions[name] + self.draw.choice([0, 1, 1, 1, 1, 2, -1]))
        expires = self.draw.choice(TIMES) if self.chance(0.3 if name in self.hurt else 0.02) else LATER
        expires = SOON if name == "timestamp" and self.chance(0.2) else expires
        return {"_type": kind, "expires": expires, "spec_version": "1.0.31", "version": self.versions[name], **members}

    def listing(self, name, content):
        """How another file lists that one."""
        listed = {}
        if self.chance(0.6):
            listed["length"] = len(content)
        if self.chance(0.6):
            kinds = self.draw.choice([["sha256"], ["sha512"], ["sha512", "sha256"], ["md4", "sha256"]])
            listed["hashes"] = {it: hashlib.new(it, content).hexdigest() if it != "md4" else "?" for it in kinds}
        if "hashes" in listed and self.chance(0.2):
            listed["hashes"] = {it: value.upper() for it, value in listed["hashes"].items()}
        if name in self.hurt and self.chance(0.4):
            self.draw.choice([
                lambda: listed.update(length=len(content) + self.draw.choice([-1, 1])),
                lambda: listed.update(hashes={"sha256": "0" * 64}),
                lambda: listed.update(length=None),
                lambda: listed.update(hashes=self.draw.choice([{}, {"md4": "x"}, {"sha512": "0" * 128}])),
                lambda: listed.update(hashes={"sha512": "F" * 128, "sha256": self.draw.choice([WRONG, digest_of(content)])}),
            ])()
        return listed

    def target(self, path):
        content = f"{path} {self.versions['timestamp'] // 2}".encode()
        listed = {"length": len(content), "hashes": {"sha256": digest_of(content)}, **self.listing(path, content)}
        if self.chance(0.3):
            right = {it: hashlib.new(it, content).hexdigest() for it in reading.LENGTHS}
            wrong = self.draw.choice([[], ["sha256"], ["sha512"], ["sha256", "sha512"]])
            both = {it: value[::-1] if it in wrong else value for it, value in right.items()}
            listed["hashes"] = self.draw.choice([both, both, both, {"sha512": both["sha512"]}, {}, {"md4": "x"}])
        folder, slash, base = path.rpartition("/")
        names = [f"{folder}{slash}{value.lower()}.{base}" for value in listed["hashes"].values()]
        names = names if self.consistent() and names else [path]
        near = self.draw.choice([content + b"x", content + 99 * b"x", content[:-1], content[:-1] + b"?", b""])
        if not self.chance(0.15):
            self.targets[self.draw.choice(names)] = near if self.chance(0.2) else content
        if self.chance(0.1):
            self.targets[self.draw.choice(names)] = near
        return listed

    def delegations(self):
        if self.chance(0.2):
            bits = self.draw.choice([1, 2])
            keys = self.signers["bin-0"]
            return {"keys": self.ring(keys), "succinct_roles": {**self.role(keys), "bit_length": bits, "name_prefix": "bin"}}
        roles, used = [], []
        for name in self.draw.choices([*ROLES, "targets"], k=self.draw.randint(0, 4)):
            keys = self.signers.get(name, []) if self.chance(0.95) else []
            keys = keys or self.some_keys()
            used.append(keys)
            delegation = {"name": name, **self.role(keys)}
            if self.chance(0.5):
                delegation["terminating"] = self.chance(0.4)
            if self.chance(0.7):
                delegation["paths"] = self.draw.sample(PATTERNS, self.draw.randint(0, 3))
            else:
                digest = hashlib.sha256(self.draw.choice(PATHS).encode()).hexdigest()
                digest = digest.upper() if self.chance(0.1) else digest
                delegation["path_hash_prefixes"] = [digest[: self.draw.choice([1, 2, 64])], "00"]
            roles.append(delegation)
        return {"keys": self.ring(*used), "roles": roles}

    # ---- files

    def spoil(self, tree):
        """Changes, removes or adds something anywhere in a part."""
        while isinstance(tree, (dict, list)) and tree:
            at = self.draw.choice(list(tree) if isinstance(tree, dict) else range(len(tree)))
            if self.chance(0.5) or not isinstance(tree[at], (dict, list)) or not tree[at]:
                return self.draw.choice([
                    lambda: tree.__setitem__(at, self.draw.choice(ODD)),
                    lambda: tree.__delitem__(at),
                    lambda: tree.update(extra=self.draw.choice(ODD)) if isinstance(tree, dict) else tree.append(None),
                ])()
            tree = tree[at]
        return None

    def spoil_number(self, part):
        """Puts something else in the place of a whole number."""
        holder, at = self.draw.choice(list(numbers(part)))
        number = holder[at]
        holder[at] = self.draw.choice([number - 1, number + 1, 0, True, -number, float(number), str(number), 2**63])

    def entry(self, key, message):
        key.used = self.draw.randrange(32)
        sig = key.sign(message).hex()
        return {"keyid": key.id, "sig": sig.upper() if self.chance(0.1) else sig}

    def spoiled(self, entry, message):
        """Entries with other signatures in the place of one, and it too or not, all under its id."""
        sig = bytearray.fromhex(entry["sig"])
        other = self.entry(self.draw.choice(pool()), message + self.draw.choice([b"", b" "]))
        near = lambda place: sig[:place] + bytes([sig[place] ^ 1 << self.draw.randrange(8)]) + sig[place + 1 :]
        # the last byte of the first type code, of the second one, and of the leaf
        codes, second, leaf = 7, len(sig) - 161, self.draw.randrange(4)
        wrong = self.draw.choice([
            lambda: near(self.draw.randrange(len(sig))).hex(),
            lambda: self.draw.choice([sig[:-1], sig + b"\0", sig[:3], b""]).hex(),
            lambda: near(codes).hex(),
            lambda: near(second).hex(),
            lambda: (sig[:leaf] + b"\x20" + sig[leaf + 1 :]).hex(),
            lambda: self.draw.choice([sig.hex()[1:], "0g", sig.hex() + "\u00e9\u00e9", sig.hex() + " "]),
            lambda: other["sig"],
        ])()
        sigs = self.draw.choice([[wrong], [wrong], [wrong, other["sig"]], [wrong, entry["sig"]], [entry["sig"], wrong]])
        return [{**entry, "sig": it} for it in sigs]

    def sealed(self, name, part, keys):
        """The file of a part that these keys sign."""
        is_hurt = name in self.hurt and self.chance(0.8)
        ways = self.draw.choices(
            ["number", "part", "float", "keys", "keys", *["signature"] * 6, "entries", "file", "bytes", "length"],
            k=self.draw.choice([1, 1, 2]))
        ways = ways if is_hurt else []
        part = copy.deepcopy(part)
        if "number" in ways:
            self.spoil_number(part)
        if "part" in ways:
            self.spoil(part)
        if "float" in ways:
            part["note"] = self.draw.choice([1.5, [0, 1e2], {"x": -0.0}])
        message = tuf.canonical(part)
        if "keys" in ways:
            keys = self.draw.choice([keys[:-1], keys[:1], keys[1:], self.some_keys()])
        entries = [self.entry(key, message) for key in keys]
        if "signature" in ways:
            both = [self.spoiled(it, message) if self.chance(0.7) else [it] for it in entries]
            entries = [it for some in both for it in some]
        if "entries" in ways:
            self.spoil(entries)
            odd = {"keyid": pool()[0].id, "sig": "0g"}, {"keyid": "", "sig": ""}
            entries = entries[::-1] + [*self.draw.choice([odd, odd[:1], odd[2:]])]
        file = {"signatures": entries, "signed": part}
        if "file" in ways:
            self.spoil(file)
        content = json.dumps(file, indent=self.draw.choice([None, 1])).encode() if self.chance(0.5) else tight(file)
        if "bytes" in ways:
            cut, flipped = self.draw.randrange(len(content)), self.draw.randrange(len(content))
            content = self.draw.choice([
                content[:cut], content + b"x", content + b" " * 20_000, b"\xef\xbb\xbf" + content, b"[" * 200 + b"]" * 200,
                content[:flipped] + bytes([content[flipped] ^ 1 << self.draw.randrange(8)]) + content[flipped + 1 :],
                b'{"signed":1.5,' + content[1:], content.replace(b'"version"', b'"version":3,"version"'),
                b"[" + content + b"]",
            ])
        if "length" in ways:
            content = content.ljust(reading.LIMITS.get(name, reading.LIMITS["targets"]) + self.draw.choice([0, 1, 9]))
        return content

    def put(self, name, content, version=None):
        if name not in self.hurt:
            self.metadata[f"{version}.{name}" if version and self.consistent() else name] = content

    def consistent(self):
        return self.last["consistent_snapshot"]

    def root(self):
        """One more root, which the one before signs too."""
        number = self.versions["root"] + 1
        roles = {}
        for name in reading.KINDS:
            keys = self.keys[name] if self.last and self.chance(0.6) else self.some_keys()
            roles[name] = keys, self.role(keys) if not self.last or self.chance(0.7) else self.as_before(name)
        keys = {name: it[0] for name, it in roles.items()}
        version = number + 1 if self.chance(0.03) else number
        part = {**self.part("root", "root"), "version": version, "roles": {name: it[1] for name, it in roles.items()},
                "keys": self.ring(*keys.values()), "consistent_snapshot": self.chance(0.5)}
        for name, it in roles.items():
            if not {*it[1]["keyids"]} <= {*part["keys"], *STRANGE, *UNKNOWN, *MANY}:
                part["roles"][name] = self.role(keys[name])
        signers = keys["root"] + [key for key in (self.keys["root"] if self.last else []) if key not in keys["root"]]
        self.versions["root"] = number
        self.last, self.keys = copy.deepcopy(part), keys
        self.metadata[f"{number}.root.json"] = self.sealed("root", part, signers)

    def go_on(self):
        """The next state of the repository."""
        self.targets = {}
        self.hurt = set(self.draw.sample(
            [*reading.KINDS, *reading.KINDS, *reading.KINDS, *ROLES[:4], *PATHS[:4], "timestamp.json", "snapshot.json", "targets.json", "r.json"],
            self.draw.choice([0, 0, 0, 1, 1, 2])))
        self.metadata = {name: it for name, it in self.metadata.items() if name.endswith(".root.json")}
        for _ in range(self.draw.choice([0, 0, 1, 2])):
            self.root()
        listed = {}
        for name in ["targets", *ROLES]:
            listed_here = self.draw.sample(PATHS, self.draw.randint(0, 4))
            part = self.part("targets", name, targets={it: self.target(it) for it in listed_here})
            if self.chance(0.8):
                part["delegations"] = self.delegations()
            version = part["version"]
            content = self.sealed(name, part, self.keys["targets"] if name == "targets" else self.signers[name])
            listed_version = version + (name in self.hurt and self.chance(0.4))
            self.put(f"{name}.json", content, self.draw.choice([version, listed_version]))
            if not self.chance(0.03):
                listed[f"{name}.json"] = {"version": listed_version, **self.listing(name, content)}
        self.has_many = self.chance(0.7 if self.has_many else 0.05)
        if self.has_many:
            names = [name for name in [*UNKNOWN, *MANY] if self.chance(0.97)]
            listed |= {f"{name}.json": {"version": self.draw.randint(1, 2)} for name in names}
        part = self.part("snapshot", "snapshot", meta=listed)
        version = part["version"]
        content = self.sealed("snapshot", part, self.keys["snapshot"])
        self.put("snapshot.json", content, version)
        meta = {"snapshot.json": {"version": version, **self.listing("snapshot", content)}}
        part = self.part("timestamp", "timestamp", meta=meta)
        self.put("timestamp.json", self.sealed("timestamp", part, self.keys["timestamp"]))


def numbers(tree):
    """Each whole number in a tree, as what holds it and where."""
    for at, below in list(tree.items() if isinstance(tree, dict) else enumerate(tree)):
        if isinstance(below, (dict, list)):
            yield from numbers(below)
        elif type(below) is int:
            yield tree, at


def digest_of(content):
    return hashlib.sha256(content).hexdigest()


def tight(tree):
    """A tree with no white space and no needless escapes."""
    return json.dumps(tree, ensure_ascii=False, separators=(",", ":"), sort_keys=True).encode()


def write(folder, files):
    shutil.rmtree(folder, ignore_errors=True)
    os.makedirs(folder)
    for name, content in files.items():
        common.write(f"{folder}/{name}", content)


def run(room, *words):
    ran = common.run(*words, cwd=room)
    return ran.stdout.decode(), ran.returncode


def same_texts(state):
    """Whether the reference implementation has the same canonical texts."""
    return not encode_canonical or all(
        encode_canonical(json.loads(file["bytes"])["signed"]).encode() == file["text"] for file in state.values())


def untold(lines):
    """The lines but those that begin with `why`."""
    return "".join(line for line in lines.splitlines(keepends=True) if not line.startswith("why "))


def form_of(line):
    """The first words of a line, and all of one that begins with `why`, without names, numbers, digests and moments."""
    words = re.sub('"[^"]*"(\\.\\.)?', "", line).split()
    words = [word for word in words if re.fullmatch("[A-Za-z]{1,12}|sha256|sha512", word)]
    return " ".join(words[: {"why": len(words), "end": 3, "no": 2}.get(words[0], 1)])


def kind_of(name, path):
    """Whether a name is cut or the path, or by which digest it is."""
    if name.endswith("..") or name == path:
        return "path" if name == path else "cut"
    found = len(name.rpartition("/")[2].strip('"').partition(".")[0])
    return next((algorithm for algorithm, length in reading.LENGTHS.items() if length == found), "odd")


def target_form(path, why):
    """What the lines say of why the file of a target is refused."""
    form = ["why", "target"]
    for _, what, first, *others in map(str.split, why):
        if what == "length":
            form.append("longer" if int(first) > int(others[-1]) else "shorter")
        else:
            form += [what, kind_of(first, path)] if what in ("absent", "file") else [what]
    return " ".join(form)


def forms_of(lines):
    """The form of each line, and one of all that say why the file of a target is refused."""
    for line, why in re.findall("(.*)\n((?:why .*\n)*)", lines):
        yield form_of(line)
        target = re.fullmatch('no ("[^"]*") (Missing|LengthWrong|HashWrong|NoKnownHash)', line)
        yield from [target_form(target[1], why.splitlines())] if target else map(form_of, why.splitlines())


def lived(seed):
    """Draws a history and verifies its states; the first words of each line, or what differs and where."""
    history, counts = History(seed), collections.Counter()
    history.root()
    room = tempfile.mkdtemp(prefix=f"second-{seed}-")
    first = history.metadata["1.root.json"]
    write(f"{room}/first", {"1.root.json": first})
    said = run(room, "init", "first/1.root.json", "--out", "state")
    state = {"root": reading.read("root", first)}
    if said != (f"root {state['root']['version']}\n", 0):
        return counts, f"{room}: init: {said}"
    for number in range(3):
        history.go_on()
        limit, workers = history.draw.choice([1, 2, 3, 32, 32, 32]), history.draw.choice([["0", "4"], ["4", "0"]])
        wanted, now = history.draw.sample(PATHS, 6) + ["none"], history.draw.choice([NOW, NOW, NOW, NOW, SOON])
        write(f"{room}/metadata", history.metadata)
        write(f"{room}/targets", history.targets)
        words = "--limit", str(limit), "--", *wanted
        said = run(room, *common.verify(*words, workers=workers[0], now=now))
        told = run(room, *common.verify("--why", *words, workers=workers[1], now=now, out="told"))
        direct = {name: content for name, content in history.metadata.items() if "/" not in name}
        state, *read = reading.verified(state, direct, history.targets, now, limit, wanted, is_told=True)
        stored = {common.read(f"{room}/new"), common.read(f"{room}/told"), reading.spelled(state)}
        if told != tuple(read) or said != (untold(told[0]), told[1]) or len(stored) > 1 or not same_texts(state):
            where = f"{room}: state {number + 1}, limit {limit}, now {now}, {wanted}"
            return counts, f"{where}\nsaid {said}\ntold {told}\nread {read}"
        os.replace(f"{room}/new", f"{room}/state")
        os.remove(f"{room}/told")
        counts.update(forms_of(told[0]))
    words = "--why", "--now", now, "--limit", str(limit), "--workers", workers[1], "--state", "state", "--out", "new"
    said = run(room, "replay", *words, "--", wanted[0], ".", ".")
    state, *read = reading.replayed(state, direct, history.targets, now, limit, wanted[:1], 2)
    if said != tuple(read) or common.read(f"{room}/new") != reading.spelled(state):
        return counts, f"{room}: replay, limit {limit}, now {now}, {wanted[0]}\nsaid {said}\nread {read}"
    shutil.rmtree(room)
    return counts, None


def all_lived(live, count, seed):
    """Calls `live` with each seed, and prints what differs and then the counts. Returns these, and the status."""
    pool()
    total, status = collections.Counter(), 0
    with Pool() as workers:
        for counts, differs in workers.imap_unordered(live, range(seed, seed + count)):
            total += counts
            if differs:
                print(differs, flush=True)
                status = 1
    for words, times in sorted(total.items()):
        if words:
            print(f"{times:8} {words}")
    return total, status


def main():
    count, seed = (int(word) for word in (sys.argv[1:] + ["1000", "1"][len(sys.argv) - 1 :]))
    total, status = all_lived(lived, count, seed)
    lacking = [form for form in re.split(";\\s+", REASONS.strip()) if not total[f"why {' '.join(form.split())}"]]
    if lacking and count >= 1000:
        print(f"no history has these reasons: {'; '.join(lacking)}")
        status = 1
    print(f"{count} histories, {total['root']} runs: {'none differs' if not status else 'some differ'}")
    return status


if __name__ == "__main__":
    sys.exit(main())
