"""Makes metadata files with LMS signatures (TUF 1.0 section 4, RFC 8554), for the scripts of the folders beside it. It
shares no code with the crates."""
import hashlib
import json
import os

from common import write

EXPIRES = "2030-01-01T00:00:00Z"


def number(value, size):
    return value.to_bytes(size, "big")


def digest(*parts):
    return hashlib.sha256(b"".join(parts)).digest()


def text(value):
    """The canonical text of a text."""
    return ('"' + value.replace("\\", "\\\\").replace('"', '\\"') + '"').encode()


def canonical(tree):
    """The canonical text of a tree of objects, lists, texts, whole numbers and truth values."""
    if isinstance(tree, dict):
        members = sorted((key.encode(), text(key) + b":" + canonical(value)) for key, value in tree.items())
        return b"{" + b",".join(member for _, member in members) + b"}"
    if isinstance(tree, list):
        return b"[" + b",".join(map(canonical, tree)) + b"]"
    return text(tree) if isinstance(tree, str) else json.dumps(tree).encode()


def digits(width, value):
    """The digits of a digest and of their checksum, each of 8 or of 4 bits (RFC 8554 sections 3.1.3 and 4.4)."""
    if width == 8:
        return [*value, *number(sum(255 - it for it in value), 2)]
    halves = [half for it in value for half in (it >> 4, it & 15)]
    total = sum(15 - it for it in halves)
    return [*halves, total >> 8, total >> 4 & 15, total & 15]


class Key:
    """A key of LMS_SHA256_M32_H5 and LMOTS_SHA256_N32_W8 or _W4, whose 32 leaves sign once each."""

    def __init__(self, seed, width=8):
        self.width, self.chains, self.code = (8, 34, 4) if width == 8 else (4, 67, 3)
        self.name = bytes([seed]) * 16
        self.seed = bytes([seed]) * 32
        self.used = 0
        self.nodes = {32 + leaf: self.leaf(leaf) for leaf in range(32)}
        for node in range(31, 0, -1):
            below = self.nodes[2 * node], self.nodes[2 * node + 1]
            self.nodes[node] = digest(self.name, number(node, 4), b"\x83\x83", *below)
        public = number(5, 4) + number(self.code, 4) + self.name + self.nodes[1]
        self.object = {"keytype": "lms", "keyval": {"public": public.hex()}, "scheme": "lms-sha256"}
        self.id = digest(canonical(self.object)).hex()

    def start(self, leaf, chain):
        return digest(self.name, number(leaf, 4), number(chain, 2), b"\xff", self.seed)

    def carried(self, leaf, chain, value, steps):
        head = self.name + number(leaf, 4) + number(chain, 2)
        for step in range(steps):
            value = digest(head, number(step, 1), value)
        return value

    def leaf(self, leaf):
        steps = 2**self.width - 1
        ends = [self.carried(leaf, chain, self.start(leaf, chain), steps) for chain in range(self.chains)]
        kept = digest(self.name, number(leaf, 4), b"\x80\x80", *ends)
        return digest(self.name, number(32 + leaf, 4), b"\x82\x82", kept)

    def sign(self, message):
        leaf = self.used
        self.used += 1
        if leaf == 32:
            raise ValueError("a key signs 32 times")
        seasoning = self.start(leaf, 0xFFFD)
        steps = digits(self.width, digest(self.name, number(leaf, 4), b"\x81\x81", seasoning, message))
        ends = [self.carried(leaf, chain, self.start(leaf, chain), many) for chain, many in enumerate(steps)]
        path = [self.nodes[((32 + leaf) >> level) ^ 1] for level in range(5)]
        return b"".join([number(leaf, 4), number(self.code, 4), seasoning, *ends, number(5, 4), *path])


def signed(part, key, before=b""):
    """The file of a signed part, with further entries before the key's. A part that is given as bytes is its canonical text;
    a tree is spelled with escapes, since no JSON has a raw control character, and the canonical text has them raw."""
    message = part if isinstance(part, bytes) else canonical(part)
    spelled = part if isinstance(part, bytes) else json.dumps(part).encode()
    entry = canonical({"keyid": key.id, "sig": key.sign(message).hex()})
    return b'{"signatures":[' + before + entry + b'],"signed":' + spelled + b"}"


def part(kind, version=1, **members):
    return {"_type": kind, "expires": EXPIRES, "spec_version": "1.0.31", "version": version, **members}


def root(key, consistent=False):
    """The first root, in which one key has all roles."""
    role = {"keyids": [key.id], "threshold": 1}
    roles = {name: role for name in ("root", "timestamp", "snapshot", "targets")}
    return signed(part("root", consistent_snapshot=consistent, keys={key.id: key.object}, roles=roles), key)


def target(content):
    return {"hashes": {"sha256": hashlib.sha256(content).hexdigest()}, "length": len(content)}


def timestamp(key, version=1):
    return signed(part("timestamp", version, meta={"snapshot.json": {"version": version}}), key)


def snapshot(key, names, version=1):
    return signed(part("snapshot", version, meta={f"{name}.json": {"version": 1} for name in names}), key)


def delegation(name, key, **paths):
    return {"keyids": [key.id], "name": name, "terminating": False, "threshold": 1, **paths}


def repository(folder, key, contents, version=1, low=None, consistent=False):
    """Writes a repository whose targets file lists the contents of paths. The key has all roles at the top; `version` is
    that of timestamp and snapshot, and 1 with consistent names. `low` is the key and the contents of a delegated role of
    that name, for three levels of paths."""
    files = {"1.root": root(key, consistent), "timestamp": timestamp(key, version)}
    named = lambda name: f"1.{name}" if consistent else name
    listed = {"targets": {path: target(content) for path, content in contents.items()}}
    if low:
        role = delegation("low", low[0], paths=["*", "*/*", "*/*/*"])
        listed["delegations"] = {"keys": {low[0].id: low[0].object}, "roles": [role]}
        inner = {path: target(content) for path, content in low[1].items()}
        files[named("low")] = signed(part("targets", targets=inner), low[0])
    files[named("targets")] = signed(part("targets", **listed), key)
    files[named("snapshot")] = snapshot(key, ["targets", "low"] if low else ["targets"], version)
    for name, content in files.items():
        write(f"{folder}/metadata/{name}.json", content)
    for path, content in {**contents, **(low[1] if low else {})}.items():
        above, base = os.path.split(path)
        hashed = f"{hashlib.sha256(content).hexdigest()}.{base}" if consistent else base
        write(os.path.join(folder, "targets", above, hashed), content)
