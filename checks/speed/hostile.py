"""Makes hostile and large mirrors, for the scripts beside it. Each is written into the folder where its function is called,
which has empty folders `metadata` and `targets`."""
import hashlib
from typing import Callable, NamedTuple

from common import read, write
import costly
import tuf

KEY = costly.KEY


class Mirror(NamedTuple):
    """The paths that may be wanted, and what the workflow does with them: the step at which it stops as unsigned, if
    any, and else the roles on the way to a path, the last of which lists it, the length of its file, and the fault for
    which all of them are refused, if any. If there is a script, `tufcheck make` makes the files from it. Of a whole mirror
    every file is wanted, and the paths are all, in byte order. The state before is that of the first root unless given."""

    paths: list
    stop: str = ""
    way: Callable = lambda path: ["targets"]
    script: str = ""
    length: Callable = len
    fault: str = ""
    whole: bool = False
    before: bytes = b""


def write_holes(name, size):
    """Writes a file of that many bytes that takes no room."""
    with open(name, "wb") as file:
        file.truncate(size)


def unhashed(size):
    """A listing of a target of that many bytes with a wrong digest."""
    return {"hashes": {"sha256": "00" * 32}, "length": size}


# Hostile mirrors: a right first root, and files that nobody with a key has signed.


def unsigned(kind, version=1, **members):
    return b'{"signatures":[],"signed":' + tuf.canonical(tuf.part(kind, version, **members)) + b"}"


def delegating(*roles):
    """An unsigned targets file with these delegations."""
    return unsigned("targets", targets={}, delegations={"keys": {}, "roles": list(roles)})


def delegation(name, **paths):
    return {"keyids": [], "name": name, "threshold": 1, **paths}


def binned(bits, prefix):
    """An unsigned targets file with hash bins."""
    succinct = {"bit_length": bits, "keyids": [], "name_prefix": prefix, "threshold": 1}
    return unsigned("targets", targets={}, delegations={"keys": {}, "succinct_roles": succinct})


def write_unsigned(files, names=()):
    """Writes the right root, the files of these roles, and a snapshot that lists them and further names."""
    write("metadata/1.root.json", tuf.root(KEY))
    for name, content in files.items():
        write(f"metadata/{name}.json", content)
    meta = {f"{name}.json": {"version": 1} for name in [*files, *names]}
    write("metadata/snapshot.json", unsigned("snapshot", meta=meta))
    write("metadata/timestamp.json", unsigned("timestamp", meta={"snapshot.json": {"version": 1}}))


def stopped(paths):
    return Mirror(list(paths), "timestamp")


def numbered(count):
    return (f"p{number}" for number in range(count))


def keyless(roles, size, count):
    """All roles lead to each of the paths, none of which has the digit that the roles' prefixes have."""
    names = [f"r{number}" for number in range(roles)]
    prefixes = delegating(delegation("x", path_hash_prefixes=["0"] * ((size - 500) // 4)))
    top = delegating(*(delegation(name, paths=["*"]) for name in names))
    write_unsigned({"targets": top, **dict.fromkeys(names, prefixes)})
    paths = [path for path in numbered(2 * count) if hashlib.sha256(path.encode()).digest()[0] >= 16]
    return stopped(paths[:count])


def patterns(size, count):
    """The pattern is compared with a path from each of its characters on, and is for none."""
    pattern = "a/*???????z"
    write_unsigned({"targets": delegating(delegation("x", paths=[pattern] * (size // (len(pattern) + 3))))})
    return stopped(f"a/{'a' * 90}{number:04}" for number in range(count))


def repeated(times, count):
    top = delegating(*[delegation("r", paths=["*"])] * times)
    write_unsigned({"targets": top, "r": unsigned("targets", targets={})})
    return stopped(numbered(count))


def prefix(size, count):
    write_unsigned({"targets": binned(32, "p" * size)})
    return stopped(numbered(count))


def listings(names, count):
    write_unsigned({"targets": binned(32, "bin")}, (f"bin-{number:08x}" for number in range(names)))
    return stopped(numbered(count))


def roots(many, size):
    """Each root lists as many one-digit ids of keys for its own role as fit."""
    listed = {name: {"keyids": [KEY.id], "threshold": 1} for name in ("timestamp", "snapshot", "targets")}
    listed["root"] = {"keyids": ["0"] * ((size - 2000) // 4), "threshold": 1}
    first = unsigned("root", consistent_snapshot=False, keys={KEY.id: KEY.object}, roles=listed)
    write("metadata/1.root.json", tuf.root(KEY))
    for version in range(2, many + 2):
        write(f"metadata/{version}.root.json", first.replace(b'"version":1}', b'"version":%d}' % version))
    return Mirror(["p"], "root")


class Forged:
    """A key of which only the id is known. Its signatures have the form of one, and are invalid."""

    id = KEY.id

    def sign(self, message):
        return tuf.number(0, 4) + tuf.number(4, 4) + bytes(35 * 32) + tuf.number(5, 4) + bytes(5 * 32)


def target(size):
    """The large target has only holes, and another digest than listed. The timestamp has as many forged signatures as
    fit, so that workers have begun before it is refused."""
    listed = {"large": unhashed(size), "small": tuf.target(b"abc")}
    write_unsigned({"targets": unsigned("targets", targets=listed)})
    entry = tuf.canonical({"keyid": KEY.id, "sig": Forged().sign(b"").hex()}) + b","
    part = tuf.part("timestamp", meta={"snapshot.json": {"version": 1}})
    write("metadata/timestamp.json", tuf.signed(part, Forged(), entry * 5))
    write("targets/small", b"abc")
    write_holes("targets/large", size)
    return stopped(["large", "small"])


def write_costly(kind, size):
    """Writes the files of a kind of `costly.py`, the targets file of some bytes fewer than that."""
    files = costly.KINDS[kind][0](size - costly.ROOM)
    write("metadata/1.root.json", tuf.root(KEY))
    for name, content in files.items():
        write(f"metadata/{name}.json", content)
    write("metadata/snapshot.json", tuf.snapshot(costly.KEY, files))
    write("metadata/timestamp.json", tuf.timestamp(costly.KEY))


def forged(kind, size=costly.LIMIT):
    costly.KEY = Forged()
    write_costly(kind, size)
    return stopped([costly.PATH])


# Honest mirrors.


def state_of(*roles):
    """The state file that trusts the files of these roles."""
    names = {role: "1.root" if role == "root" else role for role in roles}
    return tuf.canonical({role: read(f"metadata/{name}.json").hex() for role, name in names.items()})


def signed(kind, size):
    _, fault, *way = costly.KINDS[kind]
    write_costly(kind, size)
    write(f"targets/{costly.PATH}", b"x")
    return Mirror([costly.PATH], way=lambda path: ["targets", *way], length=lambda path: len(b"x"), fault=fault)


def snapshots(size):
    """A snapshot with as many names as fit, after one with the same names."""
    mirror, states = signed("deep", costly.ROOM), []
    names = ["targets", *("%06d" % number for number in range((size - costly.ROOM) // 31))]
    for version in (1, 2):
        write("metadata/snapshot.json", tuf.snapshot(KEY, names, version))
        write("metadata/timestamp.json", tuf.timestamp(KEY, version))
        states.append(state_of("root", "snapshot", "targets", "timestamp"))
    return mirror._replace(before=states[0])


def write_signed(listed):
    """Writes metadata in which one key has all roles, and the targets file lists these targets."""
    write("metadata/1.root.json", tuf.root(KEY))
    write("metadata/targets.json", tuf.signed(tuf.canonical(tuf.part("targets", targets=listed)), KEY))
    write("metadata/snapshot.json", tuf.snapshot(KEY, ["targets"]))
    write("metadata/timestamp.json", tuf.timestamp(KEY))


def script(*lines):
    """A script with these lines behind the keys of the top-level roles, and before the writing of their files."""
    names = ("root", "timestamp", "snapshot", "targets")
    keys = [f"key {key} 5\ntop {name} 1 {key}" for key, name in enumerate(names, 1)]
    writes = ["write root 1 1", "write targets 1 4", "write snapshot 1 3", "write timestamp 1 2"]
    return "\n".join([*keys, *lines, *writes]) + "\n"


def listing(role, path):
    """The line of a script for a target whose content is its path."""
    return f"target {role} {path} {path.encode().hex()} sha256"


def hashed(targets, bits, content=str.encode):
    """Targets in hash bins, as a package index would lay them out, each of which has the content of its path."""
    paths = [f"packages/{number % 256:02x}/package-{number}.tar.gz" for number in range(targets)]
    name_of = lambda number: f"bin-{number:0{(bits + 3) // 4}x}"
    bin_of = lambda path: name_of(int.from_bytes(hashlib.sha256(path.encode()).digest(), "big") >> (256 - bits))
    lines = ["key 5 10", f"succinct targets 1 5 {bits} bin"]
    lines += [f"target {bin_of(path)} {path} {content(path).hex()} sha256" for path in paths]
    lines += [f"write {name_of(number)} 1 5" for number in range(2 ** bits)]
    length = lambda path: len(content(path))
    return Mirror(paths, way=lambda path: ["targets", bin_of(path)], script=script(*lines), length=length)


def folders(targets, roles):
    names = [f"d{number}" for number in range(roles)]
    paths = [f"{names[number * roles // targets]}/package-{number}.tar.gz" for number in range(targets)]
    way = lambda path: ["targets", path.partition("/")[0]]
    lines = ["key 5 10"]
    lines += [f"delegate targets {name} 1 5 go paths {name}/*" for name in names]
    lines += [listing(way(path)[-1], path) for path in paths]
    lines += [f"write {name} 1 5" for name in names]
    return Mirror(paths, way=way, script=script(*lines))


def diamond(targets):
    paths = [f"{'ab'[number % 2]}{number}" for number in range(targets)]
    lines = [f"key {key} 5" for key in range(5, 9)]
    lines += ["delegate targets a 1 5 go paths a*", "delegate targets b 1 6 go paths b*"]
    lines += ["delegate a c 1 7 go paths a*", "delegate b c 1 8 go paths b*"]
    lines += [listing("c", path) for path in paths]
    lines += ["write a 1 5", "write b 1 6", "write c 1 7,8"]
    return Mirror(paths, way=lambda path: ["targets", path[0], "c"], script=script(*lines))


def least():
    return Mirror(["abc.txt"], script=script(listing("targets", "abc.txt")))


def signatures(roles, keys):
    """The last role lists the path, to which each leads, and all are signed by all keys."""
    names = [f"r{number}" for number in range(roles)]
    signers = ",".join(str(5 + number) for number in range(keys))
    lines = [f"key {5 + number} 5" for number in range(keys)]
    lines += [f"delegate targets {name} {keys} {signers} go paths *" for name in names]
    lines += [listing(names[-1], "abc.txt")]
    lines += [f"write {name} 1 {signers}" for name in names]
    return Mirror(["abc.txt"], way=lambda path: ["targets", *names], script=script(*lines))


def whole(targets, roles, keys):
    """Each role lists the targets of a folder with both digests, and all keys sign it. Every file is wanted."""
    names = [f"d{number:02}" for number in range(roles)]
    paths = [f"{names[number * roles // targets]}/package-{number:05}.tar.gz" for number in range(targets)]
    way = lambda path: ["targets", path.partition("/")[0]]
    signers = ",".join(str(5 + number) for number in range(keys))
    lines = [f"key {5 + number} 5" for number in range(keys)]
    lines += [f"delegate targets {name} {keys} {signers} go paths {name}/*" for name in names]
    lines += [f"target {way(path)[-1]} {path} {path.encode().hex()} both" for path in paths]
    lines += [f"write {name} 1 {signers}" for name in names]
    return Mirror(paths, way=way, script=script(*lines), whole=True)


def large(size):
    """A targets file that lists as many targets as fit, of which the one in the middle is there."""
    names = [f"p{number:05}" for number in range((size - 3500) // 109)]
    wanted = names[len(names) // 2]
    write_signed({name: tuf.target(name.encode()) for name in names})
    write(f"targets/{wanted}", wanted.encode())
    return Mirror([wanted])


# The mirrors of each case: a name, the function that makes it and what that takes, and the numbers of wanted paths.
CASES = {
    "keyless": [("keyless", keyless, (31, 5_000_000, 500), (1, 20, 500))],
    "small": [("small", keyless, (31, 120_000, 20_000), (20, 20_000))],
    "patterns": [("patterns", patterns, (3_900_000, 500), (500,))],
    "repeated": [("repeated", repeated, (40_000, 500), (500,))],
    "prefix": [("prefix", prefix, (3_800_000, 500), (500,))],
    "listings": [("listings", listings, (50_000, 5_000), (5_000,))],
    "roots": [("roots", roots, (250, 500_000), (1,))],
    "target": [("target", target, (600_000_000,), (2,))],
    "costly": [(f"costly {kind}", forged, (kind,), (1,)) for kind in costly.KINDS],
    "fitting": [(f"fitting {kind}", forged, (kind, 3_950_000), (1,)) for kind in costly.KINDS],
    "bins": [(f"bins {2 ** bits}", hashed, (20_000, bits), (1, 1_000, 20_000)) for bits in (6, 10)],
    "folders": [("folders", folders, (20_000, 1_000), (1, 1_000, 20_000))],
    "diamond": [("diamond", diamond, (2_000,), (2_000,))],
    "least": [("least", least, (), (1,))],
    "signatures": [("signatures", signatures, (32, 32), (1,))],
    "large": [(f"large {size}", large, (size,), (1,)) for size in (3_900_000, 5_000_000)],
    "whole": [("whole", whole, (20_000, 32, 32), (20_000,))],
    "signed": [(f"{kind} {size // 1000}k", signed, (kind, size), (1,))
               for kind in costly.KINDS for size in (1_250_000, 2_500_000, 5_000_000)],
    "snapshots": [(f"snapshots {size // 1000}k", snapshots, (size,), (1,)) for size in (500_000, 1_000_000, 2_000_000)],
}
