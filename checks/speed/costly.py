"""Makes files that cost as much as possible of their size, for `hostile.py`. A kind makes the targets file, and those of
the roles to which it delegates; the wanted path has a hundred characters."""
import hashlib

import tuf

LIMIT = 5_000_000
ROOM = 3_500
PATH = "a" * 100
KEY, OTHER = tuf.Key(1), tuf.Key(2)


def fill(size, item):
    """As many items as that many bytes hold, joined by commas; item(n) is the nth."""
    items, length = [], 0
    while length < size:
        items.append(item(len(items)))
        length += len(items[-1]) + 1
    return b",".join(items[:-1])


def targets(member=b"", entries=b"", **members):
    """A targets file that lists the path, with a member put in front, and entries before the valid one."""
    listed = tuf.canonical(tuf.part("targets", targets={PATH: tuf.target(b"x")}, **members))
    return tuf.signed(b"{" + member + listed[1:], KEY, entries)


def deep(size):
    """Lists in lists, to the deepest level that is read."""
    return {"targets": targets(b'"A":[' + fill(size, lambda n: b"[" * 124 + b"]" * 124) + b"],")}


def wide(size):
    """One list of numbers of one digit."""
    return {"targets": targets(b'"A":[' + fill(size, lambda n: b"0") + b"],")}


def members(size):
    """One object of members with short names."""
    return {"targets": targets(b'"A":{' + fill(size, lambda n: b'"%06d":0' % n) + b"},")}


def entry(sig):
    return b'{"keyid":"' + KEY.id.encode() + b'","sig":"' + sig + b'"}'


def short_entries(size):
    """Entries under the key's id, whose text has another length than its signatures."""
    return {"targets": targets(entries=fill(size, lambda n: entry(b"%06x" % n)) + b",")}


def long_entries(size):
    """Entries under the key's id, each of which has the form of a signature, and starts all chains at 0."""
    sig = "".join(["00000000", "00000004", "%064x", "00" * 32 * 34, "00000005", "00" * 32 * 5]).encode()
    return {"targets": targets(entries=fill(size, lambda n: entry(sig % n)) + b",")}


def delegating(part, target="b"):
    """A targets file that lists another path, with that text as the first member of `delegations`."""
    listed = tuf.canonical(tuf.part("targets", targets={target: tuf.target(b"x")}))
    return tuf.signed(b'{"_type":"targets","delegations":{' + part + b"}," + listed[len(b'{"_type":"targets",'):], KEY)


def one_role(kind, size, item):
    """A delegation by that many patterns or prefixes, none of which is for the path."""
    role = tuf.canonical(tuf.delegation("r", KEY, **{kind: []}))
    empty = b'"%s":[]' % kind.encode()
    role = role.replace(empty, empty[:-1] + fill(size, item) + b"]")
    return {"targets": delegating(b'"keys":{},"roles":[' + role + b"]")}


def stars(size):
    """Patterns of a hundred stars."""
    return one_role("paths", size, lambda n: b'"' + b"*a" * 99 + b'*b"')


def prefixes(size):
    """Prefixes of hash values, none of which is the path's."""
    digit = int(hashlib.sha256(PATH.encode()).hexdigest()[0], 16)
    return one_role("path_hash_prefixes", size, lambda n: b'"%x"' % ((digit + 1) % 16))


def roles(size):
    """Delegations that aren't for the path."""
    item = lambda n: tuf.canonical(tuf.delegation("r%d" % n, KEY, paths=["b"]))
    return {"targets": delegating(b'"keys":{},"roles":[' + fill(size, item) + b"]")}


def skipped(size):
    """Delegations to one role that was visited."""
    item = lambda n: tuf.canonical(tuf.delegation("targets", KEY, paths=["a*"]))
    return {"targets": delegating(b'"keys":{},"roles":[' + fill(size, item) + b"]")}


def usable(n):
    """A key that can be used, and that nobody can sign by."""
    public = (tuf.number(5, 4) + tuf.number(4, 4) + tuf.number(n, 48)).hex()
    return {"keytype": "lms", "keyval": {"public": public}, "scheme": "lms-sha256"}


def keys(size):
    """A delegation by as many keys as fit, two of which have to sign, to a file with as many entries as fit."""
    made = map(tuf.canonical, map(usable, range(size // 325)))
    ring = sorted((hashlib.sha256(key).hexdigest().encode(), key) for key in made)
    listed = b",".join(b'"' + id + b'":' + key for id, key in ring)
    ids = b",".join(b'"' + id + b'"' for id, _ in ring)
    role = tuf.canonical({**tuf.delegation("r", OTHER, paths=["a*"]), "keyids": [], "threshold": 2})
    role = role.replace(b'"keyids":[]', b'"keyids":[' + ids + b"]")
    inner = tuf.canonical(tuf.part("targets", targets={PATH: tuf.target(b"x")}))
    sealed = tuf.signed(inner, OTHER, fill(size, lambda n: b'{"keyid":"%064x","sig":"00"}' % n) + b",")
    return {"targets": delegating(b'"keys":{' + listed + b'},"roles":[' + role + b"]"), "r": sealed}


def shared(size):
    """As many delegations as fit, all to one role, whose file has thousands of entries under its key's id."""
    listed = tuf.canonical({OTHER.id: OTHER.object})
    item = tuf.canonical(tuf.delegation("r", OTHER, paths=["a*"]))
    entries = b",".join(b'{"keyid":"%s","sig":"%06x"}' % (OTHER.id.encode(), n) for n in range(size // 1250)) + b","
    sealed = tuf.signed(tuf.canonical(tuf.part("targets", targets={})), OTHER, entries)
    return {"targets": delegating(b'"keys":' + listed + b',"roles":[' + fill(size, lambda n: item) + b"]"), "r": sealed}


# Each kind: the function that makes the files, the fault for which the path is refused, if any, and the roles on the way
# to it below the top.
KINDS = {
    "deep": (deep, ""), "wide": (wide, ""), "members": (members, ""), "short_entries": (short_entries, ""),
    "long_entries": (long_entries, ""), "stars": (stars, "NotFound"), "prefixes": (prefixes, "NotFound"),
    "roles": (roles, "NotFound"), "skipped": (skipped, "NotFound"), "keys": (keys, 'Unsigned "r"'),
    "shared": (shared, "NotFound", "r"),
}
