"""Verifies a repository by docs/FORMATS.md (TUF 1.0 sections 4 and 5, RFC 8554), and prints the lines of
docs/USERS.md, for second.py beside it. It was written from these pages and shares no code with the crates. A file's tree
is what Python's `json` reads, but for what they say otherwise; a float in it is a `Float`. The lines of `--why` are those
of `whys/specs` and `reasons/specs`, and what they compare is the standard's."""
import hashlib
import json
import math
import re

from common import quoted
import tuf

MOST = 2**63 - 1
KINDS = ("root", "timestamp", "snapshot", "targets")
LIMITS = {"root": 512_000, "timestamp": 16_384, "snapshot": 2_000_000, "targets": 5_000_000}
WIDTHS = {3: (4, 67), 4: (8, 34)}
HEIGHTS = {5: 5, 6: 10, 7: 15}
LENGTHS = {"sha256": 64, "sha512": 128}
# The most bytes of a file that are read, and of a text and of keys or names that are printed
READ, SHOWN, TOLD = 5_000_001, 256, 64


class Refused(Exception):
    """The fault of a file, and the words of each line of its reason."""

    def __init__(self, fault, *why):
        super().__init__(fault)
        self.why = why


class Float:
    """A number that isn't whole."""


# ---- JSON (TUF section 4.1)

def of_float(spelled):
    if math.isinf(float(spelled)):
        raise ValueError(spelled)
    return Float()


def of_int(spelled):
    whole = spelled != "-0" and len(spelled) < 21 and -(2**63) <= int(spelled) < 2**64
    return int(spelled) if whole else of_float(spelled)


def of_word(spelled):
    raise ValueError(spelled)


def depth(tree):
    below = tree.values() if isinstance(tree, dict) else tree if isinstance(tree, list) else None
    return 0 if below is None else 1 + max(map(depth, below), default=0)


def texts(tree):
    """All texts of the tree, keys too."""
    if isinstance(tree, dict):
        for key, value in tree.items():
            yield key
            yield from texts(value)
    elif isinstance(tree, list):
        for item in tree:
            yield from texts(item)
    elif isinstance(tree, str):
        yield tree


def tree_of(content):
    try:
        tree = json.loads(content.decode(), parse_float=of_float, parse_int=of_int, parse_constant=of_word)
        for text in texts(tree):
            text.encode()
    except (ValueError, RecursionError):
        raise Refused("Malformed", "json") from None
    ask(depth(tree) <= 127, "Malformed", "json")
    return tree


def has_float(tree):
    below = tree.values() if isinstance(tree, dict) else tree if isinstance(tree, list) else ()
    return isinstance(tree, Float) or any(map(has_float, below))


# ---- what files say (TUF sections 4.2 to 4.6)

def ask(holds, fault="Malformed", *why):
    if not holds:
        raise Refused(fault, *why or ("form",) * (fault == "Malformed"))


def member(tree, name, kind, why="form"):
    """A needed member of that Python type."""
    ask(isinstance(tree, dict) and type(tree.get(name)) is kind, "Malformed", why)
    return tree[name]


def whole(tree, name, least=1):
    value = member(tree, name, int)
    ask(least <= value <= MOST)
    return value


def words(tree, name):
    value = member(tree, name, list)
    ask(all(isinstance(it, str) for it in value))
    return value


def truth(tree, name):
    return member(tree, name, bool) if name in tree else False


def moment(text):
    """A moment as numbers, which are compared from the year on."""
    ask(re.fullmatch("[0-9]{4}-[0-9]{2}-[0-9]{2}T[0-9]{2}:[0-9]{2}:[0-9]{2}Z", text, re.ASCII))
    year, month, day, hour, minute, second = found = tuple(map(int, re.findall("[0-9]+", text)))
    leap = year % 4 == 0 and (year % 100 != 0 or year % 400 == 0)
    days = (31, 29 if leap else 28, 31, 30, 31, 30, 31, 31, 30, 31, 30, 31)
    ask(1 <= month <= 12 and 1 <= day <= days[month - 1] and hour < 24 and minute < 60 and second < 60)
    return found


def role(tree):
    return {"keyids": words(tree, "keyids"), "threshold": whole(tree, "threshold")}


def hashes(tree):
    found = member(tree, "hashes", dict)
    for algorithm, value in found.items():
        ask(isinstance(value, str))
        ask(algorithm not in LENGTHS or re.fullmatch(f"[0-9a-fA-F]{{{LENGTHS[algorithm]}}}", value))
    return {algorithm: value.lower() for algorithm, value in found.items()}


def content_of(tree):
    length = whole(tree, "length", 0) if "length" in tree else None
    return {"length": length, "hashes": hashes(tree) if "hashes" in tree else None}


def listing(tree):
    return {"version": whole(tree, "version"), **content_of(tree)}


def target(tree):
    ask(isinstance(tree, dict) and "length" in tree and "hashes" in tree)
    return content_of(tree)


def keys(tree):
    found = member(tree, "keys", dict)
    ask(all(isinstance(key, dict) for key in found.values()))
    return found


def matcher(tree):
    """A test of whether a delegation is for a path."""
    ask(("paths" in tree) != ("path_hash_prefixes" in tree))
    if "paths" in tree:
        patterns = words(tree, "paths")
        ask(not any("[" in pattern for pattern in patterns))
        spelled = [re.sub(r"[*?]|[^*?]+", lambda it: {"*": "[^/]*", "?": "[^/]"}.get(it[0]) or re.escape(it[0]), pattern)
                   for pattern in patterns]
        return lambda path: any(re.fullmatch(pattern, path, re.DOTALL) for pattern in spelled)
    prefixes = words(tree, "path_hash_prefixes")
    ask(all(re.fullmatch("[0-9a-f]{1,64}", prefix) for prefix in prefixes))
    return lambda path: any(map(hashlib.sha256(path.encode()).hexdigest().startswith, prefixes))


def delegation(tree):
    return {"name": member(tree, "name", str), **role(tree), "ends": truth(tree, "terminating"), "is_for": matcher(tree)}


def bins(tree):
    """The one delegation for each path."""
    shared, bits, prefix = role(tree), whole(tree, "bit_length"), member(tree, "name_prefix", str)
    ask(bits <= 32)

    def bin_of(path):
        number = int.from_bytes(hashlib.sha256(path.encode()).digest()[:4], "big") >> (32 - bits)
        return f"{prefix}-{number:0{len(f'{2**bits - 1:x}')}x}"

    return lambda path: [{"name": bin_of(path), **shared, "ends": True}]


def delegations(tree):
    """The ring of the delegations' keys, and which delegations are for a path."""
    if "delegations" not in tree:
        return {}, lambda path: []
    found = member(tree, "delegations", dict)
    ask(("roles" in found) != ("succinct_roles" in found))
    ring = keys(found)
    if "roles" in found:
        roles = [delegation(it) for it in member(found, "roles", list)]
        return ring, lambda path: [it for it in roles if it["is_for"](path)]
    return ring, bins(member(found, "succinct_roles", dict))


def says(kind, tree):
    """What the signed part of a file of that kind says."""
    ask(tree.get("_type") == kind and member(tree, "spec_version", str).startswith("1."))
    found = {"version": whole(tree, "version"), "expires": moment(member(tree, "expires", str))}
    if kind == "root":
        roles = member(tree, "roles", dict)
        found |= {"keys": keys(tree), "roles": {name: role(roles.get(name)) for name in KINDS},
                  "consistent": truth(tree, "consistent_snapshot")}
    elif kind == "targets":
        listed = member(tree, "targets", dict)
        found |= {"targets": {path: target(it) for path, it in listed.items()}}
        found["ring"], found["followed"] = delegations(tree)
    elif kind == "timestamp":
        found["snapshot"] = listing(member(tree, "meta", dict).get("snapshot.json"))
    else:
        found["meta"] = {name: listing(it) for name, it in member(tree, "meta", dict).items()}
    return found


def read(kind, content):
    """A file of that kind: what it says, its bytes, and who signed which text."""
    tree = tree_of(content)
    part = member(tree, "signed", dict, "object")
    ask(not has_float(part), "Malformed", "float")
    text = lambda it, name: member(it, name, str, "signatures")
    entries = [(text(it, "keyid"), text(it, "sig")) for it in member(tree, "signatures", list, "signatures")]
    return {**says(kind, part), "bytes": content, "text": tuf.canonical(part), "entries": entries}


# ---- signatures (RFC 8554 sections 4.6 and 5.4.2; TUF section 4.3)

def of_hex(text):
    return bytes.fromhex(text) if re.fullmatch("([0-9a-fA-F]{2})*", text) else None


def value_of(key):
    """The key's public value, where it is one of a supported kind."""
    value = key.get("keyval")
    public = value.get("public") if isinstance(value, dict) else None
    public = of_hex(public) if isinstance(public, str) else None
    known = public is not None and len(public) == 56
    known = known and int.from_bytes(public[:4], "big") in HEIGHTS and int.from_bytes(public[4:8], "big") in WIDTHS
    return public if known else None


def is_lms(key):
    return key.get("keytype") == "lms" and key.get("scheme") == "lms-sha256"


def public_of(key_id, key):
    """The key's public value, where it is usable."""
    public = value_of(key)
    usable = is_lms(key) and public is not None
    return public if usable and hashlib.sha256(tuf.canonical(key)).hexdigest() == key_id else None


def kind_of(public):
    """The height of the key's tree, and the bits and the number of its chains."""
    return HEIGHTS[int.from_bytes(public[:4], "big")], *WIDTHS[int.from_bytes(public[4:8], "big")]


def is_valid(public, message, sig):
    height, width, chains = kind_of(public)
    name, top = public[8:24], public[24:]
    if len(sig) != 12 + 32 + 32 * chains + 32 * height or sig[4:8] != public[4:8]:
        return False
    leaf, after = int.from_bytes(sig[:4], "big"), 40 + 32 * chains
    if leaf >= 2**height or sig[after : after + 4] != public[:4]:
        return False
    value = tuf.digest(name, tuf.number(leaf, 4), b"\x81\x81", sig[8:40], message)
    ends = []
    for chain, first in enumerate(tuf.digits(width, value)):
        end, head = sig[40 + 32 * chain : 72 + 32 * chain], name + tuf.number(leaf, 4) + tuf.number(chain, 2)
        for step in range(first, 2**width - 1):
            end = tuf.digest(head, tuf.number(step, 1), end)
        ends.append(end)
    node = 2**height + leaf
    value = tuf.digest(name, tuf.number(node, 4), b"\x82\x82", tuf.digest(name, tuf.number(leaf, 4), b"\x80\x80", *ends))
    for at in range(after + 4, len(sig), 32):
        below = (sig[at : at + 32], value) if node % 2 else (value, sig[at : at + 32])
        node //= 2
        value = tuf.digest(name, tuf.number(node, 4), b"\x83\x83", *below)
    return value == top


def is_met(file, ring, asked):
    """Whether enough public values signed the file for the role's threshold."""
    signed = set()
    for key_id in set(asked["keyids"]) & ring.keys():
        public = public_of(key_id, ring[key_id])
        sigs = [of_hex(sig) for name, sig in file["entries"] if name == key_id]
        if public is not None and any(sig is not None and is_valid(public, file["text"], sig) for sig in sigs):
            signed.add(public)
    return len(signed) >= asked["threshold"]


# ---- why a file is refused, line by line

def cut(text):
    spelled = text.encode()
    return quoted(spelled) if len(spelled) <= SHOWN else quoted(spelled[:SHOWN]) + ".."


def most(lines):
    """The first lines, and how many more there are."""
    return [*lines[:TOLD], *([f"more {len(lines) - TOLD}"] if len(lines) > TOLD else [])]


def invalid(public, sig):
    """The first check that a signature fails (RFC 8554 section 5.4.2)."""
    height, _, chains = kind_of(public)
    sig = of_hex(sig)
    if sig is None:
        return "hexadecimal"
    due = 12 + 32 + 32 * chains + 32 * height
    if len(sig) != due:
        return f"length {len(sig)} {due}"
    if sig[4:8] + sig[40 + 32 * chains : 44 + 32 * chains] != public[4:8] + public[:4]:
        return "kind"
    leaf = int.from_bytes(sig[:4], "big")
    return f"leaf {leaf}" if leaf >= 2**height else "root"


def signing(file, ring, asked, whose):
    """Who signed, of a role's keys, which the file of that name lists: each id once, in the role's order."""
    signers, lines = {}, []
    for key_id in dict.fromkeys(asked["keyids"]):
        key = ring.get(key_id)
        if key is None:
            what = "absent"
        elif not is_lms(key):
            what = f"unusable type {cut(key['keytype'] if isinstance(key.get('keytype'), str) else '')}"
        elif value_of(key) is None:
            what = "unusable kind"
        elif public_of(key_id, key) is None:
            what = "unusable id"
        else:
            public = public_of(key_id, key)
            sigs = [sig for name, sig in file["entries"] if name == key_id]
            good = next((sig for sig in map(of_hex, sigs) if sig is not None and is_valid(public, file["text"], sig)), None)
            if good is None:
                what = f"invalid {len(sigs)} {invalid(public, sigs[0])}" if sigs else "unsigned"
            elif public in signers:
                what = f"again {cut(signers[public])}"
            else:
                what = f"signed {int.from_bytes(good[:4], 'big')}"
            if good is not None:
                signers.setdefault(public, key_id)
        lines.append(f"key {cut(key_id)} {what}")
    return [f"keys {cut(whose)} threshold {asked['threshold']} signed {len(signers)}", *most(lines)]


def ask_signed(file, ring, asked, whose):
    if not is_met(file, ring, asked):
        raise Refused("Unsigned", *signing(file, ring, asked, whose))


def ask_version(file, due):
    ask(file["version"] == due, "VersionWrong", f"version {file['version']} expected {due}")


def fall(what, found, trusted):
    """That a number fell, if it did."""
    return [f"{what} {found} trusted {trusted}"] if found < trusted else []


def name_fall(name, found, trusted):
    """That a name is no longer listed or its version fell, if so."""
    return fall(f"name {cut(name)}", found["version"], trusted["version"]) if found else [f"name {cut(name)} gone"]


def spelled_moment(found):
    return "{:04}-{:02}-{:02}T{:02}:{:02}:{:02}Z".format(*found)


# ---- the checks of one file (TUF sections 5.3 to 5.7)

def check_content(content, listed):
    ask(listed["length"] in (None, len(content)), "LengthWrong", f"length {len(content)} listed {listed['length']}")
    if listed["hashes"] is not None:
        known = [it for it in LENGTHS if it in listed["hashes"]]
        found = {it: hashlib.new(it, content).hexdigest() for it in known}
        differing = [it for it in known if found[it] != listed["hashes"][it]]
        ask(not differing, "HashWrong", *(f"{it} {found[it]} listed {listed['hashes'][it]}" for it in differing))
        ask(known, "NoKnownHash")


def fetched(files, name, kind):
    ask(name in files, "Missing", f"absent {cut(name)}")
    length = min(len(files[name]), READ)
    ask(length <= LIMITS[kind], "TooLong", f"length {length} most {LIMITS[kind]}")
    return files[name]


# ---- the steps of a cycle (TUF sections 5.3 to 5.6)

class Cycle:
    """A cycle over the files of a repository; `state` are the trusted files by their kinds."""

    def __init__(self, state, files, targets, now, limit):
        self.state, self.files, self.targets, self.now, self.limit = dict(state), files, targets, now, limit
        self.accepted = {}
        # The name of the file that is examined, none if it is absent or a trusted one, and how many of its bytes are read
        self.name, self.length = None, 0

    def trust(self, kind, file):
        self.state[kind] = file

    def expires(self, file, word=""):
        times = f"{word}expires {spelled_moment(file['expires'])} moment {spelled_moment(self.now)}"
        ask(file["expires"] > self.now, "Expired", times)

    def stays(self, file):
        """Asks that a trusted file isn't expired."""
        self.name = None
        self.expires(file, "trusted ")

    def fetched(self, name, kind):
        self.name, self.length = (name, min(len(self.files[name]), READ)) if name in self.files else (None, 0)
        return fetched(self.files, name, kind)

    def by_root(self, kind):
        root = self.state["root"]
        return root["keys"], root["roles"][kind], f"{root['version']}.root.json"

    def root(self):
        while True:
            old = self.state["root"]
            name = f"{old['version'] + 1}.root.json"
            if name not in self.files:
                return self.stays(old)
            new = read("root", self.fetched(name, "root"))
            ask_signed(new, *self.by_root("root"))
            ask_signed(new, new["keys"], new["roles"]["root"], name)
            ask_version(new, old["version"] + 1)
            self.trust("root", new)
            if any(set(old["roles"][it]["keyids"]) != set(new["roles"][it]["keyids"]) for it in ("timestamp", "snapshot")):
                self.state.pop("timestamp", None)
                self.state.pop("snapshot", None)

    def timestamp(self):
        new = read("timestamp", self.fetched("timestamp.json", "timestamp"))
        ask_signed(new, *self.by_root("timestamp"))
        old = self.state.get("timestamp")
        if old and new["version"] == old["version"]:
            return self.stays(old)
        falls = fall("version", new["version"], old["version"]) if old else []
        falls += fall("snapshot", new["snapshot"]["version"], old["snapshot"]["version"]) if old else []
        ask(not falls, "Rollback", *falls)
        self.expires(new)
        self.trust("timestamp", new)

    def snapshot(self):
        listed = self.state["timestamp"]["snapshot"]
        new = self.listed("snapshot.json", "snapshot", listed, *self.by_root("snapshot"))
        old = self.state.get("snapshot", {"meta": {}})["meta"]
        falls = [it for name in sorted(old, key=str.encode) for it in name_fall(name, new["meta"].get(name), old[name])]
        ask(not falls, "Rollback", *most(falls))
        self.expires(new)
        self.trust("snapshot", new)

    def listed(self, name, kind, listed, ring, asked, whose):
        """A file that another one lists, up to its version. `whose` is the file that lists its keys."""
        if listed is None:
            self.name, snapshot = None, self.state["snapshot"]
            raise Refused("NotListed", f"snapshot {snapshot['version']} names {len(snapshot['meta'])}")
        consistent = self.state["root"]["consistent"]
        content = self.fetched(f"{listed['version']}.{name}" if consistent else name, kind)
        check_content(content, listed)
        file = read(kind, content)
        ask_signed(file, ring, asked, whose)
        ask_version(file, listed["version"])
        return file

    def targets_of(self, name, ring, asked, whose):
        """The targets file of a role."""
        listed = self.state["snapshot"]["meta"].get(f"{name}.json")
        file = self.listed(f"{name}.json", "targets", listed, ring, asked, whose)
        self.expires(file)
        return file

    def top(self):
        self.trust("targets", self.targets_of("targets", *self.by_root("targets")))

    def steps(self):
        """The step and the fault of the end, or none, and the lines that say why."""
        for name, step in zip(KINDS, (self.root, self.timestamp, self.snapshot, self.top)):
            try:
                step()
            except Refused as fault:
                return f"{name} {fault}", self.why(fault)
        return None, []

    def why(self, fault):
        """The lines of a refusal. The first is that of the file that is examined, if it is there."""
        file = [f"file {cut(self.name)} {self.length}"] if self.name is not None else []
        return [f"why {line}" for line in [*file, *fault.why]]

    # ---- the search for a path (TUF section 5.6.7)

    def search(self, path):
        """The role that lists the path and what it lists, or the words of the verdict."""
        visited = []

        def visit(name, file):
            visited.append(name)
            if path in file["targets"]:
                return name, file["targets"][path]
            for it in file["followed"](path):
                if it["name"] not in visited:
                    if len(visited) == self.limit:
                        return "LimitReached"
                    try:
                        below = self.targets_of(it["name"], file["ring"], it, name)
                    except Refused as fault:
                        return f"{fault} {quoted(it['name'])}"
                    self.accepted[it["name"]] = below["version"]
                    found = visit(it["name"], below)
                    if found:
                        return found
                if it["ends"]:
                    return "NotFound"
            return None

        return visit("targets", self.state["targets"]) or "NotFound"

    def target(self, path, listed):
        """The target's bytes. Of a file that is longer than listed one byte more is read, since no other path has it."""
        folder, slash, base = path.rpartition("/")
        known = [listed["hashes"][it] for it in LENGTHS if it in listed["hashes"]]
        names = [f"{folder}{slash}{it}.{base}" for it in known] if self.state["root"]["consistent"] else [path]
        self.name = next((it for it in names if it in self.targets), None)
        ask(self.name is not None, "Missing", *(f"absent {cut(it)}" for it in names))
        content = self.targets[self.name][: listed["length"] + 1]
        self.length = len(content)
        check_content(content, listed)
        return content

    def verdict(self, path):
        """The line of a wanted path, and those that say why its target's file is refused."""
        found = self.search(path)
        if isinstance(found, str):
            return f"no {quoted(path)} {found}", []
        try:
            return f"ok {quoted(path)} {len(self.target(path, found[1]))} {quoted(found[0])}", []
        except Refused as fault:
            return f"no {quoted(path)} {fault}", self.why(fault)


def verified(state, files, targets, now, limit, wanted, is_told=False):
    """The new state, the lines, with those of `--why` or without, and the status of a run."""
    cycle = Cycle(state, files, targets, moment(now), limit)
    end, why = cycle.steps()
    verdicts = [(f"no {quoted(path)} NotSearched", []) if end else cycle.verdict(path) for path in wanted]
    roles = [f"role {quoted(name)} {cycle.accepted[name]}" for name in sorted(cycle.accepted, key=str.encode)]
    told = lambda line, why: [line, *(why if is_told else [])]
    lines = [f"root {cycle.state['root']['version']}", *told(f"end {end or 'ready'}", why), *roles]
    lines += [line for verdict in verdicts for line in told(*verdict)]
    status = 2 if end else 1 if any(line.startswith("no ") for line, _ in verdicts) else 0
    return cycle.state, "".join(f"{line}\n" for line in lines), status


def replayed(state, files, targets, now, limit, wanted, times):
    """The new state, the lines with those of `--why`, and the status of a repository that is replayed several times."""
    lines = ""
    for number in range(times):
        state, more, status = verified(state, files, targets, now, limit, wanted, is_told=True)
        lines += f"cycle {number + 1}\n{more}"
    return state, lines, status


def spelled(state):
    """The bytes of a state file."""
    return tuf.canonical({kind: file["bytes"].hex() for kind, file in state.items()})
