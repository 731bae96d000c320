#!/usr/bin/env python3
"""Has Bouncy Castle, or `lmskey`, make and sign a repository, and `tufcheck` do what lies around it, as docs/SIGNING.md says.

  checks/second/ceremony.py [--tall] [KIND ..]

Of each kind, as `hss-8-10` (HSS of one level, W8, height 10), `lms-4-5` or `lmskey-8-5`, the root has a threshold of two keys,
and each other role one key; one role is delegated. The files are written with `key`, `text`, `attach` and `signers`, and
verified with `init` and `verify`. Then comes a second version of each, in which the root has another key in place of one, and
is verified from the first one's state. Then come the likely mistakes, each with the line that is wanted: of `lmskey` also a
lost leaves file, one that is set back, and a signature that is there already. What is wanted is computed by tuf.py and not by
the programs. Without kinds all of Bouncy Castle's twelve are tried and those of `lmskey` of heights 5 and 10, with --tall
those of height 15 too: some minutes, since keys of height 15 take long to make.

It needs the program that `rt run` in crates/tufcheck proves and builds (PROGRAM may name another), and of either signer what it
is: a JDK and bcprov.jar (Debian's libbcprov-java; BCPROV may name another file); what `rt run` in crates/lmskey proves and
builds (LMSKEY may name another). A line for each check says `ok` or `FAILS`. The status is 1 if one fails.
"""
import json
import os
import subprocess
import sys

sys.path.insert(0, os.path.dirname(os.path.dirname(os.path.abspath(__file__))))
import common
from common import TOP, read, room, run, write
import tuf

JAR = os.environ.get("BCPROV", "/usr/share/java/bcprov.jar")
LMSKEY = os.path.abspath(os.environ.get("LMSKEY", f"{TOP}/crates/lmskey/out/lmskey"))
KINDS = [f"{scheme}-{width}-{height}" for scheme in ("lms", "hss", "lmskey") for width in (4, 8) for height in (5, 10, 15)]
ROLES = ["root", "timestamp", "snapshot", "targets"]
# The keys of each version of the root, and those that sign it: to the threshold of the one before, and to its own
LISTED = {1: ["root-a", "root-b"], 2: ["root-a", "root-c"]}
SIGNED = {1: ["root-a", "root-b"], 2: ["root-a", "root-b", "root-c"]}
CONTENTS = {1: b"abc", 2: b"abcd"}
WORDS = []


def check(what, wanted, seen):
    WORDS.append(common.told("ok" if wanted == seen else "FAILS", what, None if wanted == seen else f"{seen!r}"))


class Module:
    """Keys inside Bouncy Castle, each under a name, that come out as public keys and signatures alone."""

    def __init__(self):
        words = ["java", "-cp", JAR, f"{TOP}/checks/second/signing/Keeper.java"]
        self.ran = subprocess.Popen(words, stdin=subprocess.PIPE, stdout=subprocess.PIPE, text=True)

    def ask(self, *words):
        self.ran.stdin.write(" ".join(words) + "\n")
        self.ran.stdin.flush()
        return bytes.fromhex(self.ran.stdout.readline())

    def key(self, name, levels, width, height):
        return self.ask("key", name, str(levels), str(width), str(height))

    def sign(self, name, message):
        return self.ask("sign", name, message.hex())


class Key:
    """A key of a signer, with its object and id by tuf.py, and the files that `tufcheck` takes."""

    levels = 0

    def __init__(self, name, width, height):
        self.name, self.leaf, self.kind = name, 0, f"W{width} H{height} {2**height}"
        self.file, self.sig = f"{name}.json", f"{name}.sig"

    def known(self, value):
        """Takes the public value."""
        self.object = {"keytype": "lms", "keyval": {"public": value.hex()}, "scheme": "lms-sha256"}
        self.text = tuf.canonical(self.object)
        self.id = tuf.digest(self.text).hex()
        self.line = f'key "{self.id}" {self.kind}\n'

    def attach(self, file, line, status=0):
        before = read(file)
        ran = run("attach", file, self.file, self.sig, "--out", file, text=True)
        check(f"attach {self.name}: {line.strip()}", (line, status), (ran.stdout, ran.returncode))
        if status:
            check("a refusal leaves the file", before, read(file))

    def entry(self, word="entry", leaf=None):
        return f'{word} "{self.id}" {self.leaf - 1 if leaf is None else leaf}\n'


class Kept(Key):
    """A key of the module."""

    def __init__(self, module, name, levels, width, height):
        super().__init__(name, width, height)
        self.module, self.levels = module, levels
        public = module.key(name, levels, width, height)
        self.known(public[4:] if levels else public)
        write(f"{name}.pub", public if name in ("root-a", "targets") else public.hex().encode() + b"\n")

    def make(self):
        ran = run("key", f"{self.name}.pub", "--out", self.file, text=True)
        check(f"key of {self.name}", (self.line, 0), (ran.stdout, ran.returncode))
        check(f"key object of {self.name}", self.text, read(self.file))

    def sign(self, message):
        write(self.sig, self.module.sign(self.name, message))
        self.leaf += 1


class Own(Key):
    """A key of `lmskey`, whose log is on a stick. It keeps the leaves of all signatures."""

    def __init__(self, name, width, height):
        super().__init__(name, width, height)
        self.key, self.log, self.leaves = f"{name}.key", f"stick/{name}.log", []
        self.file, self.sig = f"{self.key}.json", "to-sign.sig"
        words = [LMSKEY, "new", "--width", str(width), "--height", str(height), "--log", self.log, self.key]
        self.making = subprocess.Popen(words, stdout=subprocess.PIPE, stderr=subprocess.STDOUT, text=True)

    def make(self):
        """Waits until it is made, beside the others."""
        line, _ = self.making.communicate()
        self.known(read(self.key)[:56])
        check(f"key of {self.name}", (self.line, 0), (line, self.making.returncode))
        check(f"key object of {self.name}", self.text, read(self.file))

    def asked(self, message):
        """Has the key sign, and the signature of another removed before."""
        write("to-sign", message)
        if os.path.exists(self.sig):
            os.remove(self.sig)
        return lmskey("sign", "--log", self.log, self.key, "to-sign")

    def sign(self, message):
        done = self.asked(message)
        check(f"{self.name} signs", ("signed 1\n", 0), done)
        self.leaves.append(int.from_bytes(read(self.sig)[:4], "big"))
        self.leaf = self.leaves[-1] + 1


def lmskey(*words):
    ran = subprocess.run([LMSKEY, *words], capture_output=True, text=True)
    return ran.stdout + ran.stderr, ran.returncode


def signed_file(name, signed, keys):
    """Writes a draft, prints its text, has it signed by the keys, and attaches the signatures."""
    draft = f"draft/{name}"
    write(draft, json.dumps({"signed": signed}, indent=1).encode())
    ran = run("text", draft)
    check(f"text of {name}", (tuf.canonical(signed), 0), (ran.stdout, ran.returncode))
    for key in keys:
        key.sign(ran.stdout)
        key.attach(draft, key.entry())


def signers(name, threshold, states, *of):
    """Checks the lines of the keys of a role, each with what is said of it, for a draft."""
    count = sum(said.startswith("signed") for said in states.values())
    lines = [f'why keys "{of[1]}" threshold {threshold} signed {count}']
    lines += [f'why key "{key}" {said}' for key, said in states.items()]
    ran = run("signers", f"draft/{name}", *of, text=True)
    wanted = ("\n".join(lines) + "\n", int(count < threshold))
    check(f"signers of {name} by {' '.join(of)}", wanted, (ran.stdout, ran.returncode))


def listing(name, version):
    return {**tuf.target(read(f"draft/{name}")), "version": version}


def root_part(keys, version):
    by_role = {role: [keys[name] for name in (LISTED[version] if role == "root" else [role])] for role in ROLES}
    roles = {role: {"keyids": [key.id for key in of], "threshold": len(of)} for role, of in by_role.items()}
    listed = {key.id: key.object for of in by_role.values() for key in of}
    return tuf.part("root", version, consistent_snapshot=False, keys=listed, roles=roles)


def repository(keys, version):
    """Has each file of that version signed, sees who signed it, and publishes all, each before the one that lists it."""
    root = f"{version}.root.json"
    signed_file(root, root_part(keys, version), [keys[name] for name in SIGNED[version]])
    for number in sorted({max(version - 1, 1), version}):
        states = {keys[name].id: f"signed {keys[name].leaf - 1}" for name in LISTED[number]}
        signers(root, 2, states, "--root", f"draft/{number}.root.json", "--role", "root")
    apps = {"apps/it.txt": tuf.target(CONTENTS[version])}
    signed_file("apps.json", tuf.part("targets", version, targets=apps), [keys["apps"]])
    role = tuf.delegation("apps", keys["apps"], paths=["apps/*"])
    delegations = {"keys": {keys["apps"].id: keys["apps"].object}, "roles": [role]}
    targets = tuf.part("targets", version, targets={"abc.txt": tuf.target(CONTENTS[version])}, delegations=delegations)
    signed_file("targets.json", targets, [keys["targets"]])
    states = {keys["apps"].id: f"signed {keys['apps'].leaf - 1}"}
    signers("apps.json", 1, states, "--from", "draft/targets.json", "--role", "apps")
    meta = {name: listing(name, version) for name in ("targets.json", "apps.json")}
    signed_file("snapshot.json", tuf.part("snapshot", version, meta=meta), [keys["snapshot"]])
    meta = {"snapshot.json": listing("snapshot.json", version)}
    signed_file("timestamp.json", tuf.part("timestamp", version, meta=meta), [keys["timestamp"]])
    for role in ROLES[1:]:
        states = {keys[role].id: f"signed {keys[role].leaf - 1}"}
        signers(f"{role}.json", 1, states, "--root", f"draft/{root}", "--role", role)
    signers("snapshot.json", 1, {keys["timestamp"].id: "unsigned"}, "--root", f"draft/{root}", "--role", "timestamp")
    for path in ("abc.txt", "apps/it.txt"):
        write(f"targets/{path}", CONTENTS[version])
    for name in (root, "apps.json", "targets.json", "snapshot.json", "timestamp.json"):
        write(f"metadata/{name}", read(f"draft/{name}"))


def many_ids():
    """Checks that of 66 listed ids 64 have a line, and that an id which is listed twice counts once."""
    ids = [f"{number:02x}" for number in range(66)]
    root = tuf.part("root", consistent_snapshot=False, keys={},
                    roles={role: {"keyids": ids + ids, "threshold": 1} for role in ROLES})
    write("many.json", json.dumps({"signatures": [], "signed": root}).encode())
    lines = ['why keys "many.json" threshold 1 signed 0', *(f'why key "{name}" absent' for name in ids[:64]), "why more 2"]
    ran = run("signers", "draft/timestamp.json", "--root", "many.json", "--role", "timestamp", text=True)
    check("signers of 66 ids", ("\n".join(lines) + "\n", 1), (ran.stdout, ran.returncode))


def verified(version):
    """Verifies that version, the first one from its root, and another from the state of the one before."""
    if version == 1:
        ran = run("init", "metadata/1.root.json", "--out", "state", text=True)
        check("init", ("root 1\n", 0), (ran.stdout, ran.returncode))
    size = len(CONTENTS[version])
    lines = f'root {version}\nend ready\nrole "apps" {version}\nok "abc.txt" {size} "targets"\nok "apps/it.txt" {size} "apps"\n'
    ran = run(*common.verify("abc.txt", "apps/it.txt", out="state"), text=True)
    check(f"verify version {version}", (lines, 0), (ran.stdout, ran.returncode))


def attach_mistakes(keys):
    """Tries signatures that aren't those of the text, and another key's object."""
    file, key = "draft/timestamp.json", keys["root-c"]
    message = tuf.canonical(json.loads(read(file))["signed"])
    key.sign(message)
    whole, leaf = read(key.sig), key.leaf - 1
    size = len(whole) - (4 if key.levels else 0)
    key.sign(tuf.digest(message))
    key.attach(file, "refused root\n", 1)
    key.sign(message + b"\n")
    key.attach(file, "refused root\n", 1)
    write(key.sig, whole[:-1])
    key.attach(file, f"refused length {len(whole) - 1} {size}\n", 1)
    write(key.sig, b"\0\0\0\1" + whole[-size:])
    key.attach(file, f"refused length {size + 4} {size}\n", 1)
    write(key.sig, whole)
    own, key.file = key.file, keys["root-b"].file
    key.attach(file, "refused root\n", 1)
    key.file = "draft/1.root.json"
    key.attach(file, "refused key\n", 2)
    key.file = own
    key.attach(file, key.entry(leaf=leaf))
    key.attach(file, key.entry("again", leaf))


def leaf_mistakes(key):
    """Loses a leaves file of `lmskey`, and sets one back: no leaf signs twice."""
    leaves, message = f"{key.key}.leaves", b"a text"
    older = read(leaves)
    key.sign(message)
    refused = lmskey("sign", "--log", key.log, key.key, "to-sign")
    check("a signature that is there stays", ("lmskey: exists\n", 3), refused)
    lost = int.from_bytes(read(leaves)[56:], "big")
    os.remove(leaves)
    check("a lost leaves file is an error", ("lmskey: the leaves file is missing\n", 1), key.asked(message))
    check("and none begins at 0", (False, False), (os.path.exists(leaves), os.path.exists(key.sig)))
    restored = lmskey("restore", "--log", key.log, "--gap", "0", key.key)
    check("restore goes on behind the log", (f"reserved {lost}\n", 0), restored)
    key.sign(message)
    write(leaves, older)
    restored = lmskey("restore", "--log", key.log, "--gap", "2", key.key)
    check("and so after an older one was set back", (f"reserved {lost + 3}\n", 0), restored)
    key.sign(message)
    check("no leaf twice", (len(key.leaves), lost + 3), (len(set(key.leaves)), key.leaves[-1]))
    before, refused = read(key.key), lmskey("new", "--no-log", key.key)
    check("a key that is there stays", ("lmskey: exists\n", 3, before), (*refused, read(key.key)))


def key_mistakes(module):
    """Tries files that are no public key that counts."""
    two = module.key("two", 2, 8, 5)
    pem = b"-----BEGIN PUBLIC KEY-----\nMFAwDQYLKoZIhvcNAQkQAxE=\n-----END PUBLIC KEY-----\n"
    tried = [("two levels", two, "refused levels 2\n"), ("57 bytes", bytes(57), "refused length 57\n"),
             ("PEM", pem, f"refused length {len(pem)}\n"), ("another kind", bytes([0, 0, 0, 8]) + bytes(52), "refused kind\n")]
    for what, content, line in tried:
        write("odd.pub", content)
        ran = run("key", "odd.pub", "--out", "odd.json", text=True)
        check(f"key of {what}", (line, 1, False), (ran.stdout, ran.returncode, os.path.exists("odd.json")))


def text_mistake():
    """Tries a text that can't be signed, of which only standard error says why."""
    write("odd", b'{"signed":{"a":1.5}}')
    ran = run("text", "odd", text=True)
    check("text of a float", ("", "refused float\n", 2), (ran.stdout, ran.stderr, ran.returncode))


def tried(module, kind):
    scheme, width, height = kind.split("-")
    common.told("kind", kind)
    with room():
        os.mkdir("stick")
        names = ["root-a", "root-b", "root-c", *ROLES[1:], "apps"]
        sizes = int(width), int(height)
        if scheme == "lmskey":
            keys = {name: Own(name, *sizes) for name in names}
        else:
            keys = {name: Kept(module, name, int(scheme == "hss"), *sizes) for name in names}
        for key in keys.values():
            key.make()
        for version in CONTENTS:
            repository(keys, version)
            verified(version)
        many_ids()
        attach_mistakes(keys)
        text_mistake()
        if scheme == "lmskey":
            for name in names:
                check(f"the leaves of {name}", list(range(len(keys[name].leaves))), keys[name].leaves)
            leaf_mistakes(keys["timestamp"])
        else:
            key_mistakes(module)


def main():
    words = [word for word in sys.argv[1:] if word != "--tall"]
    tall = words or "--tall" in sys.argv
    kinds = words or [kind for kind in KINDS if tall or not (kind.startswith("lmskey") and kind.endswith("15"))]
    needs, module = {"": common.PROGRAM, "lmskey": LMSKEY, "lms": JAR, "hss": JAR}, None
    lacking = {word for word, what in needs.items() if not os.path.isfile(what)}
    for kind in kinds:
        if {"", kind.split("-")[0]} & lacking:
            WORDS.append(common.told("not tried", kind))
            continue
        if not module and not kind.startswith("lmskey"):
            module = Module()
        tried(module, kind)
    if module:
        module.ran.stdin.close()
        module.ran.wait()
    return common.counted(WORDS)


if __name__ == "__main__":
    sys.exit(main())
