#!/usr/bin/env python3
"""Prints which misreadings of the standard second.py beside this script distinguishes from the program.

  checks/second/misread.py [COUNT]      300 histories for each misreading unless given

Each misreading is put into a copy of reading.py, and histories are drawn until their number is reached. One that has the
same lines, status and bytes for all of them is named, and the status is then 1. `rt run` in crates/tufcheck proves and
builds the program.
"""
import os
import shutil
import subprocess
import sys
import tempfile

sys.path.insert(0, os.path.dirname(os.path.dirname(os.path.abspath(__file__))))
import common

CHECKS = f"{common.TOP}/checks"
SIGNED = '        ask_signed(file, ring, asked, whose)\n'
OF_VERSION = '        ask_version(file, listed["version"])\n'
EXPIRES, TRUSTS = "        self.expires(new)\n", '        self.trust("{}", new)\n'
IDS = 'set({}["roles"][it]["keyids"])'

MISREADINGS = {
    "a file that expires at the moment is good": ('file["expires"] > self.now', 'file["expires"] >= self.now'),
    "a rotation drops nothing": (f"if any({IDS.format('old')}", f"if False and any({IDS.format('old')}"),
    "a rotation of the root's keys drops files": ('in ("timestamp", "snapshot"))', 'in ("root", "timestamp", "snapshot"))'),
    "a rotation is another order of ids": (
        f"{IDS.format('old')} != {IDS.format('new')}",
        f"{IDS.format('old')[4:-1]} != {IDS.format('new')[4:-1]}"),
    "the old root's keys aren't checked": ('ask_signed(new, *self.by_root("root"))', "pass"),
    "the new root's keys aren't checked": ('ask_signed(new, new["keys"], new["roles"]["root"], name)', "pass"),
    "roots may leave versions out": (
        'ask_version(new, old["version"] + 1)', 'ask(new["version"] > old["version"], "VersionWrong")'),
    "a timestamp of an equal version is taken": ('if old and new["version"] == old["version"]:', "if False:"),
    "an older snapshot may be listed": ('falls += fall(', 'falls and fall('),
    "a listed file may vanish": (' else [f"name {cut(name)} gone"]', " else []"),
    "an expired timestamp is trusted": (
        EXPIRES + TRUSTS.format("timestamp"), TRUSTS.format("timestamp") + EXPIRES),
    "an expired snapshot is trusted": (EXPIRES + TRUSTS.format("snapshot"), TRUSTS.format("snapshot") + EXPIRES),
    "the version comes before the signatures": (SIGNED + OF_VERSION, OF_VERSION + SIGNED),
    "a version may be 0": ("def whole(tree, name, least=1)", "def whole(tree, name, least=0)"),
    "true is a whole number": ("type(tree.get(name)) is kind", "isinstance(tree.get(name), kind)"),
    "a length of null is absent": ('if "length" in tree else', 'if tree.get("length") is not None else'),
    "prefixes may have capitals": ('"[0-9a-f]{1,64}"', '"[0-9a-fA-F]{1,64}"'),
    "a delegation needs no paths": ('ask(("paths" in tree) != (', 'tree.setdefault("paths", [])\n    ask(True or ('),
    "unknown hashes are enough": ('ask(known, "NoKnownHash")', "pass"),
    "one good hash is enough": ("ask(not differing,", "ask(not differing or len(differing) < len(known),"),
    "ids are counted": ("signed.add(public)", "signed.add(key_id)"),
    "a key may stand under any id": ("if usable and hashlib.sha256(tuf.canonical(key)).hexdigest() == key_id", "if usable"),
    "signatures have no capitals": ('re.fullmatch("([0-9a-fA-F]{2})*"', 're.fullmatch("([0-9a-f]{2})*"'),
    "a star stands for slashes": ('"*": "[^/]*"', '"*": ".*"'),
    "a question mark stands for a slash": ('"?": "[^/]"', '"?": "."'),
    "one role more than the limit": ("if len(visited) == self.limit", "if len(visited) > self.limit"),
    "no delegation ends a search": ('if it["ends"]:', "if False:"),
    "a role is visited again": ('if it["name"] not in visited:', "if True:"),
    "a bin is named by the last bits": (".digest()[:4]", ".digest()[-4:]"),
    "targets have no digest in their names": ('if self.state["root"]["consistent"] else [path]', "if False else [path]"),
    "one digest alone names a target": ('for it in known] if', 'for it in known[:1]] if'),
    "the refused file lists the keys": ("*signing(file, ring, asked, whose)", "*signing(file, ring, asked, \"timestamp.json\")"),
    "a key that signed again signed": ("elif public in signers:", "elif False:"),
    "a signature that isn't valid is none": ('sigs[0])}" if sigs else', 'sigs[0])}" if False else'),
    "the last entry of a key is told": ("invalid(public, sigs[0])", "invalid(public, sigs[-1])"),
    "leaves may be past the last": ("if leaf >= 2**height else", "if False else"),
    "a signature is of its chains' kind alone": ("32 * chains] != public[4:8] + public[:4]:", "32 * chains][:4] != public[4:8]:"),
    "an id is told each time": ("in dict.fromkeys(asked", "in list(asked"),
    "one name that fell is told": ("*most(falls))", "*most(falls[:1]))"),
    "a fallen version hides a fallen snapshot": ("falls += fall(", "falls = falls or fall("),
    "one wrong digest is told": ("for it in differing))", "for it in differing[:1]))"),
    "a right digest is told": ("for it in differing))", "for it in known))"),
    "one name of an absent target is told": ('{cut(it)}" for it in names))', '{cut(it)}" for it in names[:1]))'),
    "the last name of a target is tried first": ("for it in names if", "for it in names[::-1] if"),
    "a target that is too long is read whole": ('[: listed["length"] + 1]', ""),
    "a trusted file is the repository's": ('self.expires(file, "trusted ")', "self.expires(file)"),
    "long texts are whole": ("SHOWN, TOLD = 5_000_001, 256,", "SHOWN, TOLD = 5_000_001, 2560,"),
    "all keys are told": ("5_000_001, 256, 64", "5_000_001, 256, 6400"),
}


def tells(room, old, new, count):
    """Whether some history differs by that misreading."""
    text = common.read(f"{CHECKS}/second/reading.py").decode()
    assert text.count(old) == 1, old
    shutil.rmtree(room, ignore_errors=True)
    os.makedirs(f"{room}/checks/second")
    for name in ("common.py", "tuf.py", "second/second.py"):
        shutil.copy(f"{CHECKS}/{name}", f"{room}/checks/{name}")
    common.write(f"{room}/checks/second/reading.py", text.replace(old, new).encode())
    os.symlink(f"{common.TOP}/crates", f"{room}/crates")
    ran = subprocess.run([sys.executable, f"{room}/checks/second/second.py", count], env={**os.environ, "TMPDIR": room},
                         stdout=subprocess.PIPE, check=False)
    assert ran.returncode in (0, 1), old
    return ran.stdout.decode().count("\nsaid ")


def main():
    count = sys.argv[1] if len(sys.argv) > 1 else "300"
    status = 0
    with tempfile.TemporaryDirectory() as room:
        for name, (old, new) in MISREADINGS.items():
            found = tells(f"{room}/copy", old, new, count)
            print(f"{found:6} {name}", flush=True)
            status = status or int(not found)
    return status


sys.exit(main())
