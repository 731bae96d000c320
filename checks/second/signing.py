#!/usr/bin/env python3
"""Checks the example of docs/SIGNING.md, which is made of test keys.

  checks/second/signing.py

It takes the key object, the signed file, their canonical texts and the table of kinds from the page. By tuf.py and
reading.py of `checks` it checks that

- the canonical texts are those of the key object and of `signed`, and the key's id is the SHA-256 of the first;
- the public value and the signature have the lengths, the type codes and the leaf that the page says;
- the signature is valid, isn't with one bit turned, and is what tuf.py makes of the text by the same leaf;
- signing/example.py makes the signed file, and a repository that reading.py accepts.

Then it verifies the signature, and turned ones, with Bouncy Castle, where a JDK and bcprov.jar (Debian's libbcprov-java;
BCPROV may name another file) are here. Last it verifies the repository with the program that `rt run` in crates/tufcheck
proves and builds, if that is there. A line for each check says `ok`, `failed`, or `skipped` with the reason. The status is
1 if one failed. It takes some four seconds.
"""
import json
import os
import re
import shutil
import subprocess
import sys
import tempfile

sys.path.insert(0, os.path.dirname(os.path.dirname(os.path.abspath(__file__))))
import common
from common import NOW, TOP
import reading
import tuf

JAR = os.environ.get("BCPROV", "/usr/share/java/bcprov.jar")
LINES = 'root 1\nend ready\nok "abc.txt" 3 "targets"\n'
SEED = 2
DONE = []


def check(what, holds):
    DONE.append(common.told("ok" if holds else "failed", what))


def page():
    return common.read(f"{TOP}/docs/SIGNING.md").decode()


def blocks(text, language):
    """The blocks of code of this language, in order."""
    return re.findall(f"^```{language}\n(.*?)\n```$", text, re.DOTALL | re.MULTILINE)


def kinds(text):
    """The rows of the table of kinds: its numbers, without the names."""
    rows = re.findall(r"^\| W([48]), height (\d+) \| (\d) \| (\d) \| ([\d,]+) \| ([\d,]+) \| ([\d,]+) \|$", text, re.MULTILINE)
    return [tuple(int(it.replace(",", "")) for it in row) for row in rows]


def expected_kinds():
    rows = []
    for ots, (width, chains) in sorted(reading.WIDTHS.items(), reverse=True):
        for lms, height in sorted(reading.HEIGHTS.items()):
            size = 4 + 4 + 32 + 32 * chains + 4 + 32 * height
            rows.append((width, height, lms, ots, 2**height, size, 2 * size))
    return rows


def turned(content, at):
    return content[:at] + bytes([content[at] ^ 1]) + content[at + 1 :]


def check_texts(text, key, file):
    """Checks the key object and the file of the page, and returns the key's public value, the message and the signature."""
    key_text, signed_text = (it.encode() for it in blocks(text, "text"))
    entry, = file["signatures"]
    check("the canonical text of the key object", tuf.canonical(key) == key_text)
    check("the canonical text of `signed`", tuf.canonical(file["signed"]) == signed_text)
    named = f"`{entry['keyid']}`" in text
    check("the key's id is the SHA-256 of its text", tuf.digest(key_text).hex() == entry["keyid"] and named)
    check("the SHA-256 of the text that is signed", f"`{tuf.digest(signed_text).hex()}`" in text)
    public, sig = bytes.fromhex(key["keyval"]["public"]), bytes.fromhex(entry["sig"])
    codes = tuf.number(5, 4) + tuf.number(4, 4)
    check("the public value is of 56 bytes, of the codes 5 and 4", len(public) == 56 and public[:8] == codes)
    check("the key is usable", reading.public_of(entry["keyid"], key) == public)
    layout = len(sig) == 1292 and sig[:4] == bytes(4) and sig[4:8] == public[4:8] and sig[1128:1132] == public[:4]
    check("the signature is of 1,292 bytes, of leaf 0 and of these codes", layout)
    check("the signature is valid", reading.is_valid(public, signed_text, sig))
    check("it isn't with one bit turned", not reading.is_valid(public, signed_text, turned(sig, 100)))
    made = tuf.Key(SEED)
    check("tuf.py makes this key and this signature", made.object == key and made.sign(signed_text) == sig)
    return public, signed_text, sig


def check_by_java(public, message, sig):
    what = "Bouncy Castle"
    if not shutil.which("java") or not shutil.which("javac"):
        return common.told("skipped", what, "no JDK")
    if not os.path.isfile(JAR):
        return common.told("skipped", what, f"no {JAR} (libbcprov-java); BCPROV may name another")
    asked = [(message, sig), (message, turned(sig, 100)), (turned(message, 20), sig), (message, turned(sig, 3))]
    lines = "".join(f"{public.hex()}\n{text.hex()}\n{it.hex()}\n" for text, it in asked)
    ran = subprocess.run(["java", "-cp", JAR, f"{TOP}/checks/second/signing/Verify.java"], input=lines, capture_output=True,
                         check=False, text=True)
    check(f"{what} accepts the signature", ran.stdout.split("\n")[:1] == ["valid"])
    check(f"{what} refuses it with a bit of it or of the text turned", ran.stdout.split("\n")[1:4] == ["invalid"] * 3)
    if ran.returncode:
        check(f"{what}: {ran.stderr.strip()}", False)


def files_below(folder):
    found = {}
    for where, _, names in os.walk(folder):
        for name in names:
            path = os.path.join(where, name)
            found[os.path.relpath(path, folder)] = common.read(path)
    return found


def check_program(file, room):
    """Runs the program that the page names, and verifies what it makes."""
    ran = subprocess.run([sys.executable, f"{TOP}/checks/second/signing/example.py", f"{room}/repo"], check=False)
    check("the program ends with status 0", ran.returncode == 0)
    metadata, targets = files_below(f"{room}/repo/metadata"), files_below(f"{room}/repo/targets")
    made = metadata.get("timestamp.json", b"null")
    check("it makes the signed file", json.loads(made) == file)
    if ran.returncode:
        return
    state = {"root": reading.read("root", metadata["1.root.json"])}
    _, lines, status = reading.verified(state, metadata, targets, NOW, 32, ["abc.txt"])
    check("reading.py accepts the repository", (lines, status) == (LINES, 0))
    if not os.path.isfile(common.PROGRAM):
        return common.told("skipped", "tufcheck", "it isn't built: `rt run` in crates/tufcheck")
    common.run("init", "repo/metadata/1.root.json", "--out", "state", cwd=room)
    ran = common.run(*common.verify("abc.txt", out="state", repo="repo"), cwd=room, text=True)
    check("tufcheck accepts the repository", (ran.stdout, ran.returncode) == (LINES, 0))


def main():
    text = page()
    key, file = (json.loads(it) for it in blocks(text, "json"))
    check("the table of kinds", kinds(text) == expected_kinds())
    public, message, sig = check_texts(text, key, file)
    check_by_java(public, message, sig)
    with tempfile.TemporaryDirectory() as room:
        check_program(file, room)
    return 1 if "failed" in DONE else 0


sys.exit(main())
