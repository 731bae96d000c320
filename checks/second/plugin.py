#!/usr/bin/env python3
"""Checks the Python module `tufcheck.securesystemslib`: keys and signers of LMS for securesystemslib and python-tuf.

  checks/second/plugin.py

TUFCHECK_LIBRARY names the library (as bindings/link.sh makes it) if it isn't installed. Needs securesystemslib 0.26 or
later, and for all but the first of these python-tuf (Debian's python3-securesystemslib, python3-tuf, python3-cryptography):

- Key objects and ids are those of tuf.py, and its signatures are valid. They aren't under a key of another id, and not
  after a change of key, message or signature. A signer whose command fails, or writes no signature of its key, is an
  error; so is a missing library and another one.
- The program that docs/SIGNING.md has for python-tuf makes a repository. python-tuf reads and accepts each file; its client
  gets the target. So does the client after the root's key was replaced and a role was delegated to.
- With a bit of a signature turned python-tuf refuses the file, and so does tufcheck: both for each file.
- python-tuf without the module reads no root that lists an LMS key, and no file that delegates to one, whatever other keys
  there are. Its client stays with the root before.

`tufcheck` is the program that `rt run` in crates/tufcheck builds; PROGRAM names another. Signatures are made by
signing/sign.py. A line for each check says `ok`, `failed`, or `skipped` with the reason. The status is 1 if one failed. It
takes half a minute.
"""
import datetime
import json
import os
import re
import shutil
import subprocess
import sys
import urllib.parse

HERE = os.path.dirname(os.path.abspath(__file__))
CHECKS = os.path.dirname(HERE)
sys.path.insert(0, CHECKS)
import common
from common import TOP
import tuf as made_by_hand

# From here on `tuf` is python-tuf.
del sys.modules["tuf"]
sys.path[:] = [f"{TOP}/bindings/python"] + [it for it in sys.path if os.path.abspath(it) not in (HERE, CHECKS)]

import securesystemslib
from securesystemslib.exceptions import UnverifiedSignatureError, VerificationError
from securesystemslib.signer import Key, Signature, Signer, SSlibKey

try:
    import tuf
    from cryptography.hazmat.primitives.asymmetric.ed25519 import Ed25519PrivateKey
    from cryptography.hazmat.primitives.serialization import Encoding, PublicFormat
    from tuf.api import exceptions
    from tuf.api.metadata import DelegatedRole, Delegations, Metadata, MetaFile, Root, Snapshot, TargetFile, Targets, Timestamp
    from tuf.api.serialization import DeserializationError
    from tuf.ngclient import FetcherInterface, Updater
except ImportError as error:
    tuf, LACKS = None, error

EXPIRES = datetime.datetime(2030, 1, 1, tzinfo=datetime.timezone.utc)
SIGN = [sys.executable, f"{HERE}/signing/sign.py"]
LINES = b'root 1\nend ready\nok "abc.txt" 3 "targets"\n'
DONE = []


def check(what, holds):
    DONE.append(common.told("ok" if holds else "failed", what))


def raised(call, *words):
    """What a call raises, or None."""
    try:
        call(*words)
    except Exception as error:  # pylint: disable=broad-exception-caught
        return error
    return None


def turned(content, at):
    return content[:at] + bytes([content[at] ^ 1]) + content[at + 1 :]


# ---- keys and signers

def signature(key, content):
    return Signature(key.id, content if isinstance(content, str) else content.hex())


def check_keys(plugin):
    for width in (8, 4):
        other = made_by_hand.Key(9, width)
        public, message = bytes.fromhex(other.object["keyval"]["public"]), b"a message"
        sig = other.sign(message)
        key = plugin.LMSKey.from_public(public)
        check(f"W{width}: object and id are those of tuf.py", (key.to_dict(), key.keyid) == (other.object, other.id))
        read = Key.from_dict(other.id, json.loads(json.dumps(other.object)))
        check(f"W{width}: a key object is read as it was written", read == key and read.to_dict() == other.object)
        accepted = [signature(other, sig), signature(other, sig.hex().upper())]
        check(f"W{width}: a signature is valid", all(raised(key.verify_signature, it, message) is None for it in accepted))
        refused = [turned(sig, at) for at in range(0, len(sig), 97)] + [sig[:-1], sig + b"\0", b""]
        wrong = [raised(key.verify_signature, signature(other, it), message) for it in refused]
        wrong.append(raised(key.verify_signature, signature(other, sig), message + b"."))
        check(f"W{width}: it isn't after a change", all(type(it) is UnverifiedSignatureError for it in wrong))
        malformed = [sig.hex()[:-1], " " + sig.hex(), "zz", "\u00e9" * 4, 7, None]
        wrong = [raised(key.verify_signature, Signature(other.id, it), message) for it in malformed]
        check(f"W{width}: what isn't hexadecimal isn't a signature", all(isinstance(it, VerificationError) for it in wrong))

    def under(key_id, **members):
        return raised(Key.from_dict(key_id, {**other.object, **members}).verify_signature, signature(other, sig), message)

    noted = made_by_hand.digest(made_by_hand.canonical({**other.object, "note": "\u00e9\n"})).hex()
    check("a key with another member is valid under its own id", under(noted, note="\u00e9\n") is None)
    wrong = [under(other.id, note="\u00e9\n"), under(noted), under("ab" * 32), under(other.id.upper())]
    wrong += [under(other.id, keyval=it) for it in ({}, {"public": 1}, {"public": public.hex()[:-2]}, {"private": ""})]
    check("under another id, or malformed, it isn't", all(isinstance(it, VerificationError) for it in wrong))
    unknown = [public[:-1], public + b"\0", turned(public, 3), turned(turned(public, 7), 6), b""]
    check("a public key of another kind is an error", all(isinstance(raised(plugin.LMSKey.from_public, it), ValueError)
                                                          for it in unknown))


def signer_of(plugin, number, *words, leaves=None):
    """The signer of a test key, by its URI."""
    public = subprocess.run([*SIGN, str(number), "--public"], stdout=subprocess.PIPE, check=True).stdout
    uri, key = plugin.LMSCommandSigner.import_([*SIGN, str(number), leaves or f"leaves of {number}", *words],
                                               bytes.fromhex(public.decode()))
    return Signer.from_priv_key_uri(uri, key)


def check_signers(plugin):
    hexadecimal = signer_of(plugin, 21)
    raw = signer_of(plugin, 21, "--raw")
    key, message = raw.public_key, b"\0\xffa message"
    signatures = [it.sign(message) for it in (hexadecimal, raw, hexadecimal)]
    check("a command signs, in hexadecimal digits and raw", all(raised(key.verify_signature, it, message) is None
                                                               for it in signatures))
    leaves = [int(it.signature[:8], 16) for it in signatures]
    check("each signature takes a leaf of its own", leaves == [0, 1, 2] and common.read("leaves of 21") == b"3")

    def by(*command):
        return raised(plugin.LMSCommandSigner(command, key).sign, message)

    common.write("used", b"32")
    failing = [by("/nonexistent/command"), by("false"), by("true"), by("cat"), by("echo", "00"), by("a\0b")]
    failing.append(by(*SIGN, "22", "leaves of 22"))
    failing.append(by(*SIGN, "21", "used"))
    check("a command that fails, or writes no signature of its key, is an error",
          all(type(it) is plugin.CommandError for it in failing))
    strange = ["lms-command:", "lms-command:'", "file:sign"]
    strange = [raised(plugin.LMSCommandSigner.from_priv_key_uri, it, key) for it in strange]
    strange.append(raised(plugin.LMSCommandSigner, ["true"], None))
    check("a URI without a command is an error", all(isinstance(it, ValueError) for it in strange))


def check_library():
    code = """
import sys
from securesystemslib.signer import Signature
from tufcheck.securesystemslib import LibraryError, LMSCommandSigner, LMSKey, register
key = LMSKey.from_public(bytes.fromhex(sys.argv[1]))
for call in register, lambda: key.verify_signature(Signature(key.keyid, ""), b""), LMSCommandSigner(["touch", "run"], key).sign:
    try:
        call(*[b""] * (call.__name__ == "sign"))
    except LibraryError:
        print("error")
"""
    public = made_by_hand.Key(9).object["keyval"]["public"]
    for what, name in [("a missing library", "/nonexistent/libtufcheck.so.1"), ("another library", "libc.so.6")]:
        ran = subprocess.run([sys.executable, "-c", code, public], stdout=subprocess.PIPE, check=False, text=True,
                             env={**os.environ, "TUFCHECK_LIBRARY": name, "PYTHONPATH": os.pathsep.join(sys.path)})
        check(f"{what} is an error, and no command runs", ran.stdout == "error\n" * 3 and not os.path.exists("run"))


# ---- python-tuf

def client(folder, repo):
    """A client of python-tuf, with what it keeps in a folder, over a repository in another one."""

    class Folder(FetcherInterface):
        """Fetches from the file system."""

        def _fetch(self, url):
            try:
                yield common.read(urllib.parse.unquote(url))
            except FileNotFoundError:
                raise exceptions.DownloadHTTPError("missing", 404) from None

    os.makedirs(f"{folder}/targets", exist_ok=True)
    if not os.path.exists(f"{folder}/root.json"):
        shutil.copy(f"{repo}/metadata/1.root.json", f"{folder}/root.json")
    return Updater(folder, f"{repo}/metadata/", f"{folder}/targets", f"{repo}/targets/", Folder())


def got(folder, repo, path):
    """The bytes of a target that a client gets."""
    updater = client(folder, repo)
    updater.refresh()
    info = updater.get_targetinfo(path)
    return info and common.read(updater.download_target(info))


def program(repo, path, state):
    """The lines and the status of the program, which begins with the repository's first root."""
    common.run("init", f"{repo}/metadata/1.root.json", "--out", state, check=True)
    ran = common.run(*common.verify(path, state=state, out=state, repo=repo))
    return ran.stdout, ran.returncode


def saved(repo, name, part, *signers):
    """Writes a file of that part, signed by these."""
    file = Metadata(part)
    for signer in signers:
        file.sign(signer, append=True)
    os.makedirs(f"{repo}/metadata", exist_ok=True)
    file.to_file(f"{repo}/metadata/{name}.json")
    return part


def check_delegator(repo, name, delegator, role):
    """Checks that python-tuf accepts the file, and, with a bit of its signature turned, doesn't; nor does tufcheck."""
    path = f"{repo}/metadata/{name}.json"
    before = common.read(path)
    file = Metadata.from_bytes(before)
    check(f"python-tuf accepts {name}", raised(delegator.verify_delegate, role, file.signed_bytes, file.signatures) is None)
    tree = json.loads(before)
    for entry in tree["signatures"]:
        entry["sig"] = turned(bytes.fromhex(entry["sig"]), 100).hex()
    file = Metadata.from_dict(json.loads(json.dumps(tree)))
    error = raised(delegator.verify_delegate, role, file.signed_bytes, file.signatures)
    check(f"python-tuf refuses {name} with a bit of its signature turned", type(error) is exceptions.UnsignedMetadataError)
    if name == "1.root":
        return
    common.write(path, json.dumps(tree).encode())
    if os.path.isfile(common.PROGRAM):
        lines, status = program(repo, "low.txt" if role == "low" else "abc.txt", "damaged")
        said = lines.decode().splitlines()[-2:]
        unsigned = any("Unsigned" in it for it in said) and status == (1 if role == "low" else 2)
        check(f"so does tufcheck: {'; '.join(said)}", unsigned)
    common.write(path, before)


def check_repository(plugin):
    """Runs the program of the page, checks what it makes, and goes on with it."""
    code = re.findall("^```python\n(.*?)\n```$", common.read(f"{TOP}/docs/SIGNING.md").decode(), re.DOTALL | re.MULTILINE)[-1]
    place = os.pathsep.join(it for it in sys.path if it)
    ran = subprocess.run([sys.executable, "-c", code, f"{os.getcwd()}/repo"], cwd=TOP, env={**os.environ, "PYTHONPATH": place},
                         check=False)
    check("the program of the page ends with status 0", ran.returncode == 0)
    if ran.returncode:
        return
    check("python-tuf's client gets the target", got("client", "repo", "abc.txt") == b"abc")
    if os.path.isfile(common.PROGRAM):
        check("tufcheck accepts it", program("repo", "abc.txt", "state") == (LINES, 0))
    else:
        common.told("skipped", "tufcheck", "it isn't built: `rt run` in crates/tufcheck")
    root = Metadata.from_file("repo/metadata/1.root.json").signed
    for name, role in [("1.root", "root"), ("1.targets", "targets"), ("1.snapshot", "snapshot"), ("timestamp", "timestamp")]:
        check_delegator("repo", name, root, role)

    old, new, low = (signer_of(plugin, number, leaves=f"repo.leaves.{number}") for number in (1, 31, 32))
    timestamp, snapshot, top = (signer_of(plugin, number, leaves=f"repo.leaves.{number}") for number in (2, 3, 4))
    root.version = 2
    root.revoke_key(old.public_key.keyid, "root")
    root.add_key(new.public_key, "root")
    saved("repo", "2.root", root, old, new)
    below = saved("repo", "1.low", Targets(expires=EXPIRES), low)
    below.targets["low.txt"] = TargetFile.from_data("low.txt", b"low", ["sha256"])
    saved("repo", "1.low", below, low)
    common.write(f"repo/targets/{below.targets['low.txt'].get_prefixed_paths()[0]}", b"low")
    targets = Metadata.from_file("repo/metadata/1.targets.json").signed
    targets.version = 2
    role = DelegatedRole("low", [low.public_key.keyid], 1, False, paths=["low*"])
    targets.delegations = Delegations({low.public_key.keyid: low.public_key}, {"low": role})
    saved("repo", "2.targets", targets, top)
    listed = MetaFile.from_data(2, common.read("repo/metadata/2.targets.json"), ["sha256"])
    meta = {"targets.json": listed, "low.json": MetaFile(1)}
    saved("repo", "2.snapshot", Snapshot(2, expires=EXPIRES, meta=meta), snapshot)
    saved("repo", "timestamp", Timestamp(2, expires=EXPIRES, snapshot_meta=MetaFile(2)), timestamp)
    check("its client goes on after another root and a delegation", [got("client", "repo", it) for it in ("low.txt", "abc.txt")]
          == [b"low", b"abc"])
    if os.path.isfile(common.PROGRAM):
        lines, status = program("repo", "low.txt", "state")
        check("so does tufcheck", status == 0 and lines.startswith(b"root 2\nend ready\n") and b'ok "low.txt" 3 "low"' in lines)
    check_delegator("repo", "2.root", Metadata.from_file("repo/metadata/1.root.json").signed, "root")
    check_delegator("repo", "1.low", targets, "low")


# ---- python-tuf without the module

class Ed25519(Signer):
    """Signs with a key that python-tuf knows. (Its own signer needs a later python3-cryptography than Debian 12 has.)"""

    def __init__(self):
        self.secret = Ed25519PrivateKey.generate()
        public = self.secret.public_key().public_bytes(Encoding.Raw, PublicFormat.Raw).hex()
        self.key = SSlibKey(public, "ed25519", "ed25519", {"public": public})

    public_key = property(lambda self: self.key)

    @classmethod
    def from_priv_key_uri(cls, *_):
        raise NotImplementedError

    def sign(self, payload):
        return Signature(self.key.keyid, self.secret.sign(payload).hex())


def mixed(plugin):
    """Makes three repositories of an ed25519 key. In them root 2 is as root 1; root 2 lists an LMS key, too; the targets file
    delegates to one."""
    signer, lms = Ed25519(), signer_of(plugin, 41)
    for repo in ("plain", "listed", "delegated"):
        root = Root(expires=EXPIRES)
        for role in ("root", "timestamp", "snapshot", "targets"):
            root.add_key(signer.public_key, role)
        saved(repo, "1.root", root, signer)
        root.version = 2
        if repo == "listed":
            root.add_key(lms.public_key, "targets")
        saved(repo, "2.root", root, signer)
        targets = Targets(expires=EXPIRES, targets={"abc.txt": TargetFile.from_data("abc.txt", b"abc", ["sha256"])})
        if repo == "delegated":
            key = lms.public_key
            role = DelegatedRole("low", [key.keyid], 1, False, paths=["low*"])
            targets.delegations = Delegations({key.keyid: key}, {"low": role})
        saved(repo, "1.targets", targets, signer)
        saved(repo, "1.snapshot", Snapshot(expires=EXPIRES), signer)
        saved(repo, "timestamp", Timestamp(expires=EXPIRES), signer)
        common.write(f"{repo}/targets/{targets.targets['abc.txt'].get_prefixed_paths()[0]}", b"abc")


def without():
    """Prints what python-tuf does with these repositories and with that of the page: a line for each."""
    def seen(error):
        cause = error.__cause__ if error else None
        return f"{type(error).__name__}, {type(cause).__name__}: {cause}" if error else "no error"

    assert ("lms", "lms-sha256") not in securesystemslib.signer.KEY_FOR_TYPE_AND_SCHEME
    print(f"read: {seen(raised(Metadata.from_file, 'repo/metadata/1.root.json'))}")
    print(f"begun: {seen(raised(client, 'begun', 'repo'))}")
    for repo in ("plain", "listed", "delegated"):
        error = raised(got, f"client of {repo}", repo, "abc.txt")
        kept = json.loads(common.read(f"client of {repo}/root.json"))["signed"]["version"]
        print(f"{repo}: {seen(error)}; root {kept}, targets {os.listdir(f'client of {repo}/targets')}")


def check_without(plugin):
    mixed(plugin)
    ran = subprocess.run([sys.executable, os.path.abspath(__file__), "without"], stdout=subprocess.PIPE, check=False, text=True)
    why = "DeserializationError, ValueError: Unsupported public key lms/lms-sha256"
    wanted = [f"read: {why}", f"begun: {why}", "plain: no error; root 2, targets ['abc.txt']",
              f"listed: {why}; root 1, targets []", f"delegated: {why}; root 2, targets []"]
    lines = ran.stdout.splitlines()
    for line, want in zip(lines + [""] * (len(wanted) - len(lines)), wanted):
        check(f"without the module: {line or want}", line == want)
    check("that is an error of a repository", issubclass(DeserializationError, exceptions.RepositoryError))
    for repo in ("listed", "delegated"):
        check(f"with the module its client gets the target: {repo}", got(f"other client of {repo}", repo, "abc.txt") == b"abc")


def main():
    if sys.argv[1:] == ["without"]:
        return without()
    print(f"securesystemslib {securesystemslib.__version__}, python-tuf {tuf.__version__ if tuf else 'none'}")
    import tufcheck.securesystemslib as plugin

    plugin.register()
    with common.room():
        check_keys(plugin)
        check_signers(plugin)
        check_library()
        if tuf:
            check_repository(plugin)
            check_without(plugin)
        else:
            common.told("skipped", "python-tuf", LACKS)
    return 1 if "failed" in DONE else 0


sys.exit(main())
