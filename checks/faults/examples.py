#!/usr/bin/env python3
"""Checks that the four example updaters in bindings keep the rules of docs/EMBEDDING.md on states, names and what they
install.

    checks/faults/examples.py FOLDER

FOLDER has the library: libtufcheck.a and libtufcheck.so.1, as bindings/link.sh makes them, or libtufcheck_c.a, as `rt lib`
leaves it in crates/tufcheck_c/out, which bindings/link.sh then links first. Without a library nothing is tried. The
repositories are signed by the Python beside this script. In short:

  - what is installed is what was listed, with plain and with consistent names, and nothing else;
  - a state that can't be read is an error, and never begins anew; one that can't be written stays as it was, and then
    nothing is installed;
  - a wanted path with a part that is empty, `.` or `..` is a usage error, and a metadata file of such a name isn't fetched;
  - no control character of a name is printed;
  - of `a` and `a/b` one is installed, or both aren't, with a status that isn't 0.

The Python of that page is run, too, as it stands there: it installs the file, with plain and with consistent names.

It prints a line for each case and updater: `ok`, `fail` with what was seen, or `not tried` with what is missing. Cases that
need a file which can't be read aren't tried as the superuser, who can read all. The status is 1 if one fails, and 2 if the
updaters can't be built.
"""
import contextlib
import hashlib
import os
import pathlib
import re
import shutil
import subprocess
import sys
import tempfile
import unicodedata

sys.path.insert(0, os.path.dirname(os.path.dirname(os.path.abspath(__file__))))
import tuf

TOP = pathlib.Path(__file__).resolve().parents[2]
MOMENT = "1767225600"
STRANGE = ["", ".", "..", "a/", "a//b", "a/./b", "a/../b", "../x", "/x"]
ROLES = ["../low", "a//low", "./low", "a/../low"]


class Wrong(Exception):
    """What was seen that must not be."""


class Skipped(Exception):
    """Why a case isn't tried."""


def want(holds, seen):
    if not holds:
        raise Wrong(seen)


# ---- repositories

def repository(folder, contents, **more):
    tuf.repository(folder, tuf.Key(1, 4), contents, **more)


def delegated(folder, name):
    """A repository in which a role of that name lists the path `p`, and its file is where the name leads to."""
    key, low, content = tuf.Key(1, 4), tuf.Key(2, 4), b"low"
    role = tuf.delegation(name, low, paths=["*"])
    repository(folder, {})
    listed = {"targets": {}, "delegations": {"keys": {low.id: low.object}, "roles": [role]}}
    files = {"1.root": tuf.root(key), "timestamp": tuf.timestamp(key), "snapshot": tuf.snapshot(key, ["targets", name]),
             "targets": tuf.signed(tuf.part("targets", **listed), key),
             name: tuf.signed(tuf.part("targets", targets={"p": tuf.target(content)}), low)}
    for file, text in files.items():
        os.makedirs(f"{folder}/metadata/a", exist_ok=True)
        tuf.write(f"{folder}/metadata/{file}.json", text)
    tuf.write(f"{folder}/targets/p", content)


# ---- the Python of the page

# What the page leaves to the caller.
CALLER = """
def fetch(need):
    try:
        with open(f"repo/{need.place.name.lower()}/{need.name}", "rb") as file:
            return file.read(need.most + 1)
    except FileNotFoundError:
        return None

def install(content):
    print(content.decode())
"""


def on_page(consistent):
    repository("repo", {"abc.txt": b"abc"}, consistent=consistent)
    shutil.copy("repo/metadata/1.root.json", "1.root.json")
    codes = re.findall("```python\n(.*?)```", (TOP / "docs/EMBEDDING.md").read_text(), re.DOTALL)
    want(len(codes) == 1, f"the page has {len(codes)} examples in Python")
    ran = subprocess.run([sys.executable, "-c", CALLER + codes[0]], capture_output=True, text=True, timeout=600)
    want((ran.returncode, ran.stdout) == (0, "abc\n"), f"status {ran.returncode}: {ran.stdout}{ran.stderr.strip()[-500:]}")


# ---- updaters

def built(command, name, **more):
    """Runs a compiler. Returns whether it is there; ends the script if it fails."""
    if shutil.which(command[0]) is None:
        print(f"not tried {name}: {command[0]} is missing")
        return False
    made = subprocess.run(command, capture_output=True, text=True, **more)
    if made.returncode:
        print(f"fail {name} compiles: {made.stderr.strip()[-1000:]}")
        sys.exit(2)
    return True


def linked(folder, work):
    """The folder of the linked library, or None."""
    if all((folder / name).exists() for name in ("libtufcheck.a", "libtufcheck.so.1")):
        return folder
    library = folder / "libtufcheck_c.a"
    return work if library.exists() and built([TOP / "bindings/link.sh", work, library], "the library") else None


def updaters(library, work):
    """The words that start each updater, by its language."""
    found, rust, crates = {}, f"{work}/updater_rust", TOP / "bindings/rust"
    rustc = ["rustc", "--edition", "2021", "-L", work, "--crate-type"]
    if built(["cc", "-std=c99", "-O1", "-I", TOP / "bindings/c", "-o", f"{work}/updater",
              TOP / "bindings/c/example_updater.c", library / "libtufcheck.a"], "C"):
        found["C"] = [f"{work}/updater"]
    if all(built(rustc + words, "Rust") for words in (
            ["rlib", "--crate-name", "tufcheck_sys", "--out-dir", work, crates / "tufcheck-sys/src/lib.rs"],
            ["rlib", "--crate-name", "tufcheck", "--extern", "tufcheck_sys", "--out-dir", work,
             crates / "tufcheck/src/lib.rs"],
            ["bin", "--extern", "tufcheck", "-L", f"native={library}", "-l", "static=tufcheck", "-o", rust,
             crates / "tufcheck/examples/updater.rs"])):
        found["Rust"] = [rust]
    flags = {"CGO_CFLAGS": f"-I{TOP}/bindings/c", "CGO_LDFLAGS": f"-L{library} -Wl,-rpath,{library}", "GOPROXY": "off"}
    if built(["go", "build", "-buildvcs=false", "-o", f"{work}/updater_go", "./updater"], "Go",
             cwd=TOP / "bindings/go/tufcheck", env={**os.environ, **flags}):
        found["Go"] = [f"{work}/updater_go"]
    found["Python"] = [sys.executable, str(TOP / "bindings/python/example_updater.py")]
    os.environ.update(TUFCHECK_LIBRARY=str((library / "libtufcheck.so.1").resolve()), PYTHONDONTWRITEBYTECODE="1",
                      PYTHONPATH=str(TOP / "bindings/python"))
    return found


class Run:
    """Runs an updater in the current folder. `status` and `said` are of the last run."""

    def __init__(self, words):
        self.words = words

    def __call__(self, folder, *paths, state="state"):
        words = [*self.words, f"{folder}/metadata/1.root.json", state, folder, MOMENT, "out", *paths]
        done = subprocess.run(words, stdout=subprocess.PIPE, stderr=subprocess.STDOUT, timeout=600)
        text = done.stdout.decode(errors="replace")
        self.status, self.said = done.returncode, text.strip().replace("\n", "; ")
        want(not any(unicodedata.category(it) == "Cc" and it != "\n" for it in text), f"printed {text!r}")

    def wants(self, status, installed):
        want(self.status == status, f"status {self.status}, not {status}: {self.said}")
        want(tree("out") == installed, f"installed {sorted(tree('out'))}, not {sorted(installed)}: {self.said}")


def tree(folder):
    """The bytes of all files there, by their paths."""
    paths = [os.path.join(above, name) for above, _, names in os.walk(folder) for name in names]
    return {os.path.relpath(path, folder): pathlib.Path(path).read_bytes() for path in paths}


# ---- cases: each is in a new folder

def installs(run, consistent):
    contents = {"abc.txt": b"abc", "docs/abc.txt": b"other", "docs/same": b"abc"}
    repository("repo", contents, consistent=consistent)
    run("repo", *contents)
    run.wants(0, contents)
    want(sorted(os.listdir()) == ["out", "repo", "state"], f"left {sorted(os.listdir())}")


def named_alike(run, consistent):
    """A path that is the consistent name of another one's file."""
    contents = {"b": b"one", f"{hashlib.sha256(b'one').hexdigest()}.b": b"two"}
    repository("repo", contents, consistent=consistent)
    run("repo", *contents)
    run.wants(0, contents)


def damaged(run, content):
    repository("repo", {"good": b"good", "bad": b"bad"})
    run("repo", "good", "bad")
    tuf.write("repo/targets/bad", content)
    run("repo", "good", "bad", "none")
    run.wants(1, {"good": b"good", "bad": b"bad"})


def older(run):
    """A mirror that goes back to an older repository."""
    state = newer(run)
    repository("old", {"b": b"old"})
    run("old", "b")
    run.wants(2, {})
    want(pathlib.Path("state").read_bytes() == state, "the state is another one")


def newer(run):
    """Makes the state of version 2, and nothing that is installed. Returns its bytes."""
    repository("repo", {"b": b"new"}, version=2)
    run("repo", "b")
    run.wants(0, {"b": b"new"})
    shutil.rmtree("out")
    return pathlib.Path("state").read_bytes()


def spoiled(run, spoil, path="state"):
    """A state that is there and can't be read. If it began anew, the older repository would be accepted."""
    newer(run)
    spoil()
    kind = os.lstat("state").st_mode
    repository("old", {"b": b"old"})
    run("old", "b", state=path)
    run.wants(4, {})
    want(os.lstat("state").st_mode == kind, "the state was replaced")


def unwritten(run, spoil):
    """A new state that can't be written."""
    repository("old", {"b": b"old"})
    run("old", "b")
    run.wants(0, {"b": b"old"})
    before = pathlib.Path("state").read_bytes()
    repository("repo", {"b": b"new"}, version=2)
    spoil()
    run("repo", "b")
    run.wants(4, {"b": b"old"})
    want(pathlib.Path("state").read_bytes() == before, "the state is another one")


def as_folder():
    os.remove("state")
    os.mkdir("state")


def as_link(to):
    os.remove("state")
    os.symlink(to, "state")


def input_error():
    if not os.path.exists("/proc/self/mem"):
        raise Skipped("no file here gives an input error")
    as_link("/proc/self/mem")


def forbidden(path, mode):
    if os.geteuid() == 0:
        raise Skipped("the superuser can read and write all")
    os.chmod(path, mode)


def hidden():
    os.mkdir("hidden")
    os.rename("state", "hidden/state")
    os.symlink("hidden/state", "state")
    forbidden("hidden", 0)


def strange(run):
    """Wanted paths that lead elsewhere, and that a repository lists."""
    repository("repo", {path: b"abc" for path in STRANGE if path != "/x"}, consistent=True)
    before = sorted(os.listdir())
    for path in STRANGE:
        run("repo", path)
        want(run.status == 3, f"{path!r}: status {run.status}: {run.said}")
        want(sorted(os.listdir()) == before, f"{path!r} left {sorted(os.listdir())}")


def role(run, name):
    delegated("repo", name)
    run("repo", "p")
    run.wants(1, {})


def controls(run):
    """A role whose name has control characters."""
    delegated("repo", "\x1b[2J\u009b2J\x7flow")
    run("repo", "p")
    run.wants(0, {"p": b"low"})


def beside(run, paths):
    """`a` and `a/b`, whose files are both there."""
    contents = {"a": b"one", "a/b": b"two"}
    repository("repo", contents, consistent=True)
    run("repo", *paths)
    run.wants(4, {paths[0]: contents[paths[0]]})
    want(os.path.isfile("state"), "no state")


def beside_plain(run, paths):
    """`a` and `a/b`, of which the mirror has one."""
    contents = {path: path.encode() for path in paths}
    with contextlib.suppress(OSError):
        repository("repo", contents)
    run("repo", *paths)
    run.wants(1, {paths[0]: contents[paths[0]]})


def cases():
    for consistent in (False, True):
        names = "consistent" if consistent else "plain"
        yield f"installs by {names} names", lambda run: installs(run, consistent)
        yield f"a path like a file's name, {names} names", lambda run: named_alike(run, consistent)
    yield "a damaged target", lambda run: damaged(run, b"bat")
    yield "a target that is too long", lambda run: damaged(run, b"bad and more")
    yield "an older repository", older
    yield "a folder in the state's place", lambda run: spoiled(run, as_folder)
    yield "a file in the place of the state's folder", lambda run: spoiled(run, lambda: None, "state/state")
    yield "a state that is a link to nothing", lambda run: spoiled(run, lambda: as_link("nothing"))
    yield "an empty state", lambda run: spoiled(run, lambda: os.truncate("state", 0))
    yield "half of a state", lambda run: spoiled(run, lambda: os.truncate("state", os.path.getsize("state") // 2))
    yield "a state with an input error", lambda run: spoiled(run, input_error)
    yield "a state that can't be read", lambda run: spoiled(run, lambda: forbidden("state", 0))
    yield "a state in a folder that can't be searched", lambda run: spoiled(run, hidden)
    yield "no room for the new state", lambda run: unwritten(run, lambda: os.symlink("/dev/full", "state.new"))
    yield "a folder in the new state's place", lambda run: unwritten(run, lambda: os.mkdir("state.new"))
    yield "a folder that can't be written", lambda run: unwritten(run, lambda: forbidden(".", 0o500))
    yield "wanted paths that lead elsewhere", strange
    for name in ROLES:
        yield f"a role `{name}`", lambda run: role(run, name)
    yield "a role whose name has control characters", controls
    for paths in (("a", "a/b"), ("a/b", "a")):
        yield f"`{paths[1]}` beside `{paths[0]}`", lambda run: beside(run, paths)
        yield f"`{paths[1]}` beside `{paths[0]}`, one file", lambda run: beside_plain(run, paths)


def tried(name, case, run):
    """Tries a case in a folder of its own. Returns its line."""
    with tempfile.TemporaryDirectory() as room:
        os.chdir(room)
        try:
            case(run)
            return f"ok {name}"
        except (Wrong, OSError, subprocess.TimeoutExpired) as seen:
            return f"fail {name}: {seen}"
        except Skipped as why:
            return f"not tried {name}: {why}"
        finally:
            os.chmod(room, 0o700)
            if os.path.isdir("hidden"):
                os.chmod("hidden", 0o700)
            os.chdir("/")


def main():
    if len(sys.argv) != 2:
        print(__doc__)
        sys.exit(2)
    failed = False
    with tempfile.TemporaryDirectory() as work:
        library = linked(pathlib.Path(sys.argv[1]).resolve(), pathlib.Path(work))
        if library is None:
            print(f"not tried: no library in {sys.argv[1]}")
            return
        for language, words in updaters(library, work).items():
            for name, case in cases():
                line = tried(f"{language}: {name}", case, Run(words))
                print(line, flush=True)
                failed |= line.startswith("fail")
        for consistent in (False, True):
            line = tried(f"the page's Python, {'consistent' if consistent else 'plain'} names", on_page, consistent)
            print(line, flush=True)
            failed |= line.startswith("fail")
    sys.exit(1 if failed else 0)


main()
