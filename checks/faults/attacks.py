#!/usr/bin/env python3
"""Attacks on the program, by each who may try: who writes the mirror, who has the keys of one delegated role, who writes
the folder of copies, another user, a second run, a killed run, files without an end, and a disk that is full.

    checks/faults/attacks.py [--later] [PROGRAM [ATTACK..]]      all attacks unless given

Each is tried in a folder of its own. A line is `ok NAME` if the attack came to nothing, `FAILS NAME: what was seen`, or
`not tried NAME: why`. The last line counts them, and the status is 1 if one fails. With `--later` further ones are tried,
against what no version stops yet. `rt run` in crates/tufcheck proves and builds the program, unless PROGRAM here or in the
environment names another. The library of holding.py, which holds runs at their calls, needs `cc`; the attacks of `crash`
whose names end in `not-flushed` need `strace`. A minute, or some if attacks succeed, since a run that doesn't end is killed
after 90 seconds, as is one of 1,000 MB.
"""
import os
import pathlib
import re
import shutil
import signal
import stat
import subprocess
import sys
import tempfile
import time

sys.path.insert(0, os.path.dirname(os.path.dirname(os.path.abspath(__file__))))
import common
from common import NOW
import holding
import tuf

SECONDS, MEMORY = 90, 1_000_000_000
# After how many seconds a run that was held, and goes on, waits for something else.
WAITS = 20
# How many names a run tries for a temporary file.
NAMES = 1000
WORDS = "tufcheck: words"
ATTACKS, LATER = {}, {}


class Seen(Exception):
    """What an attack came to, that must not be."""


class NotTried(Exception):
    """Why an attack can't be tried here."""


def need(condition, seen):
    if not condition:
        raise Seen(str(seen))


def attack(name, later=False):
    """Lists an attack under its name. It is called with a room, and raises `Seen` if it succeeds."""
    def listed(act):
        (LATER if later else ATTACKS)[name] = act
        return act
    return listed


class Ran:
    """What a run printed, its status (None if it was killed) and why it was killed."""

    def __init__(self, words, room, source=subprocess.DEVNULL, **env):
        lines, error = tempfile.TemporaryFile(), tempfile.TemporaryFile()
        begun = subprocess.Popen(words, cwd=room, stdin=source, stdout=lines, stderr=error, env=dict(os.environ, **env))
        self.fate, end = "", time.monotonic() + SECONDS
        while begun.poll() is None and not self.fate:
            time.sleep(0.005)
            self.fate = f"killed after {SECONDS} seconds" if time.monotonic() > end else over(begun.pid)
        if self.fate:
            begun.kill()
        status = begun.wait()
        self.status = None if self.fate else status
        self.lines, self.error = (text_of(file) for file in (lines, error))

    def __str__(self):
        return self.fate or f"status {self.status}, {self.lines!r}, {self.error!r}"


def over(process):
    """Why a process is to be killed, if its memory is the reason."""
    try:
        pages = int(pathlib.Path(f"/proc/{process}/statm").read_text().split()[1])
    except (OSError, IndexError):
        return ""
    return "killed at 1,000 MB" if pages * os.sysconf("SC_PAGE_SIZE") > MEMORY else ""


def text_of(file):
    with file:
        file.seek(0)
        return file.read().decode()


ABC = {"abc.txt": b"abc"}
BOTH = {"abc.txt": b"abc", "d/e/f": b"f"}
ROLE = 99


class Room:
    """A folder for an attack, with what it takes to run the program there."""

    def __init__(self, program, library, path):
        self.program, self.library, self.path, self.runs = program, library, path, []

    def at(self, *parts):
        return pathlib.Path(self.path, *parts)

    def read(self, name):
        return self.at(name).read_bytes() if self.at(name).exists() else None

    def make(self, name, contents, key=1, state="s", low=None, **how):
        """Makes a repository whose top lists the contents of paths, and `low` those of a role that somebody else signs, and
        a state that trusts its first root."""
        role = (tuf.Key(ROLE, 4), low) if low else None
        tuf.repository(self.at(name), tuf.Key(key, 4), contents, low=role, **how)
        need(self.run("init", f"{name}/metadata/1.root.json", "--out", state).status == 0, "the first root is refused")

    def words(self, repo, *paths, state="s", out=None, into=None, more=()):
        more = [*(["--into", into] if into else []), *more]
        return [self.program, *common.verify(*more, *paths, state=state, out=out or state, repo=repo)]

    def run(self, *words, **how):
        return Ran([self.program, *words] if words[0] != self.program else words, self.path, **how)

    def verify(self, *paths, source=subprocess.DEVNULL, **how):
        return self.run(*self.words(*paths, **how), source=source)

    def begin(self, name, words, held=(), **env):
        """Starts a run with the library."""
        self.runs.append(holding.Run(self.library, words, self.path, name, held, **env))
        return self.runs[-1]

    def start(self, name, words, held, **env):
        """Starts a run that is held, and waits until it is at its first place."""
        begun = self.begin(name, words, held, **env)
        if not begun.has_met():
            raise Seen(f"the run wasn't at {held[0]}: status {begun.end()}, {begun.printed()!r}")
        return begun

    def end_runs(self):
        for begun in self.runs:
            begun.kill()
            begun.lines.close()

    def files(self):
        """All that is there: of each path its kind, and its bytes or where it leads."""
        found = {}
        for folder, folders, names in os.walk(self.path):
            for path in (os.path.join(folder, name) for name in folders + names):
                kind = stat.S_IFMT(os.lstat(path).st_mode)
                what = os.readlink(path) if stat.S_ISLNK(kind) else None
                found[path] = kind, pathlib.Path(path).read_bytes() if stat.S_ISREG(kind) else what
        return found

    def refuses(self, words, whys=(WORDS,), statuses=(3,), **how):
        """Needs that a run is refused for one of these reasons, prints no lines and changes no file."""
        before = self.files()
        ran = self.run(*words, **how)
        need(ran.status in statuses and ran.error.strip() in whys and not ran.lines, ran)
        changed = sorted(str(path) for path in set(before.items()) ^ set(self.files().items()))
        need(not changed, f"files were changed: {changed}")


# A second run.


def older_and_newer(room):
    """Two repositories of one root, and the states after each."""
    for name, version, content in [("older", 1, b"abd"), ("newer", 2, b"abc")]:
        room.make(name, {"abc.txt": content}, version=version)
        shutil.copy(room.at("s"), room.at("first"))
        need(room.verify(name, "abc.txt", out=f"{name}.state").status == 0, f"the {name} repository isn't accepted")


@attack("second-run/older-copy-over-newer")
def older_copy_over_newer(room):
    older_and_newer(room)
    older = room.start("older", room.words("older", "abc.txt", into="out"), ["rename:/abc.txt"])
    newer = room.begin("newer", room.words("newer", "abc.txt", into="out"))
    newer.settle()
    older.go()
    statuses = older.end(), newer.end()
    need(statuses == (0, 0), f"statuses {statuses}")
    need(room.read("s") == room.read("newer.state"), "the newer state is lost")
    need(room.read("out/abc.txt") == b"abc", f"both ended with 0, and the copy is the older one, {room.read('out/abc.txt')}")


@attack("second-run/before-the-first-has-printed")
def before_the_lines(room):
    older_and_newer(room)
    older = room.start("older", room.words("older", "abc.txt"), ["write:stdout"])
    newer = room.begin("newer", room.words("newer", "abc.txt"))
    ended = newer.settle()
    older.go()
    statuses = older.end(), newer.end()
    need(not ended and statuses == (0, 0), f"it ended before the first one had printed its lines; statuses {statuses}")


@attack("second-run/locks-of-nfs")
def locks_of_nfs(room):
    older_and_newer(room)
    older = room.start("older", room.words("older", "abc.txt"), ["rename:s"], LOCKS="nfs")
    newer = room.begin("newer", room.words("newer", "abc.txt"), LOCKS="nfs")
    newer.settle()
    older.go()
    statuses = older.end(), newer.end()
    need(statuses == (0, 0) and room.read("s") == room.read("newer.state"),
         f"statuses {statuses}, and the newer state is lost" if room.read("s") == room.read("older.state") else statuses)


@attack("second-run/locks-that-fail")
def locks_that_fail(room):
    """Each lock fails, as where no locks are left (37), or the file system has none (95)."""
    room.make("repo", ABC)
    for error in (37, 9, 5, 22, 38, 95):
        for into in (None, "out"):
            words = room.words("repo", "abc.txt", into=into)
            room.refuses(words, ["tufcheck: state file"], (3, 4), LOCKS=str(error), LD_PRELOAD=room.library)


# Who has the keys of one delegated role.


def app_and(room, low):
    """A repository whose app.deb is listed at the top, and a role that lists others."""
    room.make("repo", {"app.deb": b"good"}, low=low)
    shutil.copy(room.at("s"), room.at("t"))


def installs_another(room, *paths, more=()):
    """A run over the role's targets, while another one is about to rename its copy."""
    app_and(room, {".tufcheck.1.new/1": b"evil"})
    first = room.start("first", room.words("repo", "app.deb", into="out"), ["rename:/app.deb"])
    second = room.verify("repo", *paths, state="t", into="out", more=more)
    first.go()
    status = first.end()
    need(room.read("out/app.deb") in (None, b"good"),
         f"app.deb is {room.read('out/app.deb')}, listed by low alone: status {status}; the other run: {second}")
    need(status == 0, f"status {status}, and app.deb isn't there; the other run: {second}")


@attack("role/copy-of-another-run")
def copy_of_another_run(room):
    installs_another(room, ".tufcheck.1.new/1")


@attack("role/copy-of-another-run-by-every")
def copy_of_another_run_by_every(room):
    installs_another(room, more=["--every"])


def reserved(path, listed=False):
    def act(room):
        app_and(room, {path: b"evil"})
        room.at("list").write_text(f"app.deb\n{path}\n")
        paths = [] if listed else ["app.deb", path]
        room.refuses(room.words("repo", *paths, into="out", more=["--paths-from", "list"] if listed else []))
    return act


attack("role/reserved-path")(reserved(".tufcheck.9.new/x"))
attack("role/reserved-path-of-a-file")(reserved(".tufcheck.lock"))
attack("role/reserved-path-in-capitals")(reserved(".TufCheck.9.NEW/x"))
attack("role/reserved-path-in-a-list")(reserved(".tufcheck.9.new/x", listed=True))


@attack("role/reserved-path-by-every")
def reserved_by_every(room):
    paths = [".tufcheck.9.new/x", ".TUFCHECK.8.new/x", ".tufcheck.lock"]
    app_and(room, {path: b"evil" for path in paths})
    ran = room.verify("repo", into="out", more=["--every"])
    written = [path for path in paths if room.at("out", path).exists()]
    need(not written, f"{written} was written: {ran}")


@attack("role/state-of-his-own")
def state_of_his_own(room):
    """The role lists the state's path; its bytes are a state that trusts the role's owner alone."""
    room.make("evil", {"abc.txt": b"evil"}, key=ROLE, state="evil.state")
    app_and(room, {"state": room.read("evil.state")})
    room.at("out").mkdir()
    room.at("s").rename(room.at("out/state"))
    begun = room.read("out/state")
    ran = room.verify("repo", state="out/state", into="out", more=["--every"])
    next_one = room.verify("evil", "abc.txt", state="out/state", out="n")
    need(next_one.status != 0, f"his repository is accepted by the next run, after {ran}")
    need(room.read("out/state") == begun and ran.status == 3 and ran.error.strip() == WORDS, ran)


# Options of `verify`, with a folder for copies that they don't suit: `linked` leads to `out`, `name` to `out/state`,
# `listed` to `out/list`, and `mirror` to `repo/targets`.
UNSUITED = {
    "state": "--state out/state --out n --into out",
    "state-in-a-folder": "--state out/a/b/state --out n --into out",
    "state-by-its-link": "--state name --out n --into out",
    "state-by-a-link-of-its-folder": "--state linked/state --out n --into out",
    "state-by-a-link-of-the-copies": "--state out/state --out n --into linked",
    "state-below-here": "--state s --out n --into .",
    "state-by-a-way-round": "--state repo/../out/state --out n --into out/a/..",
    "new-state": "--state s --out out/n --into out",
    "new-state-by-its-link": "--state s --out name --into out",
    "new-state-by-a-link-of-its-folder": "--state s --out linked/n --into out",
    "metadata": "--state s --out n --into out --metadata out/repo/metadata",
    "metadata-itself": "--state s --out n --into repo/metadata",
    "metadata-above": "--state s --out n --into repo/metadata/a/b",
    "targets": "--state s --out n --into out --targets out/repo/targets",
    "targets-itself": "--state s --out n --into repo/targets",
    "targets-above": "--state s --out n --into repo/targets/a/b",
    "targets-above-by-a-link": "--state s --out n --into mirror/a",
    "both-folders": "--state s --out n --into repo",
    "list": "--state s --out n --into out --paths-from out/list",
    "list-by-its-link": "--state s --out n --into out --paths-from listed",
}


def unsuited(options):
    def act(room):
        room.make("repo", ABC)
        shutil.copytree(room.at("repo"), room.at("out/repo"))
        room.at("out/a/b").mkdir(parents=True)
        for place in ("out/state", "out/a/b/state"):
            shutil.copy(room.at("s"), room.at(place))
        room.at("out/list").write_text("abc.txt\n")
        for name, leads in [("linked", "out"), ("name", "out/state"), ("listed", "out/list"), ("mirror", "repo/targets")]:
            room.at(name).symlink_to(leads)
        words = options.split()
        for folder in ("metadata", "targets"):
            words += [] if f"--{folder}" in words else [f"--{folder}", f"repo/{folder}"]
        room.refuses(["verify", "--now", NOW, *words, "abc.txt"])
    return act


for name, options in UNSUITED.items():
    attack(f"role/over-the-{name}")(unsuited(options))


def installs_the_rest(paths, prepare=lambda room: None, **how):
    """A path that can't be written has its line, and the others are installed."""
    def act(room):
        room.make("repo", {"z": b"z"}, low={path: b"low" for path in paths}, **how)
        prepare(room)
        ran = room.verify("repo", into="out", more=["--every"])
        need(ran.status == 1 and "NoPlace" in ran.lines and room.read("out/z") == b"z", ran)
    return act


attack("role/one-path-stops-the-rest")(installs_the_rest([".tufcheck.1.new/x"]))
attack("role/a-folder-stops-the-rest")(
    installs_the_rest(["b"], lambda room: room.at("out/b").mkdir(parents=True)))
attack("role/two-paths-stop-the-rest")(installs_the_rest(["a", "a/b"], consistent=True))


# Who writes the folder of copies.


def over_the_state(room, held):
    """A link in the folder of copies leads to the folder of the state, whose name the role lists below it."""
    app_and(room, {"d/s": b"evil"})
    need(room.verify("repo", "app.deb", out="n").status == 0, "the repository isn't accepted")
    good = room.read("s"), room.read("n")
    room.at("out").mkdir()
    if held:
        room.at("out/d").mkdir()
        run = room.start("run", room.words("repo", "d/s", into="out"), held)
        room.at("out/d").rmdir()
    room.at("out/d").symlink_to("..")
    if held:
        run.go()
        ran = run.end()
    else:
        ran = room.verify("repo", "d/s", into="out")
    need(room.read("s") in good, f"the state is {room.read('s')[:20]}: {ran}")


@attack("folder/link-to-the-state")
def link_to_the_state(room):
    over_the_state(room, None)


@attack("folder/link-to-the-state-made-meanwhile")
def link_to_the_state_made_meanwhile(room):
    over_the_state(room, ["rename:s"])


def swapped(room, path):
    """The copies of two targets have each the other's bytes."""
    room.at("out/a").write_bytes(b"bcd")
    path.write_bytes(b"abd")


# What is done to a copy between two runs over an unchanged mirror, after which it has to be written anew.
CHANGES = {
    "shorter": lambda room, path: path.write_bytes(b"ab"),
    "longer": lambda room, path: path.write_bytes(b"abcd"),
    "empty": lambda room, path: path.write_bytes(b""),
    "another-first-byte": lambda room, path: path.write_bytes(b"bbc"),
    "another-last-byte": lambda room, path: path.write_bytes(b"abd"),
    "bytes-of-another-target": swapped,
    "gone": lambda room, path: path.unlink(),
    "a-link-to-the-same-bytes": lambda room, path: path.rename(room.at("there")) and path.symlink_to(room.at("there")),
    "with-another-name": lambda room, path: room.at("there").hardlink_to(path),
    "a-pipe": lambda room, path: path.unlink() or os.mkfifo(path),
}


def copy_that_changed(change):
    def act(room):
        targets = {"abc.txt": b"abc", "a": b"abd"}
        room.make("repo", targets)
        for number in range(2):
            ran = room.verify("repo", *targets, into="out")
            need(ran.status == 0, ran)
            if number == 0:
                change(room, room.at("out/abc.txt"))
        for path, content in targets.items():
            found = os.lstat(room.at("out", path))
            need(stat.S_ISREG(found.st_mode) and found.st_nlink == 1, f"{path} is a link, or no plain file: {ran}")
            need(room.read(f"out/{path}") == content, f"{path} has {room.read(f'out/{path}')}: {ran}")
        need(not left(room), left(room))
    return act


for name, change in CHANGES.items():
    attack(f"folder/copy-that-is-{name}")(copy_that_changed(change))


def copies_left_alone(room):
    """A second run over an unchanged mirror writes, flushes and renames no copy, and keeps its mode. What a killed run left
    is removed, and the folders of copies are flushed then, but not in a third run."""
    if not shutil.which("strace"):
        raise NotTried("strace is missing")
    room.make("repo", PIECES)
    need(room.verify("repo", *PIECES, into="out").status == 0, "the repository isn't accepted")
    room.at("out/abc.txt").chmod(0o640)
    room.at("out/.tufcheck.1.new").mkdir(0o700)
    room.at("out/.tufcheck.1.new/1").write_bytes(b"ab")
    before = {path: os.lstat(room.at("out", path)) for path in PIECES}
    calls = "trace=fsync,fdatasync,syncfs,rename,renameat,renameat2,write,open,openat,creat"
    traced = ["strace", "-f", "-y", "-e", calls, "-o", "trace", *room.words("repo", *PIECES, into="out")]
    ran = Ran(traced, room.path, ASAN_OPTIONS="detect_leaks=0")
    if ran.status != 0 and "ptrace" in ran.error:
        raise NotTried(ran.error.strip())
    need(ran.status == 0 and ran.lines.count("ok ") == len(PIECES), ran)
    out = re.escape(os.path.realpath(room.at("out")))
    folders = re.compile(rf"f\w*sync\(\d+<({out}(?:/d|/d/e)?)>")
    flushed = lambda: set(folders.findall(room.read("trace").decode()))
    need(len(flushed()) == 3, f"a killed run may have moved copies, and these folders alone were flushed: {flushed()}")
    files = "|".join(map(re.escape, PIECES))
    touched = re.compile(rf"(?:write|f\w*sync)\(\d+<{out}/(?:{files})>|rename.*\bout/|O_(?:WRONLY|RDWR|CREAT|TRUNC).*\bout/(?:{files})")
    made = [line for line in room.read("trace").decode().splitlines() if touched.search(line)]
    need(not made, f"a copy was written: {made[:3]}")
    for path, was in before.items():
        now = os.lstat(room.at("out", path))
        need((now.st_ino, now.st_mtime_ns, now.st_mode) == (was.st_ino, was.st_mtime_ns, was.st_mode), f"{path} was written")
        need(room.read(f"out/{path}") == PIECES[path], f"{path} has other bytes")
    need(not left(room), f"{left(room)} is left")
    ran = Ran(traced, room.path, ASAN_OPTIONS="detect_leaks=0")
    need(ran.status == 0 and not flushed(), f"folders in which all copies stayed were flushed: {flushed()}, {ran}")


attack("folder/unchanged-copies-written")(copies_left_alone)


# Another user, who may read and write what everybody may.


def for_its_owner_alone(held, name, **how):
    """A run is held while it writes: only its owner may use its temporary files, also where new files are for everybody."""
    def act(room):
        room.make("repo", ABC)
        room.at("s").chmod(0o666)
        mask = os.umask(0)
        try:
            run = room.start("run", room.words("repo", "abc.txt", **how), [held])
        finally:
            os.umask(mask)
        mode = stat.S_IMODE(os.stat(room.at(name)).st_mode)
        run.go()
        need(run.end() == 0, run.printed())
        need(not mode & 0o077, f"{name} has the mode {mode:o}")
    return act


attack("user/new-state-while-it-is-written")(for_its_owner_alone("write:/s.1.new", "s.1.new"))
attack("user/copy-while-it-is-written")(for_its_owner_alone("write:/.tufcheck.1.new/1", "out/.tufcheck.1.new", into="out"))
attack("user/copy-before-its-move")(for_its_owner_alone("rename:/abc.txt", "out/.tufcheck.1.new", into="out"))


# Who writes the mirror, while the run reads it.


def becomes(file, change, held):
    """A pipe, or a link to a file of the same bytes, takes the place of a file between the listing and the reading: the run
    has to end, and must not accept it."""
    def act(room):
        room.make("repo", ABC)
        path = room.at("repo", file)
        run = room.start("run", room.words("repo", "abc.txt", into="out"), [held])
        shutil.copy(path, room.at("another"))
        path.unlink()
        change(path, room.at("another"))
        run.go()
        status = run.end(WAITS)
        need(status is not None, "the run waits")
        need(status != 0, "status 0")
    return act


def to_pipe(path, _):
    os.mkfifo(path)


# The file that changes, and a call before the run looks at it: the timestamp is read before it, or the folder of temporary
# files is made.
CHANGED = {"target": ("targets/abc.txt", "mkdir:.tufcheck.1.new"),
           "metadata": ("metadata/snapshot.json", "open:timestamp.json")}
for kind, (file, before) in CHANGED.items():
    attack(f"mirror/{kind}-becomes-a-pipe")(becomes(file, to_pipe, before))
    attack(f"mirror/{kind}-becomes-a-link")(becomes(file, lambda path, to: path.symlink_to(to), f"open:{file}"))
    attack(f"mirror/{kind}-becomes-a-pipe-as-it-is-opened", later=True)(becomes(file, to_pipe, f"open:{file}"))


# Files without an end.

VERIFY = "verify --now {now} --metadata repo/metadata --targets repo/targets --out n"
ENDLESS = {
    "root": "init {file} --out n",
    "state-shown": "show {file}",
    "state": VERIFY + " --state {file} abc.txt",
    "state-with-copies": VERIFY + " --state {file} --into out abc.txt",
    "state-of-next": "next --now {now} --metadata repo/metadata --targets repo/targets --state {file} abc.txt",
    "state-of-replay": "replay --now {now} --state {file} --out n abc.txt repo",
    "list": VERIFY + " --state s --paths-from {file}",
    "script": "make {file} made",
}


def endless(words, file):
    def act(room):
        room.make("repo", ABC)
        with open(room.at("large"), "wb") as large:
            large.truncate(100_000_000_000)
        ran = room.run(*words.format(now=NOW, file=file).split())
        need(ran.status in (2, 3, 4) and "memory" not in ran.error, ran)
        need(not any(room.at(name).exists() for name in ("n", "made", "out")), f"something was stored: {ran}")
    return act


for name, words in ENDLESS.items():
    attack(f"endless/{name}")(endless(words, "/dev/zero"))
attack("endless/root-of-100-gigabytes")(endless(ENDLESS["root"], "large"))
attack("endless/state-of-100-gigabytes")(endless(ENDLESS["state"], "large"))


def endless_in_the_mirror(file, status, line, **how):
    """A file of the mirror takes no more memory or time than it may: its line says what is wrong with it."""
    def act(room):
        room.make("repo", ABC)
        with open(room.at("repo", file), "wb") as large:
            large.truncate(100_000_000_000)
        ran = room.verify("repo", "abc.txt", **how)
        need(ran.status == status and line in ran.lines.splitlines(), ran)
    return act


for kind in ("timestamp", "snapshot", "targets"):
    attack(f"mirror/{kind}-of-100-gigabytes")(endless_in_the_mirror(f"metadata/{kind}.json", 2, f"end {kind} TooLong"))
TOO_LONG = "targets/abc.txt", 1, 'no "abc.txt" LengthWrong'
attack("mirror/target-of-100-gigabytes")(endless_in_the_mirror(*TOO_LONG))
attack("mirror/target-of-100-gigabytes-with-copies")(endless_in_the_mirror(*TOO_LONG, into="out"))


@attack("endless/list-through-a-pipe")
def endless_list(room):
    room.make("repo", ABC)
    lines = subprocess.Popen(["yes", "a/path/of/a/target"], stdout=subprocess.PIPE)
    try:
        ran = room.verify("repo", more=["--paths-from", "-"], source=lines.stdout)
    finally:
        lines.kill()
        lines.stdout.close()
        lines.wait()
    need(ran.status in (3, 4) and "memory" not in ran.error, ran)


# A killed run, which leaves its temporary files.


def left(room):
    """The temporary files beside the states and below the folder of copies."""
    names = [path.name for path in room.at(".").glob("*.new")] + sorted(os.listdir(room.at("out")))
    return [name for name in names if name.endswith(".new")]


def killed(room, many):
    """Kills a run before it renames its new state, and makes many of what it left."""
    room.make("repo", BOTH)
    shutil.copy(room.at("s"), room.at("t"))
    room.start("run", room.words("repo", "abc.txt", "d/e/f", into="out"), ["rename:s"]).kill()
    for path in [room.at(name) for name in left(room)] + [room.at("out", name) for name in left(room)]:
        for number in range(2, many + 1):
            more = path.with_name(path.name.replace(".1.", f".{number}."))
            if path.is_dir():
                shutil.copytree(path, more)
            elif path.is_file():
                shutil.copy(path, more)
    room.runs[-1].remove_marks()
    need(left(room), "the killed run left nothing")


def goes_on(room, state="s", gone=True):
    """Needs that a run is done, and that what dead ones left is gone."""
    ran = room.verify("repo", "abc.txt", "d/e/f", state=state, into="out")
    copies = room.read("out/abc.txt"), room.read("out/d/e/f")
    need(ran.status == 0 and copies == (b"abc", b"f"), ran)
    need(not gone or not left(room), f"{len(left(room))} are left, as {left(room)[:2]}")


@attack("killed-run/left")
def left_by_one(room):
    killed(room, 1)
    goes_on(room)


@attack("killed-run/left-by-a-thousand")
def left_by_many(room):
    killed(room, NAMES)
    goes_on(room)


@attack("killed-run/left-state-by-a-thousand")
def left_states(room):
    killed(room, NAMES)
    shutil.rmtree(room.at("out"))
    goes_on(room)


@attack("killed-run/left-beside-a-live-run")
def left_beside_a_live_run(room):
    """One run goes on while another one, with a state of its own, removes what a dead one left."""
    killed(room, 1)
    dead = left(room)
    for path in [room.at("out", name) for name in dead if room.at("out", name).is_dir()]:
        path.rename(path.with_name(".tufcheck.2.new"))
    live = room.start("live", room.words("repo", "abc.txt", state="t", into="out"), ["rename:/abc.txt"])
    goes_on(room, gone=False)
    there = sorted(name for name in os.listdir(room.at("out")) if name.startswith(".tufcheck."))
    room.at("out/abc.txt").unlink()
    live.go()
    status = live.end(SECONDS)
    need(status == 0 and room.read("out/abc.txt") == b"abc", f"the live run: status {status}; beside it: {there}")
    need(".tufcheck.2.new" not in there and not left(room), f"{there} stayed beside a live run, and then {left(room)}")


@attack("killed-run/left-state-beside-a-live-run")
def left_state_beside_a_live_run(room):
    """Two runs with states of their own store one new state, beside what a dead run left of it."""
    killed(room, 1)
    room.at("s.1.new").rename(room.at("n.2.new"))
    live = room.start("live", room.words("repo", "abc.txt", state="t", out="n"), ["rename:n"])
    ran = room.verify("repo", "abc.txt", out="n")
    live.go()
    status = live.end(SECONDS)
    need((status, ran.status) == (0, 0) and room.read("n"), f"the live run: status {status}; the other one: {ran}")
    need(not room.at("n.2.new").exists(), f"what was left stayed: {left(room)}")


def among_the_left(change):
    """Who writes the folder of copies puts something else among what dead runs left."""
    def act(room):
        killed(room, NAMES)
        room.at("kept").mkdir()
        room.at("kept/file").write_bytes(b"kept")
        odd = room.at("out/.tufcheck.500.new")
        change(odd, room.at("kept"))
        goes_on(room, gone=False)
        need(room.read("kept/file") == b"kept", "a run removed what a link leads to")
        there = [name for name in left(room) if name != odd.name]
        need(not there, f"{len(there)} are left")
    return act


def to_link(odd, kept):
    shutil.rmtree(odd)
    odd.symlink_to(kept)


def with_link(odd, kept):
    odd.joinpath("more").symlink_to(kept)


def with_pipes(odd, _):
    """Each file in it becomes a pipe that nobody writes to, and there are some more."""
    for name in {*os.listdir(odd), "lock", "1"}:
        odd.joinpath(name).unlink(missing_ok=True)
        os.mkfifo(odd / name)


attack("folder/link-among-the-left")(among_the_left(to_link))
attack("folder/link-in-what-is-left")(among_the_left(with_link))
attack("folder/pipes-in-what-is-left")(among_the_left(with_pipes))


# A crash of the machine, after a run has ended with status 0.


def flushes(room, into, made):
    """The calls of a run that flush, rename, make folders and print, each with the path that it is about."""
    if not shutil.which("strace"):
        raise NotTried("strace is missing")
    room.make("repo", BOTH)
    room.at(made).mkdir()
    calls = "trace=fsync,fdatasync,syncfs,rename,renameat,renameat2,mkdir,mkdirat,write"
    traced = ["strace", "-f", "-y", "-e", calls, "-o", "trace", *room.words("repo", "abc.txt", "d/e/f", into=into)]
    ran = Ran(traced, room.path, ASAN_OPTIONS="detect_leaks=0")
    if ran.status != 0 and "ptrace" in ran.error:
        raise NotTried(ran.error.strip())
    need(ran.status == 0, ran)
    return [call for call in map(lambda line: call_of(room, line), room.read("trace").decode().splitlines()) if call]


def call_of(room, line):
    """The word of a call in a line of strace, and its path. A call that failed is none."""
    word = re.match(r"\d+ +(\w+)\(", line)
    paths = re.findall(r'(?:(?:AT_FDCWD|\d+)<([^>]*)>, )?"([^"]*)"', line)
    file = re.search(r"\((\d+)<([^>]*)>", line)
    if not word or re.search(r"\) += -1 ", line):
        return None
    if word[1] in ("fsync", "fdatasync", "syncfs"):
        return "flush", file[2]
    if word[1] == "write":
        return "write", "stdout" if file[1] == "1" else file[2]
    at, path = paths[-1]
    return word[1][:6].rstrip("a"), os.path.normpath(os.path.join(room.path, at, path))


def unflushed(calls, changes):
    """The folders in which such a call made a name, and that weren't flushed between that and the lines."""
    printed = calls.index(("write", "stdout"))
    made = {os.path.dirname(path): number for number, (word, path) in enumerate(calls) if word in changes}
    flushed = lambda folder, number: ("flush", folder) in calls[number:printed]
    return sorted(folder for folder, number in made.items() if not flushed(folder, number))


def flushed(changes, into="out", made="out"):
    """A run with copies below `into` flushes what it makes in folders. `made` is there before."""
    def act(room):
        calls = [(word, path) for word, path in flushes(room, into, made) if ".tufcheck." not in path or word == "write"]
        there = unflushed(calls, changes)
        need(not there, f"not flushed before the lines: {[os.path.relpath(folder, room.path) for folder in there]}")
    return act


attack("crash/copies-not-flushed")(flushed(["rename"]))
attack("crash/made-folders-not-flushed")(flushed(["rename", "mkdir"]))
attack("crash/made-folder-of-all-copies-not-flushed")(flushed(["mkdir"], "place/out", "place"))


def flush_fails(folder, *paths):
    def act(room):
        room.make("repo", BOTH)
        words = room.words("repo", *paths, into="out")
        ran = room.run(*words, FLUSH=folder, LD_PRELOAD=room.library)
        need((ran.status, ran.error.strip(), ran.lines) == (4, "tufcheck: output", ""), ran)
    return act


attack("crash/flush-of-a-copy-that-fails")(flush_fails("/.tufcheck.1.new/1", "abc.txt"))
attack("crash/flush-of-the-new-state-that-fails")(flush_fails("/s.1.new", "abc.txt"))
attack("crash/flush-that-fails")(flush_fails("/out", "abc.txt"))
attack("crash/flush-of-a-folder-below-that-fails")(flush_fails("/out/d/e", "abc.txt", "d/e/f"))


# A disk that is full, or takes less at once than it is given.

# Files of several pieces.
PIECES = {"abc.txt": b"abc" * 60_000, "d/e/f": b"f" * 100_000}


def begun_with_pieces(room):
    """A repository of such files, the state before and the one after."""
    room.make("repo", PIECES)
    need(room.verify("repo", *PIECES, out="after").status == 0, "the repository isn't accepted")
    return room.read("s"), room.read("after")


def stored(room, before, after, seen):
    """Whether the new state and all copies are there. Needs that the state and each copy are whole."""
    need(room.read("s") in (before, after), f"the state is neither the old nor the new one: {seen}")
    copies = {path: room.read(f"out/{path}") for path in PIECES}
    odd = [path for path, content in copies.items() if content not in (None, PIECES[path])]
    need(not odd, f"{odd} has other bytes: {seen}")
    return room.read("s") == after and None not in copies.values()


@attack("disk/short-writes")
def short_writes(room):
    before, after = begun_with_pieces(room)
    ran = room.run(*room.words("repo", *PIECES, into="out"), SHORT="1", LD_PRELOAD=room.library)
    need(stored(room, before, after, ran) and ran.status == 0, ran)


@attack("disk/each-call-fails")
def each_call_fails(room):
    """Each call of a run finds no space left, one in each run: it ends with its failure, or has done all."""
    before, after = begun_with_pieces(room)
    failed, here = room.at("run.failed"), os.path.realpath(room.path)
    how = dict(AS=str(room.at("run")), LD_PRELOAD=room.library)
    number, call = 0, "none"
    while number == 0 or call:
        number += 1
        room.at("s").write_bytes(before)
        shutil.rmtree(room.at("out"), ignore_errors=True)
        failed.unlink(missing_ok=True)
        ran = room.run(*room.words("repo", *PIECES, into="out"), FAILS=str(number), **how)
        call = failed.read_text() if failed.exists() else ""
        seen = f"call {number}, {call}: {ran}"
        is_stored = stored(room, before, after, seen)
        need(ran.status == 0 and is_stored or ran.status in (3, 4) and not ran.lines, seen)
        # That the folder of the state isn't flushed is no failure.
        need(ran.status != 0 or not call.startswith("fsync:") or call == f"fsync:{here}", f"not flushed: {seen}")


# Files that nobody signed, 300 of 5 MB each.


def unsigned_files(words):
    def act(room):
        room.make("repo", ABC)
        for number in range(300):
            with open(room.at(f"repo/metadata/x{number}.json"), "wb") as file:
                file.truncate(5_000_000)
        ran = room.run(*words(room))
        need(ran.status == 0, ran)
    return act


FOLDERS = ["--metadata", "repo/metadata", "--targets", "repo/targets"]
BEGUN = ["--now", NOW, "--state", "s"]
attack("mirror/unsigned-files-that-cost-memory")(unsigned_files(lambda room: room.words("repo", "abc.txt")))
attack("mirror/unsigned-files-that-cost-next-memory")(unsigned_files(lambda room: ["next", *BEGUN, *FOLDERS, "abc.txt"]))
attack("mirror/unsigned-files-that-cost-replay-memory")(
    unsigned_files(lambda room: ["replay", *BEGUN, "--out", "o", "abc.txt", "repo"])
)


def tried(program, library, name, act):
    """Tries an attack. Returns the word of its line."""
    with tempfile.TemporaryDirectory() as path:
        room = Room(program, library, path)
        word, seen = "ok", ""
        try:
            act(room)
        except Seen as fault:
            word, seen = "FAILS", str(fault)
        except NotTried as why:
            word, seen = "not tried", str(why)
        finally:
            room.end_runs()
    return common.told(word, name, seen.replace(path + "/", ""))


def main():
    signal.signal(signal.SIGTERM, lambda *_: sys.exit(143))
    words = [word for word in sys.argv[1:] if word != "--later"]
    chosen = {**ATTACKS, **(LATER if len(words) < len(sys.argv) - 1 else {})}
    given = os.path.abspath(words[0]) if words else common.PROGRAM
    unknown = set(words[1:]) - set(chosen)
    if unknown:
        sys.exit(f"attacks.py: unknown: {', '.join(unknown)}")
    with tempfile.TemporaryDirectory() as folder:
        library = holding.build(folder)
        done = [tried(given, library, name, chosen[name]) for name in words[1:] or chosen]
    sys.exit(common.counted(done))


main()
