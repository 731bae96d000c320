#!/usr/bin/env python3
"""Tries the operator's scripts and units of dist/operator: tufcheck-setup, tufcheck-run, and what goes with them.

    checks/faults/operating.py [PROGRAM [CASE..]]      crates/tufcheck/out/tufcheck and all cases unless given

Each case has a folder of its own, in which `etc`, `usr` and `var` are (`--root`), so it needs neither the superuser nor
systemd. Cases in which nothing is verified have a stub of this script in place of the program. It prints `ok CASE`,
`FAILS CASE: what was seen`, or `not tried CASE: why`, and the status is 1 if one fails. A small file system, for a full
disk, needs `unshare` with mounts; the units need `systemd-analyze`, the rules and metrics `promtool`, the calls `strace`
and the pages `man`. The repositories are those of `examples`, which expire in 2030, verified by the clock. It takes
three minutes. `rt run` in crates/tufcheck proves and builds the program.
"""
import json
import os
import pathlib
import re
import resource
import shutil
import signal
import stat
import subprocess
import sys
import tempfile
import time

TOP = pathlib.Path(__file__).resolve().parents[2]
OPERATOR = TOP / "dist/operator"
CASES = {}
SECONDS = 120
SHOWN = "root 3 2030-01-01T00:00:00Z\ntimestamp 7 2030-01-01T00:00:00Z\n"
STUB = """#!/usr/bin/python3
import json, os, signal, sys, time
signal.signal(signal.SIGXFSZ, signal.SIG_IGN)
here = os.path.dirname(os.path.abspath(__file__))
with open(here + "/answer") as file:
    answer = json.load(file)
word = sys.argv[1]
with open(here + "/calls", "a") as file:
    file.write(json.dumps(sys.argv[1:]) + "\\n")
if word == "init" and not answer.get("init"):
    with open(sys.argv[sys.argv.index("--out") + 1], "w") as file:
        file.write("state")
if word == "verify":
    with open(here + "/begun", "w"):
        time.sleep(answer.get("seconds", 0))
    try:
        sys.stdout.buffer.write(answer.get("lines", "").encode() * answer.get("times", 1))
        sys.stdout.flush()
    except OSError:
        os.write(2, b"tufcheck: output\\n")
        os._exit(4)
    sys.stderr.write(answer.get("error", ""))
if word == "show":
    sys.stdout.write(answer.get("shown", ""))
sys.exit(answer.get(word, 0))
"""
READY = 'root 3\nend ready\nok "a/b" 3 "targets"\n'


class NotTried(Exception):
    """Why a case can't be tried here."""


def need(condition, seen):
    if not condition:
        raise AssertionError(str(seen))


def case(name, real=False):
    """Lists a case under its name. It is called with a room, that of the program if it is real, else that of the stub."""
    def listed(act):
        CASES[name] = (act, real)
        return act
    return listed


def tool(name):
    if not shutil.which(name):
        raise NotTried(f"{name} is missing")
    return name


class Ran:
    """What a run of a script came to: its status, and what it wrote to standard error as to a journal."""

    def __init__(self, status, error):
        self.status, self.error = status, error
        self.lines = error.splitlines()

    def __str__(self):
        return f"status {self.status}, {self.error[:2000]!r}"


class Room:
    """A folder with a program, a mirror and a place for copies."""

    def __init__(self, path, program):
        self.path, self.program = pathlib.Path(path), program
        self.mirror, self.into = self.at("mirror"), self.at("verified")
        self.folder, self.prom = self.at("var/lib/tufcheck/it"), self.at("var/lib/tufcheck-metrics/it.prom")
        for name in ("etc/tufcheck", "usr/bin", "var/lib/tufcheck-metrics", "mirror"):
            self.at(name).mkdir(parents=True)
        if program:
            shutil.copy(program, self.at("usr/bin/tufcheck"))
            self.make("rollback.1")
        else:
            self.at("usr/bin/tufcheck").write_text(STUB)
            self.at("usr/bin/tufcheck").chmod(0o755)
            self.answer(lines=READY)
            for name in ("metadata/1.root.json", "targets/a/b"):
                self.mirror.joinpath(name).parent.mkdir(parents=True)
                self.mirror.joinpath(name).write_text("abc")

    def at(self, name):
        return self.path / name

    def answer(self, **what):
        self.at("usr/bin/answer").write_text(json.dumps({"shown": SHOWN, **what}))

    def make(self, example):
        """Makes the repository of an example in place of the mirror."""
        shutil.rmtree(self.mirror)
        subprocess.run([self.at("usr/bin/tufcheck"), "make", TOP / f"examples/{example}.script", self.mirror], check=True)

    def begin(self, script, *words, before=(), **how):
        """Starts a script, with a file as its journal."""
        journal = open(self.at("journal"), "w+b")
        found = os.fstat(journal.fileno())
        env = {"PATH": os.environ["PATH"], "JOURNAL_STREAM": f"{found.st_dev}:{found.st_ino}"}
        words = [*before, OPERATOR / script, "--root", self.path, *words]
        process = subprocess.Popen(words, stdin=subprocess.DEVNULL, stdout=subprocess.DEVNULL, stderr=journal, env=env,
                                   **how)
        return process, journal

    def end(self, begun):
        process, journal = begun
        status = process.wait(SECONDS)
        with journal:
            journal.seek(0)
            return Ran(status, journal.read().decode())

    def run(self, *words, **how):
        return self.end(self.begin("tufcheck-run", *(words or ("it",)), **how))

    def setup(self, *words):
        return self.end(self.begin("tufcheck-setup", *words))

    def set_up(self, *more):
        """Sets up `it`, as most cases begin."""
        ran = self.setup("it", self.mirror / "metadata/1.root.json", "--metadata", self.mirror / "metadata", "--targets",
                         self.mirror / "targets", "--want", "every", "--into", self.into, *more)
        need(ran.status == 0, ran)

    def conf(self, text):
        self.at("etc/tufcheck/it.conf").write_text(text)

    def base(self):
        return f"metadata {self.mirror}/metadata\ntargets {self.mirror}/targets\nwant every\n"

    def metrics(self):
        """The values of the metrics; each line has to be one."""
        values = {}
        for line in self.prom.read_text().splitlines():
            found = re.fullmatch(r'tufcheck_(\w+)\{name="it"(?:,\w+="(\w+)")?\} ([0-9.-]+)', line)
            need(found or re.fullmatch(r"# (HELP|TYPE) tufcheck_\w+ [ -~]+", line), line)
            if found:
                values[f"{found[1]} {found[2]}" if found[2] else found[1]] = float(found[3])
        return values

    def left(self):
        """Names of temporary files below the room."""
        names = [str(path.relative_to(self.path)) for path in self.path.rglob("*")]
        return [name for name in names if name.endswith(".new") or "/.it." in name]

    def calls(self):
        file = self.at("usr/bin/calls")
        return [json.loads(line) for line in file.read_text().splitlines()] if file.exists() else []


def mode(path):
    return stat.S_IMODE(path.stat().st_mode)


@case("setup")
def setup(room):
    room.at("var/lib/prometheus/node-exporter").mkdir(parents=True)
    room.set_up("--limit", "16")
    need(mode(room.folder) == 0o700 and mode(room.folder / "first.root.json") == 0o600, "modes")
    need((room.folder / "state").read_text() == "state", "no state")
    need(room.into.is_dir() and "limit 16\n" in room.at("etc/tufcheck/it.conf").read_text(), "no configuration")
    unit = room.at("etc/systemd/system/tufcheck@it.service.d/setup.conf").read_text()
    need(f'ReadWritePaths="{room.into}"\n' in unit and "PrivateNetwork" not in unit, unit)
    need(os.readlink(room.at("var/lib/prometheus/node-exporter/tufcheck-it.prom")) == str(room.prom), "no link")
    need(not room.left() and room.run().status == 0, room.left())
    need(room.calls()[1][:1] == ["verify"] and ["--limit", "16"] == room.calls()[1][9:11], room.calls())


@case("setup over a state")
def over(room):
    room.set_up()
    (room.folder / "state").write_text("newer")
    for more in ([], ["--want", "every"]):
        ran = room.setup("it", room.mirror / "metadata/1.root.json", *more)
        need(ran.status == 73 and (room.folder / "state").read_text() == "newer" and not room.left(), ran)


@case("setup with a refused root")
def refused_root(room):
    room.answer(init=2)
    words = ["it", room.mirror / "metadata/1.root.json", "--metadata", "/m", "--targets", "/t", "--want", "every"]
    need(room.setup(*words).status == 2, "another status")
    need(not room.folder.exists() and not room.left() and not room.at("etc/tufcheck/it.conf").exists(), "something is left")


@case("setups at once, and killed ones")
def setups(room):
    words = ["it", room.mirror / "metadata/1.root.json", "--metadata", room.mirror / "metadata", "--targets",
             room.mirror / "targets", "--want", "every", "--into", room.into]
    begun = [room.begin("tufcheck-setup", *words) for _ in range(6)]
    ran = [room.end(one) for one in begun]
    need(sorted(one.status for one in ran) == [0, 73, 73, 73, 73, 73], [str(one) for one in ran])
    need(not room.left() and room.run().status == 0, room.left())
    for number in range(20):
        shutil.rmtree(room.folder)
        room.at("etc/tufcheck/it.conf").unlink()
        first = room.begin("tufcheck-setup", *words, start_new_session=True)
        time.sleep(0.05 + number * 0.02)
        os.killpg(first[0].pid, signal.SIGKILL)
        room.end(first)
        if not room.folder.exists():
            there = room.at("etc/tufcheck/it.conf").exists()
            ran = room.setup(*(words[:2] if there else words))
            need(ran.status == 0, ran)
        need(not room.left() and room.run().status == 0, room.left())


@case("wrong arguments")
def arguments(room):
    for name in ("../it", "a/b", "", "it it", "-it", "a" * 65, "it\n", "it.x", "%i"):
        ran = room.run("--", name)
        need(ran.status == 64 and len(ran.lines) == 1, f"{name!r}: {ran}")
        need(room.setup("--", name, "root").status == 64, name)
    need(room.run("it").status == 71, "a name without a state")
    words = ["it", room.mirror / "metadata/1.root.json", "--targets", "/t", "--want", "every", "--metadata"]
    need(room.setup(*words, "/m\nfetch /f").status == 64 and room.setup(*words, "m").status == 78, "a line feed, or no path")
    need(room.setup("it").status == 64 and room.setup("--units", "it", "root").status == 64, "wrong words")


@case("good run")
def good(room):
    room.set_up()
    ran, values = room.run(), room.metrics()
    need(ran.status == 0 and (room.folder / "lines").read_text() == READY, ran)
    need(ran.lines == [f"<6>{line}" for line in READY.splitlines()] + ["<6>status 0: 1 accepted, 0 refused"], ran)
    need(values["status"] == 0 and values["targets accepted"] == 1 and values["targets refused"] == 0, values)
    need(values["version root"] == 3 and values["version timestamp"] == 7 and "version targets" not in values, values)
    need(values["expires_timestamp_seconds root"] == 1893456000, values)
    need(abs(1893456000 - time.time() - values["expires_seconds root"]) < 60, values)
    need(abs(time.time() - values["last_good_timestamp_seconds"]) < 60, values)
    need(mode(room.prom) == 0o644 and mode(room.folder / "lines") == 0o600 and not room.left(), room.left())


@case("each status")
def statuses(room):
    room.set_up()
    need(room.run().status == 0, "no good run")
    since = room.metrics()["last_good_timestamp_seconds"]
    no = 'no "a/b" HashWrong\n'
    for status, lines, error, priority in [
            (1, 'root 3\nend ready\n' + no, "", 4), (2, 'root 3\nend timestamp Rollback\nno "a/b" NotSearched\n', "", 3),
            (3, "", "tufcheck: state file\n", 2), (4, READY, "tufcheck: output\n", 2)]:
        room.answer(lines=lines, error=error, verify=status)
        ran, values = room.run(), room.metrics()
        need(ran.status == status == values["status"] and ran.lines[-1].startswith(f"<{priority}>status {status}"), ran)
        need((room.folder / "lines.failed").read_text() == f"{lines}{error}status {status}\n", "other lines")
        need((room.folder / "lines").read_text() == READY and values["last_good_timestamp_seconds"] == since, values)
        need(("targets refused" in values) == (status < 3), values)
        need(status < 3 or not any("ok " in line or "no " in line for line in ran.lines), ran)
        need(status != 1 or f"<4>{no.strip()}" in ran.lines, ran)
        need(status != 2 or "<3>end timestamp Rollback" in ran.lines, ran)


@case("program is killed, or isn't there")
def no_program(room):
    room.set_up()
    room.at("usr/bin/tufcheck").write_text("#!/bin/sh\nkill -9 $$\n")
    need(room.run().status == 137 and room.metrics()["status"] == 137, "killed")
    room.at("usr/bin/tufcheck").unlink()
    ran = room.run()
    need(ran.status == 71 == room.metrics()["status"] and "can't be run" in ran.error, ran)


@case("configuration")
def configuration(room):
    room.set_up()
    for text in ("", "metadata /m\ntargets /t\n", room.base() + "unknown 1\n", room.base() + "want every\n",
                 room.base() + "into\n", room.base() + "into here\n", room.base() + "into /a/../b\n",
                 room.base() + "into /a\tb\n", room.base() + 'into /a"b\n', room.base() + "into /50%\n",
                 room.base() + "limit 0\n", room.base() + "limit 1e2\n", room.base() + "workers=4\n", "#" * 70_000):
        room.conf(text)
        ran = room.run()
        need(ran.status == 78 == room.metrics()["status"] and len(ran.lines) == 1, f"{text[-40:]!r}: {ran}")
    room.at("etc/tufcheck/it.conf").write_bytes(room.base().encode() + b"into /\xff\n")
    need(room.run().status == 78, "not UTF-8")
    need(all(words[0] != "verify" for words in room.calls()), "the program was run")


@case("configuration that others may write")
def writable(room):
    room.set_up()
    conf = room.at("etc/tufcheck/it.conf")
    for mode_of in (0o664, 0o646):
        conf.chmod(mode_of)
        ran = room.run()
        need(ran.status == 78 == room.metrics()["status"] and "somebody else may write it" in ran.error, ran)
        need(room.setup("--units", "it").status == 78, "the unit follows it")
    conf.chmod(0o644)
    need(room.run().status == 0, "another status")


@case("no shell")
def no_shell(room):
    room.set_up()
    odd = room.at("$(touch x) `touch x` ; 'a' & |")
    shutil.copytree(room.mirror, odd)
    (odd / "hook ; exit 1").write_text(f'#!/bin/sh\nprintf "%s\\n" "$@" > {room.at("given")}\n')
    (odd / "hook ; exit 1").chmod(0o755)
    room.conf(f"  metadata   {odd}/metadata  \ntargets {odd}/targets\n# one\n\nwant every\nworkers 0\nfetch {odd}/hook ; exit 1\n")
    need(room.run(cwd=room.path).status == 0 and not room.at("x").exists(), "another status")
    need(room.calls()[-2][4:7:2] == [f"{odd}/metadata", f"{odd}/targets"], room.calls()[-2])
    need(room.at("given").read_text().split("\n")[1:] == [f"{odd}/metadata", f"{odd}/targets", ""], "the hook's arguments")


@case("paths of a file")
def paths(room):
    room.set_up()
    (room.mirror / "targets/long").write_bytes(b"0" * 5000)
    room.at("paths").write_text("a/b\n")
    room.conf(room.base().replace("every", f"{room.at('paths')}") + f"into {room.into}\n")
    need(room.run().status == 0 and room.calls()[-2][-4:-2] == ["--paths-from", str(room.at("paths"))], room.calls())


@case("hook")
def hook(room):
    room.set_up("--fetch", room.at("hook"))
    unit = room.at("etc/systemd/system/tufcheck@it.service.d/setup.conf").read_text()
    need("PrivateNetwork=no\n" in unit and f'ReadWritePaths="{room.mirror}/metadata"' in unit, unit)
    need(room.run().status == 69 == room.metrics()["status"], "a hook that isn't there")
    room.at("hook").write_text(f'#!/bin/sh\necho "$@" > {room.at("given")}\nprintf "<0>a\\033\\n"\nyes | head -c 5000000\n')
    room.at("hook").chmod(0o755)
    ran = room.run()
    need(ran.status == 0 and ran.lines[0] == "<6>fetch: <0>a\\x1b" and len(ran.lines) < 60, ran)
    need(room.at("given").read_text() == f"{room.folder}/state {room.mirror}/metadata {room.mirror}/targets\n", "arguments")
    before = len(room.calls())
    room.at("hook").write_text("#!/bin/sh\nexit 1\n")
    need(room.run().status == 69 and "verify" not in [words[0] for words in room.calls()[before:]], "a hook that fails")


@case("missing mirror")
def missing(room):
    room.set_up()
    shutil.move(room.mirror, room.at("gone"))
    ran = room.run()
    need(ran.status == 69 == room.metrics()["status"] and ran.lines[0].startswith("<2>status 69: the mirror"), ran)
    need(all(words[0] != "verify" for words in room.calls()), "the program was run")


@case("clock back")
def clock(room):
    room.set_up()
    need(room.run().status == 0, "no good run")
    record, ahead = room.folder / "record", int(time.time()) + 3000
    record.write_text(f"run {ahead}\ngood {ahead}\n")
    ran = room.run()
    need(ran.status == 71 == room.metrics()["status"] and "the clock is before" in ran.error, ran)
    need(record.read_text() == f"run {ahead}\ngood {ahead}\n" and len(room.calls()) == 4, room.calls())
    record.write_text("run x\n")
    need(room.run().status == 71 and record.read_text() == "run x\n", "a malformed record")
    record.unlink()
    need(room.run().status == 0, "without a record")


@case("two at once, and killed in the middle")
def killed(room):
    room.set_up()
    need(room.run().status == 0, "no good run")
    before = room.prom.read_text()
    for how in ("ends", "killed", "all killed"):
        room.answer(lines=READY, seconds=2)
        room.at("usr/bin/begun").unlink()
        first = room.begin("tufcheck-run", "it", start_new_session=True)
        wait_for(room.at("usr/bin/begun"))
        if how == "killed":
            first[0].kill()
        ran = room.run()
        need(ran.status == 75 and ran.lines == ["<5>status 75: another run isn't done"], f"{how}: {ran}")
        need(room.prom.read_text() == before, "metrics of the second run")
        if how == "all killed":
            os.killpg(first[0].pid, signal.SIGKILL)
        need(room.end(first).status == (0 if how == "ends" else -9), how)
        time.sleep(2.5 if how == "killed" else 0)
        room.answer(lines=READY)
        need(room.run().status == 0 and not room.left(), f"{how}: {room.left()}")
        before = room.prom.read_text()


@case("ended by a signal")
def ended(room):
    room.set_up("--fetch", room.at("hook"))
    room.at("hook").write_text(f"#!/bin/sh\ntouch {room.at('usr/bin/begun')}\nexec sleep 60\n")
    room.at("hook").chmod(0o755)
    room.answer(lines=READY, seconds=60)
    for conf in (room.at("etc/tufcheck/it.conf").read_text(), room.base()):
        room.conf(conf)
        room.at("usr/bin/begun").unlink(missing_ok=True)
        begun = room.begin("tufcheck-run", "it")
        wait_for(room.at("usr/bin/begun"))
        begun[0].terminate()
        since = time.monotonic()
        ran = room.end(begun)
        need(time.monotonic() - since < 30, "the run waits for what it has started")
        need(ran.status == 143 == room.metrics()["status"] and ran.lines[-1] == "<2>status 143: ended by signal 15", ran)
    room.answer(lines=READY)
    need(room.run().status == 0 and not room.left(), room.left())


def wait_for(path):
    end = time.monotonic() + SECONDS
    while not path.exists():
        need(time.monotonic() < end, f"no {path}")
        time.sleep(0.01)


@case("soon expired")
def soon(room):
    room.set_up("--soon", "2")
    day = lambda days: time.strftime("%Y-%m-%dT%H:%M:%SZ", time.gmtime(time.time() + days * 86_400))
    room.answer(lines=READY, shown=f"root 3 {day(2.1)}\ntimestamp 7 {day(1.9)}\n")
    ran = room.run()
    need(ran.status == 0 and ran.lines[-1] == "<4>soon: the trusted timestamp expires within 2 days", ran)
    need(sum("soon" in line for line in ran.lines) == 1, ran)


@case("more lines than are kept")
def many(room):
    room.set_up()
    name = "a" * 100_000
    for status, kept in ((0, "lines"), (1, "lines.failed")):
        room.answer(lines=f'ok "{name}" 1 "targets"\n', times=1100, verify=status)
        ran, values = room.run(), room.metrics()
        need(ran.status == status and values["targets accepted"] == 1100, ran)
        with open(room.folder / kept, "rb") as file:
            need(file.seek(0, 2) < 100_000_100 and file.seek(-60, 2), f"{file.tell()} bytes")
            end = file.read().decode()
        need(re.search(f'"targets"\nand 10[0-9] more lines\n{"status 1" if status else ""}', end), end)


@case("hostile lines")
def lines(room):
    room.set_up()
    name = '\\x0a<0>ok \\x22x\\x22 ' + "a" * 100_000 + "<0>"
    room.answer(lines=f'root 3\nend ready\nrole "{name}" 1\nno "{name}" NotFound\n', times=200, verify=1,
                shown=SHOWN + 'root 9 x\n"} 1\ntargets 5 2030-01-01T00:00:00Z extra\n')
    ran, values = room.run(), room.metrics()
    need(ran.status == 1 and values["targets refused"] == 200 and values["targets accepted"] == 0, ran)
    need(all(re.match(r"<[1-6]>[ -~]{1,1010}$", line) for line in ran.lines), ran)
    need(len(ran.lines) < 220 and "version targets" not in values and values["version root"] == 3, len(ran.lines))


@case("file-size limit")
def limit(room):
    room.set_up()
    need(room.run().status == 0, "no good run")
    before = room.prom.read_text()
    ran = room.run(preexec_fn=lambda: resource.setrlimit(resource.RLIMIT_FSIZE, (1000, 1000)))
    need(ran.status == 71 and "metrics can't be written" in ran.error, ran)
    need(room.prom.read_text() == before and not room.left(), room.left())


def mounted(folder, kib):
    """Words before a run, in which `folder` is a small file system with a copy of what the folder has."""
    words = [tool("unshare"), "-m"] if os.geteuid() == 0 else [tool("unshare"), "-rm"]
    if subprocess.run([*words, "mount", "-t", "tmpfs", "none", folder], stderr=subprocess.DEVNULL, check=False).returncode:
        raise NotTried("no file system can be mounted")
    script = 'cp -a "$0" "$0.was" && mount -t tmpfs -o size=$1k,mode=700 none "$0" && cp -a "$0.was/." "$0" && shift || exit 99; ' \
             '[ "$1" = full ] && { head -c 10000000 /dev/zero > "$0/fill"; } 2> /dev/null; shift; "$@"; status=$?; ' \
             'rm -rf "$0.is" && cp -a "$0" "$0.is"; exit $status'
    return lambda how: [*words, "sh", "-c", script, folder, str(kib), how]


@case("no room for copies")
def room_for(room):
    room.set_up()
    before, targets = mounted(room.into, 100), room.mirror / "targets"

    def comes_to(status, why):
        shutil.rmtree(f"{room.into}.was", ignore_errors=True)
        ran = room.run(before=before("some"))
        need(ran.status == status == room.metrics()["status"], f"{why}: {ran}")

    for version in "01":
        (targets / f"{version * 64}.long").write_bytes(b"0" * 60_000)
    comes_to(0, "two versions of one path")
    (targets / "other").write_bytes(b"0" * 60_000)
    comes_to(0, "two paths, of which no role lists one")
    need([words[-1] for words in room.calls()[-3:]][:2] == ["/dev/null", str(room.folder / "state")], room.calls()[-3:])
    need("--into" not in room.calls()[-3] and "--into" in room.calls()[-2], room.calls()[-3:])
    room.answer(lines='end ready\nok "long" 60000 "targets"\nok "other" 60000 "targets"\n')
    comes_to(73, "two paths")
    (room.into / "other").write_bytes(b"1" * 60_000)
    (targets / "other").write_bytes(b"0" * 30_000)
    comes_to(73, "a copy of another length")
    (targets / "other").write_bytes(b"0" * 60_000)
    (targets / f"{'0' * 64}.long").write_bytes(b"0" * 30_000)
    (targets / f"{'1' * 64}.long").write_bytes(b"0" * 30_000)
    comes_to(0, "a copy that may be left alone")
    (room.into / "other").unlink()
    for version in "01":
        (targets / f"{version * 64}.long").write_bytes(b"0" * 60_000)
    (targets / "other").unlink()
    room.into.joinpath(".tufcheck.1.new").mkdir()
    room.into.joinpath(".tufcheck.1.new/1").write_bytes(b"0" * 80_000)
    comes_to(0, "what a killed run left, which tufcheck removes")
    room.into.joinpath(".tufcheck.1.new/1").rename(room.into / "mine")
    room.into.joinpath(".tufcheck.2.new").symlink_to(room.mirror)
    comes_to(73, "a file that stays")


@case("folders without an end")
def deep(room):
    room.set_up()
    before = os.open(".", os.O_RDONLY)
    os.chdir(room.mirror / "targets")
    for _ in range(1500):
        os.mkdir("d")
        os.chdir("d")
    pathlib.Path("f").write_bytes(b"0")
    os.chdir(before)
    need(room.run().status == 0, "another status")
    room.at("outside").mkdir()
    with open(room.at("outside/file"), "wb") as file:
        file.truncate(1 << 40)
    for name, to in (("loop", ".."), ("link", room.at("outside")), ("file", room.at("outside/file"))):
        (room.mirror / "targets" / name).symlink_to(to)
    need(room.run().status == 0 and not any("/dev/null" in words for words in room.calls()), "a link was followed")
    subprocess.run(["rm", "-rf", room.mirror], check=True)


@case("full disk of the state")
def full(room):
    room.set_up()
    need(room.run().status == 0, "no good run")
    room.answer(lines=READY, times=10_000)
    ran = room.run(before=mounted(room.folder, 64)("full"))
    need(ran.status == 71 == room.metrics()["status"] and "the lines can't be kept whole" in ran.error, ran)
    need(room.metrics()["targets accepted"] == 10_000, room.metrics())
    after = room.path / "var/lib/tufcheck/it.is"
    need((after / "state").read_text() == "state" and (after / "lines").read_text() == READY, "state or lines")
    need(not (after / "record.new").exists() and (after / "record").read_bytes(), "record")


@case("verified: good, refused, stopped, unreadable state", real=True)
def verified(room):
    room.set_up()
    ran, values = room.run(), room.metrics()
    need(ran.status == 0 and (room.into / "abc.txt").exists() and values["version timestamp"] == 2, ran)
    need(mode(room.into / "abc.txt") == 0o644 and mode(room.folder / "state") == 0o600 and not room.left(), room.left())
    copy, state = (room.into / "abc.txt").read_bytes(), (room.folder / "state").read_bytes()
    (room.mirror / "targets/abc.txt").write_bytes(bytes([copy[0] ^ 1]) + copy[1:])
    ran = room.run()
    need(ran.status == 1 and '<4>no "abc.txt" HashWrong' in ran.lines, ran)
    room.make("rollback.2")
    ran = room.run()
    need(ran.status == 2 == room.metrics()["status"] and "<3>end timestamp Rollback" in ran.lines, ran)
    need((room.into / "abc.txt").read_bytes() == copy and (room.folder / "state").read_bytes() == state, "state or copy")
    (room.folder / "state").write_bytes(b"{}")
    ran, values = room.run(), room.metrics()
    need(ran.status == 3 and "<2>tufcheck: state file" in ran.lines and "version root" not in values, ran)
    need((room.folder / "state").read_bytes() == b"{}" and not room.left(), room.left())


@case("verified: hostile names of files", real=True)
def names(room):
    room.set_up()
    odd = ['\n<0>ok "x" 3 "targets"', '"', "\\", "\x1b[2J", "a b", "$(touch x)", "\u202e", "-", "--out", "a" * 255, "<0>"]
    for name in odd:
        (room.mirror / "targets" / name).write_bytes(b"0")
    ran, values = room.run(), room.metrics()
    need(ran.status == 1 and values["targets refused"] == len(odd) and values["targets accepted"] == 1, ran)
    need(all(re.match(r"<[1-6]>[ -~]+$", line) for line in ran.lines) and not room.at("x").exists(), ran)
    need((room.into / "abc.txt").exists() and len(list(room.into.rglob("*"))) == 1, "other copies")


@case("verified: full disk", real=True)
def verified_full(room):
    room.set_up()
    state = (room.folder / "state").read_bytes()
    ran = room.run(before=mounted(room.folder, 256)("full"))
    need(ran.status == 4 and "<2>tufcheck: output" in ran.lines, ran)
    need((room.path / "var/lib/tufcheck/it.is/state").read_bytes() == state, "the state")
    need(not (room.into / "abc.txt").exists(), "a copy")


@case("verified: killed at fifty moments", real=True)
def verified_killed(room):
    room.set_up()
    (room.mirror / "targets/more").write_bytes(b"0" * 30_000_000)
    for number in range(50):
        first = room.begin("tufcheck-run", "it", start_new_session=True)
        time.sleep(0.05 + number * 0.006)
        os.killpg(first[0].pid, signal.SIGKILL)
        room.end(first)
    (room.mirror / "targets/more").unlink()
    ran = room.run()
    need(ran.status == 0 and not room.left() and (room.into / "abc.txt").exists(), f"{ran}, {room.left()}")


@case("units")
def units(room):
    tool("systemd-analyze")
    room.set_up("--fetch", "/usr/local/lib/fetch")
    for most, more in (("5", []), ("15", [room.at("etc/systemd/system/tufcheck@it.service.d/setup.conf")])):
        there = room.at(f"units{len(more)}")
        there.mkdir()
        shutil.copy(OPERATOR / "tufcheck@.service", there / "tufcheck@it.service")
        for file in more:
            (there / "tufcheck@it.service.d").mkdir()
            shutil.copy(file, there / "tufcheck@it.service.d")
        ran = subprocess.run(["systemd-analyze", "security", "--offline=true", f"--threshold={most}", "tufcheck@it.service"],
                             env={**os.environ, "SYSTEMD_UNIT_PATH": f"{there}:"}, capture_output=True, check=False)
        need(ran.returncode == 0, (ran.stdout + ran.stderr).decode()[-300:])
    for name in ("service", "timer"):
        shutil.copy(OPERATOR / f"tufcheck@.{name}", room.at(f"units0/tufcheck@.{name}"))
    ran = subprocess.run(["systemd-analyze", "verify", "--man=no", "tufcheck@.timer"], capture_output=True, check=False,
                         env={**os.environ, "SYSTEMD_UNIT_PATH": f"{room.at('units0')}:"})
    seen = [line for line in ran.stderr.decode().splitlines() if "tufcheck" in line and "is not executable" not in line]
    need(not seen, seen)


@case("calls that the unit allows")
def calls(room):
    tool("strace"), tool("systemd-analyze")
    filters = re.findall("^SystemCallFilter=(.*)$", (OPERATOR / "tufcheck@.service").read_text(), re.MULTILINE)
    allowed = set(expanded(filters[0])) - set(expanded(filters[1].lstrip("~")))
    room.set_up()
    need(room.run(before=["strace", "-f", "-qq", "-o", room.at("trace")]).status == 0, "no good run")
    made = set(re.findall(r"^[0-9]+ +([a-z0-9_]+)\(", room.at("trace").read_text(), re.MULTILINE))
    need(len(made) > 10 and made <= allowed, made - allowed)


def expanded(words):
    """The names of the calls in sets of systemd's."""
    for word in words.split():
        if not word.startswith("@"):
            yield word
            continue
        text = subprocess.run(["systemd-analyze", "syscall-filter", word], capture_output=True, check=True).stdout.decode()
        inner = [line.split("#")[0].strip() for line in text.splitlines()[1:]]
        yield from expanded(" ".join(line for line in inner if line))


@case("rules and metrics of Prometheus")
def rules(room):
    text = (OPERATOR / "tufcheck-alerts.yml").read_text()
    room.set_up()
    need(room.run().status == 0, "no good run")
    known = set(re.findall("^# TYPE (\\w+)", room.prom.read_text(), re.MULTILINE))
    need(set(re.findall(r"tufcheck_\w+", text)) <= known, "a rule names no metric")
    tool("promtool")
    subprocess.run(["promtool", "check", "rules", OPERATOR / "tufcheck-alerts.yml"], check=True, stdout=subprocess.DEVNULL)
    with open(room.prom, "rb") as file:
        subprocess.run(["promtool", "check", "metrics"], stdin=file, check=True, stdout=subprocess.DEVNULL)


@case("example and page")
def page(room):
    room.set_up()
    sys.path.insert(0, str(OPERATOR))
    sys.dont_write_bytecode = True
    import settings
    text = (OPERATOR / "NAME.conf").read_text()
    found = settings.parse(re.sub("(?m)^#(?=[a-z]+ )", "", text), "NAME.conf")
    need(set(found) == set(settings.KEYS), found)
    source = (TOP / "docs/tufcheck-run.8").read_text()
    for word in [*settings.KEYS, *re.findall(r"tufcheck_\w+", room.prom.read_text() if room.run() else "")]:
        need(word in source, f"the page lacks {word}")
    for number in re.search("\n(USAGE.*)", (OPERATOR / "settings.py").read_text())[1].split("= ")[1].split(", "):
        need(f"\\fB{number}\\fR" in source, f"the page lacks {number}")
    ran = subprocess.run([tool("man"), "--warnings", "-l", TOP / "docs/tufcheck-run.8"], capture_output=True, check=False,
                         env={**os.environ, "MANWIDTH": "80", "MANPAGER": "cat"})
    need(ran.returncode == 0 and not ran.stderr, ran.stderr.decode())


def tried(name, program):
    """Tries a case and prints its line. Returns whether it failed."""
    act, real = CASES[name]
    if real and not program:
        print(f"not tried {name}: no program", flush=True)
        return False
    with tempfile.TemporaryDirectory() as path:
        try:
            act(Room(path, program if real else None))
            print(f"ok {name}", flush=True)
        except NotTried as why:
            print(f"not tried {name}: {why}", flush=True)
        except (AssertionError, OSError, KeyError, IndexError, subprocess.SubprocessError) as seen:
            print(f"FAILS {name}: {type(seen).__name__} {seen}", flush=True)
            return True
    return False


def main():
    words = sys.argv[1:]
    program = os.path.abspath(words[0] if words else os.environ.get("PROGRAM", TOP / "crates/tufcheck/out/tufcheck"))
    if words and not os.path.isfile(program):
        sys.exit(f"operating.py: no program at {program}")
    failed = [tried(name, program if os.path.isfile(program) else None) for name in words[1:] or CASES]
    sys.exit(1 if any(failed) else 0)


main()
