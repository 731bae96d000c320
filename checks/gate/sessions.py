#!/usr/bin/env python3
"""Runs the sessions of crates/trials by the program itself, as one process for each command, and compares what it prints.

  checks/gate/sessions.py [--why] [SESSION..]      all unless given, by the names of their files

With --why each run of `verify` and `replay` has this option, too. The lines that begin with `why` aren't compared then: all
others, the status and the files must be those of the run without it. Sessions that give it themselves are run as they are.

crates/command_cases/README.md has the commands of sessions; here they are done by Python, which shares no code with the
crates. Left out are `system.t`, whose clocks and folders fail as only a test's do, and `differs.t`, which is knowingly
wrong. Where an output fails after some bytes (`narrow`, `deaf`), it is /dev/full here, which fails at once. As the
superuser the script takes another user's rights, since sessions have files that may not be read. It prints a line for each
session with the number of its steps, and each difference; the status is then 1. `rt run` in crates/tufcheck proves and
builds the program, unless PROGRAM in the environment names another. It takes a minute.
"""
import fnmatch
import functools
import hashlib
import itertools
import json
import os
import shutil
import subprocess
import sys
import tempfile
from typing import NamedTuple

sys.path.insert(0, os.path.dirname(os.path.dirname(os.path.abspath(__file__))))
import common
from common import NOW, read, write
import tuf

TRIALS = f"{common.TOP}/crates/trials"
NOBODY = 65534
LEFT_OUT = ("differs.t", "system.t")


class Output(NamedTuple):
    out: bytes = b""
    err: bytes = b""
    status: int = 0

    def lines(self):
        """What a session has as expected output."""
        status = [f"[{self.status}]"] if self.status else []
        return [*lines_of("", self.out), *lines_of("! ", self.err), *status]


class Step(NamedTuple):
    line: int
    words: list
    script: list
    expected: list


def lines_of(front, printed):
    text = printed.decode()
    end = [] if not text or text.endswith("\n") else ["(no line feed)"]
    return [front + line for line in [*text.removesuffix("\n").split("\n"), *end] if text]


def steps_of(text):
    steps = []
    for number, line in enumerate(text.splitlines(), 1):
        if line.startswith("  $ "):
            words = ["" if word == '""' else word for word in line[4:].split()]
            steps.append(Step(number, words, [], []))
        elif line.startswith("  >"):
            steps[-1].script.append(line[4:])
        elif line.startswith("  "):
            steps[-1].expected.append(line[2:])
    return steps


def matches(lines, expected):
    """Whether the lines are the expected ones, in which `...` is any lines, and at a line's end any text."""
    if not expected:
        return not lines
    head, *rest = expected
    if head == "...":
        return any(matches(lines[count:], rest) for count in range(len(lines) + 1))
    is_head = lines and (lines[0].startswith(head[:-3]) if head.endswith("...") else lines[0] == head)
    return bool(is_head) and matches(lines[1:], rest)


# What the lines of a step's input stand for.


def spelled(line):
    if not line.startswith("@"):
        return line + "\n"
    name, _, text = line[1:].partition(" ")
    if not text:
        return read(f"cases/{name}.script").decode()
    first, last = map(int, name.split(".."))
    words = lambda it: (("{}", str(it)), ("{x}", f"{it:04x}"), ("{+}", str(it + 1)))
    put = lambda it: functools.reduce(lambda line, word: line.replace(*word), words(it), text)
    return "".join(put(it) + "\n" for it in range(first, last + 1))


def script_of(lines):
    return "".join(map(spelled, lines))


# Files.


def remove(name):
    if os.path.isdir(name) and not os.path.islink(name):
        shutil.rmtree(name)
    else:
        os.remove(name)


@functools.cache
def key_of(byte):
    return tuf.Key(byte)


def changed(text, old, new):
    """The text with the new part in place of the old, in which `...` matches as little as possible."""
    start, _, end = old.partition("...")
    before, start, rest = text.partition(start)
    between, end, after = rest.partition(end) if end else ("", "", rest)
    return before + new + after


def signed_anew(file, byte, old, new):
    """The file with the change in what it signs, signed by that key under the id of the first signature."""
    tree = json.loads(file)
    part = changed(tuf.canonical(tree["signed"]).decode(), old, new)
    key = key_of(byte)
    key.used = 0
    message = tuf.canonical(json.loads(part))
    entry = {"keyid": tree["signatures"][0]["keyid"], "sig": key.sign(message).hex()}
    return b'{"signatures":[' + tuf.canonical(entry) + b'],"signed":' + message + b"}"


def change(step):
    name, old = step.words[1], step.script[0]
    new = script_of(step.script[1:]).removesuffix("\n")
    if len(step.words) > 2:
        write(name, signed_anew(read(name), int(step.words[2]), old, new))
    else:
        write(name, changed(read(name).decode(), old, new).encode())


def pad(name, length):
    write(name, read(name)[: int(length)].ljust(int(length)))


def state(name, *members):
    texts = (f'"{key}":"{read(file).hex()}"' for key, _, file in (it.partition("=") for it in members))
    write(name, ("{" + ",".join(texts) + "}").encode())


def keeps(name):
    return " ".join(read(name).decode().split('"')[1::4]) + "\n"


def digests():
    files = [f"{room}/{name}" for top in ("metadata", "targets") for room, _, names in os.walk(top) for name in names]
    return "".join(f"{name} {hashlib.sha256(read(name)).hexdigest()}\n" for name in sorted(files, key=str.encode))


# Runs.


def untold(out):
    return b"".join(line for line in out.splitlines(keepends=True) if not line.startswith(b"why "))


class Shell:
    """Runs the commands of sessions. All runs share one standard input."""

    def __init__(self, program, stdin, is_told):
        self.program, self.stdin, self.is_told = program, stdin, is_told

    def run(self, *words, **streams):
        both = {"stdout": subprocess.PIPE, "stderr": subprocess.PIPE, **streams}
        is_more = self.is_told and words[:1] in (("verify",), ("replay",)) and "--why" not in words
        more = ["--why"] if is_more else []
        ran = subprocess.run([self.program, *words[:1], *more, *words[1:]], stdin=self.stdin, check=False, **both)
        return Output(untold(ran.stdout or b"") if is_more else ran.stdout or b"", ran.stderr or b"", ran.returncode)

    def full(self, stream, words):
        with open("/dev/full", "wb") as full:
            return self.run(*words, **{stream: full})

    def make(self, script):
        for folder in ("metadata", "targets"):
            shutil.rmtree(folder, ignore_errors=True)
            os.mkdir(folder)
        write("script", script_of(script).encode())
        return self.run("make", "script", ".")

    def verify(self, old, new, *more):
        moment = [] if "--now" in more else ["--now", NOW]
        folders = ["--metadata", "metadata", "--targets", "targets"]
        return self.run("verify", "--state", old, *folders, "--out", new, *moment, *more)

    def by(self, numbers, old, new, *more):
        """The output of the first run. The others must print and store the same."""
        runs = []
        for number in numbers.split(","):
            output = self.verify(old, new, "--workers", number, *more)
            runs.append((output, read(new) if os.path.exists(new) else None))
        same = all(run == runs[0] for run in runs)
        return runs[0][0] if same else Output(b"other workers print or store something else\n")

    def cuts(self, size, name, *words):
        whole, outputs = read(name), []
        for length in range(0, len(whole), int(size)):
            write(name, whole[:length])
            outputs.append(self.by(*words))
        write(name, whole)
        different = list(dict.fromkeys(outputs))
        outs = (f"{outputs.count(it)} lengths, status {it.status}\n".encode() + it.out for it in different)
        return Output(b"".join(outs), b"".join(it.err for it in different))

    def perform(self, step):
        """The output of a step: what the command returns, be it an output, a text, an answer or nothing."""
        name, words = step.words[0], step.words[1:]
        commands = {
            "tufcheck": lambda: self.run(*words),
            "make": lambda: self.make(step.script),
            "init": lambda: self.run("init", "metadata/1.root.json", "--out", *words),
            "verify": lambda: self.verify(*words),
            "by": lambda: self.by(*words),
            "cuts": lambda: self.cuts(*words),
            "narrow": lambda: self.full("stdout", words[1:]),
            "deaf": lambda: self.full("stderr", words[1:]),
            "put": lambda: write(words[0], script_of(step.script).removesuffix("\n").encode()),
            "copy": lambda: write(words[1], read(words[0])),
            "remove": lambda: remove(*words),
            "folder": lambda: os.makedirs(words[0], exist_ok=True),
            "pad": lambda: pad(*words),
            "change": lambda: change(step),
            "state": lambda: state(*words),
            "keeps": lambda: keeps(*words),
            "digests": digests,
            "has": lambda: os.path.exists(words[0]),
            "same": lambda: read(words[0]) == read(words[1]),
            "lock": lambda: os.chmod(words[0], 0),
            "freeze": lambda: os.chmod(words[0], 0o500),
            "unlock": lambda: os.chmod(words[0], 0o700),
            "mode": lambda: f"{os.stat(words[0]).st_mode & 0o7777:o}\n",
            "link": lambda: os.symlink(*words),
        }
        try:
            given = commands[name]()
        except OSError as error:
            return Output(f"the step can't be done: {error}\n".encode())
        if isinstance(given, bool):
            return Output(status=0 if given else 1)
        return given if isinstance(given, Output) else Output((given or "").encode())


def cleared():
    for name in os.listdir("."):
        if name != "cases":
            remove(name)


def session(shell, name):
    """Runs a session, and prints each difference. Returns the number of its steps, and of those that differ."""
    steps = steps_of(read(f"cases/{name}").decode())
    differing = 0
    for step in steps:
        lines = shell.perform(step).lines()
        if not matches(lines, step.expected):
            differing += 1
            print(f"{name}:{step.line}: {' '.join(step.words)}")
            pairs = itertools.zip_longest(step.expected, lines)
            print("\n".join(f"  - {due}\n  + {seen}" for due, seen in pairs if due != seen))
    cleared()
    print(f"{name}: {len(steps)} steps, {differing} differ", flush=True)
    return len(steps), differing


def main():
    is_told = "--why" in sys.argv[1:]
    names = [word for word in sys.argv[1:] if word != "--why"]
    names = names or sorted({*fnmatch.filter(os.listdir(f"{TRIALS}/data/cases"), "*.t")} - {*LEFT_OUT})
    os.umask(0o022)
    with tempfile.TemporaryDirectory() as room, open(f"{TRIALS}/stdin", "rb") as stdin:
        os.mkdir(f"{room}/room")
        shutil.copytree(f"{TRIALS}/data/cases", f"{room}/room/cases")
        shutil.copy(common.PROGRAM, f"{room}/program")
        os.chdir(f"{room}/room")
        if os.geteuid() == 0:
            os.chmod(room, 0o755)
            os.chown(".", NOBODY, NOBODY)
            os.setegid(NOBODY)
            os.seteuid(NOBODY)
        try:
            counts = [session(Shell(f"{room}/program", stdin, is_told), name) for name in names]
        finally:
            os.seteuid(os.getuid())
    steps, differing = map(sum, zip(*counts))
    print(f"{len(names)} sessions, {steps} steps, {differing} differ")
    return 1 if differing else 0


if __name__ == "__main__":
    sys.exit(main())
