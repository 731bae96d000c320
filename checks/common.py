"""What the scripts in the folders beside it share: the program, a scratch room, files, lines, and runs that are timed."""
import contextlib
import os
import signal
import subprocess
import tempfile
import time
from typing import NamedTuple

TOP = os.path.dirname(os.path.dirname(os.path.abspath(__file__)))
PROGRAM = os.path.abspath(os.environ.get("PROGRAM", f"{TOP}/crates/tufcheck/out/tufcheck"))
NOW = "2026-01-01T00:00:00Z"


@contextlib.contextmanager
def room(above=None):
    """Makes a folder, below that one if it is given, and removes it at the end. Meanwhile it is the current one."""
    before = os.getcwd()
    with tempfile.TemporaryDirectory(dir=above) as path:
        os.chdir(path)
        try:
            yield path
        finally:
            os.chdir(before)


def read(name):
    with open(name, "rb") as file:
        return file.read()


def write(name, content):
    """Writes a file, and makes the folder in which it is."""
    os.makedirs(os.path.dirname(name) or ".", exist_ok=True)
    with open(name, "wb") as file:
        file.write(content)


def quoted(name):
    """A name, a text or its bytes, as the lines have it (docs/USERS.md)."""
    spelled = name.encode() if isinstance(name, str) else name
    plain = lambda byte: 0x20 <= byte < 0x7F and byte not in b'"\\'
    return '"' + "".join(chr(byte) if plain(byte) else f"\\x{byte:02x}" for byte in spelled) + '"'


def told(word, name, seen=None):
    """Prints the line of what was tried, with what was seen. Returns its word."""
    print(f"{word} {name}" + (f": {seen}" if seen else ""), flush=True)
    return word


def counted(words):
    """Prints how much of what was tried is `ok` and how much `FAILS`. Returns the status."""
    more = f", {words.count('not tried')} not tried" if "not tried" in words else ""
    print(f"{words.count('ok')} ok, {words.count('FAILS')} fail{more}")
    return 1 if "FAILS" in words else 0


def verify(*more, state="state", out="new", repo=".", workers="0", now=NOW):
    """The words of a run of `verify` over a repository, and more of them."""
    folders = ["--metadata", f"{repo}/metadata", "--targets", f"{repo}/targets"]
    return ["verify", "--now", now, "--workers", workers, "--state", state, "--out", out, *folders, *more]


def run(*words, check=False, **how):
    """Runs the program, and keeps what it prints."""
    return subprocess.run([PROGRAM, *words], capture_output=True, check=check, **how)


class Run(NamedTuple):
    """The seconds from start to end, the processor's seconds and the peak memory in MB of a run, and what it ended by
    before it was done, if anything."""

    seconds: float
    processor: float
    memory: int
    end: str = ""


def timed(words, most=0):
    """Runs a command, for at most that many seconds if they aren't 0, and writes what it prints to the files `lines` and
    `errors`. Returns its status and what it took."""
    begin = time.monotonic()
    with open("lines", "wb") as lines, open("errors", "wb") as errors:
        process = subprocess.Popen(words, stdout=lines, stderr=errors)
    signal.signal(signal.SIGALRM, lambda *_: os.kill(process.pid, signal.SIGKILL))
    signal.setitimer(signal.ITIMER_REAL, most)
    _, status, usage = os.wait4(process.pid, 0)
    signal.setitimer(signal.ITIMER_REAL, 0)
    took = time.monotonic() - begin
    process.returncode = os.waitstatus_to_exitcode(status)
    end = f"over {most:g}" if process.returncode == -signal.SIGKILL and took >= most else ""
    return process.returncode, Run(took, usage.ru_utime + usage.ru_stime, usage.ru_maxrss // 1024, end)
