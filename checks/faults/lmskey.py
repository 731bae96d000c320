#!/usr/bin/env python3
"""Tries to have `lmskey` sign by one leaf twice.

  checks/faults/lmskey.py [KILLS [HISTORIES [WORKERS [SECONDS]]]]      1,000, 200, 1 and without an end unless given

In turn: what is printed and stored, and each refusal; each file call of `new`, `sign` and `restore` failing, and the process
ended before and after each of them; runs beside one another; runs that are killed KILLS times at a random moment; and
HISTORIES drawn histories, by WORKERS processes and for SECONDS at most: signing, ends at drawn calls, leaves files that are
lost or set back and then restored from the log. Each history begins with a new key's files: each 50th with a key of its own,
the others with copies, since what decides which leaf signs are the leaves file and the log. After each, all signatures that
are there are by different leaves, each leaf is below the number in the leaves file, and each signature counts for
`tufcheck attach` (in histories those of each 50th); some are verified by Bouncy Castle, where there is bcprov.jar. A small
library, made with `cc`, is loaded before the C library's calls. LMSKEY names the program, or it is the one that `rt run` in
crates/lmskey proves and builds, and PROGRAM is `tufcheck`. A line for each check says `ok` or `FAILS`. The status is 1 if one
fails. With 1,000 kills and 1,000 histories it took two minutes on four cores. 100,000 histories took five: in 881,309 runs no
leaf signed twice of 630,409 signatures.
"""
import glob
import multiprocessing
import os
import random
import resource
import signal
import subprocess
import sys
import time

sys.path.insert(0, os.path.dirname(os.path.dirname(os.path.abspath(__file__))))
import common
from common import TOP, read, room, write
import tuf

LMSKEY = os.path.abspath(os.environ.get("LMSKEY", f"{TOP}/crates/lmskey/out/lmskey"))
JAR = os.environ.get("BCPROV", "/usr/share/java/bcprov.jar")
RANDOM = random.Random(20261130)
WORDS = []
TEXT = b'{"signed":{"_type":"timestamp","version":1}}'
MESSAGE = b'{"_type":"timestamp","version":1}'
LIBRARY = r"""
#define _GNU_SOURCE
#include <dlfcn.h>
#include <errno.h>
#include <fcntl.h>
#include <signal.h>
#include <stdarg.h>
#include <stdlib.h>
#include <sys/syscall.h>
#include <unistd.h>

static unsigned long calls;

static int is_due(const char *name) {
    const char *want = getenv(name);
    return want && strtoul(want, 0, 10) == calls;
}

static void met(void) { close(syscall(SYS_openat, AT_FDCWD, "met", O_CREAT | O_WRONLY, 0600)); }

#define CALL(name, ...) \
    calls++; \
    if (is_due("FAILS")) { met(); errno = ENOSPC; return -1; } \
    if (is_due("BEFORE")) { met(); raise(SIGKILL); } \
    long done = ((long (*)())dlsym(RTLD_NEXT, name))(__VA_ARGS__); \
    if (is_due("AFTER")) { met(); raise(SIGKILL); } \
    return done

#define OPEN(name) \
    int name(const char *path, int flags, ...) { \
        va_list more; \
        va_start(more, flags); \
        int mode = va_arg(more, int); \
        va_end(more); \
        CALL(#name, path, flags, mode); \
    }
OPEN(open)
OPEN(open64)
#define OPENAT(name) \
    int name(int folder, const char *path, int flags, ...) { \
        va_list more; \
        va_start(more, flags); \
        int mode = va_arg(more, int); \
        va_end(more); \
        CALL(#name, folder, path, flags, mode); \
    }
OPENAT(openat)
OPENAT(openat64)
ssize_t read(int file, void *bytes, size_t count) { CALL("read", file, bytes, count); }
ssize_t write(int file, const void *bytes, size_t count) { CALL("write", file, bytes, count); }
int fsync(int file) { CALL("fsync", file); }
int flock(int file, int how) { CALL("flock", file, how); }
int ftruncate(int file, off_t length) { CALL("ftruncate", file, length); }
int ftruncate64(int file, off_t length) { CALL("ftruncate64", file, length); }
int unlink(const char *path) { CALL("unlink", path); }
int unlinkat(int folder, const char *path, int flags) { CALL("unlinkat", folder, path, flags); }
int rename(const char *from, const char *to) { CALL("rename", from, to); }
int getentropy(void *bytes, size_t count) { CALL("getentropy", bytes, count); }
"""


def check(what, holds, seen=None):
    WORDS.append(common.told("ok" if holds else "FAILS", what, None if holds else seen))


def lmskey(*words, **how):
    """Runs the program. Returns its status and what it prints."""
    more = dict(os.environ, LD_PRELOAD=f"{os.environ['ROOM']}/faults.so", **how) if how else None
    ran = subprocess.run([LMSKEY, *words], capture_output=True, text=True, env=more)
    return ran.returncode, ran.stdout + ran.stderr


def new(key="k", width="4", height="5"):
    return lmskey("new", "--width", width, "--height", height, "--log", f"{key}.log", key)


def restore(gap, **how):
    return lmskey("restore", "--log", "k.log", "--gap", str(gap), "k", **how)


class Signing:
    """Signs one file after the other, and keeps the leaves of all signatures that were there."""

    def __init__(self, key="k", file="m"):
        self.key, self.file, self.runs, self.leaves, self.run = key, file, 0, [], lmskey
        write(file, MESSAGE)

    def words(self, count=1):
        self.runs += 1
        names = [f"{self.file}.{self.runs}.{n}" for n in range(count)]
        for name in names:
            if not os.path.lexists(name):
                os.link(self.file, name)
        return ["sign", "--log", f"{self.key}.log", self.key, *names]

    def sign(self, count=1, **how):
        done = self.run(*self.words(count), **how)
        self.gather()
        return done

    def gather(self):
        """Takes the leaf of each signature that is there, and removes its file. One that was cut off at the end has its
        leaf too."""
        for name in glob.glob(f"{self.file}.*.*.sig"):
            sig = read(name)
            if len(sig) >= 4:
                self.leaves.append((int.from_bytes(sig[:4], "big"), sig))
            os.remove(name)
        for name in glob.glob(f"{self.file}.*.*"):
            os.remove(name)

    def reserved(self):
        try:
            text = read(f"{self.key}.leaves")
        except FileNotFoundError:
            return None
        return int.from_bytes(text[56:], "big")

    def is_safe(self):
        """Whether no leaf was used twice, and each is reserved."""
        leaves = [leaf for leaf, _ in self.leaves]
        top = self.reserved()
        return len(set(leaves)) == len(leaves) and (not leaves or (top is not None and max(leaves) < top))

    def all_count(self):
        """Whether each whole signature counts for `tufcheck attach`, by its leaf."""
        write("draft", TEXT)
        length = max((len(sig) for _, sig in self.leaves), default=0)
        for leaf, sig in self.leaves:
            if len(sig) < length:
                continue
            write("sig", sig)
            ran = common.run("attach", "draft", f"{self.key}.json", "sig", "--out", "signed", text=True)
            if ran.returncode or not ran.stdout.endswith(f" {leaf}\n"):
                return False
        return True


def first():
    """What is printed and stored, and each refusal."""
    status, line = new()
    public = read("k")[:56]
    thing = {"keytype": "lms", "keyval": {"public": public.hex()}, "scheme": "lms-sha256"}
    name = tuf.digest(tuf.canonical(thing)).hex()
    wanted = f'key "{name}" W4 H5 32\n'
    check("new prints the line of its key", (status, line) == (0, wanted), (status, line))
    check("its object is the key's", read("k.json") == tuf.canonical(thing))
    check("the key file is its owner's alone", os.stat("k").st_mode & 0o777 == 0o600 and len(read("k")) == 88)
    check("the leaves file has none", read("k.leaves") == public + bytes(4))
    write("k.pub", public)
    ran = common.run("key", "k.pub", "--out", "again.json", text=True)
    check("tufcheck prints the same line", (ran.stdout, read("again.json")) == (wanted, read("k.json")), ran.stdout)
    check("a key that is there is not replaced", new() == (3, "lmskey: exists\n") and read("k")[:56] == public)
    signing = Signing()
    check("sign", signing.sign(3) == (0, "signed 3\n") and sorted(l for l, _ in signing.leaves) == [0, 1, 2])
    check("its signatures count", signing.is_safe() and signing.all_count())
    check("show", lmskey("show", "k") == (0, wanted + "reserved 3\nleft 29\n"), lmskey("show", "k"))
    check("the log has each reservation", read("k.log") == public + bytes(4) + public + b"\0\0\0\3", read("k.log"))
    write("m.sig", b"")
    refused = lmskey("sign", "--log", "k.log", "k", "m")
    check("a signature that is there is not replaced", refused == (3, "lmskey: exists\n"), refused)
    check("and no leaf is reserved", signing.reserved() == 3)
    refused = lmskey("sign", "k", "m")
    check("a log has to be named or refused", refused == (3, "lmskey: words\n"), refused)
    os.rename("k.leaves", "away")
    refused = signing.sign()
    check("a missing leaves file is no zero", refused == (1, "lmskey: the leaves file is missing\n"), refused)
    check("and none is made", not os.path.exists("k.leaves"))
    os.symlink("away", "k.leaves")
    refused = signing.sign()
    check("a link in its place is refused", refused[0] == 4 and signing.reserved() == 3, refused)
    os.remove("k.leaves")
    write("k.leaves", public[:-1] + b"x" + bytes(4))
    refused = signing.sign()
    check("another key's is refused", refused == (1, "lmskey: the leaves file is not one of this key\n"), refused)
    os.remove("k.leaves")
    done = restore(4)
    check("restore goes past the log by the gap", done == (0, "reserved 7\n") and signing.reserved() == 7, done)
    check("and signs on from there", signing.sign() == (0, "signed 1\n") and signing.leaves[-1][0] == 7)
    write("k.log", read("k.log") + b"cut")
    check("a record that was cut off is", signing.sign()[0] == 0 and len(read("k.log")) % 60 == 0)
    os.rename("k.log", "log")
    refused = signing.sign()
    check("a missing log is an error", refused[0] == 4 and signing.is_safe(), refused)
    os.rename("log", "k.log")
    while (done := signing.sign(4))[0] == 0:
        pass
    check("the last leaves", done == (1, "lmskey: the key has fewer leaves left\n"), done)
    check("no leaf twice", signing.is_safe() and signing.all_count() and signing.reserved() <= 32)
    tree = read("k.tree")
    write("k.tree", tree[:-1] + bytes([tree[-1] ^ 1]))
    write("m.1", MESSAGE)
    refused = lmskey("sign", "--no-log", "k", "m.1")
    check("changed values are refused", refused == (3, "lmskey: tree\n"), refused)


def elsewhere():
    """Keys of each width, whose signatures Bouncy Castle verifies."""
    if not os.path.exists(JAR):
        WORDS.append(common.told("not tried", "Bouncy Castle"))
        return
    lines = []
    for width, height in (("4", "5"), ("8", "5"), ("4", "10"), ("8", "10")):
        remove_all()
        new("k", width, height)
        public = read("k")[:56].hex()
        signing = Signing()
        signing.sign(4)
        lines += [f"{public} {MESSAGE.hex()} {sig.hex()}" for _, sig in signing.leaves]
    lines.append(lines[0].replace(MESSAGE.hex(), "00"))
    words = ["java", "-cp", JAR, f"{TOP}/checks/second/signing/Verifier.java"]
    ran = subprocess.run(words, input="\n".join(lines) + "\n", capture_output=True, text=True)
    check("Bouncy Castle verifies 16 signatures", ran.stdout.split() == ["true"] * 16 + ["false"], ran)


def ends(way):
    """Ends each command at each of its calls, or has the call fail."""
    told = {"FAILS": "calls that fail", "BEFORE": "ends before calls", "AFTER": "ends after calls"}[way]
    signing, made, done = None, 0, 0
    for number in range(1, 10000):
        remove_all()
        status, _ = lmskey("new", "--width", "4", "--height", "5", "--log", "k.log", "k", **{way: str(number)})
        if not os.path.exists("met"):
            break
        made += 1
        if os.path.exists("k") and len(read("k")) == 88 and os.path.exists("k.leaves"):
            one = Signing()
            one.sign()
            if not one.is_safe() or status == 0 and way == "FAILS":
                check(f"new, {told}", False, number)
                return
    check(f"new, {made} {told}", made > 10)
    remove_all()
    new()
    signing = Signing()
    for number in range(1, 10000):
        if signing.reserved() > 26:
            if not signing.all_count():
                check(f"sign, {told}", False, number)
            remove_all()
            new()
            signing = Signing()
        before = len(signing.leaves)
        status, _ = signing.sign(2, **{way: str(number)})
        if not os.path.exists("met"):
            break
        os.remove("met")
        done += 1
        one = signing.sign()
        if not signing.is_safe() or one[0] or (status == 0 and len(signing.leaves) != before + 3):
            check(f"sign, {told}", False, (number, status, one))
            return
    check(f"sign, {done} {told}", done > 20 and signing.all_count(), done)


def ends_of_restore(way):
    """Ends `restore` at each of its calls, or has the call fail: with no leaves file, with an older one, and with one that is
    ahead of the log. It is then done again, and no leaf signs twice."""
    told = {"FAILS": "calls that fail", "BEFORE": "ends before calls", "AFTER": "ends after calls"}[way]
    remove_all()
    new()
    made, done = kept(), 0
    for case in ("lost", "older", "ahead"):
        for number in range(1, 10000):
            renewed(made)
            signing = Signing()
            signing.sign(2)
            older = read("k.leaves")
            signing.sign(3)
            if case == "lost":
                os.remove("k.leaves")
            elif case == "older":
                write("k.leaves", older)
            else:
                write("k.log", read("k.log")[:-60])
            status, _ = restore(2, **{way: str(number)})
            if not os.path.exists("met"):
                break
            os.remove("met")
            done += 1
            # Without another `restore` only an older leaves file would be believed.
            signed = signing.sign() if case != "older" else (0, "")
            is_missing = signed == (1, "lmskey: the leaves file is missing\n") and not os.path.exists("k.leaves")
            again = restore(0)
            later = signing.sign(2)
            is_wrong = signed[0] != 0 and not is_missing or way == "FAILS" and status == 0
            if not signing.is_safe() or again[0] or later[0] or is_wrong:
                check(f"restore, {told}", False, (case, number, status, signed, again, later))
                return
    check(f"restore, {done} {told}", done > 40 and signing.all_count(), done)


def kept():
    """The files of a new key."""
    return {name: read(name) for name in glob.glob("k*")}


def renewed(files):
    """Puts them back."""
    remove_all()
    for name, content in files.items():
        write(name, content)


def remove_all():
    for name in glob.glob("[km]*"):
        os.remove(name)


def kills(count):
    """Kills runs at a random moment."""
    remove_all()
    new(height="10")
    signing = Signing()
    begin = time.monotonic()
    signing.sign(4)
    took = time.monotonic() - begin
    killed = 0
    for _ in range(count):
        if signing.reserved() > 1010:
            check("no leaf twice in killed runs", signing.is_safe())
            remove_all()
            new(height="10")
            signing = Signing()
        process = subprocess.Popen([LMSKEY, *signing.words(2)], stdout=subprocess.DEVNULL, stderr=subprocess.DEVNULL)
        time.sleep(RANDOM.random() * took * 1.2)
        process.send_signal(signal.SIGKILL)
        killed += process.wait() == -signal.SIGKILL
        signing.gather()
        if not signing.is_safe():
            break
    check(f"{count} runs, {killed} killed: no leaf twice in {len(signing.leaves)}", signing.is_safe() and killed * 10 > count)
    check("what they signed counts", signing.all_count())


def beside(count=12):
    """Runs beside one another."""
    remove_all()
    new()
    signing = Signing()
    words = [signing.words(2) for _ in range(count)]
    ran = [subprocess.Popen([LMSKEY, *each], stdout=subprocess.DEVNULL) for each in words]
    statuses = [process.wait() for process in ran]
    signing.gather()
    leaves = sorted(leaf for leaf, _ in signing.leaves)
    check(f"{count} runs at once", statuses == [0] * count and leaves == list(range(2 * count)), (statuses, leaves))


def quiet(*words, **how):
    """Runs the program as `lmskey` does, but keeps nothing of what it prints."""
    more = dict(os.environ, LD_PRELOAD=f"{os.environ['ROOM']}/faults.so", **how) if how else os.environ
    shut = [(os.POSIX_SPAWN_OPEN, number, os.devnull, os.O_WRONLY, 0) for number in (1, 2)]
    _, status = os.waitpid(os.posix_spawn(LMSKEY, [LMSKEY, *words], more, file_actions=shut), 0)
    return os.waitstatus_to_exitcode(status), ""


def history(drawing):
    """Draws a history. Returns its signatures and how many runs it had, or None if it isn't safe."""
    signing, runs, older = Signing(), 0, [read("k.leaves")]
    signing.run = quiet
    for _ in range(drawing.randrange(3, 9)):
        how = drawing.choice(["", "FAILS", "BEFORE", "AFTER"])
        ends = {how: str(drawing.randrange(1, 60))} if how else {}
        signing.sign(drawing.randrange(1, 4), **ends)
        runs += 1
        drawn = drawing.random()
        if os.path.exists("k.leaves"):
            older.append(read("k.leaves"))
            if drawn < 0.2:
                os.remove("k.leaves")
            elif drawn < 0.3:
                write("k.leaves", drawing.choice(older))
        if drawn < 0.3 or not os.path.exists("k.leaves"):
            words = ["restore", "--log", "k.log", "k", "--gap"]
            quiet(*words, str(drawing.randrange(4)), **ends)
            quiet(*words, "1")
            runs += 2
        if not signing.is_safe():
            return None
    return signing, runs


def worker(number, count, seed, most):
    """Draws histories in a folder of its own, until there are that many or it is that moment. Returns how many there were, how
    many runs and signatures they had, and what is wrong, if anything."""
    drawing, made, runs, signed = random.Random(f"{seed} {number}"), None, 0, 0
    os.mkdir(f"worker.{number}")
    os.chdir(f"worker.{number}")
    for done in range(count):
        if time.monotonic() > most:
            return done, runs, signed, ""
        if done % 50 == 0:
            remove_all()
            new()
            made = kept()
        renewed(made)
        found = history(drawing)
        if not found:
            return done, runs, signed, f"worker {number}, history {done}"
        if done % 50 == 0 and not found[0].all_count():
            return done, runs, signed, f"worker {number}, a signature of history {done}"
        runs, signed = runs + found[1], signed + len(found[0].leaves)
    return count, runs, signed, ""


def histories(count, workers, seconds):
    """Draws histories, in several processes."""
    begin, seed = time.monotonic(), RANDOM.random()
    shares = [(number, (count + number) // workers, seed, begin + seconds) for number in range(workers)]
    with multiprocessing.get_context("fork").Pool(workers) as pool:
        found = pool.starmap(worker, shares, 1)
    done, runs, signed = (sum(each[n] for each in found) for n in range(3))
    wrong = [each[3] for each in found if each[3]]
    check(f"{done} drawn histories, {runs} runs, {signed} signatures: no leaf twice", not wrong, wrong)
    usage = resource.getrusage(resource.RUSAGE_CHILDREN)
    common.told("took", f"{time.monotonic() - begin:.0f} seconds, {usage.ru_utime + usage.ru_stime:.1f} of the processor since the start")


def main():
    counts = [int(word) for word in sys.argv[1:]]
    killed, drawn, workers, seconds = (counts + [1000, 200, 1, 10**9][len(counts) :])[:4]
    # Where flushing takes no time: a process that ends loses nothing that was written.
    with room("/dev/shm" if os.path.isdir("/dev/shm") else None) as folder:
        os.environ["ROOM"] = folder
        write("faults.c", LIBRARY.encode())
        subprocess.run(["cc", "-shared", "-fPIC", "-O1", "-w", "-o", "faults.so", "faults.c", "-ldl"], check=True)
        os.mkdir("place")
        os.chdir("place")
        first()
        elsewhere()
        for way in ("FAILS", "BEFORE", "AFTER"):
            ends(way)
            ends_of_restore(way)
        beside()
        kills(killed)
        histories(drawn, workers, seconds)
        os.chdir("/")
    return common.counted(WORDS)


if __name__ == "__main__":
    sys.exit(main())
