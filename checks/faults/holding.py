"""Runs that are held before one of their calls of the system, for pairs.py and attacks.py.

A small library, made with `cc`, is loaded before the C library's calls (LD_PRELOAD). Its environment says what it does:

  HELD    places at which the run is held, separated by blanks: the number of a call, +N for the Nth call after the place
          before, or CALL:END for the first CALL (open, read, write, flock, fsync, fchmod, mkdir, rename, remove) on a path
          with that end; standard output is `stdout`
  AS      the beginning of the names of files by which it speaks: AS.K.met is made once the run is at the Kth place, counted
          from 0, and it goes on once there is AS.K.go; AS.waits is there while it waits for a lock
  LOCKS   `nfs`: a lock needs a file that is open for writing, as over NFS; or the number of an error: each lock fails by it
  FLUSH   the end of a path: flushing such a file or folder fails
  FAILS   the number of a call, which fails with "no space left"; AS.failed is there then, and says which call it was
  SHORT   each write of several bytes to anything but the standard streams takes the first half of them
"""
import os
import pathlib
import subprocess
import time

LIBRARY = r"""
#define _GNU_SOURCE
#include <dlfcn.h>
#include <errno.h>
#include <fcntl.h>
#include <stdarg.h>
#include <stdio.h>
#include <stdlib.h>
#include <string.h>
#include <sys/file.h>
#include <sys/syscall.h>
#include <unistd.h>

#define MOST 8
static unsigned long calls, passed[MOST];

static const char *mark(char *name, int place, const char *what) {
    const char *as = getenv("AS");
    if (place < 0) snprintf(name, 4096, "%s.%s", as ? as : "held", what);
    else snprintf(name, 4096, "%s.%d.%s", as ? as : "held", place, what);
    return name;
}

static void make(const char *name) { close(syscall(SYS_openat, AT_FDCWD, name, O_CREAT | O_WRONLY, 0600)); }

static int ends(const char *path, const char *end, size_t length) {
    size_t all = strlen(path);
    return all >= length && memcmp(path + all - length, end, length) == 0;
}

static int is_here(const char *want, int place, size_t length, unsigned long number, const char *call, const char *path) {
    size_t word = strlen(call);
    if (*want == '+') return passed[place - 1] && passed[place - 1] + strtoul(want + 1, 0, 10) == number;
    if (*want >= '0' && *want <= '9') return strtoul(want, 0, 10) == number;
    return length > word && want[word] == ':' && memcmp(want, call, word) == 0
        && ends(path, want + word + 1, length - word - 1);
}

static int fails(unsigned long number, const char *call, const char *path) {
    const char *want = getenv("FAILS");
    char name[4096], said[8192];
    if (!want || strtoul(want, 0, 10) != number) return 0;
    int file = syscall(SYS_openat, AT_FDCWD, mark(name, -1, "failed"), O_CREAT | O_WRONLY, 0600);
    syscall(SYS_write, file, said, snprintf(said, sizeof said, "%s:%s", call, path));
    close(file);
    errno = ENOSPC;
    return 1;
}

static int step(const char *call, const char *path) {
    const char *want = getenv("HELD");
    unsigned long number = __atomic_add_fetch(&calls, 1, __ATOMIC_SEQ_CST);
    for (int place = 0; want && *want && place < MOST; place++) {
        size_t length = strcspn(want, " ");
        if (!passed[place] && is_here(want, place, length, number, call, path)) {
            char name[4096];
            passed[place] = number;
            make(mark(name, place, "met"));
            mark(name, place, "go");
            while (access(name, F_OK) != 0) usleep(1000);
        }
        want += length + (want[length] == ' ');
    }
    return fails(number, call, path);
}

static const char *path_of(int file, char *name) {
    if (file == 1) return "stdout";
    char link[64];
    snprintf(link, sizeof link, "/proc/self/fd/%d", file);
    ssize_t length = readlink(link, name, 4095);
    name[length < 0 ? 0 : length] = 0;
    return name;
}

#define REAL(name) ((long (*)())dlsym(RTLD_NEXT, name))
#define ON_PATH(call, path, name, ...) return step(call, path) ? -1 : REAL(name)(__VA_ARGS__)
#define ON_FILE(call, file, name, ...) \
    char path[4096]; \
    return step(call, path_of(file, path)) ? -1 : REAL(name)(__VA_ARGS__)
#define MODE(last) \
    va_list more; \
    va_start(more, last); \
    int mode = va_arg(more, int); \
    va_end(more)

int open(const char *path, int flags, ...) { MODE(flags); ON_PATH("open", path, "open", path, flags, mode); }
int open64(const char *path, int flags, ...) { MODE(flags); ON_PATH("open", path, "open64", path, flags, mode); }
int openat(int at, const char *path, int flags, ...) {
    MODE(flags);
    ON_PATH("open", path, "openat", at, path, flags, mode);
}
int openat64(int at, const char *path, int flags, ...) {
    MODE(flags);
    ON_PATH("open", path, "openat64", at, path, flags, mode);
}
ssize_t read(int file, void *bytes, size_t count) { ON_FILE("read", file, "read", file, bytes, count); }
ssize_t write(int file, const void *bytes, size_t count) {
    if (file > 2 && count > 1 && getenv("SHORT")) count /= 2;
    ON_FILE("write", file, "write", file, bytes, count);
}
int fchmod(int file, unsigned mode) { ON_FILE("fchmod", file, "fchmod", file, mode); }
int mkdir(const char *path, unsigned mode) { ON_PATH("mkdir", path, "mkdir", path, mode); }
int mkdirat(int at, const char *path, unsigned mode) { ON_PATH("mkdir", path, "mkdirat", at, path, mode); }
int unlink(const char *path) { ON_PATH("remove", path, "unlink", path); }
int unlinkat(int at, const char *path, int flags) { ON_PATH("remove", path, "unlinkat", at, path, flags); }
int rmdir(const char *path) { ON_PATH("remove", path, "rmdir", path); }
int rename(const char *from, const char *to) { ON_PATH("rename", to, "rename", from, to); }
int renameat(int old, const char *from, int new, const char *to) {
    ON_PATH("rename", to, "renameat", old, from, new, to);
}
int renameat2(int old, const char *from, int new, const char *to, unsigned flags) {
    ON_PATH("rename", to, "renameat2", old, from, new, to, flags);
}

static int flush(int file, const char *name) {
    char room[4096];
    const char *path = path_of(file, room), *fails = getenv("FLUSH");
    if (step("fsync", path)) return -1;
    if (fails && ends(path, fails, strlen(fails))) { errno = EIO; return -1; }
    return REAL(name)(file);
}
int fsync(int file) { return flush(file, "fsync"); }
int fdatasync(int file) { return flush(file, "fdatasync"); }

int flock(int file, int how) {
    char path[4096];
    const char *locks = getenv("LOCKS");
    if (step("flock", path_of(file, path))) return -1;
    int error = locks ? atoi(locks) : 0, access = syscall(SYS_fcntl, file, F_GETFL) & O_ACCMODE;
    if (locks && error == 0 && access == O_RDONLY && (how & LOCK_EX)) error = EBADF;
    if (error && !(how & LOCK_UN)) { errno = error; return -1; }
    int done = REAL("flock")(file, how & LOCK_UN ? how : how | LOCK_NB);
    if (done == 0 || errno != EWOULDBLOCK || (how & (LOCK_NB | LOCK_UN))) return done;
    make(mark(path, -1, "waits"));
    done = REAL("flock")(file, how);
    syscall(SYS_unlinkat, AT_FDCWD, mark(path, -1, "waits"), 0);
    return done;
}
"""
# How long a run may take to end or to wait, and how long one may take that doesn't end by itself.
SETTLED, ENDED = 10, 60


def build(folder):
    """Makes the library in the folder. Returns its path."""
    source, made = f"{folder}/hold.c", f"{folder}/hold.so"
    pathlib.Path(source).write_text(LIBRARY)
    subprocess.run(["cc", "-shared", "-fPIC", "-O1", "-w", "-o", made, source, "-ldl"], check=True)
    return os.path.abspath(made)


class Run:
    """A run with the library, in the folder `room`, that is held at the given places."""

    def __init__(self, library, words, room, name, held=(), **more):
        self.mark = f"{os.path.abspath(room)}/{name}.held"
        self.remove_marks()
        self.met = set()
        self.lines = open(f"{self.mark}.lines", "w+")
        env = dict(os.environ, LD_PRELOAD=library, AS=self.mark, HELD=" ".join(map(str, held)), **more)
        self.process = subprocess.Popen(words, cwd=room, env=env, stdin=subprocess.DEVNULL, stdout=self.lines,
                                        stderr=subprocess.STDOUT)

    def remove_marks(self):
        for file in pathlib.Path(self.mark).parent.glob(pathlib.Path(self.mark).name + ".*"):
            file.unlink()

    def has_met(self, place=0):
        """Waits until the run is at the place. Returns whether it came there before its end."""
        self.until(lambda: os.path.exists(f"{self.mark}.{place}.met"), ENDED)
        if os.path.exists(f"{self.mark}.{place}.met"):
            self.met.add(place)
        return place in self.met

    def go(self, place=0):
        pathlib.Path(f"{self.mark}.{place}.go").touch()

    def settle(self):
        """Waits until the run has ended or waits for a lock, or the time is over. Returns whether it has ended."""
        self.until(lambda: os.path.exists(f"{self.mark}.waits"), SETTLED)
        return self.process.poll() is not None

    def until(self, condition, seconds):
        end = time.monotonic() + seconds
        while not condition() and self.process.poll() is None and time.monotonic() < end:
            time.sleep(0.001)

    def end(self, seconds=ENDED):
        """Waits for the end. Returns the status, or None for a run that has to be killed."""
        try:
            status = self.process.wait(seconds)
        except subprocess.TimeoutExpired:
            status = None
            self.kill()
        return status

    def kill(self):
        self.process.kill()
        self.process.wait()

    def printed(self):
        """All that the run has printed. It has ended, and leaves no file by this."""
        self.lines.seek(0)
        text = self.lines.read()
        self.lines.close()
        self.remove_marks()
        return text
