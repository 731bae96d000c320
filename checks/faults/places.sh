#!/bin/bash
# Checks that the trusted state is never lost, however storing it ends: with `--state s --out s` the file `s` is at each
# moment the old state or the new one, whole.
#
#   checks/faults/places.sh [KILLS]      500 unless given
#
# First each call that opens, writes, syncs, renames or changes the mode of a file fails in turn (for N from 1 on
# the Nth call of a run fails with "no space left"): the run must print its failure and leave the old state or the new one,
# and nothing beside it. Then the program is killed KILLS times at a random moment of a run. At last, for the superuser,
# the state is in a file system of 64 KiB that is full. A small library, made with `cc`, is loaded before the C library's
# calls. `rt run` in crates/tufcheck proves and builds the program, once, unless PROGRAM in the environment names another.
set -u
kills=${1:-500}
. "$(dirname "$0")/../common.sh"
trap 'umount "$work/small" 2> /dev/null; rm -rf "$work"' EXIT

cat > "$work/refuse.c" <<'END'
#define _GNU_SOURCE
#include <dlfcn.h>
#include <errno.h>
#include <fcntl.h>
#include <stdarg.h>
#include <stdlib.h>
#include <sys/syscall.h>
#include <unistd.h>

static unsigned long calls, refused;

static int is_refused(void) {
    if (!refused) refused = strtoul(getenv("REFUSED"), 0, 10);
    if (__atomic_add_fetch(&calls, 1, __ATOMIC_SEQ_CST) != refused) return 0;
    close(syscall(SYS_openat, AT_FDCWD, "met", O_CREAT | O_WRONLY, 0600));
    errno = ENOSPC;
    return 1;
}

#define NEXT(name, ...) \
    if (is_refused()) return -1; \
    return ((long (*)())dlsym(RTLD_NEXT, name))(__VA_ARGS__)

int open(const char *path, int flags, ...) {
    va_list more;
    va_start(more, flags);
    int mode = va_arg(more, int);
    va_end(more);
    NEXT("open", path, flags, mode);
}

int openat(int folder, const char *path, int flags, ...) {
    va_list more;
    va_start(more, flags);
    int mode = va_arg(more, int);
    va_end(more);
    NEXT("openat", folder, path, flags, mode);
}

ssize_t write(int file, const void *bytes, size_t count) { NEXT("write", file, bytes, count); }
int fsync(int file) { NEXT("fsync", file); }
int fchmod(int file, unsigned mode) { NEXT("fchmod", file, mode); }
int rename(const char *from, const char *to) { NEXT("rename", from, to); }
END
cc -shared -fPIC -O1 -w -o "$work/refuse.so" "$work/refuse.c" -ldl || exit 2
find_program
cp "$program" "$work/tufcheck" && cp "$top/examples/first.script" "$work" && cd "$work" || exit 2

# verify FOLDER: brings the state FOLDER/s up to date
verify() {
    ./tufcheck verify --state "$1/s" --metadata repo/metadata --targets repo/targets \
        --now 2026-01-01T00:00:00Z --workers 2 --out "$1/s" abc.txt > printed 2> errors
}

# whole FOLDER: checks that FOLDER/s is the old state or the new one
whole() {
    cmp -s "$1/s" old || cmp -s "$1/s" new || { echo "$1/s: neither the old state nor the new one"; exit 1; }
}

./tufcheck make first.script repo || exit 2
./tufcheck init repo/metadata/1.root.json --out old > printed || exit 2
mkdir place && cp old place/s && verify place || exit 2
cp place/s new

for ((n = 1; n < 10000; n++)); do
    cp old place/s
    rm -f met
    REFUSED=$n LD_PRELOAD="$work/refuse.so" verify place
    status=$?
    whole place
    [ "$(ls place)" = s ] || { echo "call $n: a file was left beside the state"; exit 1; }
    [ -e met ] || break
    if [ $status = 0 ]; then
        cmp -s place/s new || { echo "call $n: status 0, and the old state"; exit 1; }
    elif [ $status -lt 3 ]; then
        echo "call $n: status $status"
        exit 1
    fi
done
echo "calls 1 to $((n - 1)) refused in turn"

changed=0
for ((n = 1; n <= kills; n++)); do
    cp old place/s
    delay=$(printf '0.%05d' $((RANDOM % 3000)))
    (
        timeout -s KILL "$delay" ./tufcheck verify --state place/s --metadata repo/metadata --targets repo/targets \
            --now 2026-01-01T00:00:00Z --workers 2 --out place/s abc.txt > printed
        true
    ) 2> errors
    whole place
    cmp -s place/s new && changed=$((changed + 1))
    rm -f place/s.*.new
done
echo "killed $kills times: the new state $changed times, the old one $((kills - changed)) times"

if mkdir small && mount -t tmpfs -o size=64k tmpfs small 2> /dev/null; then
    cp old small/s
    head -c 100000 /dev/zero > small/rest 2> /dev/null
    verify small
    [ $? = 4 ] && [ "$(cat errors)" = "tufcheck: output" ] && cmp -s small/s old && [ ! -e small/s.1.new ] ||
        { echo "a full place: $(cat errors)"; exit 1; }
    echo "a full place: refused, and the old state is there"
else
    echo "a full place: not tried: mounting one is not allowed"
fi
