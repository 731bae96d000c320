#!/bin/bash
# Makes one allocation of each run of the program fail: for N from FIRST on, in steps of STEP, the Nth allocation.
#
#   checks/faults/allocations.sh [FIRST [LAST [STEP]]]      1, 100000 and 1 unless given
#
# A run in which it fails must print `tufcheck: memory` alone, on standard error, and end with status 4, or else print all
# that it prints with ample memory and end with that status (a sort without its buffer continues, and so does a run with
# workers without its plan). If it stores a state, it must leave none or the whole one. The
# sweep ends with the run that allocates fewer than N times. Swept are a run without arguments, and `make`, `init`,
# `verify` and `replay` of one repository twice (each by no worker and by two) and `--help` over examples/first.script,
# and `verify` (by no worker and by two) of two paths that two delegations lead to one role, which is signed for one.
# Swept are also single commands of rows, by the program of crates/trials: `plan`, `worker`, `alone`, `lines`, `cycles`
# and `leaves`. Such a run must print what it does with ample memory, or that the command or the rows couldn't be run.
# `leaves` may also print `NoMemory` for one signature: the next one must then take the same leaf.
# The script ends with status 1 at the first run that does otherwise.
#
# `rt run` proves and builds the two programs, once, unless PROGRAM and TRIALS in the environment name others. A small
# library, made with `cc`, is loaded before the C library's `malloc` and `realloc` and makes the Nth call fail. (`rt try
# --fail-alloc N` has the same results, and builds the program for each N, which takes a minute or two.)
set -u
first=${1:-1} last=${2:-100000} step=${3:-1}
. "$(dirname "$0")/../common.sh"

cat > "$work/refuse.c" <<'END'
#define _GNU_SOURCE
#include <dlfcn.h>
#include <fcntl.h>
#include <stdlib.h>
#include <unistd.h>

static unsigned long calls, refused;

static int is_refused(void) {
    if (!calls) refused = strtoul(getenv("REFUSED"), 0, 10);
    if (__atomic_add_fetch(&calls, 1, __ATOMIC_SEQ_CST) != refused) return 0;
    close(creat(getenv("MET"), 0600));
    return 1;
}

void *malloc(size_t size) {
    void *(*next)(size_t) = (void *(*)(size_t))dlsym(RTLD_NEXT, "malloc");
    return is_refused() ? 0 : next(size);
}

void *realloc(void *old, size_t size) {
    void *(*next)(void *, size_t) = (void *(*)(void *, size_t))dlsym(RTLD_NEXT, "realloc");
    return is_refused() ? 0 : next(old, size);
}
END
cc -shared -fPIC -O1 -o "$work/refuse.so" "$work/refuse.c" -ldl || exit 2
find_program
find_trials
export MET="$work/met"
cp "$program" "$work/tufcheck" || exit 2
cp "$top/examples/first.script" "$top/crates/trials/data/cases/shared.script" "$work" && cd "$work" || exit 2

# sweep NAME FILE STATE WORD..: sweeps the run with those words, which with ample memory prints that file, ends with the
# status $good and, if it makes a file `new`, stores that state there.
good=0
sweep() {
    local name=$1 wanted=$2 state=$3 whole=0 n status
    shift 3
    for ((n = first; n <= last; n += step)); do
        rm -f met new
        REFUSED=$n LD_PRELOAD="$work/refuse.so" ./tufcheck "$@" > printed 2> errors
        status=$?
        if [ $status = $good ] && [ ! -s errors ] && cmp -s printed "$wanted"; then
            [ -e met ] || break
            whole=$((whole + 1))
        elif [ $status != 4 ] || [ -s printed ] || [ "$(cat errors)" != "tufcheck: memory" ]; then
            echo "$name: allocation $n: status $status"
            cat printed errors
            exit 1
        fi
        if [ -e new ] && ! cmp new "$state"; then
            echo "$name: allocation $n: another state"
            exit 1
        fi
    done
    echo "$name: allocations $first to $((n - step)) in steps of $step; the run continued after $whole of them"
}

printf 'root 1\nend ready\nok "abc.txt" 3 "targets"\n' > lines
printf 'root 1\n' > root
: > nothing
./tufcheck --help > help || exit 2
./tufcheck make first.script repo || exit 2
./tufcheck init repo/metadata/1.root.json --out old > /dev/null || exit 2

replayed=(replay --state old --now 2026-01-01T00:00:00Z --out new abc.txt repo repo)
verified=(verify --state old --metadata repo/metadata --targets repo/targets --now 2026-01-01T00:00:00Z --out new abc.txt)
./tufcheck "${verified[@]}" > verified || exit 2
mv new current
sed 's/^root 1$/cycle 1\n&/' lines > cycles && sed 's/^root 1$/cycle 2\n&/' lines >> cycles

sweep sample lines none
sweep make nothing none make first.script again
sweep init root old init repo/metadata/1.root.json --out new
for workers in 0 2; do
    sweep "verify by $workers workers" lines current "${verified[@]}" --workers $workers
    sweep "replay by $workers workers" cycles current "${replayed[@]}" --workers $workers
done
sweep help help none --help

./tufcheck make shared.script both || exit 2
./tufcheck init both/metadata/1.root.json --out old > /dev/null || exit 2
verified=(verify --state old --metadata both/metadata --targets both/targets --now 2026-01-01T00:00:00Z --out new x/1 y/1)
printf 'root 2\nend ready\nrole "a" 1\nrole "b" 1\nrole "c" 1\nok "x/1" 1 "c"\nno "y/1" Unsigned "c"\n' > lines
./tufcheck "${verified[@]}" > verified
mv new current
good=1
for workers in 0 2; do
    sweep "verify of two delegations by $workers workers" lines current "${verified[@]}" --workers $workers
done

# sweep_row COMMAND WORD..: sweeps the command of rows whose output with ample memory is the standard input. What the row
# reads is below `rows/cases`, since the program runs in a folder that contains `cases` alone.
sweep_row() {
    local whole=0 n status
    sed 's/^/  /' > expected
    { echo "  $ $*" && cat expected; } > rows/cases/row.rows
    for ((n = first; n <= last; n += step)); do
        rm -f met
        (cd rows && REFUSED=$n LD_PRELOAD="$work/refuse.so" "$trials" < /dev/null > ../printed 2> ../errors)
        status=$?
        if [ $status = 0 ] && [ ! -s errors ]; then
            [ -e met ] || break
            whole=$((whole + 1))
        elif [ $status != 2 ] && ! grep -q "^+ the step can't be done: .*memory" printed && ! is_one_leaf_later; then
            echo "$*: allocation $n: status $status"
            cat printed errors
            exit 1
        fi
    done
    echo "$*: allocations $first to $((n - step)) in steps of $step; the run continued after $whole of them"
}

# Whether the row printed what was expected, but for one signature that was out of memory.
is_one_leaf_later() {
    [ "$(grep -c '^+ NoMemory$' printed)" = 1 ] &&
        cmp -s <(sed -n 's/^+ /  /p' printed | grep -v NoMemory) <(sed '0,/^  Used$/{/^  Used$/d}' expected)
}

mkdir -p rows/cases && mv both repo rows/cases || exit 2
sweep_row plan cases/both 4096 x/1 y/1 <<< '10 questions, 10 true'
sweep_row worker valid invalid valid <<< 'done 3: Valid Invalid Valid, won 0'
printf '%s\n' "$(cat lines)" '[1]' > both_lines
sweep_row alone cases/both x/1 y/1 < both_lines
sweep_row lines cases/both 2 4096 open x/1 y/1 < both_lines
cp -r rows/cases/repo rows/cases/torn && truncate -s -1 rows/cases/torn/metadata/targets.json || exit 2
printf 'cycle 1\nroot 1\nend ready\nok "abc.txt" 3 "targets"\ncycle 2\nroot 1\nend targets LengthWrong\nno "abc.txt" NotSearched\n[2]\n' > cycles
for workers in 0 2; do
    sweep_row cycles cases/repo,cases/torn $workers 4096 open 64 abc.txt < cycles
done
{ for ((leaf = 0; leaf < 32; leaf++)); do printf 'leaf %08x, 1292 bytes, valid: yes\n' $leaf; done; printf 'Used\nUsed\nsame key: yes\n'; } > leaves
sweep_row leaves 32 hello < leaves
