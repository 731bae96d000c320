#!/bin/bash
# Times whole runs of the program. `tufcheck verify` by several numbers of workers: on a repository of 1,024 signatures,
# where a path isn't found in any of 32 delegated roles that 32 keys sign each, on one of 100 delegated roles, signed by a
# key each, on one whose targets file has 5 MB, and on that of examples/first.script. Then `tufcheck replay` of the
# first repository without workers, once and several times over, and `tufcheck make` of thirty keys, 27 of which sign one
# file.
#
#   checks/speed/ahead.sh [RUNS]      the runs of each, 11 unless given
#
# For each it prints the median and the least of the milliseconds that a run took, from its start to its end, and for workers
# by the median of the rounds how many times as fast it was as the run without workers beside it. Checks that each run prints
# the same lines and stores the same state. Of each repository it also prints the most memory that a run took, by no worker
# and by four (which needs GNU time). `rt run` in crates/tufcheck proves and builds the program, once; this takes some
# minutes. Idle cores are what it measures: nothing else should run meanwhile.
#
# The first lines are of `bench ahead`, which times the cycles alone, `run` beside `run_alone` on such a repository of 1,024
# signatures in memory, in eleven rounds: `rt run` in crates/bench builds it.
set -u
runs=${1:-11}
. "$(dirname "$0")/../common.sh"
program=$top/crates/tufcheck/out/tufcheck

# joined FIRST LAST: the numbers with commas between
joined() {
    seq -s, "$1" "$2"
}

# heads: the keys of the top-level roles and those of bytes up to the given one
heads() {
    local n
    for n in $(seq 1 "$1"); do echo "key $n 5"; done
    echo "top root 1 1"
    echo "top timestamp 1 2"
    echo "top snapshot 1 3"
    echo "top targets 1 4"
}

# files KEYS: the top-level files, the targets file signed by these keys
files() {
    echo "write root 1 1"
    echo "write targets 1 $1"
    echo "write snapshot 1 3"
    echo "write timestamp 1 2"
}

# many: a script with 32 roles that list nothing, each signed by the same 32 keys
many() {
    heads 36
    for n in $(seq 1 32); do echo "delegate targets r$n 32 $(joined 5 36) go paths *"; done
    for n in $(seq 1 32); do echo "write r$n 1 $(joined 5 36)"; done
    files 4
}

# roles: a script with 100 roles that list nothing, each signed by a key of four
roles() {
    local n
    heads 8
    for n in $(seq 1 100); do echo "delegate targets r$n 1 $((5 + n % 4)) go paths *"; done
    for n in $(seq 1 100); do echo "write r$n 1 $((5 + n % 4))"; done
    files 4
}

# large: a script whose targets file has 45,000 targets in 4.9 MB
large() {
    local n
    heads 4
    for n in $(seq 10001 55000); do echo "target targets p$n 31 sha256"; done
    files 4
}

# thirty: a script with thirty keys, of which 27 sign the targets file
thirty() {
    heads 30
    echo "top targets 27 $(joined 4 30)"
    files "$(joined 4 30)"
}

# verify FOLDER WORKERS PATH: a run, behind the words of `before`, with its lines in FOLDER/lines
before=()
verify() {
    "${before[@]}" "$program" verify --state "$1/state" --metadata "$1/metadata" --targets "$1/targets" --limit 101 \
        --now 2026-01-01T00:00:00Z --workers "$2" --out "$1/new" "$3" > "$1/lines"
}

# timed FOLDER WORKERS PATH: the microseconds of a run
timed() {
    local from to
    from=$(date +%s%N)
    verify "$@"
    to=$(date +%s%N)
    echo $(((to - from) / 1000))
    if ! cmp -s "$1/lines" "$1/due.lines" || ! cmp -s "$1/new" "$1/due.state"; then
        echo "$1: other lines or another state by $2 workers" >&2
    fi
}

# peak FOLDER WORKERS PATH: the most memory of a run, in kilobytes
peak() {
    local before=(command time -f %M -o "$1/peak")
    verify "$@"
    tail -n 1 "$1/peak"
}

# middle: the one in the middle of the numbers that are read
middle() {
    sort -n | sed -n "$((runs / 2 + 1))p"
}

# compared NAME FOLDER PATH: a line for each number of workers. Each round has a run of each, so that all meet the same
# machine
compared() {
    local workers
    verify "$2" 0 "$3"
    cp "$2/lines" "$2/due.lines"
    cp "$2/new" "$2/due.state" || exit 2
    for _ in $(seq "$runs"); do
        for workers in 0 1 2 4; do
            timed "$2" "$workers" "$3" >> "$2/times.$workers"
        done
    done
    for workers in 0 1 2 4; do
        printf '%s, %d workers: %.1f ms, at least %.1f ms, %.2f times as fast as none\n' "$1" "$workers" \
            "$(middle < "$2/times.$workers")e-3" "$(sort -n "$2/times.$workers" | head -n 1)e-3" \
            "$(paste "$2/times.0" "$2/times.$workers" | awk '{ printf "%.4f\n", $1 / $2 }' | middle)"
    done
    printf '%s: %d MB at the peak by no worker, %d MB by four\n' "$1" "$(($(peak "$2" 0 "$3") / 1000))" \
        "$(($(peak "$2" 4 "$3") / 1000))"
}

# cycles FILE: how many times as fast `run` is as `run_alone`, by the median of the rounds, which go into the file
cycles() {
    "$top/crates/bench/out/bench" ahead > "$1" || exit 2
    local column workers=(1 2 4) times
    mapfile -t times < <(awk '{ print $2 }' "$1" | sort -n)
    echo "run_alone of 1,024 signatures: ${times[$((${#times[@]} / 2))]} us, at least ${times[0]} us"
    for column in 9 10 11; do
        mapfile -t times < <(awk -v c=$column '{ printf "%.4f\n", $2 / $c }' "$1" | sort -n)
        printf 'run by %d workers: %.2f times as fast\n' "${workers[$((column - 9))]}" "${times[$((${#times[@]} / 2))]}"
    done
}

# replayed FOLDER TIMES PATH: the microseconds of each replay of the repository TIMES times over, sorted
replayed() {
    local from to
    for _ in $(seq "$runs"); do
        from=$(date +%s%N)
        # shellcheck disable=SC2046 # several words
        "$program" replay --state "$1/state" --limit 101 --now 2026-01-01T00:00:00Z --workers 0 --out "$1/new" "$3" \
            $(yes "$1" | head -n "$2") > "$1/lines"
        to=$(date +%s%N)
        echo $(((to - from) / 1000))
        if ! tail -n "$(wc -l < "$1/due.lines")" "$1/lines" | cmp -s - "$1/due.lines" || ! cmp -s "$1/new" "$1/due.state"; then
            echo "$1: other lines or another state after $2 cycles" >&2
        fi
    done | sort -n
}

# made FOLDER: the repository of the script FOLDER/script, and a state that trusts its first root
made() {
    mkdir -p "$1/targets" && "$program" make "$1/script" "$1" && "$program" init "$1/metadata/1.root.json" --out "$1/state" > "$1/lines"
}

# making FOLDER: the microseconds of each making of what the script FOLDER/script says, sorted
making() {
    local from to
    for _ in $(seq "$runs"); do
        from=$(date +%s%N)
        "$program" make "$1/script" "$1/made"
        to=$(date +%s%N)
        echo $(((to - from) / 1000))
    done | sort -n
}

# line NAME: the median and the least of the sorted times that are read
line() {
    local times
    mapfile -t times
    printf '%s: %.1f ms, at least %.1f ms\n' "$1" "${times[$((runs / 2))]}e-3" "${times[0]}e-3"
}

for name in many roles large thirty; do
    mkdir "$work/$name"
    $name > "$work/$name/script"
done
mkdir "$work/first"
cp "$top/examples/first.script" "$work/first/script"
made "$work/many" && made "$work/roles" && made "$work/large" && made "$work/first" || exit 2
find "$work/large/targets" -type f ! -name p10001 -delete
[ -x "$top/crates/bench/out/bench" ] && cycles "$work/rounds"
{
    compared "1,024 signatures" "$work/many" nowhere
    compared "100 roles" "$work/roles" nowhere
    compared "targets file of 5 MB" "$work/large" p10001
    compared "first.script" "$work/first" abc.txt
    for cycles in 1 2 21; do
        replayed "$work/many" "$cycles" nowhere | line "1,024 signatures, $cycles cycles of replay"
    done
    making "$work/thirty" | line "make of thirty keys"
} 2> "$work/differs"
cat "$work/differs" >&2
[ ! -s "$work/differs" ]
