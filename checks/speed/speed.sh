#!/bin/bash
# Shows the speed of a verification beside what a user would take instead: Bouncy Castle, C over OpenSSL, C with the lanes of
# SSE and of AVX2. checks/speed/README.md describes each, and lists the packages that it needs.
#
#   checks/speed/speed.sh [ROUNDS [BENCH..]]      11 and crates/bench/out/bench unless given
#
# A round is some 500 verifications by one thread. The programs in C and Java verify the same 32 signatures, and check first
# that each is accepted and that it is refused with a bit flipped; ours verifies the first of them. It prints a line for each
# program as it ends, then a table by the median and the best round, and which programs are missing. The status is 0, or 1
# where a program that is here failed. It takes a minute or two; nothing else should run meanwhile. What
# OPENSSL_ia32cap says holds for OpenSSL: `:~0x20000000` leaves out the SHA extensions.
set -u
rounds=${1:-11}
. "$(dirname "$0")/../common.sh"
[ $# -eq 0 ] || shift
[ $# -gt 0 ] || set -- "$top/crates/bench/out/bench"
jar=${BCPROV:-/usr/share/java/bcprov.jar}
[[ $rounds =~ ^[1-9][0-9]{0,2}$ ]] || { echo "speed.sh: ROUNDS is 1 to 999" >&2; exit 1; }
status=0
: > "$work/rows"
: > "$work/missing"
: > "$work/signed"

# lacks NAME WHAT: a program that can't be timed here
lacks() {
    echo "$1: not timed: this machine lacks $2" >> "$work/missing"
}

# failed NAME: a program that did something else
failed() {
    echo "$1: failed: $(tail -3 "$work/errors")" >&2
    status=1
}

# timed NAME COMMAND..: runs a program, which prints its line and that of its signatures
timed() {
    local name=$1
    shift
    if "$@" "$rounds" > "$work/lines" 2> "$work/errors"; then
        head -1 "$work/lines"
        head -1 "$work/lines" >> "$work/rows"
        tail -1 "$work/lines" >> "$work/signed"
    else
        failed "$name"
    fi
}

# built NAME LIBRARY FILE WORD..: a program of lms.c and FILE
built() {
    local name=$1 file=$2
    shift 2
    gcc -O2 -o "$work/$file" "$top/checks/speed/lms.c" "$top/checks/speed/$file.c" "$@" > "$work/errors" 2>&1 || { failed "$name"; return 1; }
}

# ours BENCH: the line of our own program, each round by a run of it
ours() {
    local name="tufcheck's lms, $(basename "$1")" rates=()
    mapfile -t rates < <(for _ in $(seq "$rounds"); do
        "$1" all 2> "$work/errors" | sed -n 's/^verify W8 H5: \([0-9]*\) per second$/\1/p'
    done | sort -n)
    if [ "${#rates[@]}" = "$rounds" ]; then
        echo "$name: ${rates[$((rounds / 2))]} verifications a second (median), ${rates[$((rounds - 1))]} at most" | tee -a "$work/rows"
    else
        failed "$name"
    fi
}

# in_lanes NAME FLAG FLAGS..: the program in C with that many lanes, if the processor has the first of the flags
in_lanes() {
    if grep -q -w "$2" /proc/cpuinfo; then
        built "$1" lanes "${@:3}" && timed "$1" "$work/lanes"
    else
        lacks "$1" "$2 of the processor"
    fi
}

if ! command -v java > "$work/found" || ! command -v javac > "$work/found"; then
    lacks "Bouncy Castle" "a JDK"
elif [ ! -f "$jar" ]; then
    lacks "Bouncy Castle" "$jar (libbcprov-java; BCPROV may name another)"
else
    timed "Bouncy Castle" java -cp "$jar" "$top/checks/speed/Speed.java"
fi
if ! command -v gcc > "$work/found"; then
    lacks "each program in C" "gcc"
else
    if ! echo '#include <openssl/sha.h>' | gcc -E - > "$work/found" 2>&1; then
        lacks "C over OpenSSL" "openssl/sha.h (libssl-dev)"
    else
        built "C over OpenSSL" openssl -lcrypto && timed "C over OpenSSL" "$work/openssl"
    fi
    in_lanes "C with four lanes of SSE" sse4_1 -msse4.1
    in_lanes "C with eight lanes of AVX2" avx2 -mavx2
fi
for bench in "$@"; do
    if [ -x "$bench" ]; then
        ours "$bench"
    else
        lacks "tufcheck's lms" "$bench (\`rt run\` in crates/bench builds it)"
    fi
done

# A step is what takes the time, so a signature's steps make the rates comparable: ours verifies the first signature alone.
mean=$(sed -n '1s/.* \([0-9.]*\) steps on average.*/\1/p' "$work/signed")
first=$(sed -n '1s/.* \([0-9]*\) the first.*/\1/p' "$work/signed")
echo
echo "| Program | verifications a second: median, at most | steps of a signature | ns a step: median, least |"
echo "|---|---|---|---|"
while read -r line; do
    name=${line%%: *} steps=${mean:--}
    [[ $name = "tufcheck's lms"* ]] && steps=${first:--}
    awk -v name="$name" -v steps="$steps" '{
        ns = steps > 0 ? sprintf("%.0f, %.0f", 1e9 / ($1 * steps), 1e9 / ($6 * steps)) : "-"
        printf "| %s | %d, %d | %s | %s |\n", name, $1, $6, steps, ns
    }' <<< "${line##*: }"
done < "$work/rows"
echo
cat "$work/missing"
if [ "$(sort -u "$work/signed" | wc -l)" -gt 1 ]; then
    echo "speed.sh: the programs made different signatures:" >&2
    cat "$work/signed" >&2
    status=1
else
    head -1 "$work/signed"
fi
exit $status
