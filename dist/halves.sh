#!/bin/bash
# Compares the two builds of a release, and its program, which has both: over the repositories that the examples make, each
# prints the same lines with the same status, and stores the same state, byte for byte.
#
#   dist/halves.sh [FOLDER]      what dist/build.sh built, dist/out/build unless given
#
# A third comparison is with the v3 build by Rattle's own compiler, `tufcheck-own`. With qemu-x86_64
# (package qemu-user) the release's program also runs as on a processor without AVX2, where it must start the first build.
# A line for each program and example; the status is 1 if something differs. It takes a minute.
set -u
export LC_ALL=C
top=$(cd "$(dirname "$0")/.." && pwd) || exit 1
from=$(realpath -m "${1:-$top/dist/out/build}")
work=$(mktemp -d) || exit 1
trap 'rm -rf "$work"' EXIT
status=0

# verified ROOM RUN..: makes, trusts and verifies the repository of each example in a folder of its own; RUN is the program
verified() {
    local room=$1 script name
    shift
    mkdir "$room" && cd "$room" || exit 1
    for script in "$top"/examples/*.script; do
        name=$(basename "$script" .script)
        "$@" make "$script" "$name" > "$name.lines" 2>&1
        "$@" init "$name/metadata/1.root.json" --out "$name.state" >> "$name.lines" 2>&1
        "$@" verify --state "$name.state" --metadata "$name/metadata" --targets "$name/targets" --every --workers 2 \
            --now 2026-01-01T00:00:00Z --out "$name.state" >> "$name.lines" 2>&1
        echo "status $?" >> "$name.lines"
    done
}

# compared NAME RUN..: whether a program's lines and states are those of the first build
compared() {
    local name=$1
    shift
    (verified "$work/$name" "$@")
    if diff -r "$work/v2" "$work/$name" > "$work/differs"; then
        echo "ok $name"
    else
        echo "differs $name: $(head -3 "$work/differs" | tr '\n' ' ')"
        status=1
    fi
}

[ -x "$from/tufcheck-v2" ] || { echo "halves.sh: no $from/tufcheck-v2: dist/build.sh builds it" >&2; exit 1; }
(verified "$work/v2" "$from/tufcheck-v2")
grep -q -x 'end ready' "$work"/v2/*.lines || { echo "halves.sh: no example is ready" >&2; exit 1; }
compared both "$from/tufcheck"
grep -q ' avx2 ' /proc/cpuinfo && compared v3 "$from/tufcheck-v3" || echo "not tried v3: this processor has no AVX2"
[ -x "$from/tufcheck-own" ] && compared own "$from/tufcheck-own"
if command -v qemu-x86_64 > "$work/found"; then
    compared nehalem qemu-x86_64 -cpu Nehalem "$from/tufcheck"
else
    echo "not tried nehalem: qemu-x86_64 is missing"
fi
exit $status
