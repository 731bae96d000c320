#!/bin/bash
# Builds a release: the program, one file with two builds of the same source, for x86-64-v2 with four lanes and for
# x86-64-v3 with eight, and dist/choose.c, which starts the one that the processor runs fastest; the library, twice; and
# `lmskey`, once, for x86-64-v2.
#
#   dist/build.sh [FOLDER]      dist/out/build unless given
#
# Each build is `rt run` in crates/tufcheck and crates/lmskey and `rt lib` in crates/tufcheck_c, so each is proved, in a copy
# of the files that git knows, on all processors. Unless one of them differs from the commit, `--version` names it. In the second copy the number
# of lanes is 8, and what the first one kept is there: so only what that number changes is proved. With nothing kept it takes
# as long as the gate's proofs. FOLDER then has `tufcheck`, the release's program; each build alone, `tufcheck-v2` and
# `tufcheck-v3`, and `tufcheck-own`, which Rattle's own compiler made of the second, for dist/halves.sh; `lmskey`; and the
# libraries `libtufcheck_c-v2.a` and `libtufcheck_c-v3.a`, for dist/package-dev.sh. Needs the kit, cc, objcopy and strip. The
# status is 0, or 1 if something fails.
set -eu
export LC_ALL=C
top=$(cd "$(dirname "$0")/.." && pwd)
out=$(realpath -m "${1:-$top/dist/out/build}")
kit=$(dirname "$(rt doc)")
jobs=$(nproc)
work=$(mktemp -d)
trap 'rm -rf "$work"' EXIT

# made CRATE RT..: runs rt in a crate's folder
made() {
    (cd "$1" && shift && rt "$@" --jobs "$jobs" > "$work/lines" 2>&1) || { tail -5 "$work/lines" >&2; return 1; }
}

# built ROOT NAME FLAG..: builds the library and the program of the files below ROOT, and takes the program's object with
# `main` renamed
built() {
    local crates=$1/crates name=$2
    shift 2
    made "$crates/tufcheck_c" lib "$@"
    cp "$crates/tufcheck_c/out/libtufcheck_c.a" "$out/libtufcheck_c-$name.a"
    made "$crates/tufcheck" run "$@"
    cp "$crates/tufcheck/out/tufcheck" "$out/tufcheck-$name"
    objcopy --redefine-sym "main=main_$name" "$crates/tufcheck/out/tufcheck.o" "$work/$name.o"
}

# copied ROOT NAME: a copy of the files, with what was built below ROOT
copied() {
    mkdir -p "$work/$2"
    (cd "$top" && git ls-files -z | tar --null -T - -cf - | tar -xf - -C "$work/$2")
    for kept in "$1"/crates/*/out; do
        [ -d "$kept" ] || continue
        cp -a "$kept" "$work/$2/crates/$(basename "$(dirname "$kept")")"
    done
    [ -z "$commit" ] || sed -i "s/ (rattle logic/ (commit $commit, rattle logic/" \
        "$work/$2/crates/words/src/version.rt" "$work/$2/crates/lmskey/src/words.rt"
}

mkdir -p "$out"
commit=$(cd "$top" && git diff --quiet HEAD && git rev-parse --short=12 HEAD) || commit=
copied "$top" v2
built "$work/v2" v2
made "$work/v2/crates/lmskey" run
strip -o "$out/lmskey" "$work/v2/crates/lmskey/out/lmskey"
copied "$work/v2" v3
lanes=$work/v3/crates/lanes/src/lib.rt
sed -i 's/^pub const LANES: usize = 4;$/pub const LANES: usize = 8;/' "$lanes"
grep -q -x 'pub const LANES: usize = 8;' "$lanes" || { echo "build.sh: no number of lanes in crates/lanes" >&2; exit 1; }
built "$work/v3" v3 --cpu x86-64-v3
made "$work/v3/crates/tufcheck" run --cpu x86-64-v3 --backend rattle
cp "$work/v3/crates/tufcheck/out/tufcheck" "$out/tufcheck-own"
cc -O2 -o "$work/tufcheck" "$top/dist/choose.c" "$work/v2.o" "$work/v3.o" "$kit/c/libos_c.a" "$kit/c/liblibc_c.a"
strip -o "$out/tufcheck" "$work/tufcheck"
ls -l "$out"
