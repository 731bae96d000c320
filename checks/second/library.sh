#!/bin/bash
# Compares the C library with the header, with the program and with itself.
#
#   checks/second/library.sh [COUNT]      1,000 histories unless given
#
# `rt lib` in crates/tufcheck_c proves and builds the library, and `rt run` in crates/tufcheck the program; LIBRARY and
# PROGRAM in the environment name others. It needs cc and binutils. What is here of the rest is tried too: g++, clang,
# pkg-config, man, rustc, cargo, go, mypy, valgrind. What isn't is said in a line `not tried`.
#
#   1. The library shows the calls of the header and nothing else, and needs the C library's memory calls alone; in the
#      shared library each has the version TUFCHECK_1. Its allocator keeps sizes, alignments and bytes, and says that there is
#      no block (library/heap.c); so does that of the kit, if `rt` is here.
#   2. Each field of the header is where the library has it; the header compiles without warnings in each standard of C and C++
#      (library/standards.sh). Each number of the header has a text of its own, and no other number has one (library/texts.c).
#      Each call has a man page, which declares it as the header does. An LMS signature is valid, and not after a change
#      (library/signatures.py).
#   3. The example updaters of C, Python, Rust and Go fetch repositories of examples/ from a folder, and verify them, and do
#      what they must with files of no bytes. `cargo package` takes both Rust crates.
#   4. Drawn histories (those of second.py) have the lines, the status and the state of the program, from Python, C, Rust and
#      Go, with bytes, with digests, also with the listed ones alone, and after fetching; what a state trusts is what the program
#      shows of it (library/compare.py, library/lines.*).
#   5. With each allocation refused in turn, with one too little in each room, with each error, with null for what is empty, in four threads and on a stack
#      of 256 KB the calls return what they must (library/stress.c); and how much of a stack nested JSON takes.
#   6. valgrind, and the address and undefined-behaviour sanitizers of cc over all C that is here, find nothing in 5, in lines.c
#      and, the sanitizers, in 3.
#
# The status is 1 if something is not as it must be. Most of its time is that of the histories, of which each takes a few
# times as long as in second.py.
set -u
export LC_ALL=C
count=${1:-1000}
. "$(dirname "$0")/../common.sh"
library=${LIBRARY:-$top/crates/tufcheck_c/out/libtufcheck_c.a} program=$(realpath "${PROGRAM:-$top/crates/tufcheck/out/tufcheck}")
here=$top/checks/second/library now=1767225600 failed=0

# done STATUS WHAT: a line for a thing that was tried, with what it printed if it failed
done_() {
    if [ "$1" = 0 ]; then
        echo "ok $2"
    else
        echo "failed $2"
        tail -20 "$work/seen"
        failed=1
    fi
}

# has TOOL WHAT: whether a tool is here
has() {
    command -v "$1" > "$work/found" || { echo "not tried $2: $1 is missing"; return 1; }
}

[ -f "$library" ] || { echo "no library at $library: \`rt lib\` in crates/tufcheck_c builds it"; exit 2; }
[ -x "$program" ] || { echo "no program at $program: \`rt run\` in crates/tufcheck builds it"; exit 2; }
"$top/bindings/link.sh" "$work/lib" "$library" > "$work/names" 2> "$work/seen" || { cat "$work/seen"; exit 2; }
export TUFCHECK_LIBRARY=$work/lib/libtufcheck.so.1 PYTHONPATH=$top/bindings/python:$top/checks:$top/checks/second PYTHONDONTWRITEBYTECODE=1

# 1. Names.
{
    for name in first list lms_verify next show text verify version; do echo "shows tufcheck_$name"; done
    echo "needs free malloc memcmp memcpy memmove memset realloc"
} > "$work/wanted"
{
    grep '^shows' "$work/names" | sort
    echo "needs $(sed -n 's/^needs //p' "$work/names" | sort | tr '\n' ' ' | sed 's/ $//')"
} > "$work/has"
diff <(sed 's/ memcmp//' "$work/wanted") <(sed 's/ memcmp//' "$work/has") > "$work/seen"
done_ $? "names: $(tail -1 "$work/has")"

for name in first list lms_verify next show text verify version; do echo "tufcheck_$name@@TUFCHECK_1"; done > "$work/wanted"
nm -D --defined-only "$work/lib/libtufcheck.so.1" | awk '$2 == "T" { print $3 }' | sort | diff "$work/wanted" - > "$work/seen" &&
    readelf -d "$work/lib/libtufcheck.so" > "$work/seen" && grep -q 'soname: \[libtufcheck.so.1\]' "$work/seen" &&
    [[ $(readlink -f "$work/lib/libtufcheck.so") == */libtufcheck.so.1.*.* ]]
done_ $? "names and their version in the shared library"

# allocates WHAT FILE..: whether these have the functions that library/heap.c tries
allocates() {
    local what=$1
    shift
    cc -std=c11 -Wall -Wextra -Werror -O1 -g -o "$work/heap" "$here/heap.c" "$@" -Wl,--wrap=malloc,--wrap=realloc > "$work/seen" 2>&1 &&
        "$work/heap" > "$work/seen" 2>&1
    done_ $? "$what"
}
allocates "the library's allocator" "$top/bindings/c/heap.c"
if has rt "the kit's allocator"; then
    allocates "the kit's allocator" "$(dirname "$(rt doc)")/c/liblibc_c.a"
fi

# 2. Layout.
cc -std=c11 -Wall -Wextra -pedantic -Werror -c -o "$work/layout.o" "$top/bindings/c/layout.c" > "$work/seen" 2>&1
done_ $? "layout"
"$here/standards.sh" > "$work/seen" 2>&1
done_ $? "header in $(grep -c '^ok [^:]*$' "$work/seen") standards of gcc and clang"
grep '^not tried' "$work/seen"
cc -std=c99 -Wall -Wextra -pedantic -Werror -I "$top/bindings/c" -o "$work/texts" "$here/texts.c" "$work/lib/libtufcheck.a" > "$work/seen" 2>&1 &&
    sed -n 's/^    TUFCHECK_[A-Z_]* = \(-*[0-9]*\).*/\1/p' "$top/bindings/c/tufcheck.h" | sort -n > "$work/wanted" &&
    "$work/texts" > "$work/has" && diff "$work/wanted" <(cut -f 1 "$work/has") > "$work/seen" &&
    [ -z "$(cut -f 2 "$work/has" | sort | uniq -d | tee "$work/seen")" ]
done_ $? "texts: $(wc -l < "$work/has") numbers"

# Each call has a page, and each page that isn't a link has the declarations of the header.
if has man "man pages"; then
    mkdir -p "$work/man/man3" && cp "$top"/bindings/c/man/*.3 "$work/man/man3"
    : > "$work/seen"
    for name in first list lms_verify next show text verify version; do
        MANPAGER=cat MANWIDTH=200 man --warnings -M "$work/man" "tufcheck_$name" > "$work/page" 2>> "$work/seen"
        tr -s ' \n' ' ' < "$top/bindings/c/tufcheck.h" | grep -o "[a-z0-9_]* \(char \*\)\?tufcheck_$name([^)]*)" | head -1 > "$work/wanted"
        tr -s ' \n' ' ' < "$work/page" | grep -q -F -f "$work/wanted" ||
            echo "tufcheck_$name isn't declared as $(cat "$work/wanted")" >> "$work/seen"
    done
    [ ! -s "$work/seen" ]
    done_ $? "man pages"
fi

python3 "$here/signatures.py" > "$work/seen" 2>&1
done_ $? "LMS signatures"

# 3. Examples.
flags="-I$top/bindings/c -L$work/lib -ltufcheck"
has pkg-config "pkg-config" && flags=$(PKG_CONFIG_PATH=$work/lib pkg-config --cflags --libs tufcheck) && echo "ok pkg-config: $flags"
# shellcheck disable=SC2086
cc -std=c99 -Wall -Wextra -pedantic -Werror -O1 -g -o "$work/updater" "$top/bindings/c/example_updater.c" $flags -Wl,-rpath,"$work/lib" > "$work/seen" 2>&1
done_ $? "example in C compiles"
cc -std=c11 -D_DEFAULT_SOURCE -Wall -Wextra -Werror -O1 -g -I "$top/bindings/c" -o "$work/lines" "$here/lines.c" "$work/lib/libtufcheck.a" > "$work/seen" 2>&1
done_ $? "lines.c compiles"
lines=("C=$work/lines")
cc -std=c11 -D_DEFAULT_SOURCE -Wall -Wextra -Werror -O1 -g -pthread -I "$top/bindings/c" -o "$work/stress" "$here/stress.c" "$work/lib/libtufcheck.a" \
    -Wl,--wrap=malloc,--wrap=realloc,--wrap=free > "$work/seen" 2>&1
done_ $? "stress.c compiles"
if has rustc "Rust"; then
    (cd "$top/bindings/rust" &&
        rustc --edition 2021 -D warnings --crate-type rlib --crate-name tufcheck_sys -o "$work/libtufcheck_sys.rlib" tufcheck-sys/src/lib.rs &&
        rustc --edition 2021 -D warnings --crate-type rlib --crate-name tufcheck --extern tufcheck_sys="$work/libtufcheck_sys.rlib" \
            -o "$work/libtufcheck.rlib" tufcheck/src/lib.rs &&
        rustc --edition 2021 -D warnings --crate-type bin --extern tufcheck="$work/libtufcheck.rlib" -L "dependency=$work" -L "native=$work/lib" \
            -l static=tufcheck -o "$work/updater_rust" tufcheck/examples/updater.rs &&
        rustc --edition 2021 -D warnings --crate-type bin --extern tufcheck="$work/libtufcheck.rlib" -L "dependency=$work" -L "native=$work/lib" \
            -l static=tufcheck -o "$work/lines_rust" "$here/lines.rs") > "$work/seen" 2>&1
    done_ $? "example and lines.rs compile"
    lines+=("Rust=$work/lines_rust")
fi
# Of both crates, as archives: the tests, by the shared library and with the feature static, and the example of these archives.
if has cargo "the archives of the Rust crates"; then
    mkdir "$work/crates" && cp -r "$top"/bindings/rust/{Cargo.toml,tufcheck,tufcheck-sys} "$work/crates" &&
        (cd "$work/crates" && export TUFCHECK_LIB_DIR="$work/lib" LD_LIBRARY_PATH="$work/lib" CARGO_TARGET_DIR="$work/target" &&
            cargo test --offline && cargo test --offline --features static && cargo package --offline --allow-dirty --workspace) > "$work/seen" 2>&1 &&
        tar -xzf "$work/target/package/tufcheck-1.0.0.crate" -C "$work" && [ -f "$work/tufcheck-1.0.0/examples/updater.rs" ]
    done_ $? "the Rust crates' tests pass, and cargo packages both"
fi

if has go "Go"; then
    export CGO_CFLAGS="-I$top/bindings/c" CGO_LDFLAGS="-L$work/lib -Wl,-rpath,$work/lib" GOPROXY=off
    (cd "$top/bindings/go/tufcheck" && go vet ./... && go vet "$here/lines.go" && go test -count=1 . && go build -o "$work/updater_go" ./updater &&
        go build -o "$work/lines_go" "$here/lines.go") > "$work/seen" 2>&1
    done_ $? "package, example and lines.go compile, and the package's tests pass"
    lines+=("Go=$work/lines_go")
fi

# sane NAME FILE FLAG..: compiles a program and the C of bindings with sanitizers, around the object of the built library
sane() {
    local name=$1 file=$2
    shift 2
    cc -std=c11 -D_DEFAULT_SOURCE -Wall -Wextra -Werror -O1 -g -fsanitize=address,undefined -fno-sanitize-recover=all -pthread \
        -I "$top/bindings/c" -o "$work/sane/$name" "$top/$file" "$top"/bindings/c/{heap,texts,nulls}.c "$work/sane/tufcheck_c.o" "$@"
}
renamed=()
for name in first show next list verify lms_verify; do
    renamed+=(--redefine-sym "tufcheck_$name=proved_$name")
done
mkdir "$work/sane" && built=$(realpath "$library") && (cd "$work/sane" && ar x "$built" && objcopy "${renamed[@]}" tufcheck_c.o &&
    sane updater bindings/c/example_updater.c && sane lines checks/second/library/lines.c &&
    sane stress checks/second/library/stress.c -Wl,--wrap=malloc,--wrap=realloc,--wrap=free) > "$work/seen" 2>&1
done_ $? "all C compiles with sanitizers"
# What they print and the status of a program that they stop.
export ASAN_OPTIONS=detect_leaks=0:exitcode=99 UBSAN_OPTIONS=print_stacktrace=1

mkdir "$work/module" && python3 "$here/module.py" "$work/module" > "$work/seen" 2>&1
done_ $? "errors, numbers and texts of the Python module"
if has mypy "the Python module's types"; then
    mypy --strict --cache-dir "$work/types" "$top/bindings/python/tufcheck/__init__.py" "$top/bindings/python/example_updater.py" > "$work/seen" 2>&1
    done_ $? "mypy finds no fault in the types of the Python module and example"
fi

# updates NAME STATUS PATH..: each updater fetches the repository of the script, whose status is that
updates() {
    local name=$1 want=$2 got
    shift 2
    rm -rf "$work/repo" && "$program" make "$top/examples/$name.script" "$work/repo" > "$work/seen" 2>&1 || { done_ 1 "make $name"; return; }
    local root=$work/repo/metadata/1.root.json
    rm -f "$work"/state.*
    rm -rf "$work"/out.*
    "$work/updater" "$root" "$work/state.c" "$work/repo" $now "$work/out.c" "$@" > "$work/seen" 2>&1
    [ $? = "$want" ]
    done_ $? "C updates from $name"
    "$work/sane/updater" "$root" "$work/state.sane" "$work/repo" $now "$work/out.sane" "$@" > "$work/seen" 2>&1
    [ $? = "$want" ] && cmp -s "$work/state.c" "$work/state.sane" && diff -r "$work/out.c" "$work/out.sane" >> "$work/seen" 2>&1
    done_ $? "sanitizers: C updates from $name"
    python3 "$top/bindings/python/example_updater.py" "$root" "$work/state.py" "$work/repo" $now "$work/out.py" "$@" > "$work/seen" 2>&1
    [ $? = "$want" ] && cmp -s "$work/state.c" "$work/state.py" && diff -r "$work/out.c" "$work/out.py" >> "$work/seen" 2>&1
    done_ $? "Python updates from $name"
    if [ -x "$work/updater_rust" ]; then
        "$work/updater_rust" "$root" "$work/state.rust" "$work/repo" $now "$work/out.rust" "$@" > "$work/seen" 2>&1
        [ $? = "$want" ] && cmp -s "$work/state.c" "$work/state.rust" && diff -r "$work/out.c" "$work/out.rust" >> "$work/seen" 2>&1
        done_ $? "Rust updates from $name"
    fi
    if [ -x "$work/updater_go" ]; then
        "$work/updater_go" "$root" "$work/state.go" "$work/repo" $now "$work/out.go" "$@" > "$work/seen" 2>&1
        [ $? = "$want" ] && cmp -s "$work/state.c" "$work/state.go" && diff -r "$work/out.c" "$work/out.go" >> "$work/seen" 2>&1
        done_ $? "Go updates from $name"
    fi
    "$program" init "$root" --out "$work/state.t" > "$work/seen" 2>&1
    "$program" verify --state "$work/state.t" --metadata "$work/repo/metadata" --targets "$work/repo/targets" --now 2026-01-01T00:00:00Z \
        --out "$work/state.t" "$@" > "$work/seen" 2>&1
    got=$?
    [ $got = "$want" ] && cmp -s "$work/state.c" "$work/state.t"
    done_ $? "the program says the same of $name"
}
updates first 0 abc.txt
updates consistent 0 abc.txt
updates delegations 1 abc.txt faq.txt apps/web/a.js nope
updates bins 1 abc.txt nope
updates rotation 0 abc.txt

# empties NAME RUN..: what an updater does with files of no bytes: a target that is listed so, one that isn't, a metadata file,
# a state and a first root
empties() {
    local name=$1 status=0
    shift
    # step WANT CHANGE..: after a change of a new repository, whether the updater has that status
    step() {
        local want=$1
        shift
        rm -rf "$work/empty" && cp -r "$work/whole" "$work/empty" && (cd "$work/empty" && "$@") &&
            (cd "$work/empty" && "${run[@]}" metadata/1.root.json state . $now out abc.txt none) > "$work/seen" 2>&1
        [ $? = "$want" ] || { echo "$name: another status than $want after $*" >> "$work/seen"; return 1; }
    }
    run=("$@")
    step 0 true && cmp "$work/empty/out/none" /dev/null && step 1 truncate -s 0 targets/abc.txt && step 2 truncate -s 0 metadata/timestamp.json &&
        step 2 rm -r metadata/timestamp.json targets && step 4 truncate -s 0 state && step 4 truncate -s 0 metadata/1.root.json || status=1
    done_ $status "$name: files of no bytes"
}
python3 -c 'import sys, tuf; tuf.repository(sys.argv[1], tuf.Key(1, 4), {"abc.txt": b"abc", "none": b""})' "$work/whole" || exit 2
empties C "$work/updater"
empties "sanitizers: C" "$work/sane/updater"
empties Python python3 "$top/bindings/python/example_updater.py"
[ ! -x "$work/updater_rust" ] || empties Rust "$work/updater_rust"
[ ! -x "$work/updater_go" ] || empties Go "$work/updater_go"

# 4. Drawn histories.
python3 "$here/compare.py" "$program" "$count" 1 "${lines[@]}" > "$work/seen" 2>&1
status=$?
cat "$work/seen"
done_ $status "compared with the program"

# 5. Memory, rooms, threads, stacks.
# stressed NAME PATH..: the calls on the repository of the script
stressed() {
    local name=$1
    shift
    rm -rf "$work/repo" && "$program" make "$top/examples/$name.script" "$work/repo" > "$work/seen" 2>&1
    "$program" init "$work/repo/metadata/1.root.json" --out "$work/state" >> "$work/seen" 2>&1
    "$work/stress" "$work/repo/metadata/1.root.json" "$work/state" "$work/repo/metadata" "$work/repo/targets" $now 32 "$@" > "$work/seen" 2>&1
    local status=$?
    cat "$work/seen"
    done_ $status "stressed by $name"
    "$work/sane/stress" "$work/repo/metadata/1.root.json" "$work/state" "$work/repo/metadata" "$work/repo/targets" $now 32 "$@" > "$work/seen" 2>&1
    done_ $? "sanitizers: stress by $name"
    "$work/sane/lines" "$work/state" "$work/repo/metadata" "$work/repo/targets" $now 32 "$work/new" "$@" > "$work/seen" 2>&1
    [ $? -lt 3 ]
    done_ $? "sanitizers: lines of $name"
    if has valgrind "valgrind"; then
        QUICK=1 valgrind -q --error-exitcode=9 --exit-on-first-error=no "$work/stress" "$work/repo/metadata/1.root.json" "$work/state" \
            "$work/repo/metadata" "$work/repo/targets" $now 32 "$@" > "$work/seen" 2>&1
        done_ $? "valgrind: stress by $name"
        valgrind -q --error-exitcode=9 "$work/lines" "$work/state" "$work/repo/metadata" "$work/repo/targets" $now 32 "$work/new" "$@" > "$work/seen" 2>&1
        [ $? -lt 3 ]
        done_ $? "valgrind: lines of $name"
    fi
}
stressed first abc.txt
stressed delegations abc.txt faq.txt apps/web/a.js nope
stressed bins abc.txt nope
stressed consistent abc.txt nope
stressed first
# A timestamp of nested JSON, which no key signed.
for kind in arrays objects; do
    rm -rf "$work/repo" && "$program" make "$top/examples/first.script" "$work/repo" > "$work/seen" 2>&1
    python3 - "$kind" > "$work/repo/metadata/timestamp.json" <<'EOF'
import sys
depth = 124
inner = "[" * depth + "]" * depth if sys.argv[1] == "arrays" else '{"a":' * depth + "1" + "}" * depth
print('{"signed":{"a":' + inner + '},"signatures":[]}', end="")
EOF
    "$work/stress" "$work/repo/metadata/1.root.json" "$work/state" "$work/repo/metadata" "$work/repo/targets" $now 32 abc.txt > "$work/seen" 2>&1
    status=$?
    grep stack "$work/seen"
    done_ $status "stressed by a timestamp of nested $kind"
done
exit $failed
