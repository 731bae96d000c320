#!/bin/bash
# Shows that a release of the library works on a machine without the kit: it unpacks the Debian packages and the tarball that
# dist/package-dev.sh made into temporary folders, and builds and runs the example updaters there.
#
#   dist/check-dev.sh [FOLDER]      the folder of the release, dist/out unless given
#
# A line for each thing says `ok`, `failed` with what was seen, or `not tried` with what is missing on this machine. The
# status is 1 where something failed. It takes half a minute, and installs nothing.
#
# For both: with pkg-config and cc the updater in C, by the shared and by the static library; the one in Python, and with
# rustc and go those in Rust and Go; on a repository that checks/tuf.py signs. Each installs a target, and then refuses a damaged one. Also
# the man pages, and that the loader takes the build for this processor. For the packages also their sums and what they
# depend on, the symbols file, and with lintian that it finds nothing. Then the release is packaged again from FOLDER/build,
# if that is there, which must make the same bytes. Needs tar, sha256sum and python3.
. "$(dirname "$0")/tried.sh" || exit 1
export PYTHONDONTWRITEBYTECODE=1
from=$(realpath -m "${1:-$top/dist/out}")
version=$(sed -n 's/^version=//p' "$top/dist/package-dev.sh")
name=libtufcheck-$version-x86_64-linux

# updates WORD..: whether an updater installs the target, and then refuses a damaged one and leaves the first
updates() {
    rm -rf "$work/room" && cp -r "$work/repo" "$work/room" && cd "$work/room" || return 1
    "$@" metadata/1.root.json state . 1767225600 out abc.txt > "$work/seen" 2>&1 && cmp targets/abc.txt out/abc.txt >> "$work/seen" 2>&1 || return 1
    echo damaged > targets/abc.txt
    "$@" metadata/1.root.json state . 1767225600 out abc.txt > "$work/seen" 2>&1
    [ $? = 1 ] && [ "$(cat out/abc.txt)" = abc ]
}

# compiles OUT WORD..: compiles the example updater in C
compiles() {
    cc -std=c99 -Wall -Wextra -Werror -o "$@" > "$work/seen" 2>&1
}

# in_c TAKEN LIB UPDATER.C FLAG..: the updater in C; the flags are those of pkg-config
in_c() {
    local taken=$1 lib=$2 source=$3 cpu=x86-64-v3
    shift 3
    compiles "$work/shared" "$source" "$@" -Wl,-rpath,"$lib" && updates "$work/shared"
    report $? "$taken: an updater in C, by the shared library"
    compiles "$work/static" "$source" "$1" "$lib/libtufcheck.a" && updates "$work/static" && ! ldd "$work/static" | grep tufcheck > "$work/seen"
    report $? "$taken: an updater in C, by the static library"
    if /lib64/ld-linux-x86-64.so.2 --help 2> "$work/found" | grep -q "$cpu (supported, searched)"; then
        ldd "$work/shared" > "$work/seen" 2>&1 && grep -q "$lib/glibc-hwcaps/$cpu/libtufcheck.so.1" "$work/seen"
        report $? "$taken: the loader takes the build for $cpu"
    else
        echo "not tried $taken: the build for $cpu: this loader or processor has none of it"
    fi
}

# in_rust LIB CRATES: compiles the updater in Rust
in_rust() {
    rustc --edition 2021 --crate-type rlib --crate-name tufcheck_sys --out-dir "$work" "$2/tufcheck-sys/src/lib.rs" &&
        rustc --edition 2021 --crate-type rlib --crate-name tufcheck -L "$work" --extern tufcheck_sys --out-dir "$work" "$2/tufcheck/src/lib.rs" &&
        rustc --edition 2021 -L "$work" --extern tufcheck -L "native=$1" -l dylib=tufcheck -C "link-arg=-Wl,-rpath,$1" -o "$work/rust" \
            "$2/tufcheck/examples/updater.rs"
}

# in_go LIB INCLUDE PACKAGE: compiles the updater in Go
in_go() {
    (cd "$3" && CGO_CFLAGS="-I$2" CGO_LDFLAGS="-L$1 -Wl,-rpath,$1" GOPROXY=off go build -o "$work/go" ./updater)
}

# pages TAKEN MAN: the man page of each call of the shared library
pages() {
    local call
    : > "$work/seen"
    for call in $(sed 's/@@.*//' "$work/shown"); do
        MANPAGER=cat MANWIDTH=80 man --warnings -M "$2" "$call" > "$work/page" 2>> "$work/seen"
        grep -q "$call(" "$work/page" || echo "$call has no page" >> "$work/seen"
    done
    [ ! -s "$work/seen" ]
    report $? "$1: the man page of each call, with no warning"
}

# tried TAKEN ROOT LIB PYTHON SOURCES MAN UPDATER.C UPDATER.PY PREFIX..: all that is tried with one unpacked release; LIB to
# MAN are below ROOT, and the rest is for pkg-config
tried() {
    local taken=$1 root=$2 lib=$2/$3 python=$2/$4 sources=$2/$5 man=$2/$6 flags
    nm -D --defined-only "$lib/libtufcheck.so.1" | awk '$2 == "T" { print $3 }' > "$work/shown"
    if has cc "$taken: an updater in C" && has pkg-config "$taken: an updater in C"; then
        flags=$(PKG_CONFIG_PATH=$lib/pkgconfig pkg-config "${@:9}" --cflags --libs tufcheck 2> "$work/seen")
        [ "$(PKG_CONFIG_PATH=$lib/pkgconfig pkg-config --modversion tufcheck 2>> "$work/seen")" = "$version" ]
        report $? "$taken: pkg-config knows $version"
        # shellcheck disable=SC2086
        in_c "$taken" "$lib" "$7" $flags
    fi
    updates env -i PYTHONDONTWRITEBYTECODE=1 PYTHONPATH="$python" LD_LIBRARY_PATH="$lib" "$(command -v python3)" "$8"
    report $? "$taken: an updater in Python"
    ls "$python/tufcheck" > "$work/seen" 2>&1 && [ -f "$python/tufcheck/py.typed" ] && [ -f "$python/tufcheck/securesystemslib.py" ]
    report $? "$taken: the Python module has types, and keys for securesystemslib"
    if has rustc "$taken: an updater in Rust"; then
        in_rust "$lib" "$sources/rust" > "$work/seen" 2>&1 && updates "$work/rust"
        report $? "$taken: an updater in Rust"
    fi
    if has go "$taken: an updater in Go"; then
        in_go "$lib" "$root/include" "$sources/go/tufcheck" > "$work/seen" 2>&1 && updates "$work/go"
        report $? "$taken: an updater in Go"
    fi
    ! has man "$taken: the man pages" || pages "$taken" "$man"
}

# packaged: the Debian packages
packaged() {
    local file package root=$work/deb/usr doc=$work/deb/usr/share/doc lib=lib/x86_64-linux-gnu
    for file in "$from"/libtufcheck1_"${version}"_amd64.deb "$from"/libtufcheck-dev_"${version}"_amd64.deb "$from"/python3-tufcheck_"${version}"_all.deb; do
        package=$(dpkg-deb -f "$file" Package)
        dpkg-deb -x "$file" "$work/deb" > "$work/seen" 2>&1 && dpkg-deb -e "$file" "$work/control/$package" >> "$work/seen" 2>&1 &&
            (cd "$work/deb" && md5sum -c "$work/control/$package/md5sums") > "$work/seen" 2>&1
        report $? "packages: $(basename "$file") and its list of sums"
    done
    grep '^Depends:' "$work"/control/*/control > "$work/seen"
    grep -q -x "Depends: libtufcheck1 (= $version)" "$work/control/libtufcheck-dev/control" &&
        grep -q "^Depends:.*libtufcheck1 (>= $version)" "$work/control/python3-tufcheck/control"
    report $? "packages: the two others depend on libtufcheck1"
    tried packages "$root" "$lib" lib/python3/dist-packages share/libtufcheck-dev share/man \
        "$doc/libtufcheck-dev/examples/example_updater.c" "$doc/python3-tufcheck/examples/example_updater.py" "--define-variable=prefix=$root"
    sed -n 's/^ \(tufcheck_[a-z_]*\)@\([^ ]*\) .*/\1@@\2/p' "$work/control/libtufcheck1/symbols" | diff - "$work/shown" > "$work/seen"
    report $? "packages: the symbols file names what the library shows"
    cmp "$root/$lib/libtufcheck.so.1" "$work/tar/$name/lib/libtufcheck.so.1" > "$work/seen" 2>&1
    report $? "packages: their library is the tarball's"
    if has lintian "packages: lintian"; then
        lintian --fail-on error,warning --tag-display-limit 0 "$from"/*tufcheck*_"${version}"_*.deb > "$work/seen" 2>&1
        report $? "packages: lintian finds no error and no warning"
    fi
}

for tool in md5sum nm python3 sha256sum tar; do
    command -v $tool > "$work/found" || { echo "check-dev.sh: $tool is missing" >&2; exit 1; }
done
[ -f "$from/$name.tar.gz" ] || { echo "check-dev.sh: no $from/$name.tar.gz: dist/package-dev.sh makes it" >&2; exit 1; }
(cd "$work" && PYTHONPATH=$top/checks python3 -c 'import tuf; tuf.repository("repo", tuf.Key(1, 4), {"abc.txt": b"abc"})') || exit 1
mkdir "$work/tar" "$work/deb" "$work/control" || exit 1
(cd "$from" && sha256sum -c SHA256SUMS-dev) > "$work/seen" 2>&1
report $? "SHA256SUMS-dev"
root=$work/tar/$name
if tar -xzf "$from/$name.tar.gz" -C "$work/tar" > "$work/seen" 2>&1; then
    tried tarball "$root" lib python . man "$root"/examples/example_updater.{c,py}
else
    report 1 "tarball: it can be unpacked"
fi
! has dpkg-deb "the Debian packages" || packaged
if [ -d "$from/build" ]; then
    SOURCE_DATE_EPOCH=$(stat -c %Y "$root/include/tufcheck.h") "$top/dist/package-dev.sh" "$from/build" "$work/again" > "$work/found" 2> "$work/seen" &&
        (cd "$work/again" && diff SHA256SUMS-dev "$from/SHA256SUMS-dev") > "$work/seen" 2>&1
    report $? "packaged again, the release has the same bytes"
else
    echo "not tried the same bytes: no $from/build"
fi
exit $failed
