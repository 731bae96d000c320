#!/bin/bash
# Makes a release of the library for other languages: a tarball, three Debian packages, and SHA256SUMS-dev of them.
#
#   dist/package-dev.sh [BUILT [FOLDER]]      what dist/build.sh built and dist/out unless given
#
#   libtufcheck1        the shared library, with its symbols file
#   libtufcheck-dev     the static library, the header, the pkg-config file, the man pages, the sources of the Rust crates and of
#                       the Go package, the example updater in C and the page on the library
#   python3-tufcheck    the Python module, and its example updater
#
# The tarball has all of that. The folder glibc-hwcaps/x86-64-v3 has the build for x86-64-v3, whose libtufcheck.so.1 the
# loader takes on such a processor; the other build is for x86-64-v2. dist/library has the symbols file and the scripts
# of packages.
#
# The same files make the same bytes: times are SOURCE_DATE_EPOCH or else the last commit's, the owner is 0, and names are
# sorted. (Another gzip, tar, dpkg or linker may do otherwise.) The status is 0, or 1 if something is refused, which is
# printed. Needs cc, binutils and python3. Without dpkg-deb the tarball alone is made, and the status is 1.
set -u
version=1.0.0
umask 022
export LC_ALL=C
top=$(cd "$(dirname "$0")/.." && pwd) || exit 1
built=${1:-$top/dist/out/build} out=${2:-$top/dist/out}
name=libtufcheck-$version-x86_64-linux
lib=lib/x86_64-linux-gnu packages="libtufcheck1 libtufcheck-dev python3-tufcheck"
work=$(mktemp -d) || exit 1
trap 'rm -rf "$work"' EXIT

# refused WHY: the end of a release that can't be made
refused() {
    echo "package-dev.sh: $1" >&2
    exit 1
}

for tool in ar cc gzip nm python3 strip tar sha256sum; do
    command -v $tool > "$work/found" || refused "$tool is missing"
done
# What the symbols file says that the library shows.
sed -n 's/^ \([^ ]*\)@\([^ ]*\) .*/\1@@\2/p' "$top/dist/library/libtufcheck1.symbols" | grep -v '^TUFCHECK' > "$work/symbols"
for cpu in v2 v3; do
    library=$built/libtufcheck_c-$cpu.a
    [ -f "$library" ] || refused "no library at $library: dist/build.sh builds it"
    "$top/bindings/link.sh" "$work/$cpu" "$library" > "$work/names" 2>&1 || refused "the library can't be linked: $(cat "$work/names")"
    strip --strip-unneeded -R .comment "$work/$cpu/libtufcheck.so.$version" &&
        strip -D --strip-debug -R .comment "$work/$cpu/libtufcheck.a" || refused "the library can't be stripped"
    chmod 644 "$work/$cpu/libtufcheck.so.$version"
    nm -D --defined-only "$work/$cpu/libtufcheck.so.1" | awk '$2 == "T" { print $3 }' | sort | diff "$work/symbols" - > "$work/seen" ||
        refused "libtufcheck1.symbols isn't what the library shows: $(cat "$work/seen")"
done
when=${SOURCE_DATE_EPOCH:-$(git -C "$top" log -1 --format=%ct 2> "$work/found")}
[[ $when =~ ^[0-9]+$ ]] || refused "no date: give SOURCE_DATE_EPOCH, or package in a clone with git"
mkdir -p "$out" && rm -f "$out/$name.tar.gz" "$out/SHA256SUMS-dev" || exit 1
for package in $packages; do
    rm -f "$out/${package}_${version}"_*.deb
done

# shared CPU FOLDER: the shared library of one build, with its link
shared() {
    mkdir -p "$2" && cp -P "$work/$1"/libtufcheck.so.1* "$2"
}

# develop ROOT LIB PREFIX: below ROOT what a compiler needs; PREFIX, with LIB, goes into the pkg-config file
develop() {
    install -D -m 644 -t "$1/$2" "$work/v2/libtufcheck.a" &&
        install -D -m 644 -t "$1/$2/glibc-hwcaps/x86-64-v3" "$work/v3/libtufcheck.a" &&
        ln -s libtufcheck.so.1 "$1/$2/libtufcheck.so" &&
        mkdir -p "$1/$2/pkgconfig" &&
        sed "s,@PREFIX@,$3,; s,@INCLUDE@,\${prefix}/include,; s,@LIB@,\${prefix}/$2,; s,@VERSION@,$version," \
            "$top/bindings/c/tufcheck.pc.in" > "$1/$2/pkgconfig/tufcheck.pc" &&
        install -D -m 644 -t "$1/include" "$top/bindings/c/tufcheck.h"
}

# manual FOLDER: the man pages; a page that is a link of man's becomes one of the file system's
manual() {
    local page to
    mkdir -p "$1" || return 1
    for page in "$top"/bindings/c/man/*.3; do
        to=$(sed -n 's,^\.so man3/,,p' "$page")
        if [ -n "$to" ]; then
            ln -s "$to.gz" "$1/$(basename "$page").gz" || return 1
        else
            gzip -9n < "$page" > "$1/$(basename "$page").gz" || return 1
        fi
    done
}

# sources FOLDER: the sources of the Rust crates and of the Go package, without its tests, which need this repository
sources() {
    local file
    (cd "$top/bindings" && find rust/tufcheck-sys rust/tufcheck go/tufcheck -type f ! -path '*/target/*' ! -name Cargo.lock ! -name '*_test.go' | sort) \
        > "$work/files"
    while read -r file; do
        install -D -m 644 "$top/bindings/$file" "$1/$file" || return 1
    done < "$work/files"
}

# python FOLDER: the Python module
python() {
    install -D -m 644 -t "$1/tufcheck" "$top"/bindings/python/tufcheck/{__init__.py,py.typed,securesystemslib.py}
}

# page FOLDER LANGUAGES: the page on the library, whose links to the example updaters of these languages (c|python) stay
page() {
    install -D -m 644 -t "$1" "$top/docs/EMBEDDING.md" &&
        sed -i -E 's,\]\(\.\./bindings/('"$2"')/(example_updater\.[a-z]+)\),](examples/\2),g; s,\[([^]]*)\]\((\.\./[^)]*|(PROOFS|SIGNING)[^)]*)\),\1,g' "$1/EMBEDDING.md"
}

# dated ROOT: sets the time of all files below ROOT
dated() {
    find "$1" -exec touch -h -d "@$when" {} +
}

root=$work/$name
# shellcheck disable=SC2016 # for pkg-config
shared v2 "$root/lib" && shared v3 "$root/lib/glibc-hwcaps/x86-64-v3" && develop "$root" lib '${pcfiledir}/../..' &&
    manual "$root/man/man3" && sources "$root" && python "$root/python" && page "$root" 'c|python' &&
    install -D -m 644 -t "$root/examples" "$top"/bindings/{c/example_updater.c,python/example_updater.py} &&
    install -m 644 "$top/dist/notices" "$root/copyright" && install -m 644 -t "$root" "$top/LICENSE" || refused "a file of the release is missing"
dated "$root"
tar -C "$work" --sort=name --format=ustar --owner=0 --group=0 --numeric-owner --mtime="@$when" -cf "$work/release.tar" "$name" || exit 1
gzip -9n < "$work/release.tar" > "$out/$name.tar.gz" || exit 1
echo "note: the library contains code of the kit's standard library; docs/EMBEDDING.md says what that means"

# documented PACKAGE: the licenses and the list of changes
documented() {
    local doc=$work/deb/$1/usr/share/doc/$1
    mkdir -p "$doc" && install -m 644 "$top/dist/notices" "$doc/copyright" && "$top/dist/changelog.py" "$1" $version "$when" > "$work/changelog" &&
        gzip -9n < "$work/changelog" > "$doc/changelog.gz"
}

# packed PACKAGE ARCHITECTURE FIELD..: makes a package of the files in its folder, with the description from standard input
packed() {
    local package=$1 architecture=$2 root=$work/deb/$1
    shift 2
    documented "$package" && mkdir -p "$root/DEBIAN" &&
        (cd "$root" && find usr -type f | sort | xargs md5sum) > "$root/DEBIAN/md5sums" || return 1
    {
        echo "Package: $package"
        echo "Source: tufcheck"
        echo "Version: $version"
        echo "Architecture: $architecture"
        echo "Maintainer: Fullqimi maintainers <maintainers@users.noreply.fullqimi.example>"
        # A kibibyte for each folder and link, and each file's bytes rounded up
        echo "Installed-Size: $(find "$root/usr" \( -type f -printf '%s\n' \) -o -printf '1\n' | awk '{ n += int(($1 + 1023) / 1024) } END { print n }')"
        printf '%s\n' "$@"
        echo "Priority: optional"
        echo "Homepage: https://fullqimi.example/"
        cat
    } > "$root/DEBIAN/control"
    find "$root/DEBIAN" -type f ! -name postinst ! -name prerm -exec chmod 644 {} +
    dated "$root"
    SOURCE_DATE_EPOCH=$when dpkg-deb --root-owner-group -Zgzip -z9 -b "$root" "$out/${package}_${version}_$architecture.deb" > "$work/seen" 2>&1 ||
        refused "dpkg-deb: $(cat "$work/seen")"
}

if command -v dpkg-deb > "$work/found"; then
    root=$work/deb/libtufcheck1 least=$(objdump -T "$work"/v[23]/libtufcheck.so.1 | grep -o 'GLIBC_[0-9.]*' | sort -u -V | tail -1)
    shared v2 "$root/usr/$lib" && shared v3 "$root/usr/$lib/glibc-hwcaps/x86-64-v3" && mkdir "$root/DEBIAN" &&
        cp "$top/dist/library/libtufcheck1.symbols" "$root/DEBIAN/symbols" &&
        echo "libtufcheck 1 libtufcheck1 (>= $version)" > "$root/DEBIAN/shlibs" &&
        echo "activate-noawait ldconfig" > "$root/DEBIAN/triggers" &&
        packed libtufcheck1 amd64 "Multi-Arch: same" "Depends: libc6${least:+ (>= ${least#GLIBC_})}" "Section: libs" << 'END' ||
Description: verify a repository of The Update Framework, shared library
 libtufcheck verifies a repository of The Update Framework (TUF 1.0) with LMS
 signatures (RFC 8554) from files that its caller has in memory. It opens no
 file itself.
END
        refused "a file of libtufcheck1 is missing"

    root=$work/deb/libtufcheck-dev doc=usr/share/doc/libtufcheck-dev
    develop "$root/usr" $lib /usr && manual "$root/usr/share/man/man3" && sources "$root/usr/share/libtufcheck-dev" &&
        page "$root/$doc" c && install -D -m 644 -t "$root/$doc/examples" "$top/bindings/c/example_updater.c" &&
        packed libtufcheck-dev amd64 "Multi-Arch: same" "Depends: libtufcheck1 (= $version)" "Suggests: python3-tufcheck" "Section: libdevel" << 'END' ||
Description: verify a repository of The Update Framework, for development
 libtufcheck verifies a repository of The Update Framework (TUF 1.0) with LMS
 signatures (RFC 8554) from files that its caller has in memory. It opens no
 file itself.
 .
 This package has the static library, the header, the pages of the calls, the
 sources of two Rust crates and of a Go package, and an example updater.
END
        refused "a file of libtufcheck-dev is missing"

    root=$work/deb/python3-tufcheck doc=usr/share/doc/python3-tufcheck
    python "$root/usr/lib/python3/dist-packages" &&
        install -D -m 644 -t "$root/$doc/examples" "$top/bindings/python/example_updater.py" &&
        install -D -m 755 -t "$root/DEBIAN" "$top"/dist/library/python3-tufcheck/{postinst,prerm} &&
        packed python3-tufcheck all "Depends: libtufcheck1 (>= $version), python3:any (>= 3.8)" \
            "Suggests: python3-securesystemslib (>= 0.26), python3-tuf" "Section: python" << 'END' ||
Description: verify a repository of The Update Framework, from Python
 libtufcheck verifies a repository of The Update Framework (TUF 1.0) with LMS
 signatures (RFC 8554) from files that its caller has in memory. It opens no
 file itself.
 .
 This package has the Python module tufcheck, with types and with LMS keys
 for securesystemslib, and an example updater.
END
        refused "a file of python3-tufcheck is missing"
    (cd "$out" && sha256sum "$name.tar.gz" libtufcheck1_* libtufcheck-dev_* python3-tufcheck_*) > "$out/SHA256SUMS-dev" || exit 1
    cat "$out/SHA256SUMS-dev"
else
    (cd "$out" && sha256sum "$name.tar.gz") > "$out/SHA256SUMS-dev" || exit 1
    cat "$out/SHA256SUMS-dev"
    refused "dpkg-deb is missing, so there are no Debian packages"
fi
