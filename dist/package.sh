#!/bin/bash
# Makes a release of the built programs: of each a tarball and a Debian package, an SPDX file of what these have
# (dist/spdx.py), and SHA256SUMS of all five, which dist/sign.sh signs.
#
#   dist/package.sh [PROGRAM [FOLDER [LMSKEY]]]      what dist/build.sh built, dist/out and `lmskey` beside PROGRAM unless given
#
# Those of `lmskey` have the program, its man page and completions, and the licenses (dist/notices); `tufcheck` neither links
# nor needs it. Those of `tufcheck` have the program, its man page and that of each subcommand (by dist/pages.py), completions
# for bash, zsh and fish, the user's page with the pages and the examples that it leads to, the licenses, and the scripts and
# units of dist/operator: the package in their places, and it depends on Python for them, the tarball in
# share/doc/tufcheck/operator.
#
# A built program is packaged unchanged; only one of 3,000,000 bytes or more is stripped, which is printed. A package depends on
# what its program links, by the packages of this machine that own it. Its fields are those of dist/debian/control, and its
# changelog is made of CHANGELOG.md.
#
# The same files make the same bytes: times are SOURCE_DATE_EPOCH or else the last commit's, the owner is 0, and names are
# sorted. (Another gzip, tar or dpkg may compress otherwise.) The status is 0, or 1 if something is refused, which is printed.
# Without dpkg-deb or ldd the tarballs alone are made, and the status is 1. Needs Python 3 too.
set -u
version=1.0.0
umask 022
export LC_ALL=C
top=$(cd "$(dirname "$0")/.." && pwd) || exit 1
program=${1:-$top/dist/out/build/tufcheck} out=${2:-$top/dist/out}
lmskey=${3:-$(dirname "$program")/lmskey}
name=tufcheck-$version-x86_64-linux
work=$(mktemp -d) || exit 1
trap 'rm -rf "$work"' EXIT

# refused WHY: the end of a release that can't be made
refused() {
    echo "package.sh: $1" >&2
    exit 1
}

# size FILE: its bytes
size() {
    stat -c %s "$1"
}

# take NAME FILE: takes a program of that name: there, of this kind of machine, and small
take() {
    local own=$work/$1
    [ -f "$2" ] || refused "no program at $2: dist/build.sh builds it"
    cp "$2" "$own" || exit 1
    case $(od -A n -t x1 -N 20 "$own" | tr -d ' \n') in
    7f454c4602*3e00) ;;
    *) refused "$2 isn't an ELF file for x86-64" ;;
    esac
    [ "$(size "$own")" -ge 3000000 ] || return 0
    command -v strip > "$work/found" || refused "$1 has $(size "$own") bytes, and strip (binutils) is missing"
    strip "$own" || refused "$1 can't be stripped"
    echo "stripped: $1 has $(size "$2") bytes as it was built, and $(size "$own") in the release"
    [ "$(size "$own")" -lt 3000000 ] || refused "$1 has 3,000,000 bytes or more, stripped too"
}

for tool in gzip tar sha256sum od python3; do
    command -v $tool > "$work/found" || refused "$tool is missing"
done
take tufcheck "$program"
take lmskey "$lmskey"
when=${SOURCE_DATE_EPOCH:-$(git -C "$top" log -1 --format=%ct 2> "$work/found")}
[[ $when =~ ^[0-9]+$ ]] || refused "no date: give SOURCE_DATE_EPOCH, or package in a clone with git"
mkdir -p "$out" && rm -f "$out/$name.spdx.json" "$out"/{tufcheck,lmskey}{-"$version"-x86_64-linux.tar.gz,_"$version"_amd64.deb} "$out"/SHA256SUMS{,.asc,.minisig} || exit 1

# laid NAME ROOT ZSH: the program of that name and its files below ROOT, with the completions for zsh in the folder ZSH below
# share/zsh
laid() {
    local page
    install -D -m 755 "$work/$1" "$2/bin/$1" &&
        install -D -m 644 "$top/completions/$1.bash" "$2/share/bash-completion/completions/$1" &&
        install -D -m 644 "$top/completions/_$1" "$2/share/zsh/$3/_$1" &&
        install -D -m 644 "$top/completions/$1.fish" "$2/share/fish/vendor_completions.d/$1.fish" &&
        install -D -m 644 "$top/dist/notices" "$2/share/doc/$1/copyright" && mkdir -p "$2/share/man/man1" || return 1
    for page in "$work/pages/$1"*.1; do
        gzip -9n < "$page" > "$2/share/man/man1/${page##*/}.gz" || return 1
    done
}

# described ROOT: the pages and examples of `tufcheck`
described() {
    local doc=$1/share/doc/tufcheck
    install -D -m 644 -t "$doc" "$top"/docs/{USERS,SCRIPTS,OPERATING,SIGNING,FORMATS,BENCHMARKS}.md &&
        install -D -m 644 -t "$doc/examples" "$top"/examples/*.script &&
        install -m 755 -t "$doc/examples" "$top"/examples/fetch-*.sh &&
        install -m 644 -t "$doc/examples" "$top/examples/fetching.sh" &&
        sed -i 's,](\.\./examples,](examples,g; s,\[man page\](tufcheck\.1),man page,g; s,\[\(tufcheck-run(8)\)\](tufcheck-run\.8),\1,g' "$doc"/{SCRIPTS,USERS,OPERATING}.md &&
        sed -i -E 's,\[([A-Za-z]+)\]\((\.\./)?(ATTACKS|DECISIONS|EMBEDDING|PROOFS|SECURITY)\.md(#[a-z-]+)?\),\1,g' "$doc"/{BENCHMARKS,FORMATS,SIGNING}.md &&
        sed -i 's,\[\(.lmskey.\)\](lmskey\.1),\1,g' "$doc/SIGNING.md"
}

# operated USR: the scripts and units of dist/operator, in the places of a Debian package, and what lintian shall not tell of it
operated() {
    local from=$top/dist/operator share=$1/share/tufcheck doc=$1/share/doc/tufcheck/examples name
    install -D -m 644 -t "$share" "$from/settings.py" &&
        install -m 755 -t "$share" "$from"/tufcheck-{run,setup} &&
        install -D -m 644 -t "$1/lib/systemd/system" "$from"/tufcheck@.{service,timer} &&
        install -D -m 644 "$from/sysusers.conf" "$1/lib/sysusers.d/tufcheck.conf" &&
        install -D -m 644 "$from/tmpfiles.conf" "$1/lib/tmpfiles.d/tufcheck.conf" &&
        install -m 644 -t "$doc" "$from"/{NAME.conf,tufcheck-alerts.yml} &&
        install -D -m 644 "$top/dist/debian/tufcheck.lintian-overrides" "$1/share/lintian/overrides/tufcheck" &&
        mkdir -p "$1/sbin" "$1/share/man/man5" "$1/share/man/man8" || return 1
    for name in tufcheck.conf.5 tufcheck-run.8 tufcheck-setup.8; do
        gzip -9n < "$work/pages/$name" > "$1/share/man/man${name##*.}/$name.gz" || return 1
    done
    for name in run setup; do
        ln -s "../share/tufcheck/tufcheck-$name" "$1/sbin/tufcheck-$name" || return 1
    done
}

# dated ROOT: sets the time of all files below ROOT
dated() {
    find "$1" -exec touch -h -d "@$when" {} +
}

# unpacked ROOT: the scripts and units of dist/operator, and the pages of both, as a tarball has them
unpacked() {
    local doc=$1/share/doc/tufcheck
    install -D -m 644 -t "$doc/operator" "$top"/dist/operator/{settings.py,tufcheck@.*,*.conf,*.yml} &&
        install -m 755 -t "$doc/operator" "$top"/dist/operator/tufcheck-{run,setup} &&
        install -m 644 -t "$doc/operator" "$work"/pages/*.[58] && gzip -9n "$doc"/operator/*.[58]
}

# packed NAME: the tarball of the files below `work`
packed() {
    local root=$1-$version-x86_64-linux
    install -m 644 -t "$work/$root/share/doc/$1" "$top/LICENSE" && dated "$work/$root" &&
        tar -C "$work" --sort=name --format=ustar --owner=0 --group=0 --numeric-owner --mtime="@$when" -cf "$work/release.tar" "$root" &&
        gzip -9n < "$work/release.tar" > "$out/$root.tar.gz"
}

"$top/dist/pages.py" "$work/pages" || refused "the man pages can't be made"
cp "$top"/docs/{tufcheck.1,tufcheck-run.8,lmskey.1} "$work/pages" || exit 1
"$top/dist/changelog.py" tufcheck $version "$when" > "$work/changelog" || refused "the changelog can't be made"
{ laid tufcheck "$work/$name" site-functions && described "$work/$name" && unpacked "$work/$name" &&
    laid lmskey "$work/lmskey-$version-x86_64-linux" site-functions; } || refused "a file of the release is missing"
{ packed tufcheck && packed lmskey; } || exit 1

# depends NAME: the packages that own the libraries which a program links, with the version of the C library that it needs
depends() {
    local library path owner least
    ldd "$work/$1" > "$work/links" 2>&1 || return 0
    grep -q 'not found' "$work/links" && refused "a library is missing: $(grep 'not found' "$work/links")"
    # The names of versions are texts of the program.
    least=$(grep -a -o 'GLIBC_[0-9][0-9.]*' "$work/$1" | sort -u -V | tail -1)
    sed -n 's/^.* => \(\/[^ ]*\) .*/\1/p; s/^\t\(\/[^ ]*\) .*/\1/p' "$work/links" | while read -r library; do
        owner=
        for path in "$library" "$(realpath "$library")" "/usr$library"; do
            owner=$(dpkg-query -S "$path" 2> "$work/found" | grep -v '^diversion' | head -1)
            owner=${owner%%:*}
            [ -n "$owner" ] && break
        done
        [ -n "$owner" ] || { echo "unowned $library"; continue; }
        [ "$owner" = libc6 ] && [ -n "$least" ] && owner+=" (>= ${least#GLIBC_})"
        echo "$owner"
    done | sort -u
}

# fields NAME KIBIBYTES: the fields of a package, of its stanza of dist/debian/control and the first one
fields() {
    local libraries control=$top/dist/debian/control
    libraries=$(paste -s -d, "$work/depends" | sed 's/,/, /g')
    echo "Package: $1"
    [ "$1" = tufcheck ] || echo "Source: tufcheck"
    echo "Version: $version"
    sed -n '1,/^$/{/^\(Section\|Priority\|Maintainer\):/p}' "$control"
    echo "Installed-Size: $2"
    # Without libraries nothing, or no field, is left of what dpkg would put there.
    sed -n "/^Package: $1\$/,/^\$/{/^Package:/d; /^\$/d; s/\\\${shlibs:Depends}\(, \)*/${libraries:+$libraries\\1}/; /^Depends: *\$/d; p}" "$control"
}

# package NAME: the Debian package of the files below `work`
package() {
    local root=$work/$1.deb room
    depends "$1" > "$work/depends" || exit 1
    grep -q '^unowned' "$work/depends" && refused "no package owns a library: $(grep '^unowned' "$work/depends")"
    gzip -9n < "$work/changelog" > "$root/usr/share/doc/$1/changelog.gz" && mkdir -p "$root/DEBIAN" || exit 1
    (cd "$root" && find usr -type f | sort | xargs md5sum) > "$root/DEBIAN/md5sums" || exit 1
    # A kibibyte for each folder, and each file's bytes rounded up
    room=$(find "$root/usr" \( -type f -printf '%s\n' \) -o -printf '1\n' | awk '{ n += int(($1 + 1023) / 1024) } END { print n }')
    fields "$1" "$room" > "$root/DEBIAN/control" || exit 1
    chmod 644 "$root"/DEBIAN/{control,md5sums}
    dated "$root"
    SOURCE_DATE_EPOCH=$when dpkg-deb --root-owner-group -Zgzip -z9 -b "$root" "$out/$1_${version}_amd64.deb" > "$work/built" 2>&1 ||
        refused "dpkg-deb: $(cat "$work/built")"
}

made=({tufcheck,lmskey}-"$version"-x86_64-linux.tar.gz) lacking=
if command -v dpkg-deb > "$work/found" && command -v ldd > "$work/found"; then
    { laid tufcheck "$work/tufcheck.deb/usr" vendor-completions && described "$work/tufcheck.deb/usr" &&
        operated "$work/tufcheck.deb/usr" && laid lmskey "$work/lmskey.deb/usr" vendor-completions &&
        mkdir "$work/tufcheck.deb/DEBIAN" &&
        install -m 755 -t "$work/tufcheck.deb/DEBIAN" "$top"/dist/operator/{postinst,prerm,postrm}; } ||
        refused "a file of the release is missing"
    package tufcheck
    package lmskey
    made+=({tufcheck,lmskey}_"$version"_amd64.deb)
else
    lacking="dpkg-deb (or ldd) is missing, so there are no Debian packages"
fi
(cd "$out" && "$top/dist/spdx.py" "$name" "$when" "${made[@]}" > "$name.spdx.json") || refused "the SPDX file can't be made"
(cd "$out" && sha256sum "${made[@]}" "$name.spdx.json") > "$out/SHA256SUMS" || exit 1
cat "$out/SHA256SUMS"
[ -z "$lacking" ] || refused "$lacking"
