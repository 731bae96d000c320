#!/bin/bash
# Makes a Debian source package around the built programs, and builds the packages from it.
#
#   dist/source.sh [PROGRAM [FOLDER [LMSKEY]]]      what dist/build.sh built, dist/out/source and `lmskey` beside PROGRAM unless
#                                                   given
#
# The source package has the files of the repository, and the programs as they were built, since their toolchain isn't in Debian;
# its debian/ is dist/debian with a changelog made of CHANGELOG.md, and dist/notices as `copyright`.
# `dpkg-buildpackage -us -uc` then builds from it the packages that dist/package.sh makes, byte for byte. FOLDER has all that
# it makes, and is emptied before. Times are SOURCE_DATE_EPOCH or else the last commit's. Needs git and dpkg-dev, in a clone.
# The status is 0, or 1 if something fails, which is printed.
set -u
export LC_ALL=C
umask 022
top=$(cd "$(dirname "$0")/.." && pwd) || exit 1
program=$(realpath -m "${1:-$top/dist/out/build/tufcheck}") out=$(realpath -m "${2:-$top/dist/out/source}")
lmskey=$(realpath -m "${3:-$(dirname "$program")/lmskey}")
version=$(sed -n 's/^version=//p' "$top/dist/package.sh")
name=tufcheck-$version
work=$(mktemp -d) || exit 1
trap 'rm -rf "$work"' EXIT

# refused WHY: the end of a package that can't be made
refused() {
    echo "source.sh: $1" >&2
    exit 1
}

command -v dpkg-buildpackage > "$work/found" || refused "dpkg-buildpackage is missing (package dpkg-dev)"
for file in "$program" "$lmskey"; do
    [ -f "$file" ] || refused "no program at $file: dist/build.sh builds it"
done
when=${SOURCE_DATE_EPOCH:-$(git -C "$top" log -1 --format=%ct 2> "$work/found")}
[[ $when =~ ^[0-9]+$ ]] || refused "no date: give SOURCE_DATE_EPOCH, or package in a clone with git"
mkdir "$work/$name" || exit 1
set -o pipefail
(cd "$top" && git ls-files -z | tar --null -T - -cf -) | tar -C "$work/$name" -xf - || refused "the files of the repository can't be copied"
install -m 755 "$program" "$work/$name/tufcheck" && install -m 755 "$lmskey" "$work/$name/lmskey" && cp -r "$top/dist/debian" "$work/$name/debian" &&
    cp "$top/dist/notices" "$work/$name/debian/copyright" || exit 1
"$top/dist/changelog.py" tufcheck "$version" "$when" > "$work/$name/debian/changelog" || refused "the changelog can't be made"
find "$work/$name" -exec touch -h -d "@$when" {} +
(cd "$work/$name" && SOURCE_DATE_EPOCH=$when dpkg-buildpackage -us -uc) > "$work/lines" 2>&1 ||
    refused "dpkg-buildpackage: $(tail -5 "$work/lines")"
rm -rf "$out" && mkdir -p "$out" && find "$work" -maxdepth 1 -name '*_*' -exec mv -t "$out" {} + || exit 1
ls "$out"
