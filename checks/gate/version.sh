#!/bin/bash
# Compares the version that the programs print with what else names it: the release's scripts, the library's header and
# crates, the man page, the pages for users and on formats, the changelog, and the logic of the kit in the README. The one
# place of the version is crates/words/src/version.rt.
#
#   checks/gate/version.sh [PROGRAM [LMSKEY]]      those that `rt run` builds in crates/tufcheck and crates/lmskey unless given;
#                                                  a program that isn't built isn't checked
#
# It prints a line for each place that differs, and the status is then 1. It takes a second.
set -u
export LC_ALL=C
cd "$(dirname "$0")/../.." || exit 1
text=$(sed -n 's/^pub const VERSION: &str = "\(.*\)";$/\1/p' crates/words/src/version.rt)
version=${text%% *} logic=${text##* }
logic=${logic%)}
status=0
[[ $version =~ ^[0-9]+\.[0-9]+\.[0-9]+$ && $logic =~ ^[0-9a-f]{16}$ ]] ||
    { echo "crates/words/src/version.rt: no version and logic"; exit 1; }

# names FILE LINE: whether the file has that line
names() {
    grep -q -x -F -e "$2" "$1" && return
    echo "$1 lacks: $2"
    status=1
}

# holds FILE TEXT: whether the text stands in the file
holds() {
    grep -q -F -e "$2" "$1" && return
    echo "$1 lacks: $2"
    status=1
}

# prints PROGRAM LINE: whether a program that is there prints that line as its version; that of a release also has its commit
prints() {
    [ ! -x "$1" ] || [ "$("$1" --version | sed 's/(commit [0-9a-f]\{12\}, /(/')" = "$2" ] && return
    echo "$1: $("$1" --version)"
    status=1
}

names dist/package.sh "version=$version"
names dist/package-dev.sh "version=$version"
names bindings/c/tufcheck.h "#define TUFCHECK_VERSION_TEXT \"$version\""
IFS=. read -r first second third <<< "$version"
names bindings/c/tufcheck.h "#define TUFCHECK_VERSION $((first * 1000000 + second * 1000 + third))"
names bindings/rust/tufcheck-sys/Cargo.toml "version = \"$version\""
names bindings/rust/tufcheck/Cargo.toml "version = \"$version\""
holds bindings/rust/tufcheck/Cargo.toml "tufcheck-sys = { path = \"../tufcheck-sys\", version = \"$version\" }"
names bindings/python/pyproject.toml "version = \"$version\""
holds crates/tufcheck_c/src/version.rt "/// The version $version."
names docs/tufcheck.1 ".TH TUFCHECK 1 \"\" \"tufcheck $version\""
names docs/lmskey.1 ".TH LMSKEY 1 \"\" \"lmskey $version\""
holds crates/lmskey/src/words.rt ".version(\"$text\")"
names docs/FORMATS.md "- Implementation Version: $version"
holds docs/USERS.md "tufcheck_${version}_amd64.deb"
holds docs/USERS.md "tufcheck-$version-x86_64-linux.tar.gz"
holds README.md "logic \`$logic\`"
grep -q -x -F -e "## [$version]" CHANGELOG.md || grep -q -F -e "the next is $version" CHANGELOG.md ||
    { echo "CHANGELOG.md names no $version"; status=1; }
if command -v rt > /dev/null; then
    [[ $(rt version) == *"logic $logic" ]] || { echo "rt version: $(rt version)"; status=1; }
fi
prints "${1:-crates/tufcheck/out/tufcheck}" "tufcheck $text"
prints "${2:-crates/lmskey/out/lmskey}" "lmskey $text"
exit $status
