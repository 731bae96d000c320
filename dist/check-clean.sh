#!/bin/bash
# Installs the library's Debian packages on a clean Debian, and builds and runs the example updaters there by the commands of
# the page that they come with.
#
#   dist/check-clean.sh [SUITE [FOLDER]]      bookworm, and the folder of the release, dist/out, unless given
#
# debootstrap makes the Debian in a temporary folder, from a mirror; with CLEAN in the environment in that folder, which is
# kept, and taken as it is if it is there. apt then installs the packages of FOLDER, with what they depend on and nothing
# else, and then Debian's compilers. The commands are run by a user of no rights, without a network. Each updater installs a
# target of a repository that checks/tuf.py signs, and refuses a damaged one. Last, the packages are removed again.
#
# Needs debootstrap, python3, the superuser and a mirror. The status is 1 where something failed, and 2 if there is no such
# Debian. On a busy machine debootstrap takes eleven minutes, and the rest eight.
. "$(dirname "$0")/tried.sh" || exit 1
suite=${1:-bookworm} from=$(realpath -m "${2:-$top/dist/out}")
version=$(sed -n 's/^version=//p' "$top/dist/package-dev.sh")
clean=$(realpath -m "${CLEAN:-$work/clean}")
page=/usr/share/doc/libtufcheck-dev/EMBEDDING.md

# inside [FLAG..] -- WORD..: runs a command in the Debian, with flags of unshare and with its own /proc
inside() {
    local flags=()
    while [ "$1" != -- ]; do
        flags+=("$1")
        shift
    done
    shift
    # shellcheck disable=SC2016 # for the other bash
    unshare --mount --pid --kill-child "${flags[@]}" bash -c 'mount -t proc proc "$0/proc" && exec chroot "$0" \
        env -i PATH=/usr/sbin:/usr/bin:/sbin:/bin HOME=/home/it LC_ALL=C.UTF-8 DEBIAN_FRONTEND=noninteractive "$@"' "$clean" "$@"
}

# apt WORD..: apt-get in the Debian
apt() {
    inside -- apt-get -qq -y -o DPkg::Use-Pty=0 -o Dpkg::Options::=--force-unsafe-io --no-install-recommends "$@" > "$work/seen" 2>&1
}

# as_user COMMAND: a command of the shell, in the user's folder, without a network
as_user() {
    inside --net -- setpriv --reuid=nobody --regid=nogroup --clear-groups bash -euc "cd /home/it; $1" > "$work/seen" 2>&1
}

# updates THING WORD..: whether an updater installs the target, and then refuses a damaged one and leaves the first
updates() {
    local thing=$1 room=$clean/home/it/room
    shift
    rm -rf "$room" && cp -r "$work/repo" "$room" && chmod -R a+rwX "$room" &&
        as_user "cd room; $* metadata/1.root.json state . 1767225600 out abc.txt" && cmp "$room/targets/abc.txt" "$room/out/abc.txt" >> "$work/seen" 2>&1 &&
        echo damaged > "$room/targets/abc.txt" &&
        as_user "cd room; status=0; $* metadata/1.root.json state . 1767225600 out abc.txt || status=\$?; [ \$status = 1 ]" &&
        [ "$(cat "$room/out/abc.txt")" = abc ]
    report $? "$thing"
}

# compilers: Debian's names of the compilers; bookworm's own Rust is older than the crates need
compilers() {
    echo gcc libc6-dev pkg-config golang-go man-db
    [ "$suite" = bookworm ] && echo cargo-web rustc-web || echo cargo rustc
}

for tool in debootstrap python3 unshare; do
    command -v $tool > "$work/found" || { echo "check-clean.sh: $tool is missing" >&2; exit 2; }
done
packages=("$from"/libtufcheck1_"${version}"_amd64.deb "$from"/libtufcheck-dev_"${version}"_amd64.deb "$from"/python3-tufcheck_"${version}"_all.deb)
ls "${packages[@]}" > "$work/found" || exit 2
[ -d "$clean/usr" ] || debootstrap --variant=minbase "$suite" "$clean" > "$work/seen" 2>&1 || { tail -5 "$work/seen" >&2; exit 2; }
(cd "$work" && PYTHONPATH=$top/checks PYTHONDONTWRITEBYTECODE=1 python3 -c 'import tuf; tuf.repository("repo", tuf.Key(1, 4), {"abc.txt": b"abc"})') || exit 2
mkdir -p "$clean/home/it" "$clean/packages" && cp "${packages[@]}" "$clean/packages" && chmod 777 "$clean/home/it" || exit 2
! inside -- sh -c 'command -v python3 cc go rustc' > "$work/seen" 2>&1
report $? "a Debian $(cat "$clean/etc/debian_version") with no Python and no compiler"

apt update && apt install "/packages/$(basename "${packages[0]}")" && as_user 'ls -l /usr/lib/x86_64-linux-gnu/libtufcheck.so.1; ldconfig -p | grep libtufcheck.so.1'
report $? "libtufcheck1 is installed, and the loader knows the library"
apt install "/packages/$(basename "${packages[2]}")" && as_user 'python3 -c "import tufcheck; print(tufcheck.version())"' && grep -q -x "$version" "$work/seen"
report $? "python3-tufcheck is installed, and the module has the library"
updates "an updater in Python" python3 /usr/share/doc/python3-tufcheck/examples/example_updater.py
apt install "/packages/$(basename "${packages[1]}")"
report $? "libtufcheck-dev is installed"
# shellcheck disable=SC2046 # words
apt install $(compilers)
report $? "the compilers are installed"
# The commands of the page for each language, as they stand there.
sed -n '/^```$/,/^```$/p' "$clean$page" | grep /usr/share/libtufcheck-dev > "$work/rows"
sed -n '/^```$/,/^```$/p' "$clean$page" | grep /usr/share/doc/libtufcheck-dev/examples/ >> "$work/rows"
while read -r row; do
    as_user "$row" < /dev/null
    report $? "$row"
done < "$work/rows"
[ "$(wc -l < "$work/rows")" = 3 ]
report $? "the page has three commands"
updates "an updater in C" ../updater
updates "an updater in Rust" ../rust/tufcheck/target/debug/examples/updater
updates "an updater in Go" ../updater_go
as_user 'cc -o static /usr/share/doc/libtufcheck-dev/examples/example_updater.c -l:libtufcheck.a && ! ldd static | grep tufcheck'
report $? "an updater in C by the static library compiles"
updates "an updater in C, by the static library" ../static
as_user "for name in first list lms_verify next show text verify version; do man tufcheck_\$name | grep -q \"tufcheck_\$name(\"; done"
report $? "the man page of each call"
as_user "cd rust/tufcheck && cargo test --offline && cargo test --offline --features static"
report $? "the tests of the Rust crates, by the shared and by the static library"
cp -r "$top/bindings/python" "$clean/home/it" && chmod -R a+rwX "$clean/home/it/python" && apt install python3-build python3-setuptools python3-wheel &&
    as_user 'cd python && python3 -m build -n -w && python3 -m zipfile -l dist/tufcheck-*.whl' &&
    [ "$(grep -c '^tufcheck/\(__init__.py\|py.typed\|securesystemslib.py\) ' "$work/seen")" = 3 ]
report $? "the wheel that python3-build makes of the module's sources has it, with its types"
apt purge libtufcheck1 libtufcheck-dev python3-tufcheck && as_user 'dpkg -l | grep tufcheck && exit 1; find /usr -name "*tufcheck*" | grep . && exit 1; true'
report $? "the packages are removed, and leave no file"
exit $failed
