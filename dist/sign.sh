#!/bin/bash
# Signs the sums of a release, by minisign and by gpg.
#
#   dist/sign.sh [--minisign SECRET PUBLIC] [--gpg KEY] [FOLDER]      the folder of the release, dist/out unless given
#   dist/sign.sh --trial [FOLDER]
#
# Of each of SHA256SUMS and SHA256SUMS-dev that is in FOLDER, whose sums have to be right, minisign makes NAME.minisig by the
# key in the file SECRET, and gpg NAME.asc by the key KEY (its fingerprint) of its keyring. Each is then verified, by the file
# PUBLIC, and by the keyring, where it has to be a signature of that key. Both tools may ask for a passphrase.
#
# --trial makes a key of each kind in a temporary folder, signs copies of the sums there, and leaves nothing: it shows that
# the tools do as this script takes them to do, and that sums which were changed afterwards are refused. A line for each
# signature says `ok`, `failed` with what the tool said, or in a trial `not tried` where the tool is missing. The status is 0,
# or 1 if something failed, and 2 for other arguments.
. "$(dirname "$0")/tried.sh" || exit 1
umask 022
secret='' public='' key='' trial=''
trap '[ ! -d "$work/gpg" ] || gpgconf --homedir "$work/gpg" --kill all; rm -rf "$work"' EXIT

# usage: the end for other arguments
usage() {
    sed -n '4,5p' "$0" >&2
    exit 2
}

# kept STATUS SIGNATURE THING: reports a thing, and removes the signature that can't be verified
kept() {
    [ "$1" = 0 ] || rm -f "$2"
    report "$1" "$3"
}

# signed FILE: signs a file by each key that was given, and verifies it
signed() {
    local name
    name=$(basename "$1")
    if [ -n "$secret" ]; then
        minisign -S -s "$secret" -m "$1" -t "$name" > "$work/seen" 2>&1 && minisigned "$1"
        kept $? "$1.minisig" "minisign $name"
    fi
    if [ -n "$key" ]; then
        gpg --batch --yes -u "$key" --armor --detach-sign -o "$1.asc" "$1" > "$work/seen" 2>&1 && enclosed "$1"
        kept $? "$1.asc" "gpg $name"
    fi
}

# minisigned FILE: whether minisign takes the signature of a file for one of the key
minisigned() {
    minisign -V -p "$public" -m "$1" > "$work/seen" 2>&1
}

# enclosed FILE: whether gpg takes the signature of a file for one of the key
enclosed() {
    gpg --batch --status-fd 1 --verify "$1.asc" "$1" > "$work/seen" 2>&1 && grep -q -E "^\[GNUPG:\] VALIDSIG .*\b$key( |\$)" "$work/seen"
}

while [ $# -gt 0 ]; do
    case $1 in
    --minisign)
        [ $# -ge 3 ] || usage
        secret=$2 public=$3
        shift 3
        ;;
    --gpg)
        [ $# -ge 2 ] || usage
        key=${2// /}
        shift 2
        ;;
    --trial)
        trial=yes
        shift
        ;;
    -*) usage ;;
    *) break ;;
    esac
done
[ $# -le 1 ] || usage
from=$(realpath -m "${1:-$top/dist/out}")
[ -f "$from/SHA256SUMS" ] || { echo "sign.sh: no $from/SHA256SUMS: dist/package.sh makes it" >&2; exit 1; }
if [ -n "$trial" ]; then
    [ -z "$secret$key" ] || usage
    if command -v minisign > "$work/found"; then
        secret=$work/secret public=$work/public
        minisign -G -W -p "$public" -s "$secret" > "$work/seen" 2>&1 || report 1 "minisign makes a key"
    else
        echo "not tried minisign: it is missing"
    fi
    if command -v gpg > "$work/found"; then
        export GNUPGHOME=$work/gpg
        mkdir -m 700 "$GNUPGHOME" || exit 1
        gpg --batch --passphrase '' --quick-generate-key "trial" ed25519 sign never > "$work/seen" 2>&1 || report 1 "gpg makes a key"
        key=$(gpg --batch --with-colons --list-secret-keys 2> "$work/found" | sed -n 's/^fpr:*\([0-9A-F]*\):$/\1/p' | head -1)
    else
        echo "not tried gpg: it is missing"
    fi
else
    [ -n "$secret$key" ] || usage
    [ -z "$key" ] || [[ $key =~ ^[0-9A-F]{40}$ ]] || { echo "sign.sh: $key isn't a fingerprint" >&2; exit 2; }
fi
for sums in "$from"/SHA256SUMS{,-dev}; do
    [ -f "$sums" ] || continue
    (cd "$from" && sha256sum --quiet -c "$sums") > "$work/seen" 2>&1 || { report 1 "the sums of $(basename "$sums")"; continue; }
    [ -z "$trial" ] || { cp "$sums" "$work" && sums=$work/$(basename "$sums"); }
    signed "$sums"
    if [ -n "$trial" ]; then
        sed -i '1s/^./x/' "$sums"
        [ -z "$secret" ] || { ! minisigned "$sums"; report $? "minisign refuses changed $(basename "$sums")"; }
        [ -z "$key" ] || { ! enclosed "$sums"; report $? "gpg refuses changed $(basename "$sums")"; }
    fi
done
exit $failed
