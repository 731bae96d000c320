#!/bin/bash
# Makes libtufcheck.a, libtufcheck.so.VERSION and tufcheck.pc of the static library that `rt lib` built in
# crates/tufcheck_c.
#
#   bindings/link.sh FOLDER [BUILT]
#
# FOLDER is made. BUILT is crates/tufcheck_c/out/libtufcheck_c.a unless given. The built library calls three functions for
# memory: bindings/c/heap.c has them, over malloc, realloc and free. bindings/c/texts.c has the call tufcheck_text, and
# bindings/c/nulls.c the calls that take null, over those of the built library, which are renamed proved_*. All becomes one
# object that shows only the calls of the header; in the shared library they have the version that
# bindings/c/libtufcheck.map names. The links libtufcheck.so.1 and libtufcheck.so lead to it.
#
# It needs ar, ld, objcopy (binutils) and cc. It prints the names that the library shows and those that it needs. The status
# is 0, 3 without FOLDER, or that of the command that failed.
set -euo pipefail
export LC_ALL=C
top=$(cd "$(dirname "$0")/.." && pwd)
[ $# -ge 1 ] || { sed -n '2,5p' "$0"; exit 3; }
mkdir -p "$1"
folder=$(cd "$1" && pwd)
built=$(realpath "${2:-$top/crates/tufcheck_c/out/libtufcheck_c.a}")
version=$(sed -n 's/^#define TUFCHECK_VERSION_TEXT "\(.*\)"$/\1/p' "$top/bindings/c/tufcheck.h")
work=$(mktemp -d)
trap 'rm -rf "$work"' EXIT
cd "$work"
ar x "$built"
for name in heap texts nulls; do
    cc -std=c99 -Wall -Wextra -pedantic -O2 -fPIC -fvisibility=hidden -c -o $name.o "$top/bindings/c/$name.c"
done
for name in first show next list verify lms_verify; do
    renamed+=(--redefine-sym "tufcheck_$name=proved_$name")
done
objcopy "${renamed[@]}" tufcheck_c.o
ld -r -o tufcheck.o tufcheck_c.o heap.o texts.o nulls.o
objcopy --wildcard --keep-global-symbol='tufcheck_*' tufcheck.o
rm -f "$folder/libtufcheck.a"
ar rcsD "$folder/libtufcheck.a" tufcheck.o
shared=libtufcheck.so.$version soname=libtufcheck.so.${version%%.*}
rm -f "$folder/$shared" "$folder/$soname" "$folder/libtufcheck.so"
cc -shared -o "$folder/$shared" tufcheck.o -Wl,--version-script,"$top/bindings/c/libtufcheck.map" -Wl,-z,defs,-z,now,-z,relro \
    -Wl,-soname,"$soname" -Wl,--build-id=none
ln -s "$shared" "$folder/$soname"
ln -s "$soname" "$folder/libtufcheck.so"
sed "s,@PREFIX@,$folder,; s,@INCLUDE@,$top/bindings/c,; s,@LIB@,\${prefix},; s,@VERSION@,$version," "$top/bindings/c/tufcheck.pc.in" \
    > "$folder/tufcheck.pc"
nm -g --defined-only "$folder/libtufcheck.a" | awk 'NF == 3 { print "shows", $3 }'
nm -u "$folder/libtufcheck.a" | awk 'NF == 2 { print "needs", $2 }'
