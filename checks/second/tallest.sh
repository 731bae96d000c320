#!/bin/bash
# Makes the one key of W8 and height 15 and one of W4, and checks that their roots and signatures are those that another
# program computed (a Python program that shares no code with the crates).
#
#   checks/second/tallest.sh
#
# `rt run` in crates/trials proves and builds the program. The first key takes 284 million steps of chains and the
# second 33 million.
set -u
. "$(dirname "$0")/../common.sh"
mkdir "$work/cases" && cp "$top"/crates/trials/data/cases/leaf-{,w4-}15-5.vector "$work/cases" || exit 2
cat > "$work/cases/tallest.rows" << 'LINES'
The first signature and the sixth of a key of W8 and height 15.
  $ sign 8 15 abc first sixth
  root 430f045685ad13470cb721981647ae68ad76e2938899fc508b32c62175ef4a97
  1612 bytes of 2668
  SHA-256 24db9a2a39408e4da737916db6d23fb0231833bcf944019dbd85be26ad7c1833
  $ verify first
  yes
  $ about sixth
  root 430f045685ad13470cb721981647ae68ad76e2938899fc508b32c62175ef4a97
  1612 bytes of 2668
  SHA-256 d86c8d20079f7e1b448672b25c42abad33778664951485556d63a1612cabd314
  $ same sixth cases/leaf-15-5.vector
  $ verify sixth
  yes

The same of W4.
  $ sign 4 15 abc first sixth
  root b43dc95d0d427c855b94fa340547b79d585237fc7435cb65d56bbf9c6340fadb
  2668 bytes of 2668
  SHA-256 1c237299ed62ed6a2344d53051ef408d4e67173091156dfe944b11c54d2f3873
  $ same sixth cases/leaf-w4-15-5.vector
  $ verify first
  yes
LINES
cd "$work" && "$top/crates/trials/out/trials"
