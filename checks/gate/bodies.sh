#!/bin/bash
# Tries the faulty bodies checks/bodies/CRATE/*.edit: each must be refused by the contract of the function that it edits,
# and one of the gate by a contract of its crate.
#
#   checks/gate/bodies.sh [CRATE..]           every crate that has such edits, unless some are named
#   checks/gate/bodies.sh --gate [CRATE..]    the gate's own edits, crates/CRATE/must-fail/*.edit
#
# They have the form of must-fail edits, and still show something, but the gate, which checks a crate again for each
# edit, has no minutes for them. Here edits of different functions are made together in a copy of the repository, and one
# check of the crate must name each edited function with an open goal of its own; that it calls a function that isn't
# proved doesn't count. What a check of many doesn't name is tried alone, and so is an edit outside of functions,
# such as one of a constant.
#
# A line for each edit says `refused CRATE/NAME` or `PROVED CRATE/NAME`, and the last line counts them. After a refused one
# come the edited functions, each with its open goals: a clause by its name, or what else isn't proved. The script ends
# with status 1 if a body was proved, and with 2 if an edit couldn't be tried (`UNTRIED`: it can't be read, or is refused
# only by an answer in proofs/ that names what it took away, which the gate counts as refused). One check of 21 edits of
# cjson took four minutes on four busy cores; the gate tries as many in about ten.
set -u
. "$(dirname "$0")/../common.sh"
cp -a "$top" "$work/copy" || exit 2
python3 "$top/checks/gate/bodies.py" "$top" "$work/copy" "$@"
