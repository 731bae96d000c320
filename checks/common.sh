# What the scripts in the folders beside it share: `top` is the repository, and `work` a folder that is removed at the end.
# shellcheck shell=bash disable=SC2034 # what they use is set here
top=$(cd "$(dirname "${BASH_SOURCE[0]}")/.." && pwd) || exit 2
work=$(mktemp -d) || exit 2
trap 'rm -rf "$work"' EXIT

# find_program: sets `program`, the one that PROGRAM names, or that which `rt run` proves and builds
find_program() {
    program=$(realpath -m "${PROGRAM:-$top/crates/tufcheck/out/tufcheck}")
    [ -n "${PROGRAM-}" ] || (cd "$top/crates/tufcheck" && rt run) > "$work/built" 2>&1 || { tail -5 "$work/built"; exit 2; }
}

# find_trials: sets `trials`, likewise by TRIALS
find_trials() {
    trials=$(realpath -m "${TRIALS:-$top/crates/trials/out/trials}")
    [ -n "${TRIALS-}" ] || (cd "$top/crates/trials" && rt run) > "$work/built" 2>&1
    [ -x "$trials" ] || { tail -5 "$work/built" 2> /dev/null; echo "no program $trials"; exit 2; }
}
