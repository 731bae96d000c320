#!/bin/bash
# Checks whether each file here, and the man page, names every subcommand and option that the help of its built program names;
# and whether each subcommand of `tufcheck` has its man page, which dist/pages.py cuts out of that one, with the options of its
# help.
#
#   completions/check.sh [PROGRAM [LMSKEY]]      those that `rt run` builds in crates/tufcheck and crates/lmskey unless given
#
# Where `man` is, it renders each page and has to find nothing to say. It prints a line for each thing that is wrong, and the
# status is then 1. It takes a second.
set -euo pipefail
cd "$(dirname "$0")"
program=${1:-../crates/tufcheck/out/tufcheck} lmskey=${2:-../crates/lmskey/out/lmskey}
work=$(mktemp -d)
trap 'rm -rf "$work"' EXIT
status=0

# wrong TEXT: tells what is wrong
wrong() {
    echo "$1"
    status=1
}

# rendered PAGE: whether `man` renders a page and says nothing
rendered() {
    MANPAGER=cat MANWIDTH=80 man --warnings -l "$1" > "$work/text" 2> "$work/said" && [ -s "$work/text" ] && [ ! -s "$work/said" ]
}

# options: the long options that a text names
options() {
    { grep -o -- '--[a-z][a-z-]*' || true; } | sort -u
}

# commands PROGRAM: the subcommands that a program's help names
commands() {
    "$1" --help | sed -n '/^Commands:/,/^$/s/^  \([a-z]*\) .*/\1/p'
}

# named NAME PROGRAM: checks the files of a program, and keeps the options of each of its subcommands
named() {
    local command commands words file text word
    commands=$(commands "$2")
    [ -n "$commands" ] || wrong "$2 --help names no subcommand"
    words="$commands $("$2" --help | options)"
    for command in $commands; do
        [ "$command" = help ] && continue
        "$2" help "$command" | options > "$work/$command.help"
        words+=" $(cat "$work/$command.help")"
    done
    for file in "$1.bash" "_$1" "$1.fish" "../docs/$1.1"; do
        text=$(sed 's/\\-/-/g' "$file")
        for word in $words; do
            if [ "$word" != -- ] && ! grep -q -- "${word#--}" <<<"$text"; then
                wrong "$file does not name $word"
            fi
        done
    done
}

named lmskey "$lmskey"
named tufcheck "$program"
commands=$(commands "$program")
if ! ../dist/pages.py "$work/pages"; then
    wrong "the pages of the subcommands can't be cut out of docs/tufcheck.1"
    exit $status
fi
for command in $commands; do
    page=$work/pages/tufcheck-$command.1
    [ "$command" = help ] && continue
    [ -f "$page" ] || { wrong "$command has no page in docs/tufcheck.1"; continue; }
    sed -n '/^\.SH OPTIONS$/,/^\.SH EXIT/{/^\.TP$/{n;p}}' "$page" | sed 's/\\-/-/g' | options > "$work/$command.page"
    diff "$work/$command.help" <(grep -v -x -e -- "$work/$command.page") > "$work/differs" ||
        wrong "tufcheck-$command(1) hasn't the options of its help: $(grep '^[<>]' "$work/differs" | tr '\n' ' ')"
done
for page in "$work"/pages/*.1 ../docs/{tufcheck,lmskey}.1; do
    command=$(basename "$page" .1)
    command=${command#tufcheck-}
    [ "$command" = tufcheck ] || [ "$command" = lmskey ] || grep -q -x "$command" <<<"$commands" || wrong "$(basename "$page") is of no subcommand"
    if command -v man > "$work/found" && ! rendered "$page"; then
        wrong "man has to say of $(basename "$page"): $(head -3 "$work/said")"
    fi
done
exit $status
