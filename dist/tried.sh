# What the scripts beside it share that try a release: `top` is the repository, `work` a folder that is removed at the end, and
# `failed` 1 once something failed.
# shellcheck shell=bash disable=SC2034 # what they use is set here
set -u
export LC_ALL=C
top=$(cd "$(dirname "${BASH_SOURCE[0]}")/.." && pwd) || exit 1
work=$(mktemp -d) || exit 1
trap 'rm -rf "$work"' EXIT
failed=0

# report STATUS THING: `ok` or `failed` of a thing, by the status of what tried it and what it wrote to the file `seen`
report() {
    if [ "$1" = 0 ]; then
        echo "ok $2"
    else
        echo "failed $2: $(head -c 400 "$work/seen" | tr '\n' ' ')"
        failed=1
    fi
}

# has TOOL THING: whether a tool is here; if not, its thing isn't tried
has() {
    command -v "$1" > "$work/found" || { echo "not tried $2: $1 is missing"; return 1; }
}
