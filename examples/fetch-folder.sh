#!/bin/sh
# Updates a state from a repository in a folder, file by file, and verifies the wanted targets.
# Usage: fetch-folder.sh REPOSITORY STATE DIR PATH..
# The files are copied into the folder DIR, which should be new: a file that is there isn't fetched.
set -eu
repository=$1
shift

# A byte more than the file may have shows `tufcheck` that it is too long.
fetch() {
    head -c "$(($3 + 1))" "$repository/$1/$2" 2>/dev/null
}

. "$(dirname "$0")/fetching.sh"
update "$@"
