# The loop of an updater, for the scripts beside it. They define a function
#   fetch FOLDER NAME MOST
# which writes the file of that name to standard output, at most MOST bytes of it and one more, by
# which `tufcheck` sees that it is too long. FOLDER is `metadata` or `targets`. It fails if there is
# no such file.

# update STATE DIR PATH..: fetches what a verification looks up into the folders DIR/metadata and
# DIR/targets, and verifies it. The status is that of `tufcheck verify`.
update() {
    state=$1 dir=$2
    shift 2
    mkdir -p "$dir/metadata" "$dir/targets"
    work=$(mktemp -d) || return 4
    : >"$work/tried"
    for folder in metadata targets; do
        while tufcheck next --state "$state" --metadata "$dir/metadata" \
            --targets "$dir/targets" --only "$folder" -- "$@" >"$work/lines" &&
            grep -vxFf "$work/tried" "$work/lines" >"$work/new"; do
            # With an optional file, one that is needed may no longer be.
            grep '^maybe ' "$work/new" >"$work/now" || mv "$work/new" "$work/now"
            cat "$work/now" >>"$work/tried"
            while read -r word rest; do
                put "$word" "${rest% *}" "${rest##* }"
            done <"$work/now"
        done
    done
    rm -rf "$work"
    tufcheck verify --state "$state" --metadata "$dir/metadata" --targets "$dir/targets" \
        --out "$state" -- "$@"
}

# put WORD QUOTED MOST: fetches a file to its place. A name that isn't one of a file below the
# folder is left out, and so is one with what is escaped: `"`, `\` and all but printable ASCII.
put() {
    name=${2#\"} name=${name%\"}
    case "/$name/" in
        *'\'* | *//* | */./* | */../*) echo "left out: $2" >&2 && return ;;
    esac
    place=$dir/$folder/$name
    if ! fetch "$folder" "$name" "$3" >"$work/file"; then
        [ "$1" = maybe ] || echo "not there: $2" >&2
    elif [ -d "$place" ] || ! mkdir -p "$(dirname "$place")" || ! mv "$work/file" "$place"; then
        echo "no place: $2" >&2
    fi
}
