#!/bin/bash
# Shows that a release works on a machine without the kit: it unpacks the Debian packages and the tarballs that
# dist/package.sh made into temporary folders and runs the programs from there, with a cleaned environment.
#
#   dist/check.sh [FOLDER]      the folder of the release, dist/out unless given
#
# A line for each thing says `ok`, `failed` with what was seen, or `not tried` with what is missing on this machine. The
# status is 1 where something failed. It takes a minute on a busy machine, half of it for lintian and the source package, and
# installs nothing.
#
# For both of `tufcheck`: the help, the run without arguments, a repository that is made and verified, the man pages, the links
# of the other pages, the completions of each shell that is here, the libraries, the SPDX file, and with strace every file that
# the program opens. For its package also the operator's scripts, pages and unit, the source package (dist/source.sh), and that
# it names `lmskey` nowhere. For both of `lmskey`: a key that is made, and its signature attached by `tufcheck`, the man page,
# completions, libraries and the SPDX file. Then the release is published in a repository of trial keys (dist/repository.py) and
# fetched from it, and its sums are signed (dist/sign.sh), both in temporary folders. Then the program runs in a root folder that
# has nothing but it and its libraries (for the superuser, or where user namespaces are allowed), and the release is packaged
# again from the unpacked programs, which must make the same bytes. dist/halves.sh compares the two builds. Last,
# dist/check-dev.sh tries the library's release, if it is in the folder.
. "$(dirname "$0")/tried.sh" || exit 1
from=$(realpath -m "${1:-$top/dist/out}")
version=$(sed -n 's/^version=//p' "$top/dist/package.sh")
name=tufcheck-$version-x86_64-linux deb=tufcheck_${version}_amd64.deb
signer=lmskey-$version-x86_64-linux signer_deb=lmskey_${version}_amd64.deb
mkdir "$work/home" "$work/deb" "$work/tar" "$work/signer" "$work/signer.deb" || exit 1
printf 'root 1\nend ready\nok "abc.txt" 3 "targets"\n' > "$work/three"
(echo "root 1" && cat "$work/three") > "$work/four"

# clean TOOL..: runs a tool that is found by its path, with nothing in the environment
clean() {
    env -i HOME="$work/home" PATH="$root/bin" "$@"
}

# same EXPECTED: checks that `seen` is that file
same() {
    cmp -s "$work/seen" "$1"
}

# session FOLDER RUN..: in a folder, makes a repository, trusts its first root and verifies a target; RUN is the program
session() {
    local folder=$1
    shift
    cp "$share/doc/tufcheck/examples/first.script" "$folder" && cd "$folder" && "$@" make first.script repo &&
        "$@" init repo/metadata/1.root.json --out state &&
        "$@" verify --state state --metadata repo/metadata --targets repo/targets --now 2026-01-01T00:00:00Z --out state abc.txt
}

# completed FILE WORD..: what the completions in a file offer in bash for the last of the words, one a line
completed() {
    # shellcheck disable=SC2016 # for the other bash
    clean "$BASH" --noprofile --norc -c '
        source "$1" && shift && named=$(complete -p "$1") && named=${named##*-F } && COMP_WORDS=("$@") COMP_CWORD=$(($# - 1)) &&
            "${named%% *}" && printf "%s\n" "${COMPREPLY[@]}"' bash "$@"
}

# offered NAME COMMAND: checks that `seen` has each option that the program's help of a subcommand names
offered() {
    local option options
    options=$(clean "$1" help "$2" | grep -o -- '--[a-z][a-z-]*' | sort -u)
    [ -n "$options" ] || return 1
    for option in $options; do
        grep -q -x -e "$option" -e "${option}[[:space:]].*" "$work/seen" || { echo "lacks $option" >> "$work/seen"; return 1; }
    done
}

# keyed FOLDER LINE: the line that zsh has after LINE and a tab, with the completions in FOLDER
keyed() {
    rm -f "$work/line"
    # shellcheck disable=SC2016 # for zsh
    env -i HOME="$work/home" PATH="$root/bin:$PATH" TERM=dumb timeout 30 zsh -f -c '
        zmodload zsh/zpty && zpty inner zsh -f -i || exit 1
        zpty -w inner "fpath=($1 \$fpath) && autoload -U compinit && compinit -u -D"
        zpty -w inner "shown() { print -r -- \$BUFFER > $3.new && mv $3.new $3; }; zle -N shown; bindkey \"^X\" shown"
        zpty -w -n inner "$2"$'\''\t\x18'\''
        for n in {1..200}; do [[ -f $3 ]] && break; zpty -r -t inner got; sleep 0.1; done
        zpty -d inner' zsh "$1" "$2" "$work/line" > "$work/found" 2>&1
    cat "$work/line"
}

# shells TAKEN ZSH NAME COMMAND OPTION: the completions of a program, with a subcommand and the one option of it that begins so,
# in each shell that is here
shells() {
    local loader="/usr/share/bash-completion/bash_completion" file=$share/bash-completion/completions/$3 begin=${4:0:3}
    completed "$file" "$3" "$begin" > "$work/seen" 2>&1
    [ "$(cat "$work/seen")" = "$4" ]
    report $? "$1: bash completes \`$3 $begin\` to \`$4\`"
    completed "$file" "$3" "$4" -- > "$work/seen" 2>&1
    offered "$3" "$4"
    report $? "$1: bash offers each option of \`$4\`"
    if [ -f "$loader" ]; then
        # shellcheck disable=SC2016 # for the other bash
        env -i HOME="$work/home" PATH="$PATH" XDG_DATA_DIRS="$share" bash --noprofile --norc -c '
            source "$1"; if declare -F _comp_load; then _comp_load "$2"; else _completion_loader "$2"; fi
            complete -p "$2"' bash "$loader" "$3" > "$work/seen" 2>&1
        grep -q -- "-F _$3 $3" "$work/seen"
        report $? "$1: bash-completion finds the file by the program's name"
    else
        echo "not tried $1: bash-completion is missing"
    fi
    if has zsh "$1: completion in zsh"; then
        keyed "$share/zsh/$2" "$3 $begin" > "$work/seen" 2>&1
        [ "$(sed 's/ *$//' "$work/seen")" = "$3 $4" ]
        report $? "$1: zsh completes \`$3 $begin\` to \`$4\`"
        keyed "$share/zsh/$2" "$3 $4 ${5:0:4}" > "$work/seen" 2>&1
        [ "$(sed 's/ *$//' "$work/seen")" = "$3 $4 $5" ]
        report $? "$1: zsh completes \`$3 $4 ${5:0:4}\` to \`$5\`"
    fi
    if has fish "$1: completion in fish"; then
        fished "$3 $begin" > "$work/seen" 2>&1
        [ "$(cut -f 1 "$work/seen")" = "$4" ]
        report $? "$1: fish completes \`$3 $begin\` to \`$4\`"
        fished "$3 $4 --" > "$work/seen" 2>&1
        offered "$3" "$4"
        report $? "$1: fish offers each option of \`$4\`"
    fi
}

# fished LINE: what fish offers for a line, with the completions where the release has them
fished() {
    # shellcheck disable=SC2016 # for fish
    env -i HOME="$work/home" PATH="$root/bin:$PATH" XDG_DATA_DIRS="$share" TERM=dumb fish -c 'complete -C "$argv[1]"' "$1"
}

# anchors PAGE: the names of a page's headings, as links name them
anchors() {
    sed -n 's/^##* //p' "$1" | tr '[:upper:]' '[:lower:]' | sed 's/[^a-z0-9 _-]//g; s/ /-/g'
}

# linked DOC: whether each relative link of the pages below a folder leads to a file there, and to a heading that it names;
# without any link nothing was tried
linked() {
    local doc page link place links=0
    doc=$(realpath "$1")
    while read -r page; do
        while read -r link; do
            [[ $link == *:* ]] && continue
            links=$((links + 1)) place=$page
            [[ $link == '#'* ]] || place=$(realpath -m "$(dirname "$page")/${link%%#*}")
            if [[ $place != "$doc"/* || ! -e $place ]]; then
                echo "$(basename "$page") leads to $link"
            elif [[ $link == *'#'* ]] && ! anchors "$place" | grep -q -x -F -e "${link#*#}"; then
                echo "$(basename "$page") leads to a heading $link"
            fi
        done < <(grep -o '\]([^)]*)' "$page" | sed 's/^](//; s/)$//')
    done < <(find "$doc" -name '*.md')
    [ "$links" -gt 0 ] || echo "no links"
}

# listed ARCHIVE ROOT: whether the SPDX file lists the archive by its sum, and the files below ROOT by theirs, all of them
listed() {
    python3 -c '
import json, sys
document = json.load(open(sys.argv[1]))
ids = ["SPDXRef-DOCUMENT", *[it["SPDXID"] for it in document["packages"] + document["files"]]]
ends = {it[end] for it in document["relationships"] for end in ("spdxElementId", "relatedSpdxElement")}
if len(ids) != len(set(ids)) or not ends <= set(ids):
    sys.exit("an id is there twice, or a relationship leads nowhere")
contained = {it["relatedSpdxElement"] for it in document["relationships"]
             if it["relationshipType"] == "CONTAINS" and it["spdxElementId"] == sys.argv[3]}
named = [it for it in document["packages"] if it["SPDXID"] == sys.argv[3] and it["packageFileName"] == sys.argv[2]]
for it, name in [*[(it, it["packageFileName"]) for it in named],
                 *[(it, it["fileName"]) for it in document["files"] if it["SPDXID"] in contained]]:
    print(*[sum["checksumValue"] for sum in it["checksums"] if sum["algorithm"] == "SHA256"], "", name, sep=" ")
' "$from/$name.spdx.json" "$1" "SPDXRef-archive-${1//_/-}" > "$work/sums" || return 1
    head -1 "$work/sums" | (cd "$from" && sha256sum -c) && sed 1d "$work/sums" > "$work/inside" &&
        (cd "$2" && sha256sum --quiet -c "$work/inside") || return 1
    (cd "$2" && find . -type f ! -path './DEBIAN/*' | sort) | diff - <(sed 's/^[0-9a-f]*  //' "$work/inside" | sort)
}

# strange: the files that a trace names and that are neither the system's nor in the temporary folders
strange() {
    grep -h -o '"[^"]*"' "$@" | tr -d '"' | grep '^/' | sort -u |
        grep -v -E "^($work/|/etc/ld\.so\.|/lib|/usr/lib|/proc/|/sys/|/dev/)"
}

# tried TAKEN ROOT ZSH: all that is tried with one unpacked release
tried() {
    local root=$2 share=$2/share
    mkdir "$work/room.$1" && cd "$work/room.$1" || exit 1
    clean tufcheck --help > "$work/seen" 2>&1
    report $? "$1: \`tufcheck --help\` has status 0"
    clean tufcheck > "$work/seen" 2>&1 && same "$work/three"
    report $? "$1: \`tufcheck\` prints its three lines"
    (session "$work/room.$1" clean tufcheck) > "$work/seen" 2>&1 && same "$work/four"
    report $? "$1: a repository is made, trusted and verified"
    if has man "$1: the man page"; then
        rendered tufcheck
        report $? "$1: \`man\` renders the page, with no warning"
        paged
        report $? "$1: \`man\` renders the page of each subcommand, with no warning"
    fi
    linked "$share/doc/tufcheck" > "$work/seen" && [ ! -s "$work/seen" ]
    report $? "$1: the links of the pages lead to files and headings there"
    shells "$1" "$3" tufcheck verify --workers
    linking tufcheck
    report $? "$1: the libraries are the C library's"
    if has strace "$1: the files that the program asks for"; then
        # shellcheck disable=SC2016 # for the other bash
        (session "$work/room.$1" clean "$BASH" -c 'strace="$1" && shift && exec "$strace" -f -A -e trace=%file -o "$0" "$@"' \
            "$work/trace.$1" "$(command -v strace)" "$root/bin/tufcheck") > "$work/seen" 2>&1 && same "$work/four" &&
            ! strange "$work/trace.$1" > "$work/seen"
        report $? "$1: the program asks for no file but the system's and those of its command line"
    fi
}

# linking NAME: whether a program links nothing but the C library's
linking() {
    ldd "$root/bin/$1" > "$work/seen" 2>&1
    ! grep -v -E '^\s*(linux-vdso\.so|lib(c|m|pthread|dl|rt)\.so|/lib64/ld-linux-x86-64\.so|statically linked)' "$work/seen" > "$work/found"
}

# signed TUFCHECK: makes a key and a signature, which that `tufcheck` attaches
signed() {
    echo '{"signed":{"_type":"timestamp","version":1}}' > draft.json &&
        clean lmskey new --height 5 --log key.log key && "$1" text draft.json > to-sign && clean lmskey sign --log key.log key to-sign &&
        "$1" attach draft.json key.json to-sign.sig --out draft.json
}

# signer_tried TAKEN ROOT ZSH: all that is tried with one unpacked release of `lmskey`
signer_tried() {
    local root=$2 share=$2/share
    mkdir "$work/room.lmskey.$1" && cd "$work/room.lmskey.$1" || exit 1
    clean lmskey --version > "$work/seen" 2>&1 && grep -q -F "lmskey $version (rattle logic " "$work/seen"
    report $? "lmskey's $1: \`lmskey --version\`"
    signed "$work/tar/$name/bin/tufcheck" > "$work/seen" 2>&1 && [ "$(sed 's/"[0-9a-f]*"/ID/' "$work/seen" | tr '\n' ' ')" = "key ID W8 H5 32 signed 1 entry ID 0 " ]
    report $? "lmskey's $1: a key is made, and \`tufcheck attach\` takes its signature"
    if has man "lmskey's $1: the man page"; then
        rendered lmskey
        report $? "lmskey's $1: \`man\` renders the page, with no warning"
    fi
    shells "lmskey's $1" "$3" lmskey restore --gap
    linking lmskey
    report $? "lmskey's $1: the libraries are the C library's"
}

# alone: whether the package of `tufcheck` names `lmskey` in no field, and has no file of it
alone() {
    ! { dpkg-deb -f "$from/$deb" && dpkg-deb -c "$from/$deb"; } | grep lmskey > "$work/seen"
}

# rendered PAGE: whether `man` renders a page of the release and says nothing
rendered() {
    MANPAGER=cat MANWIDTH=80 man --warnings -M "$share/man" "$1" > "$work/page" 2> "$work/seen"
    [ ! -s "$work/seen" ] && grep -q SYNOPSIS "$work/page" && grep -q 'EXIT STATUS' "$work/page"
}

# paged: whether each subcommand that the help names has its page
paged() {
    local command commands
    commands=$(clean tufcheck --help | sed -n '/^Commands:/,/^$/s/^  \([a-z]*\) .*/\1/p')
    [ -n "$commands" ] || { echo "no subcommands" > "$work/seen"; return 1; }
    for command in $commands; do
        [ "$command" = help ] || rendered "tufcheck-$command" || return 1
    done
}

# operated USR: the operator's scripts, pages and unit of the Debian package
operated() {
    local script page
    for script in run setup; do
        env -i "$1/sbin/tufcheck-$script" --help > "$work/seen" 2>&1 && grep -q "^usage: tufcheck-$script" "$work/seen"
        report $? "package: \`tufcheck-$script --help\` has status 0"
    done
    if has man "package: the operator's pages"; then
        for page in tufcheck-run tufcheck-setup tufcheck.conf; do
            MANPAGER=cat MANWIDTH=80 man --warnings -M "$1/share/man" $page > "$work/page" 2> "$work/seen"
            [ ! -s "$work/seen" ] && grep -q EXAMPLES "$work/page" && grep -q "metadata DIR, targets DIR" "$work/page"
            report $? "package: \`man $page\` renders the page, with no warning"
        done
    fi
    if has systemd-analyze "package: the unit"; then
        SYSTEMD_UNIT_PATH="$1/lib/systemd/system:" systemd-analyze security --offline=true --threshold=15 tufcheck@it.service > "$work/seen" 2>&1
        report $? "package: \`systemd-analyze security\` rates the unit at most 1.5"
    fi
}

# sourced: the Debian source package, what it builds, and what lintian says of both
sourced() {
    if [ ! -e "$top/.git" ]; then
        echo "not tried package: the source package: this is no clone"
    elif has dpkg-buildpackage "package: the source package" && has git "package: the source package"; then
        SOURCE_DATE_EPOCH=$(stat -c %Y "$work/deb/usr/bin/tufcheck") "$top/dist/source.sh" "$work/deb/usr/bin/tufcheck" "$work/source" \
            "$work/signer.deb/usr/bin/lmskey" > "$work/seen" 2>&1 && cmp "$work/source/$deb" "$from/$deb" > "$work/seen" 2>&1 &&
            cmp "$work/source/$signer_deb" "$from/$signer_deb" > "$work/seen" 2>&1
        report $? "packages: \`dpkg-buildpackage\` builds the same bytes from the source package"
        if has lintian "package: what lintian says"; then
            lintian --fail-on error,warning "$work/source/tufcheck_${version}_amd64.changes" > "$work/seen" 2> "$work/found"
            report $? "packages: lintian has no errors and no warnings"
        fi
    fi
}

# fetched STATE DIR PATH..: the example's updater of the release, with its program, on the repository
fetched() {
    env -i HOME="$work/home" PATH="$root/bin:$PATH" "$share/doc/tufcheck/examples/fetch-folder.sh" "$work/repository" "$@" > "$work/lines" 2> "$work/seen"
}

# published: whether the release, in a repository of trial keys, is fetched and verified, also after the metadata was renewed;
# and whether a changed file in it is refused
published() {
    local paths file
    cd "$work" && "$top/dist/repository.py" --trial "$work/repository" "$from" > "$work/seen" 2>&1 &&
        clean tufcheck init "$work/repository/metadata/1.root.json" --out "$work/published" > "$work/lines" 2> "$work/seen" || return 1
    mapfile -t paths < <(sed "s,^[0-9a-f]*  ,$version/,; \$a$version/SHA256SUMS" "$from/SHA256SUMS")
    for file in first second; do
        fetched "$work/published" "$work/repository.$file" "${paths[@]}" || { cat "$work/lines" >> "$work/seen"; return 1; }
        [ "$(grep -c '^ok ' "$work/lines")" = "${#paths[@]}" ] || return 1
        "$top/dist/repository.py" --trial "$work/repository" > "$work/seen" 2>&1 || return 1
    done
    for file in "$work/repository.second/targets/$version"/*; do
        cp "$file" "$work/repository.second/$(basename "$file" | cut -c 66-)" || return 1
    done
    (cd "$work/repository.second" && sha256sum -c SHA256SUMS) > "$work/seen" 2>&1 || return 1
    for file in "$work/repository/targets/$version"/*.SHA256SUMS; do
        sed -i '1s/^./x/' "$file"
    done
    fetched "$work/published" "$work/repository.third" "${paths[@]}"
    [ $? = 1 ] && grep -q -x "no \"$version/SHA256SUMS\" HashWrong" "$work/lines"
}

# bare RUN..: by RUN, the session in a root folder that has nothing but the program and its libraries
bare() {
    local library room=$work/bare
    mkdir "$room" && cp "$root/bin/tufcheck" "$room/tufcheck" || return 1
    ldd "$root/bin/tufcheck" | grep -o '/[^ ]*' > "$work/libraries"
    while read -r library; do
        install -D "$library" "$room$library" || return 1
    done < "$work/libraries"
    (session "$room" "$@" "$room" /tufcheck) > "$work/seen" 2>&1 && same "$work/four"
}

for tool in tar sha256sum ldd python3; do
    command -v $tool > "$work/found" || { echo "check.sh: $tool is missing" >&2; exit 1; }
done
[ -f "$from/$name.tar.gz" ] || { echo "check.sh: no $from/$name.tar.gz: dist/package.sh makes it" >&2; exit 1; }
(cd "$from" && sha256sum -c SHA256SUMS) > "$work/seen" 2>&1
report $? "SHA256SUMS"
if tar -xzf "$from/$name.tar.gz" -C "$work/tar" > "$work/seen" 2>&1; then
    tried tarball "$work/tar/$name" site-functions
    listed "$name.tar.gz" "$work/tar" > "$work/seen" 2>&1
    report $? "tarball: the SPDX file lists it and its files"
else
    report 1 "tarball: it can be unpacked"
fi
if tar -xzf "$from/$signer.tar.gz" -C "$work/signer" > "$work/seen" 2>&1; then
    signer_tried tarball "$work/signer/$signer" site-functions
    listed "$signer.tar.gz" "$work/signer" > "$work/seen" 2>&1
    report $? "lmskey's tarball: the SPDX file lists it and its files"
else
    report 1 "lmskey's tarball: it can be unpacked"
fi
if has dpkg-deb "the Debian packages"; then
    if dpkg-deb -x "$from/$signer_deb" "$work/signer.deb" > "$work/seen" 2>&1; then
        signer_tried package "$work/signer.deb/usr" vendor-completions
        listed "$signer_deb" "$work/signer.deb" > "$work/seen" 2>&1
        report $? "lmskey's package: the SPDX file lists it and its files"
        dpkg-deb -e "$from/$signer_deb" "$work/signer.deb/DEBIAN" && (cd "$work/signer.deb" && md5sum -c DEBIAN/md5sums) > "$work/seen" 2>&1
        report $? "lmskey's package: its list of sums"
    else
        report 1 "lmskey's package: it can be unpacked"
    fi
    if dpkg-deb -x "$from/$deb" "$work/deb" > "$work/seen" 2>&1; then
        tried package "$work/deb/usr" vendor-completions
        cmp "$work/deb/usr/bin/tufcheck" "$work/tar/$name/bin/tufcheck" > "$work/seen" 2>&1
        report $? "package: its program is the tarball's"
        dpkg-deb -e "$from/$deb" "$work/deb/DEBIAN" && (cd "$work/deb" && md5sum -c DEBIAN/md5sums) > "$work/seen" 2>&1
        report $? "package: its list of sums"
        listed "$deb" "$work/deb" > "$work/seen" 2>&1
        report $? "package: the SPDX file lists it and its files"
        alone
        report $? "package: it names \`lmskey\` nowhere, and has no file of it"
        sourced
        operated "$work/deb/usr"
    else
        report 1 "package: it can be unpacked"
    fi
fi
root=$work/tar/$name share=$root/share
published
report $? "a repository of the release is made, and the release fetched from it and verified"
"$top/dist/sign.sh" --trial "$from" || failed=1
if [ "$(id -u)" = 0 ]; then
    bare chroot
    report $? "a session in a root folder with nothing but the program and its libraries"
elif unshare -r true > "$work/found" 2>&1; then
    bare unshare -r chroot
    report $? "a session in a root folder with nothing but the program and its libraries"
else
    echo "not tried a session in a bare root folder: chroot isn't allowed"
fi
SOURCE_DATE_EPOCH=$(stat -c %Y "$root/bin/tufcheck") "$top/dist/package.sh" "$root/bin/tufcheck" "$work/again" "$work/signer/$signer/bin/lmskey" > "$work/found" 2> "$work/seen" &&
    diff -r -x build -x source -x repository -x '*-dev*' -x 'libtufcheck*' -x 'python3-*' -x 'SHA256SUMS.*' "$from" "$work/again" > "$work/seen" 2>&1
report $? "packaged again, the release has the same bytes"
if [ -d "$from/build" ]; then
    "$top/dist/halves.sh" "$from/build" || failed=1
else
    echo "not tried the two builds: no $from/build"
fi
if [ -f "$from/SHA256SUMS-dev" ]; then
    "$top/dist/check-dev.sh" "$from" || failed=1
else
    echo "not tried the library's release: no $from/SHA256SUMS-dev"
fi
exit $failed
