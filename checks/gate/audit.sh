#!/bin/bash
# Does what can be run of docs/AUDITING.md, and prints a table: each step is `ok`, `differs` or `not tried`.
#
#   checks/gate/audit.sh [--quick] [--release FOLDER]
#   checks/gate/audit.sh --record
#
# It compares what is here with checks/gate/audit.txt: the kit, its libraries that the crates use, the handles, the crates, each
# file of definitions, the clauses and the edits of each crate, and the text of each statement about a C function that the
# program rests on. Of the pages it compares the numbers of edits, the table of definitions and that of statements. What
# differs is printed below its step, `-` as recorded and `+` as found.
#
# Then it proves all anew (`rt ci --anew`), compares the statements with those that the check of `tufcheck` lists, builds a
# release twice, from two clones (dist/build.sh), and compares all files; with --release also those in FOLDER, as
# dist/package.sh and dist/package-dev.sh left them there. --quick leaves all of this out: it takes 14 seconds of one
# processor. The rest takes the gate's time and that of two releases (see docs/BENCHMARKS.md), and room for four built
# checkouts among the temporary files; its logs stay in a folder, whose name is printed. The second release takes libraries
# that the first one proved on the same machine.
#
# --record writes checks/gate/audit.txt, and the numbers of lines in docs/AUDITING.md, as things are here. The names of the
# statements stay: only a whole run can tell them. Needs git, and for the steps about the kit `rt`. The status is 1 if
# something differs, and 2 for other arguments.
set -u
export LC_ALL=C
cd "$(dirname "$0")/../.." || exit 2
quick='' record='' release=''
while [ $# -gt 0 ]; do
    case $1 in
    --quick) quick=yes ;;
    --record) record=yes ;;
    --release)
        release=$(realpath -e "${2:-}") || exit 2
        shift
        ;;
    *)
        echo "audit.sh: [--quick] [--release FOLDER], or --record" >&2
        exit 2
        ;;
    esac
    shift
done
top=$PWD page=docs/AUDITING.md recorded=checks/gate/audit.txt failed=0 kit=''
work=$(mktemp -d) || exit 2
trap 'rm -rf "$work"' EXIT
command -v rt > "$work/seen" && kit=$(dirname "$(rt doc)")

# line RESULT STEP FOUND: a row of the table
line() {
    printf '%-10s %-26s %s\n' "$1" "$2" "$3"
    [ "$1" != differs ] || failed=1
}

# report STATUS STEP FOUND: the row of a step that was tried, with what it wrote to `seen` if something differs
report() {
    if [ "$1" = 0 ]; then
        line ok "$2" "$3"
    else
        line differs "$2" "$3"
        head -40 "$work/seen" | sed 's/^/           /'
    fi
}

# same STEP WORD FOUND: compares the lines of the record that begin with the word
same() {
    grep "^$2 " "$recorded" > "$work/one"
    grep "^$2 " "$work/now" > "$work/two"
    diff -U 0 "$work/one" "$work/two" | grep '^[-+][a-z]' > "$work/seen"
    [ ! -s "$work/seen" ] && [ -s "$work/one" ]
    report $? "$1" "$3"
}

# sum: the SHA-256 of the standard input
sum() {
    sha256sum | cut -d ' ' -f 1
}

# sources FOLDER END: the files of the crates in that folder of each
sources() {
    find crates -path '*/out' -prune -o -path "crates/*/$1/*.$2" -type f -print | sort
}

# counted: a number with commas
counted() {
    sed ':a; s/\([0-9]\)\([0-9]\{3\}\)\($\|,\)/\1,\2\3/; ta' <<< "$1"
}

# claims: each clause and ghost item in the files, with all its lines
claims() {
    awk '
        !open && /^[ \t]*(requires|ensures|ghost)([ *]|$)/ { open = 1; depth = 0; begun = 0 }
        open {
            print
            text = $0
            depth += gsub(/[{]/, "", text) - gsub(/[}]/, "", text)
            begun = begun || /[{;]/
            if (depth == 0 && begun) open = 0
        }' "$@"
}

# libraries: those of the kit that the crates use, and all below them, one a line
libraries() {
    local name
    awk -F: '/^[a-z]/ { split($1, head, " "); own[head[1]] = 1; all = all " " $2 }
        END { n = split(all, used, " "); for (i = 1; i <= n; i++) if (!(used[i] in own)) print used[i] }' crates.txt | sort -u > "$work/left"
    : > "$work/libraries"
    while [ -s "$work/left" ]; do
        cat "$work/left" >> "$work/libraries"
        while read -r name; do
            sed -n 's/^dep //p' "$kit/rlibs/$name.rlib/format"
        done < "$work/left" | sort -u > "$work/below"
        sort "$work/libraries" | comm -13 - "$work/below" > "$work/left"
    done
    sort -u "$work/libraries"
}

# statement NAME: the text of the kit's statement about a C function, as a check reads it
statement() {
    local name=${1##*::} file
    case $1 in
    libc::*::*) file=$(cut -d : -f 3 <<< "$1") && file=libc.rlib/lang/src/$file.rt ;;
    libc::*) file=libc.rlib/lang/src/lib.rt ;;
    os::c::*) file=os.rlib/lang/src/c.rt ;;
    *) return 1 ;;
    esac
    awk -v head="fn $name (" 'index($0, head) { open = 1 } open { print; if (/;$/) exit }' "$kit/rlibs/$file"
}

# of_kit: what is recorded of the kit
of_kit() {
    local name
    sed 's/^/kit /' "$kit/KIT-ID" "$kit/WHAT"
    echo "kit files $(cd "$kit" && find bin c logic_built toolchain -name __pycache__ -prune -o -type f -print0 | sort -z | xargs -0 sha256sum | sum)"
    libraries > "$work/names"
    while read -r name; do
        echo "library $name $(sum < "$kit/rlibs/$name.rlib/format")"
    done < "$work/names"
    sed -n 's/^statement \([^ ]*\).*/\1/p' "$recorded" > "$work/names"
    while read -r name; do
        echo "statement $name $(statement "$name" | sum)"
    done < "$work/names"
}

# of_crates: what is recorded of the repository
of_crates() {
    local name file
    echo "handles $(cat HANDLES)"
    awk '/^[a-z]/ { print "crate " $0 }' crates.txt
    for file in $(sources specs antt); do
        echo "definitions ${file#crates/} $(wc -l < "$file") $(sum < "$file")"
    done
    for name in $(sed -n 's/^\([a-z_]*\).*:.*/\1/p' crates.txt | sort); do
        sources src rt | grep "^crates/$name/" | xargs cat > "$work/source"
        claims "$work/source" > "$work/claims"
        echo "clauses $name $(grep -c -E '^ *(requires|ensures)' "$work/claims") $(sum < "$work/claims")"
        for file in crates/$name/must-fail checks/bodies/$name; do
            [ ! -d "$file" ] || echo "edits $file $(find "$file" -name '*.edit' | wc -l) $(cd "$file" && find . -name '*.edit' | sort | xargs sha256sum | sum)"
        done
    done
}

# read_first: the files of definitions that PROOFS lists beside the standards, and then, after a line `--`, those with none
read_first() {
    awk '
        /^## / { inside = /definitions that are the claim/ }
        inside && /^And with no standard/ { print "--" }
        inside && /^- / {
            n = split($0, parts, "`"); held = ""; folder = ""
            for (i = 2; i <= n; i += 2) {
                if (parts[i] ~ /\/specs$/) { m = split(held, names, " "); for (k = 1; k <= m; k++) print parts[i] "/" names[k]; held = "" }
                else if (parts[i] ~ /\/specs\/.*\.antt$/) { print parts[i]; folder = parts[i]; sub(/\/[^\/]*$/, "", folder) }
                else if (parts[i] ~ /\.antt$/) { if (folder != "") print folder "/" parts[i]; else held = held " " parts[i] }
            }
        }' docs/PROOFS.md
}

# numbered: the page with the numbers of lines as they are
numbered() {
    local file text
    while IFS= read -r text; do
        case $text in
        '| `'*'.antt` | '*)
            file=${text#*\`} file=${file%%\`*}
            echo "| \`$file\` | $(wc -l < "crates/$file") |${text#*|*|*|}"
            ;;
        '| together | '*) echo "| together | $(counted "$(xargs -a "$work/standard" cat | wc -l)") |${text#*|*|*|}" ;;
        '| with no standard | '*) echo "| with no standard | $(counted "$(xargs -a "$work/others" cat | wc -l)") |${text#*|*|*|}" ;;
        '| the rest | '*) echo "| the rest | $(counted "$(xargs -a "$work/rest" cat | wc -l)") |${text#*|*|*|}" ;;
        *) echo "$text" ;;
        esac
    done < "$page"
}

read_first > "$work/lists"
sed '/^--$/,$d; s,^,crates/,' "$work/lists" > "$work/standard"
sed '1,/^--$/d; s,^,crates/,' "$work/lists" > "$work/others"
sort "$work/standard" "$work/others" > "$work/claimed"
sources specs antt | comm -13 "$work/claimed" - > "$work/rest"

if [ -n "$record" ]; then
    [ -n "$kit" ] || { echo "audit.sh: rt is missing" >&2; exit 2; }
    xargs -a "$work/claimed" ls > "$work/seen" || exit 2
    {
        echo "# What checks/gate/audit.sh compares with. checks/gate/audit.sh --record writes it: of each part its name, a number where it"
        echo "# has one, and the SHA-256 of its text."
        of_crates
        of_kit
    } > "$work/now" && numbered > "$work/page" && cp "$work/now" "$recorded" && cp "$work/page" "$page"
    exit
fi

# 1. The same things
if git rev-parse -q --verify HEAD > "$work/head" 2> "$work/seen"; then
    git status --porcelain > "$work/seen"
    [ ! -s "$work/seen" ]
    report $? "1 files" "commit $(cat "$work/head")"
else
    line "not tried" "1 files" "no git, or no clone"
fi
of_crates > "$work/now"
if [ -n "$kit" ]; then
    of_kit >> "$work/now"
    same "1 kit" kit "$(rt version), files $(sed -n 's/^kit files //p' "$work/now")"
    sed -n 's,^library \([^ ]*\).*,  rlibs/\1.rlib/,p' "$work/now" > "$work/names"
    {
        sed -n 's,^compiler \(.*\),\1  toolchain/bin/rattle-x64,p' "$kit/WHAT"
        grep -h -E '^[0-9a-f]{64}  rlibs/' "$kit"/WHAT-* | grep -F -f "$work/names"
    } > "$work/sums"
    (cd "$kit" && sha256sum -c --quiet "$work/sums") > "$work/seen" 2>&1
    report $? "1 kit's own sums" "$(wc -l < "$work/sums") files, as WHAT and WHAT-* in the kit have them"
    checks/gate/version.sh > "$work/seen"
    report $? "1 version" "checks/gate/version.sh"
else
    line "not tried" "1 kit" "rt is missing"
fi

# 2. Prove it again
if [ -n "$quick" ] || [ -z "$kit" ]; then
    line "not tried" "2 rt ci --anew" "${quick:+--quick}"
else
    logs=$(mktemp -d) || exit 2
    rt ci --anew > "$logs/ci" 2>&1
    [[ $? = 0 && $(tail -1 "$logs/ci") =~ ^[0-9]+\ passed,\ 0\ failed$ ]] &&
        grep -q 'every proof and must-fail edit was done in this run' "$logs/ci"
    status=$?
    tail -5 "$logs/ci" > "$work/seen"
    report $status "2 rt ci --anew" "$(tail -1 "$logs/ci")"
    grep '^logic=' "$logs/ci" | grep -v '^logic=proved ' > "$work/seen"
    [ ! -s "$work/seen" ] && grep -q '^logic=proved ' "$logs/ci"
    report $? "2 verdicts" "$(grep -c '^logic=proved ' "$logs/ci"), functions $(grep -o ' functions=[0-9]*' "$logs/ci" | awk -F= '{ n += $2 } END { print n + 0 }')"
fi

# 3. What is assumed
same "3 handles" handles "$(cat HANDLES)"
{
    sources specs antt
    sources proofs antt
} | xargs grep -n -E '^ *(pub |abbrev |unfoldable )*axiom |Prim\.Axiom' > "$work/seen"
sources src rt | xargs grep -n -E 'extern +"C" *\{' >> "$work/seen"
[ ! -s "$work/seen" ]
report $? "3 no axiom of its own" "none in specs, proofs and src"
if [ -n "$kit" ]; then
    same "3 libraries of the kit" library "$(grep -c '^library' "$work/now")"
    sed -n 's/^library \(.*\) .*/\1/p' "$work/now" | while read -r name; do
        sed -n 's/^assumes \([^ ]*\) .*/\1/p' "$kit/rlibs/$name.rlib/format"
    done | sort -u > "$work/declared"
    grep -v -E '^(libc|os::c|std::process::c)::' "$work/declared" > "$work/seen"
    [ ! -s "$work/seen" ]
    report $? "3 nothing else assumed" "$(wc -l < "$work/declared") C functions that the libraries declare, and no more"
    same "3 statements" statement "$(grep -c '^statement' "$work/now") that the program rests on"
else
    line "not tried" "3 statements" "rt is missing"
fi
sed -n 's/^statement \([^ ]*\).*/\1/p' "$recorded" | sed 's/.*:://' | sort > "$work/one"
awk '/^## / { inside = /assumed/ } inside && /^[|] `/ { split($0, parts, "|"); print parts[2] }' "$page" | grep -o '`[^`]*`' | tr -d '\`' | sort > "$work/two"
diff "$work/one" "$work/two" > "$work/seen"
report $? "3 statements on the page" "$(wc -l < "$work/two")"

# 4. The claim
same "4 crates" crate "$(grep -c '^crate ' "$work/now")"
sources specs antt | xargs cat | grep -c -E '^((pattern|unfoldable|abbrev|pub) )*((record|data) |[^ -][^ ]*( \{[^}]*\})? : )' > "$work/count"
same "4 definitions" definitions "$(counted "$(cat "$work/count")") in $(grep -c '^definitions' "$work/now") files"
same "4 clauses" clauses "$(counted "$(awk '/^clauses/ { n += $3 } END { print n }' "$work/now")"), and $(counted "$(sources src rt | xargs cat | grep -c -E '^ *(pub(\([a-z]+\))? )?(const )?(extern "C" )?fn ')") functions, as the sources write them"
sed -n 's,^| `\(.*\.antt\)` | .*,crates/\1,p' "$page" | diff "$work/standard" - > "$work/seen"
report $? "4 files of the page" "$(wc -l < "$work/standard") beside the standards, as in PROOFS"
numbered 2>&1 | diff "$page" - > "$work/seen"
report $? "4 lines of the page" "$(counted "$(xargs -a "$work/standard" cat | wc -l)") beside the standards"

# 5. Edits
edits=$(find crates -path '*/must-fail/*.edit' | wc -l) bodies=$(find checks/bodies -name '*.edit' | wc -l)
same "5 edits" edits "$edits in the gate, $bodies in checks/bodies"
{
    grep -q -F "$edits must-fail edits" README.md || echo "README names another number than $edits"
    grep -q -F "The gate tries $edits:" docs/TESTS.md || echo "docs/TESTS.md names another number than $edits"
    grep -q -F "$bodies more are in \`checks/bodies\`" docs/TESTS.md || echo "docs/TESTS.md names another number than $bodies"
} > "$work/seen"
[ ! -s "$work/seen" ]
report $? "5 edits on the pages" "README, docs/TESTS.md"

# 6. That the program is the proved one
if [ -n "$quick" ] || [ -z "$kit" ]; then
    line "not tried" "6 built twice" "${quick:+--quick}"
else
    status=0
    for n in 1 2; do
        git clone -q "$top" "$work/clone.$n" && "$work/clone.$n/dist/build.sh" "$work/built.$n" > "$logs/build.$n" 2>&1 || status=1
        (cd "$work/built.$n" && sha256sum -- *) > "$logs/sums.$n"
    done
    diff "$logs/sums.1" "$logs/sums.2" > "$work/seen" || status=1
    report $status "6 built twice" "$(wc -l < "$logs/sums.1") files, tufcheck $(sed -n 's/  tufcheck$//p' "$logs/sums.1")"
    "$work/clone.1/dist/halves.sh" "$work/built.1" > "$logs/halves" 2>&1
    status=$?
    cp "$logs/halves" "$work/seen"
    report $status "6 two builds, two compilers" "dist/halves.sh"
    (cd "$work/clone.1/crates/tufcheck" && rt check --list-axioms) > "$logs/axioms" 2>&1
    sed -n 's/^  \([^ ]*\) *reached$/\1/p' "$logs/axioms" | sort > "$work/two"
    sed -n 's/^statement \([^ ]*\).*/\1/p' "$recorded" | sort | diff - "$work/two" > "$work/seen"
    report $? "3 statements, by the check" "axioms=$(sed -n 's/^logic=proved.* axioms=\([0-9]*\).*/\1/p' "$logs/axioms")"
    if [ -n "$release" ]; then
        mkdir "$work/release"
        "$work/clone.1/dist/package.sh" "$work/built.1/tufcheck" "$work/release" > "$logs/package" 2>&1 &&
            "$work/clone.1/dist/package-dev.sh" "$work/built.1" "$work/release" > "$logs/package-dev" 2>&1
        status=$?
        for file in "$work/release"/*; do
            cmp "$file" "$release/$(basename "$file")" || status=1
        done > "$work/seen" 2>&1
        report $status "6 the release" "$release"
    fi
    echo "logs: $logs"
fi
if [ -z "$release" ]; then
    line "not tried" "6 the release" "--release names none"
elif [ -n "$quick" ] || [ -z "$kit" ]; then
    line "not tried" "6 the release" "${quick:+--quick}"
fi

# 7. What nobody proved
grep -o '`checks/[a-z./-]*`' "$page" | tr -d '\`' | sort -u | while read -r file; do
    [ -x "$file" ] || echo "$file isn't there"
done > "$work/seen"
[ ! -s "$work/seen" ]
report $? "7 scripts of the page" "each is there; the page says what each tests"
exit $failed
