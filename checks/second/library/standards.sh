#!/bin/bash
# Compiles the library's header in each standard of C from C89 to C23, and of C++ from C++98 to C++23, by gcc and clang.
#
#   checks/second/library/standards.sh [FOLDER]      the folder of the header, bindings/c unless given
#
# By each compiler and standard that is here a program with each call must compile without a warning (-Wall -Wextra
# -pedantic). It must be refused if it doesn't look at a result, or if it passes null. In C++ the header is included in a
# block `extern "C"` too, and from C++11 on each call must be `noexcept`. What isn't here is said in a line `not tried`.
#
# The status is 0, or 1 if something is not as it must be, or if no compiler is here. It takes ten seconds.
set -u
export LC_ALL=C
top=$(cd "$(dirname "$0")/../../.." && pwd) || exit 1
header=$(realpath "${1:-$top/bindings/c}")
work=$(mktemp -d) || exit 1
trap 'rm -rf "$work"' EXIT
cd "$work" || exit 1
failed=0 tried=0

cat > calls.c << 'END'
#include "tufcheck.h"
#include "tufcheck.h"

static int32_t first(tufcheck_answer *answer)
{
    size_t len = 0;
    return tufcheck_first(NULL, 0, answer->state, answer->state_room, &len);
}

static int32_t next(const tufcheck_job *job, tufcheck_needs *needs)
{
    LINE
}

int main(void)
{
    tufcheck_job job;
    tufcheck_answer answer;
    tufcheck_listing listing;
    tufcheck_needs needs;
    tufcheck_trusted trusted;
    job.size = sizeof job;
    job.state.data = NULL;
    job.metadata = NULL;
    job.targets = NULL;
    job.digests = NULL;
    job.wanted = NULL;
    job.state.len = job.metadata_count = job.target_count = job.digest_count = job.wanted_count = 0;
    job.moment = 0;
    job.limit = 32;
    answer.size = sizeof answer;
    answer.state = answer.names = NULL;
    answer.verdicts = NULL;
    answer.roles = NULL;
    answer.state_room = answer.verdict_room = answer.role_room = answer.name_room = 0;
    listing.size = sizeof listing;
    listing.state = listing.names = NULL;
    listing.rows = NULL;
    listing.state_room = listing.row_room = listing.name_room = 0;
    needs.size = sizeof needs;
    needs.rows = NULL;
    needs.names = NULL;
    needs.row_room = needs.name_room = 0;
    trusted.size = sizeof trusted;
#if defined(__cplusplus) && __cplusplus >= 201103L
    static_assert(noexcept(tufcheck_version()), "version");
    static_assert(noexcept(tufcheck_text(0)), "text");
    static_assert(noexcept(tufcheck_first(job.state.data, 0, answer.state, 0, &job.limit)), "first");
    static_assert(noexcept(tufcheck_show(NULL, 0, &trusted)), "show");
    static_assert(noexcept(tufcheck_next(&job, &needs)), "next");
    static_assert(noexcept(tufcheck_list(&job, &listing)), "list");
    static_assert(noexcept(tufcheck_verify(&job, &answer)), "verify");
    static_assert(noexcept(tufcheck_lms_verify(NULL, 0, NULL, 0, NULL, 0)), "lms_verify");
#endif
    if (tufcheck_version() / 1000000 != TUFCHECK_VERSION / 1000000 || tufcheck_text(TUFCHECK_GOOD) == NULL)
        return 1;
    return first(&answer) == TUFCHECK_GOOD && next(&job, &needs) == TUFCHECK_GOOD
        && tufcheck_list(&job, &listing) == TUFCHECK_GOOD && tufcheck_verify(&job, &answer) == TUFCHECK_GOOD
        && tufcheck_show(NULL, 0, &trusted) == TUFCHECK_NO_STATE
        && tufcheck_lms_verify(NULL, 0, NULL, 0, NULL, 0) == 0;
}
END
cat > block.c << 'END'
extern "C" {
#include "tufcheck.h"
}
END

# compiles COMPILER STANDARD LANGUAGE FILE [LINE]: whether a file compiles without a warning, with that line in it
compiles() {
    "$1" "-std=$2" -x "$3" -Wall -Wextra -pedantic -Werror -I "$header" "-DLINE=${5:-}" -c -o out.o "$4" > seen 2>&1
}

# refused COMPILER STANDARD LANGUAGE LINE WARNING: whether the line is refused for that warning, and nothing else is
refused() {
    ! compiles "$1" "$2" "$3" calls.c "$4" && [ "$(grep -c 'error:' seen)" = 1 ] && grep -q -e "-W[a-z=,-]*$5\]" seen
}

# report STATUS WHAT
report() {
    if [ "$1" = 0 ]; then
        echo "ok $2"
    else
        echo "failed $2"
        head -5 seen
        failed=1
    fi
}

# in_ COMPILER LANGUAGE NAME..: tries the header in a standard, by the first of its names that the compiler knows
in_() {
    local compiler=$1 language=$2 name
    shift 2
    command -v "$compiler" > found || { echo "not tried $compiler $1: it is missing"; return; }
    for name in "$@" ''; do
        [ -z "$name" ] || ! "$compiler" "-std=$name" -x "$language" -fsyntax-only - < /dev/null 2> found || break
    done
    [ -n "$name" ] || { echo "not tried $compiler $1: it doesn't know the standard"; return; }
    tried=1
    compiles "$compiler" "$name" "$language" calls.c 'return tufcheck_next(job, needs);'
    report $? "$compiler $name"
    refused "$compiler" "$name" "$language" 'tufcheck_next(job, needs); return 0;' unused-result
    report $? "$compiler $name: a result that isn't looked at"
    refused "$compiler" "$name" "$language" '(void)needs; return tufcheck_next(job, NULL);' nonnull
    report $? "$compiler $name: null"
    if [ "$language" = c++ ]; then
        compiles "$compiler" "$name" c++ block.c
        report $? "$compiler $name: in extern \"C\""
    fi
}

for pair in gcc:g++ clang:clang++; do
    for standard in c89 c99 c11 c17 'c23 c2x'; do
        # shellcheck disable=SC2086 # names of one standard
        in_ "${pair%:*}" c $standard
    done
    for standard in c++98 c++11 c++14 c++17 c++20 'c++23 c++2b'; do
        # shellcheck disable=SC2086
        in_ "${pair#*:}" c++ $standard
    done
done
[ $tried = 1 ] || { echo "no compiler is here"; exit 1; }
exit $failed
