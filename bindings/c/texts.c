/* The texts of the library's numbers. A number is of one family alone, so it has one text. */
#include "tufcheck.h"

static const char *of_result(int32_t number)
{
    switch (number) {
    /* These three are true of each call, and 0 also where a fault is 0. */
    case TUFCHECK_GOOD:
        return "no fault";
    case TUFCHECK_REFUSED:
        return "something is missing or refused";
    case TUFCHECK_STOPPED:
        return "the cycle stopped";
    case TUFCHECK_NO_MEMORY:
        return "out of memory";
    case TUFCHECK_NO_STATE:
        return "the state, or the first root, is not one";
    case TUFCHECK_NO_NAME:
        return "a file's name or a wanted path is not UTF-8";
    case TUFCHECK_NO_MOMENT:
        return "the moment is past the year 9999";
    case TUFCHECK_NO_LIMIT:
        return "the limit is not 1 to 256";
    case TUFCHECK_NO_ROOM:
        return "some room is too small";
    case TUFCHECK_NO_SIZE:
        return "a size is not that of the struct in this version";
    default:
        return NULL;
    }
}

static const char *of_end(int32_t number)
{
    switch (number) {
    case TUFCHECK_READY:
        return "the cycle is ready";
    case TUFCHECK_AT_ROOT:
        return "the cycle stopped at a root file";
    case TUFCHECK_AT_TIMESTAMP:
        return "the cycle stopped at the timestamp file";
    case TUFCHECK_AT_SNAPSHOT:
        return "the cycle stopped at the snapshot file";
    case TUFCHECK_AT_TARGETS:
        return "the cycle stopped at the top-level targets file";
    default:
        return NULL;
    }
}

static const char *of_kind(int32_t number)
{
    switch (number) {
    case TUFCHECK_ACCEPTED:
        return "accepted";
    case TUFCHECK_NOT_FOUND:
        return "no role lists the path";
    case TUFCHECK_LIMIT_REACHED:
        return "the search would visit more roles than the limit";
    case TUFCHECK_ROLE_REFUSED:
        return "the search came to a role whose own file is refused";
    case TUFCHECK_FILE_REFUSED:
        return "a role lists the path, but its file is refused";
    case TUFCHECK_NOT_SEARCHED:
        return "the cycle stopped before any search";
    case TUFCHECK_LISTED:
        return "a role lists the path";
    default:
        return NULL;
    }
}

static const char *of_fault(int32_t number)
{
    switch (number) {
    case TUFCHECK_NOT_LISTED:
        return "the snapshot doesn't list the file";
    case TUFCHECK_MISSING:
        return "the file is missing";
    case TUFCHECK_TOO_LONG:
        return "the file is longer than the limit of its kind";
    case TUFCHECK_LENGTH_WRONG:
        return "the file has another length than is listed";
    case TUFCHECK_HASH_WRONG:
        return "the file has another digest than is listed";
    case TUFCHECK_NO_KNOWN_HASH:
        return "no digest of a known kind is listed";
    case TUFCHECK_MALFORMED:
        return "the file is malformed";
    case TUFCHECK_UNSIGNED:
        return "fewer keys signed the file than the threshold";
    case TUFCHECK_VERSION_WRONG:
        return "the file has another version than is expected";
    case TUFCHECK_ROLLBACK:
        return "the file is older than what is trusted";
    case TUFCHECK_EXPIRED:
        return "the file has expired";
    default:
        return NULL;
    }
}

static const char *of_place(int32_t number)
{
    switch (number) {
    case TUFCHECK_METADATA:
        return "metadata";
    case TUFCHECK_TARGETS:
        return "targets";
    default:
        return NULL;
    }
}

static const char *of_source(int32_t number)
{
    switch (number) {
    case TUFCHECK_IN_TARGETS:
        return "in the job's targets";
    case TUFCHECK_IN_DIGESTS:
        return "in the job's digests";
    default:
        return NULL;
    }
}

const char *tufcheck_text(int32_t number)
{
    const char *(*const families[])(int32_t) = {of_result, of_end,   of_kind,
                                                of_fault,  of_place, of_source};
    for (size_t i = 0; i < sizeof families / sizeof *families; i++) {
        const char *text = families[i](number);
        if (text != NULL)
            return text;
    }
    return "unknown number";
}
