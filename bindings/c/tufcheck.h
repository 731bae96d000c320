/* tufcheck: verifies a repository of The Update Framework (TUF 1.0) with LMS signatures (RFC 8554),
 * from files that the caller has in memory. In C from C89 on, with stdint.h, and in C++.
 *
 * An updater calls tufcheck_first once, with the root file that it was shipped with, and keeps the
 * state. For each update it calls tufcheck_next, fetches the files that this names, adds them to
 * the job and calls again, until it finds no more of them. Then it calls tufcheck_verify, and keeps
 * the new state. docs/EMBEDDING.md has a worked example, and says what is proved of these calls.
 *
 * No call opens a file, reads a clock, starts a thread, takes a lock or keeps anything after it
 * returns. All calls may run at the same time in different threads, with different answers.
 *
 * What the caller owes:
 *
 * - A pointer may be null only where its length or count is 0. It is aligned for its type, and its
 *   memory is as long as its length or count says. No room overlaps another room, its own answer or
 *   any memory of the job, and nothing writes to the job's memory during a call.
 * - A stack of 256 KB. A file of nested JSON takes up to 90 KB of it, before any signature is
 *   checked, so any mirror can cause that.
 * - malloc, realloc and free of one allocator, which align a block to each power of two up to 16
 *   that divides its size. If one of them refuses memory, the call returns TUFCHECK_NO_MEMORY.
 * - No call from a signal handler, or from the forked child of a process with threads.
 * - A processor of x86-64 with SSE4.2 (x86-64-v2), and 64-bit Linux.
 */
#ifndef TUFCHECK_H
#define TUFCHECK_H

#include <stddef.h>
#include <stdint.h>

/* What stands before a call and behind it. A compiler that knows these attributes warns if a result
 * isn't looked at, or if a pointer is null. In C++ no call throws. */
#ifndef TUFCHECK_API
#if defined(__GNUC__)
#define TUFCHECK_API __attribute__((visibility("default")))
#else
#define TUFCHECK_API
#endif
#endif
#if defined(__GNUC__)
#define TUFCHECK_RESULT __attribute__((warn_unused_result))
#define TUFCHECK_NONNULL(places) __attribute__((nonnull places))
#else
#define TUFCHECK_RESULT
#define TUFCHECK_NONNULL(places)
#endif
#if defined(__cplusplus) && __cplusplus >= 201103L
#define TUFCHECK_NOEXCEPT noexcept
#elif defined(__cplusplus)
#define TUFCHECK_NOEXCEPT throw()
#else
#define TUFCHECK_NOEXCEPT
#endif

#ifdef __cplusplus
extern "C" {
#endif

/* The version of this header: 1,000,000 times its first number, 1,000 times its second number, and
 * its third number, added. tufcheck_version returns that of the library; the first numbers must be
 * equal. */
#define TUFCHECK_VERSION 1000000
#define TUFCHECK_VERSION_TEXT "1.0.0"

/* Each family of numbers is its own: no kind, end, fault, place or source has the number of one of another
 * family, or of a result, so that a comparison with the wrong family is never true.
 *
 * Results of the calls. From 0 on there is an answer. Below 0 there is none, and no room is written.
 * tufcheck_next and tufcheck_list say below what 0 and 1 mean there. */
enum tufcheck_result {
    TUFCHECK_GOOD = 0,        /* the cycle is ready, and every wanted target is accepted */
    TUFCHECK_REFUSED = 1,     /* the cycle is ready, and some wanted target is refused */
    TUFCHECK_STOPPED = 2,     /* the cycle stopped at summary.end, for summary.fault */
    TUFCHECK_NO_MEMORY = -1,  /* out of memory */
    TUFCHECK_NO_STATE = -2,   /* the state, or the first root, is not one */
    TUFCHECK_NO_NAME = -3,    /* a file's name or a wanted path is not UTF-8 */
    TUFCHECK_NO_MOMENT = -4,  /* the moment is past the year 9999 */
    TUFCHECK_NO_LIMIT = -5,   /* the limit is not 1 to 256 */
    TUFCHECK_NO_ROOM = -6,    /* some room is too small: the summary counts how much is needed */
    TUFCHECK_NO_SIZE = -7     /* a size is not that of the struct in this version */
};

/* How a cycle ends: summary.end. */
enum tufcheck_end {
    TUFCHECK_READY = 33,
    TUFCHECK_AT_ROOT = 34,
    TUFCHECK_AT_TIMESTAMP = 35,
    TUFCHECK_AT_SNAPSHOT = 36,
    TUFCHECK_AT_TARGETS = 37
};

/* Kinds of verdicts, and of rows of a listing. */
enum tufcheck_kind {
    TUFCHECK_ACCEPTED = 17,       /* the file has the length and the digests that a role lists */
    TUFCHECK_NOT_FOUND = 18,      /* no role lists the path */
    TUFCHECK_LIMIT_REACHED = 19,  /* the search would visit more roles than the limit */
    TUFCHECK_ROLE_REFUSED = 20,   /* the search came to a role whose own file is refused */
    TUFCHECK_FILE_REFUSED = 21,   /* a role lists the path, but its file is refused */
    TUFCHECK_NOT_SEARCHED = 22,   /* the cycle stopped before any search */
    TUFCHECK_LISTED = 23          /* in a listing: a role lists the path */
};

/* Why a file is refused: the first check that it fails. */
enum tufcheck_fault {
    TUFCHECK_NOT_LISTED = 65,    /* the snapshot doesn't list the role's file */
    TUFCHECK_MISSING = 66,       /* the job has no file of its name */
    TUFCHECK_TOO_LONG = 67,      /* it is longer than the limit of its kind */
    TUFCHECK_LENGTH_WRONG = 68,  /* it has another length than is listed */
    TUFCHECK_HASH_WRONG = 69,    /* it has another digest than is listed */
    TUFCHECK_NO_KNOWN_HASH = 70, /* no digest of a known kind is listed */
    TUFCHECK_MALFORMED = 71,     /* it isn't a file of its kind */
    TUFCHECK_UNSIGNED = 72,      /* fewer keys signed it than the threshold */
    TUFCHECK_VERSION_WRONG = 73, /* it has another version than is expected */
    TUFCHECK_ROLLBACK = 74,      /* it is older than what is trusted */
    TUFCHECK_EXPIRED = 75        /* it has expired */
};

/* Where a file belongs that is to be fetched. */
enum tufcheck_place {
    TUFCHECK_METADATA = 49,
    TUFCHECK_TARGETS = 50
};

/* Which list of the job has the file that a verdict is by: the source of a verdict. */
enum tufcheck_source {
    TUFCHECK_IN_TARGETS = 81,
    TUFCHECK_IN_DIGESTS = 82
};

/* Room to grow. `size` is sizeof of the struct: a later version of the library knows by it which
 * fields the caller's struct has, and takes those of this version too. New fields come after the
 * last one. So the summary, which is the last field, has reserved words, and so have the rows that
 * the library writes: it writes zeros there. The rows that a caller gives stay as they are. */

typedef struct tufcheck_bytes {
    const uint8_t *data;
    size_t len;
} tufcheck_bytes;

/* A file in memory. Its name is that below the repository's folder of metadata or of targets, in
 * UTF-8, with `/` between folders. */
typedef struct tufcheck_file {
    tufcheck_bytes name;
    tufcheck_bytes bytes;
} tufcheck_file;

/* A target file that isn't in memory: its length, and those digests that are listed, for a caller
 * that computes them while it downloads. tufcheck_list says which are. A listed digest that isn't
 * given counts as another one. */
typedef struct tufcheck_digests {
    tufcheck_bytes name;
    uint64_t length;
    uint8_t has_sha256; /* 0 if it isn't given */
    uint8_t has_sha512;
    uint8_t sha256[32];
    uint8_t sha512[64];
} tufcheck_digests;

/* The input of a call. Of all files with one name the last counts, and one of digests counts after
 * one of targets. */
typedef struct tufcheck_job {
    size_t size;          /* sizeof(tufcheck_job) */
    tufcheck_bytes state; /* the text of the trusted state: of tufcheck_first, or the last answer */
    const tufcheck_file *metadata;
    size_t metadata_count;
    const tufcheck_file *targets;
    size_t target_count;
    const tufcheck_digests *digests;
    size_t digest_count;
    const tufcheck_bytes *wanted; /* paths of targets, in UTF-8 */
    size_t wanted_count;
    uint64_t moment; /* seconds after 1970-01-01T00:00:00Z, up to the year 9999 */
    size_t limit;    /* maximum number of roles that a search visits, 1 to 256; 32 is usual */
} tufcheck_job;

/* How a cycle ended, and how much there is in each room, or is needed. */
typedef struct tufcheck_summary {
    uint32_t end;
    uint32_t fault;        /* the fault that stopped the cycle, or 0 */
    uint64_t root_version; /* of the new trusted root */
    size_t state_len;      /* bytes of the new state's text */
    size_t verdict_count;  /* rows of wanted paths, or of files to fetch */
    size_t role_count;     /* rows of accepted roles */
    size_t name_len;       /* bytes of all names */
    uint64_t reserved[4];
} tufcheck_summary;

/* The verdict of a wanted path. The name of its role is in the names, from role_at on. The file that
 * it is by is the one at file_at in the list that source names: install no other one. */
typedef struct tufcheck_verdict {
    uint32_t kind;
    uint32_t fault;  /* of a refused file, or 0 */
    uint64_t length; /* of an accepted file in bytes, or 0 */
    size_t role_at;
    size_t role_len; /* 0 if there is no role */
    size_t file_at;  /* the index of the file in the job's targets or digests */
    uint32_t source; /* TUFCHECK_IN_TARGETS or TUFCHECK_IN_DIGESTS, or 0 if there is no file */
    uint32_t reserved[5];
} tufcheck_verdict;

/* A delegated role that was accepted. */
typedef struct tufcheck_role {
    uint64_t version;
    size_t name_at;
    size_t name_len;
    uint64_t reserved[2];
} tufcheck_role;

/* The rooms for the outcome of a verification. The caller sets all but the summary. */
typedef struct tufcheck_answer {
    size_t size;    /* sizeof(tufcheck_answer) */
    uint8_t *state; /* for the text of the new state, to be kept whenever there is an answer */
    size_t state_room;
    tufcheck_verdict *verdicts; /* one for each wanted path, in order */
    size_t verdict_room;
    tufcheck_role *roles; /* those accepted, each once, in byte order of their names */
    size_t role_room;
    uint8_t *names;
    size_t name_room;
    tufcheck_summary summary;
} tufcheck_answer;

/* What roles list of a wanted path. The names have that of its role, and from name_at on the name to
 * fetch: the first under which the file is looked up, which under consistent names begins with a
 * digest. */
typedef struct tufcheck_listed {
    uint32_t kind;   /* TUFCHECK_LISTED, or why no role lists the path */
    uint32_t fault;  /* of a role's refused file, or 0 */
    uint64_t length; /* the listed length in bytes, or 0 */
    size_t role_at;
    size_t role_len;
    size_t name_at;
    size_t name_len;    /* 0 if no role lists the path */
    uint8_t has_sha256; /* 1 if that digest is listed; if not, it is zeros */
    uint8_t has_sha512;
    uint8_t sha256[32];
    uint8_t sha512[64];
    uint8_t reserved[30];
} tufcheck_listed;

/* The rooms for a listing. Its summary counts no roles. */
typedef struct tufcheck_listing {
    size_t size; /* sizeof(tufcheck_listing) */
    uint8_t *state;
    size_t state_room;
    tufcheck_listed *rows; /* one for each wanted path, in order */
    size_t row_room;
    uint8_t *names;
    size_t name_room;
    tufcheck_summary summary;
} tufcheck_listing;

/* A file to fetch. Its name is in the names, from name_at on. */
typedef struct tufcheck_need {
    uint32_t place;    /* TUFCHECK_METADATA or TUFCHECK_TARGETS */
    uint8_t optional;  /* 1 if the file may be absent for good: the root of the next version, and
                          a target's file under a name that isn't its last */
    uint64_t most;     /* fetch no more bytes than that: a longer file is refused */
    size_t name_at;
    size_t name_len;
    uint64_t reserved[2];
} tufcheck_need;

/* The rooms for the files to fetch. The summary counts no state and no roles. */
typedef struct tufcheck_needs {
    size_t size;         /* sizeof(tufcheck_needs) */
    tufcheck_need *rows; /* in the order in which the workflow looks the files up */
    size_t row_room;
    uint8_t *names;
    size_t name_room;
    tufcheck_summary summary;
} tufcheck_needs;

/* A file that a state trusts. */
typedef struct tufcheck_trusted_file {
    uint64_t version; /* 0 if no such file is trusted */
    int64_t expires;  /* seconds after 1970-01-01T00:00:00Z, below 0 before that */
    uint64_t reserved[2];
} tufcheck_trusted_file;

/* What a state trusts: its four top-level files. The root is always one of them. */
typedef struct tufcheck_trusted {
    size_t size; /* sizeof(tufcheck_trusted) */
    tufcheck_trusted_file root;
    tufcheck_trusted_file timestamp;
    tufcheck_trusted_file snapshot;
    tufcheck_trusted_file targets;
} tufcheck_trusted;

/* The version of the library, as that of this header. */
TUFCHECK_API TUFCHECK_RESULT uint32_t tufcheck_version(void) TUFCHECK_NOEXCEPT;

/* The text of a result, end, kind, fault, place or source, in English and in ASCII, with a NUL at its end;
 * of any other number "unknown number". It is never null, stays as long as the library is loaded,
 * and isn't to be freed. Its words may change from version to version: compare numbers. The texts of
 * 0, 1 and 2 are true of each call, and that of 0 also of a fault that is 0. */
TUFCHECK_API TUFCHECK_RESULT const char *tufcheck_text(int32_t number) TUFCHECK_NOEXCEPT;

/* Writes the text of the state of a first root, which the caller trusts, to state, and its length
 * to len. Returns 0, TUFCHECK_NO_STATE, TUFCHECK_NO_MEMORY or TUFCHECK_NO_ROOM; for the last one len
 * is the length of the text. */
TUFCHECK_API TUFCHECK_RESULT TUFCHECK_NONNULL((5)) int32_t
tufcheck_first(const uint8_t *root, size_t root_len, uint8_t *state, size_t state_room,
               size_t *len) TUFCHECK_NOEXCEPT;

/* Writes to trusted which files the text of a state trusts, and when each expires; the two don't
 * overlap. It checks no signature and no moment: a state is what its caller has kept. Returns 0,
 * TUFCHECK_NO_MEMORY, TUFCHECK_NO_STATE or TUFCHECK_NO_SIZE; below 0 trusted is unchanged. */
TUFCHECK_API TUFCHECK_RESULT TUFCHECK_NONNULL((3)) int32_t
tufcheck_show(const uint8_t *state, size_t state_len, tufcheck_trusted *trusted) TUFCHECK_NOEXCEPT;

/* Returns which files the cycle looked up in the job and didn't find: 1 if some of them isn't
 * optional, else 2 if the cycle stopped, else 0. Fetch the optional ones first: with one of them,
 * others may no longer be needed. The names come from metadata, which a stranger may have written: a
 * caller that opens files must refuse names that lead out of its folder. */
TUFCHECK_API TUFCHECK_RESULT TUFCHECK_NONNULL((1, 2)) int32_t
tufcheck_next(const tufcheck_job *job, tufcheck_needs *needs) TUFCHECK_NOEXCEPT;

/* Returns what roles list of the wanted paths, without looking at target files: 0 if the cycle is
 * ready and all are listed, 1 if it is ready and some is not, 2 if it stopped. */
TUFCHECK_API TUFCHECK_RESULT TUFCHECK_NONNULL((1, 2)) int32_t
tufcheck_list(const tufcheck_job *job, tufcheck_listing *listing) TUFCHECK_NOEXCEPT;

/* Verifies the job: runs one cycle of the client workflow, and writes the outcome to answer. */
TUFCHECK_API TUFCHECK_RESULT TUFCHECK_NONNULL((1, 2)) int32_t
tufcheck_verify(const tufcheck_job *job, tufcheck_answer *answer) TUFCHECK_NOEXCEPT;

/* Returns 1 if the signature of the message is valid for the public key, and else 0. All three are
 * the bytes of RFC 8554, for LM-OTS with W4 or W8 and LMS with height 5, 10 or 15 over SHA-256: the
 * key has 56 bytes, and of any other key no signature is valid. No other number is returned: it
 * doesn't allocate, and takes no file of TUF. */
TUFCHECK_API TUFCHECK_RESULT int32_t
tufcheck_lms_verify(const uint8_t *key, size_t key_len, const uint8_t *message,
                    size_t message_len, const uint8_t *signature,
                    size_t signature_len) TUFCHECK_NOEXCEPT;

#ifdef __cplusplus
}
#endif

#endif
