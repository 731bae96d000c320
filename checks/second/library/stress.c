/* What the library does if memory is refused, with too little room, in four threads and on small stacks:
 *
 *   stress ROOT STATE METADATA TARGETS SECONDS LIMIT PATH..
 *
 * Linked with -Wl,--wrap=malloc,--wrap=realloc,--wrap=free. Prints what it finds; the status is 1 if something is not as
 * it must be. With QUICK in the environment (for valgrind) no memory is refused, and a stack that a thread
 * had isn't read. */
#include "files.h"

#include <malloc.h>
#include <pthread.h>

void *__real_malloc(size_t);
void *__real_realloc(void *, size_t);
void __real_free(void *);

/* Volatile, since the compiler assumes that malloc reads and writes no variable of this file. */
static _Thread_local volatile int counting, refused_at, calls, live;
static _Thread_local volatile size_t most, held;

void *__wrap_malloc(size_t size)
{
    if (!counting)
        return __real_malloc(size);
    if (++calls == refused_at)
        return NULL;
    void *memory = __real_malloc(size);
    live++;
    held += malloc_usable_size(memory);
    most = held > most ? held : most;
    return memory;
}

void *__wrap_realloc(void *memory, size_t size)
{
    if (!counting)
        return __real_realloc(memory, size);
    if (++calls == refused_at)
        return NULL;
    held -= malloc_usable_size(memory);
    memory = __real_realloc(memory, size);
    held += malloc_usable_size(memory);
    most = held > most ? held : most;
    return memory;
}

void __wrap_free(void *memory)
{
    if (counting && memory != NULL) {
        live--;
        held -= malloc_usable_size(memory);
    }
    __real_free(memory);
}

static int failed;

static void check(int holds, const char *what)
{
    if (!holds) {
        printf("failed: %s\n", what);
        failed = 1;
    }
}

static tufcheck_job job;

/* A call by which all of its room is seen: the result, and the sizes that are needed. */
typedef struct {
    int32_t result;
    tufcheck_summary summary;
    uint8_t *rooms[4];
    size_t sizes[4];
} seen;

enum { VERIFY, LIST, NEXT };
static const char *const NAMES[] = {"tufcheck_verify", "tufcheck_list", "tufcheck_next"};

/* Calls with rooms of these sizes, filled with a pattern before. */
static seen call(int which, const tufcheck_job *input, const size_t *sizes)
{
    static const size_t widths[3][4] = {{1, sizeof(tufcheck_verdict), sizeof(tufcheck_role), 1},
                                        {1, sizeof(tufcheck_listed), 0, 1},
                                        {0, sizeof(tufcheck_need), 0, 1}};
    seen s = {0};
    int was = counting;
    counting = 0;
    for (int i = 0; i < 4; i++) {
        s.sizes[i] = sizes[i] * widths[which][i];
        s.rooms[i] = malloc(s.sizes[i] + 16);
        memset(s.rooms[i], 0x5a, s.sizes[i] + 16);
    }
    counting = was;
    if (which == VERIFY) {
        tufcheck_answer a = {sizeof a, s.rooms[0], sizes[0], (void *)s.rooms[1], sizes[1], (void *)s.rooms[2], sizes[2],
                             s.rooms[3], sizes[3], {0}};
        s.result = tufcheck_verify(input, &a);
        s.summary = a.summary;
    } else if (which == LIST) {
        tufcheck_listing a = {sizeof a, s.rooms[0], sizes[0], (void *)s.rooms[1], sizes[1], s.rooms[3], sizes[3], {0}};
        s.result = tufcheck_list(input, &a);
        s.summary = a.summary;
    } else {
        tufcheck_needs a = {sizeof a, (void *)s.rooms[1], sizes[1], s.rooms[3], sizes[3], {0}};
        s.result = tufcheck_next(input, &a);
        s.summary = a.summary;
    }
    /* Nothing is written past a room, and below 0 none is written at all. */
    for (int i = 0; i < 4; i++)
        for (size_t k = s.result < 0 ? 0 : s.sizes[i]; k < s.sizes[i] + 16; k++)
            check(s.rooms[i][k] == 0x5a, "a room that must be unchanged");
    /* A summary of zeros stays one that doesn't read as ready, unless there is an answer or -6. */
    check(s.result >= 0 || s.result == TUFCHECK_NO_ROOM || s.summary.end != TUFCHECK_READY, "a summary that isn't ready");
    return s;
}

static void drop(seen *s)
{
    int was = counting;
    counting = 0;
    for (int i = 0; i < 4; i++)
        free(s->rooms[i]);
    counting = was;
}

static void needed(const seen *s, size_t *sizes)
{
    sizes[0] = s->summary.state_len;
    sizes[1] = s->summary.verdict_count;
    sizes[2] = s->summary.role_count;
    sizes[3] = s->summary.name_len;
}

static int same(const seen *a, const seen *b)
{
    int equal = a->result == b->result;
    for (int i = 0; i < 4; i++)
        equal = equal && a->sizes[i] == b->sizes[i] && memcmp(a->rooms[i], b->rooms[i], a->sizes[i]) == 0;
    return equal;
}

/* Refuses each allocation of the call in turn. */
static void refuse(int which, const size_t *sizes, const seen *whole)
{
    int count = 0, others = 0;
    for (int at = 0; at == 0 || at <= count; at++) {
        counting = 1;
        calls = live = 0;
        held = most = 0;
        refused_at = at;
        seen s = call(which, &job, sizes);
        counting = 0;
        if (at == 0) {
            count = calls;
            printf("%s: %d allocations, %zu bytes at most\n", NAMES[which], count, most);
        }
        check(live == 0, "memory that is freed");
        check(s.result == TUFCHECK_NO_MEMORY || same(&s, whole), "-1, or the whole answer");
        others += s.result != TUFCHECK_NO_MEMORY;
        drop(&s);
    }
    printf("  refused in turn: the call continued after %d of them\n", others - 1);
}

/* One less in each room in turn. */
static void cut(int which, const size_t *sizes)
{
    for (int i = 0; i < 4; i++) {
        size_t less[4];
        if (sizes[i] == 0)
            continue;
        memcpy(less, sizes, sizeof less);
        less[i]--;
        seen s = call(which, &job, less);
        size_t again[4];
        needed(&s, again);
        check(s.result == TUFCHECK_NO_ROOM && memcmp(again, sizes, sizeof again) == 0, "-6 with what is needed");
        drop(&s);
    }
}

/* Digests that no file has, under a name that nobody lists, change nothing. */
static void unlisted(int which, const size_t *sizes, const seen *whole)
{
    tufcheck_digests none = {{(const uint8_t *)"no/such/path", 12}, 0, 1, 1, {0}, {0}};
    tufcheck_job more = job;
    more.digests = &none;
    more.digest_count = 1;
    seen s = call(which, &more, sizes);
    check(same(&s, whole), "the same answer beside digests that no file has");
    drop(&s);
}

static void errors(int which, const size_t *sizes)
{
    tufcheck_bytes odd = {(const uint8_t *)"\xff", 1};
    tufcheck_file odd_file = {odd, odd};
    tufcheck_digests odd_digests = {odd, 0, 0, 0, {0}, {0}};
    struct {
        tufcheck_job job;
        int32_t result;
        const char *what;
    } cases[] = {{job, -5, "a limit of 0"}, {job, -5, "a limit of 257"}, {job, -4, "a moment past 9999"},
                 {job, -2, "a state that was cut"}, {job, -3, "a path that is not UTF-8"},
                 {job, -3, "a metadata file's name that is not UTF-8"}, {job, -3, "a target file's name"},
                 {job, -3, "a name of digests"}, {job, -2, "no state"}, {job, -7, "another size"}};
    cases[0].job.limit = 0;
    cases[1].job.limit = 257;
    cases[2].job.moment = 253402300800;
    cases[3].job.state.len--;
    cases[4].job.wanted = &odd;
    cases[4].job.wanted_count = 1;
    cases[5].job.metadata = &odd_file;
    cases[5].job.metadata_count = 1;
    cases[6].job.targets = &odd_file;
    cases[6].job.target_count = 1;
    cases[7].job.digests = &odd_digests;
    cases[7].job.digest_count = 1;
    cases[8].job.state = (tufcheck_bytes){NULL, 0};
    cases[9].job.size--;
    for (size_t i = 0; i < sizeof cases / sizeof *cases; i++) {
        seen s = call(which, &cases[i].job, sizes);
        /* A listing doesn't look at target files. */
        int unseen = which == LIST && (i == 6 || i == 7);
        check(unseen ? s.result >= 0 : s.result == cases[i].result, cases[i].what);
        drop(&s);
    }
}

/* What a state trusts, over a pattern, so that each word is seen that is written. */
static int32_t trusted_of(tufcheck_bytes state, size_t size, tufcheck_trusted *trusted)
{
    memset(trusted, 0x5a, sizeof *trusted);
    trusted->size = size;
    return tufcheck_show(state.data, state.len, trusted);
}

/* Whether nothing but the size was written. */
static int is_untouched(const tufcheck_trusted *trusted)
{
    tufcheck_trusted pattern;
    memset(&pattern, 0x5a, sizeof pattern);
    pattern.size = trusted->size;
    return memcmp(&pattern, trusted, sizeof pattern) == 0;
}

static tufcheck_trusted whole_trusted;

/* What the job's state trusts; with each allocation refused, of no state, and in structs of another
 * size. */
static void shows(int quick)
{
    const size_t size = sizeof(tufcheck_trusted);
    tufcheck_bytes cut = {job.state.data, job.state.len - 1}, none = {NULL, 0};
    tufcheck_trusted trusted;
    check(trusted_of(job.state, size, &whole_trusted) == 0, "a state that is shown");
    check(whole_trusted.root.version > 0, "a root that is trusted");
    const tufcheck_trusted_file rows[] = {whole_trusted.root, whole_trusted.timestamp,
                                          whole_trusted.snapshot, whole_trusted.targets};
    for (int i = 0; i < 4; i++) {
        check(rows[i].reserved[0] == 0 && rows[i].reserved[1] == 0, "reserved words of zeros");
        check(rows[i].version != 0 || rows[i].expires == 0, "no time of what isn't trusted");
    }
    const struct {
        tufcheck_bytes state;
        size_t size;
        int32_t result;
        const char *what;
    } cases[] = {{cut, size, -2, "what a state that was cut trusts"},
                 {none, size, -2, "what no state trusts"},
                 {job.state, size + 8, -7, "a greater size"},
                 {none, size - 32, -7, "a smaller size, and no state"}};
    for (size_t i = 0; i < sizeof cases / sizeof *cases; i++) {
        int32_t result = trusted_of(cases[i].state, cases[i].size, &trusted);
        check(result == cases[i].result && is_untouched(&trusted), cases[i].what);
    }
    int count = 0, others = 0;
    for (int at = 0; !quick && at <= count; at++) {
        counting = 1;
        calls = live = 0;
        held = most = 0;
        refused_at = at;
        int32_t result = trusted_of(job.state, size, &trusted);
        counting = 0;
        if (at == 0) {
            count = calls;
            printf("tufcheck_show: %d allocations, %zu bytes at most\n", count, most);
        }
        check(live == 0, "memory that is freed");
        int is_whole = result == 0 && memcmp(&trusted, &whole_trusted, size) == 0;
        check(result == TUFCHECK_NO_MEMORY ? is_untouched(&trusted) : is_whole, "-1, or all of it");
        others += result != TUFCHECK_NO_MEMORY;
    }
    if (!quick)
        printf("  refused in turn: the call continued after %d of them\n", others - 1);
}

/* Null with length or count 0: an empty file, path and name, no list, no room, and no struct of another size is read. */
static void nulls(void)
{
    tufcheck_bytes nothing = {NULL, 0};
    tufcheck_file file = {nothing, nothing};
    tufcheck_digests digests = {nothing, 0, 0, 0, {0}, {0}};
    tufcheck_job bare = {.size = sizeof bare, .state = job.state, .moment = job.moment, .limit = 32};
    tufcheck_answer answer = {.size = sizeof answer}, other = {.size = sizeof answer + 8};
    tufcheck_listing listing = {.size = sizeof listing};
    tufcheck_needs needs = {.size = sizeof needs};
    size_t len;
    check(tufcheck_verify(&bare, &answer) == -6 && tufcheck_list(&bare, &listing) == -6, "no lists and no rooms");
    check(tufcheck_next(&bare, &needs) == -6 && needs.summary.name_len > 0, "no lists and no rooms for needs");
    bare.metadata = bare.targets = &file;
    bare.digests = &digests;
    bare.wanted = &nothing;
    bare.metadata_count = bare.target_count = bare.digest_count = bare.wanted_count = 1;
    check(tufcheck_verify(&bare, &answer) == -6 && answer.summary.verdict_count == 1, "empty names and an empty path");
    check(tufcheck_verify(&bare, &other) == -7 && other.summary.verdict_count == 0, "an answer of another size");
    check(tufcheck_first(NULL, 0, NULL, 0, &len) == -2, "no root");
    check(tufcheck_lms_verify(NULL, 0, NULL, 0, NULL, 0) == 0, "no key");
}

static size_t whole_sizes[3][4];
static seen whole[3];

static void *in_thread(void *arg)
{
    int *equal = arg;
    *equal = 1;
    for (int i = 0; i < 10; i++)
        for (int which = VERIFY; which <= NEXT; which++) {
            seen s = call(which, &job, whole_sizes[which]);
            *equal = *equal && same(&s, &whole[which]);
            drop(&s);
        }
    tufcheck_trusted trusted;
    int32_t result = trusted_of(job.state, sizeof trusted, &trusted);
    *equal = *equal && result == 0 && memcmp(&trusted, &whole_trusted, sizeof trusted) == 0;
    return NULL;
}

/* A thread with a stack of that size; returns the bytes of it that were written, or 0 if they aren't counted. */
static size_t on_stack(size_t size, int is_counted)
{
    int equal = 0;
    size_t clean = 0;
    uint8_t *stack = aligned_alloc(4096, size);
    memset(stack, 0xa5, size);
    pthread_attr_t attributes;
    pthread_t thread;
    pthread_attr_init(&attributes);
    pthread_attr_setstack(&attributes, stack, size);
    pthread_create(&thread, &attributes, in_thread, &equal);
    pthread_join(thread, NULL);
    check(equal, "the same answers on a small stack");
    if (!is_counted)
        clean = size;
    while (clean < size && stack[clean] == 0xa5)
        clean++;
    free(stack);
    return size - clean;
}

int main(int argc, char **argv)
{
    if (argc < 7)
        return 3;
    int quick = getenv("QUICK") != NULL;
    tufcheck_bytes root = read_file(argv[1]);
    size_t len = 0, short_len = 0;
    uint8_t *text = malloc(2 * root.len + 64);
    check(tufcheck_first(root.data, root.len, text, 2 * root.len + 64, &len) == 0, "a first state");
    check(tufcheck_first(root.data, root.len, NULL, 0, &short_len) == -6 && short_len == len, "its length");
    check(tufcheck_first(root.data, root.len, text, len, &short_len) == 0 && short_len == len, "a room of its length");
    check(tufcheck_first(root.data, root.len - 1, text, len, &short_len) == -2, "a root that was cut");
    job = job_of(argv + 2, argc - 2);
    nulls();
    shows(quick);
    for (int which = VERIFY; which <= NEXT; which++) {
        size_t none[4] = {0};
        seen s = call(which, &job, none);
        needed(&s, whole_sizes[which]);
        drop(&s);
        whole[which] = call(which, &job, whole_sizes[which]);
        size_t counted[4];
        needed(&whole[which], counted);
        check(whole[which].result >= 0, "an answer in the room that is needed");
        check(memcmp(counted, whole_sizes[which], sizeof counted) == 0, "an answer that counts what is in full rooms");
        unlisted(which, whole_sizes[which], &whole[which]);
        if (!quick)
            refuse(which, whole_sizes[which], &whole[which]);
        cut(which, whole_sizes[which]);
        errors(which, whole_sizes[which]);
    }
    pthread_t threads[4];
    int equal[4];
    for (int i = 0; i < 4; i++)
        pthread_create(&threads[i], NULL, in_thread, &equal[i]);
    for (int i = 0; i < 4; i++) {
        pthread_join(threads[i], NULL);
        check(equal[i], "the same answers in four threads");
    }
    size_t used = on_stack(256 * 1024, !quick);
    if (!quick)
        printf("a stack of 256 KB: %zu bytes written\n", used);
    printf("results %d, %d, %d: %s\n", (int)whole[0].result, (int)whole[1].result, (int)whole[2].result,
           failed ? "some failed" : "all as they must be");
    return failed;
}
