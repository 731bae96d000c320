/* An updater that fetches from a folder: example_updater ROOT STATE REPOSITORY SECONDS OUT PATH..
 *
 * ROOT is the first root file, which is trusted. STATE is the file of the trusted state, which is
 * made of ROOT if there is no file of its name. REPOSITORY has the folders metadata and targets.
 * SECONDS is the moment, or `now`. Each wanted target that is accepted is installed in the folder
 * OUT, under its path. Prints a line for each file that it fetches and for each wanted path.
 *
 * The new state, and then each target, is written to STATE.new, flushed and renamed to its place.
 * So STATE and OUT are on one file system, STATE isn't below OUT, and one updater runs at a time.
 *
 * The status is that of tufcheck_verify, 3 for a usage error, or 4 if something else fails.
 *
 *   cc -o example_updater example_updater.c $(pkg-config --cflags --libs tufcheck)
 *
 * Another transport takes the place of `fetch`: it may fetch any bytes from anywhere. */
#define _POSIX_C_SOURCE 200809L
#include "tufcheck.h"

#include <errno.h>
#include <fcntl.h>
#include <inttypes.h>
#include <stdio.h>
#include <stdlib.h>
#include <string.h>
#include <sys/stat.h>
#include <time.h>
#include <unistd.h>

static void fail(const char *what, const char *why)
{
    fprintf(stderr, "example_updater: %s: %s\n", what, why);
    exit(4);
}

/* Prints a name in quotes, without bytes that a terminal takes for commands. Whoever signs a
 * delegated role writes names. */
static void print_name(FILE *out, const uint8_t *name, size_t len)
{
    putc('"', out);
    for (size_t i = 0; i < len; i++) {
        if (name[i] >= 0x20 && name[i] < 0x7f && name[i] != '"' && name[i] != '\\')
            putc(name[i], out);
        else
            fprintf(out, "\\x%02x", name[i]);
    }
    putc('"', out);
}

static void *room(size_t count, size_t size)
{
    /* One more than is needed, since calloc may return null for no bytes. */
    void *memory = calloc(count + 1, size);
    if (memory == NULL)
        fail("memory", "refused");
    return memory;
}

/* Reads a file of at most `most` bytes, and one byte more, by which the library sees that it is too
 * long. Returns 0, or the error. */
static int read_file(const char *path, uint64_t most, tufcheck_bytes *into)
{
    FILE *file = fopen(path, "rb");
    if (file == NULL)
        return errno;
    size_t held = 65536, len = 0;
    uint8_t *data = room(held, 1);
    while (len <= most && !feof(file) && !ferror(file)) {
        if (len == held) {
            held *= 2;
            data = realloc(data, held);
            if (data == NULL)
                fail("memory", "refused");
        }
        size_t left = held - len;
        if (left > most - len)
            left = (size_t)(most - len) + 1;
        len += fread(data + len, 1, left, file);
    }
    int error = ferror(file) ? errno : 0;
    fclose(file);
    into->data = data;
    into->len = len;
    return error;
}

/* Flushes the folder of a file, so that a new name is there after a loss of power. */
static void flush_folder(const char *path)
{
    const char *end = strrchr(path, '/');
    char *folder = room(strlen(path) + 1, 1);
    memcpy(folder, end == NULL ? "." : path, end == NULL ? 1 : (size_t)(end - path) + 1);
    int opened = open(folder, O_RDONLY | O_DIRECTORY);
    if (opened < 0 || fsync(opened) != 0)
        fail(folder, strerror(errno));
    close(opened);
    free(folder);
}

/* Replaces a file as a whole, by the file `new`. If something fails before the end, or the power
 * does, the file has its old bytes or the new ones. */
static void replace(const char *new, const char *path, const uint8_t *data, size_t len)
{
    FILE *file = fopen(new, "wb");
    if (file == NULL || fwrite(data, 1, len, file) != len || fflush(file) != 0
        || fsync(fileno(file)) != 0 || fclose(file) != 0 || rename(new, path) != 0) {
        int error = errno;
        unlink(new);
        fail(path, strerror(error));
    }
    flush_folder(path);
}

/* Whether a name may be opened below a folder: no part between its `/` is empty, `.` or `..`.
 * Whoever signs a delegated role writes names. */
static int is_below(const uint8_t *name, size_t len)
{
    size_t start = 0;
    for (size_t i = 0; i <= len; i++) {
        if (i < len && name[i] == 0)
            return 0;
        if (i < len && name[i] != '/')
            continue;
        size_t part = i - start;
        if (part == 0 || (part == 1 && name[start] == '.')
            || (part == 2 && name[start] == '.' && name[start + 1] == '.'))
            return 0;
        start = i + 1;
    }
    return 1;
}

/* Fetches a file of the repository. Returns 0 if there is none, or if it can't be read. */
static int fetch(const char *repository, const tufcheck_need *need, const uint8_t *name,
                 tufcheck_bytes *into)
{
    const char *folder = need->place == TUFCHECK_METADATA ? "metadata" : "targets";
    if (!is_below(name, need->name_len))
        return 0;
    char *path = room(strlen(repository) + strlen(folder) + need->name_len + 3, 1);
    sprintf(path, "%s/%s/%.*s", repository, folder, (int)need->name_len, (const char *)name);
    int error = read_file(path, need->most, into);
    if (error != 0 && error != ENOENT) {
        fputs("example_updater: ", stderr);
        print_name(stderr, (const uint8_t *)path, strlen(path));
        fprintf(stderr, ": %s\n", strerror(error));
    }
    free(path);
    return error == 0;
}

/* The files that were fetched so far. */
typedef struct {
    tufcheck_file *files;
    size_t count;
} list;

static void add(list *all, const uint8_t *name, size_t len, tufcheck_bytes bytes)
{
    uint8_t *own = room(len, 1);
    memcpy(own, name, len);
    all->files = realloc(all->files, (all->count + 1) * sizeof *all->files);
    if (all->files == NULL)
        fail("memory", "refused");
    all->files[all->count].name.data = own;
    all->files[all->count].name.len = len;
    all->files[all->count++].bytes = bytes;
}

/* Calls tufcheck_next, with as much room as it needs. */
static void next(const tufcheck_job *job, tufcheck_needs *needs)
{
    int32_t result = tufcheck_next(job, needs);
    if (result == TUFCHECK_NO_ROOM) {
        free(needs->rows);
        free(needs->names);
        needs->row_room = needs->summary.verdict_count;
        needs->rows = room(needs->row_room, sizeof *needs->rows);
        needs->name_room = needs->summary.name_len;
        needs->names = room(needs->name_room, 1);
        result = tufcheck_next(job, needs);
    }
    if (result < 0)
        fail("tufcheck_next", tufcheck_text(result));
}

/* Fetches the files that are optional, or those that aren't. Returns how many were found. */
static size_t fetch_some(const char *repository, const tufcheck_needs *needs, int optional,
                         list *metadata, list *targets)
{
    size_t found = 0;
    for (size_t i = 0; i < needs->summary.verdict_count; i++) {
        const tufcheck_need *need = &needs->rows[i];
        const uint8_t *name = needs->names + need->name_at;
        tufcheck_bytes bytes;
        if (need->optional != optional || !fetch(repository, need, name, &bytes))
            continue;
        printf("fetched %s ", tufcheck_text((int32_t)need->place));
        print_name(stdout, name, need->name_len);
        putchar('\n');
        add(need->place == TUFCHECK_METADATA ? metadata : targets, name, need->name_len, bytes);
        found++;
    }
    return found;
}

/* Fetches until nothing that is needed is found. With an optional file, others may no longer be
 * needed. */
static void fetch_all(const char *repository, tufcheck_job *job, list *metadata, list *targets)
{
    tufcheck_needs needs = {0};
    needs.size = sizeof needs;
    for (size_t found = 1; found > 0;) {
        job->metadata = metadata->files;
        job->metadata_count = metadata->count;
        job->targets = targets->files;
        job->target_count = targets->count;
        next(job, &needs);
        found = fetch_some(repository, &needs, 1, metadata, targets);
        if (found == 0)
            found = fetch_some(repository, &needs, 0, metadata, targets);
    }
    free(needs.rows);
    free(needs.names);
}

/* Verifies the job. First the rooms are as large as the summary guesses; if they are too small, it
 * then counts what is needed. */
static int32_t verify(const tufcheck_job *job, tufcheck_answer *answer)
{
    int32_t result = TUFCHECK_NO_ROOM;
    for (int i = 0; i < 2 && result == TUFCHECK_NO_ROOM; i++) {
        free(answer->state);
        free(answer->verdicts);
        free(answer->roles);
        free(answer->names);
        answer->state_room = answer->summary.state_len;
        answer->state = room(answer->state_room, 1);
        answer->verdict_room = answer->summary.verdict_count;
        answer->verdicts = room(answer->verdict_room, sizeof *answer->verdicts);
        answer->role_room = answer->summary.role_count;
        answer->roles = room(answer->role_room, sizeof *answer->roles);
        answer->name_room = answer->summary.name_len;
        answer->names = room(answer->name_room, 1);
        result = tufcheck_verify(job, answer);
    }
    if (result < 0)
        fail("tufcheck_verify", tufcheck_text(result));
    return result;
}

/* The trusted state: that of the file, or that of the first root if there is no file of its name.
 * Any other error ends the updater: it would forget what was trusted. */
static tufcheck_bytes state_of(const char *root, const char *path)
{
    struct stat seen;
    tufcheck_bytes state, first;
    int begins = lstat(path, &seen) != 0 && errno == ENOENT;
    int error = begins ? read_file(root, 512000, &first)
                       : read_file(path, UINT64_MAX, &state);
    if (error != 0)
        fail(begins ? root : path, strerror(error));
    if (!begins)
        return state;
    uint8_t *text = NULL;
    int32_t result = tufcheck_first(first.data, first.len, NULL, 0, &state.len);
    if (result == TUFCHECK_NO_ROOM) {
        text = room(state.len, 1);
        result = tufcheck_first(first.data, first.len, text, state.len, &state.len);
    }
    if (result != 0)
        fail(root, tufcheck_text(result));
    state.data = text;
    return state;
}

/* Installs the verified file of an accepted path, whose folders it makes. */
static void install(const tufcheck_file *file, const tufcheck_bytes *path, const char *new,
                    const char *out)
{
    char *place = room(strlen(out) + path->len + 2, 1), *at = place + strlen(out);
    sprintf(place, "%s/%s", out, (const char *)path->data);
    for (; (at = strchr(at, '/')) != NULL; *at++ = '/') {
        *at = 0;
        if (mkdir(place, 0777) != 0 && errno != EEXIST)
            fail(place, strerror(errno));
    }
    replace(new, place, file->bytes.data, file->bytes.len);
    free(place);
}

/* Prints the text of an end or a kind, and that of a fault. A fault of 0 is none. */
static void print_texts(uint32_t number, uint32_t fault)
{
    fputs(tufcheck_text((int32_t)number), stdout);
    if (fault != 0)
        printf(": %s", tufcheck_text((int32_t)fault));
}

/* Prints a line for a wanted path. */
static void print_verdict(const tufcheck_bytes *path, const tufcheck_verdict *row,
                          const uint8_t *names)
{
    print_name(stdout, path->data, path->len);
    fputs(": ", stdout);
    print_texts(row->kind, row->fault);
    if (row->kind == TUFCHECK_ACCEPTED)
        printf(", %" PRIu64 " bytes", row->length);
    if (row->role_len != 0) {
        fputs(", role ", stdout);
        print_name(stdout, names + row->role_at, row->role_len);
    }
    putchar('\n');
}

/* Prints the outcome, and installs what is accepted. */
static void finish(const tufcheck_job *job, const tufcheck_answer *answer, const char *new,
                   const char *out)
{
    const tufcheck_summary *summary = &answer->summary;
    printf("root %" PRIu64 ", ", summary->root_version);
    print_texts(summary->end, summary->fault);
    putchar('\n');
    for (size_t i = 0; i < summary->verdict_count; i++) {
        print_verdict(&job->wanted[i], &answer->verdicts[i], answer->names);
        /* This updater has no digests, so the file is one of the targets. */
        if (answer->verdicts[i].kind == TUFCHECK_ACCEPTED)
            install(&job->targets[answer->verdicts[i].file_at], &job->wanted[i], new, out);
    }
}

static int usage(void)
{
    fprintf(stderr, "usage: example_updater ROOT STATE REPOSITORY SECONDS OUT PATH..\n");
    return 3;
}

/* Takes the moment and the wanted paths from the words. Returns 0 if one of them isn't right. */
static int take(tufcheck_job *job, int argc, char **argv)
{
    char *end = argv[4];
    job->moment = strtoull(argv[4], &end, 10);
    if (strcmp(argv[4], "now") == 0)
        job->moment = (uint64_t)time(NULL);
    else if (argv[4][0] < '0' || argv[4][0] > '9' || *end != 0)
        return 0;
    tufcheck_bytes *wanted = room((size_t)argc, sizeof *wanted);
    job->wanted = wanted;
    job->wanted_count = (size_t)argc - 6;
    for (size_t i = 0; i < job->wanted_count; i++) {
        wanted[i].data = (const uint8_t *)argv[6 + i];
        wanted[i].len = strlen(argv[6 + i]);
        if (!is_below(wanted[i].data, wanted[i].len))
            return 0;
    }
    return 1;
}

int main(int argc, char **argv)
{
    list metadata = {room(0, sizeof(tufcheck_file)), 0}, targets = {room(0, sizeof(tufcheck_file)), 0};
    tufcheck_job job = {0};
    tufcheck_answer answer = {0};
    job.size = sizeof job;
    answer.size = sizeof answer;
    if (argc < 7 || !take(&job, argc, argv))
        return usage();
    if (tufcheck_version() / 1000000 != TUFCHECK_VERSION / 1000000)
        fail("tufcheck", "another version than that of the header");
    char *new = room(strlen(argv[2]) + 5, 1);
    sprintf(new, "%s.new", argv[2]);
    job.state = state_of(argv[1], argv[2]);
    job.limit = 32;
    fetch_all(argv[3], &job, &metadata, &targets);
    answer.summary.state_len = job.state.len;
    answer.summary.verdict_count = job.wanted_count;
    answer.summary.role_count = 64;
    answer.summary.name_len = 4096;
    int32_t result = verify(&job, &answer);
    replace(new, argv[2], answer.state, answer.summary.state_len);
    finish(&job, &answer, new, argv[5]);
    return result;
}
