/* Prints the lines of `tufcheck verify` by the library: lines STATE METADATA TARGETS SECONDS LIMIT OUT PATH..
 * The new state goes to the file OUT, and to OUT.more what is listed, what is needed with these
 * target files and without any, and what both states trust. The status is the program's. */
#include "files.h"

#include <inttypes.h>

/* The words of each family, from its first number on. */
static const char *const ENDS[] = {"ready", "root", "timestamp", "snapshot", "targets"};
static const char *const KINDS[] = {"", "NotFound", "LimitReached", "", "", "NotSearched"};
static const char *const FAULTS[] = {"NotListed",   "Missing",   "TooLong",  "LengthWrong",  "HashWrong", "NoKnownHash",
                                     "Malformed", "Unsigned", "VersionWrong", "Rollback", "Expired"};

/* Rooms of these sizes, each in a block of its own. */
static tufcheck_answer rooms(size_t state, size_t verdicts, size_t roles, size_t names)
{
    tufcheck_answer answer = {.size = sizeof answer};
    answer.state_room = state;
    answer.state = malloc(state + 1);
    answer.verdict_room = verdicts;
    answer.verdicts = malloc(verdicts * sizeof *answer.verdicts + 1);
    answer.role_room = roles;
    answer.roles = malloc(roles * sizeof *answer.roles + 1);
    answer.name_room = names;
    answer.names = malloc(names + 1);
    return answer;
}

static void forget(tufcheck_answer *answer)
{
    free(answer->state);
    free(answer->verdicts);
    free(answer->roles);
    free(answer->names);
}

static void put_quoted(FILE *out, const uint8_t *name, size_t len)
{
    fputc('"', out);
    for (size_t i = 0; i < len; i++)
        if (name[i] >= 0x20 && name[i] <= 0x7e && name[i] != '"' && name[i] != '\\')
            fputc(name[i], out);
        else
            fprintf(out, "\\x%02x", name[i]);
    fputc('"', out);
}

static void quoted(const uint8_t *name, size_t len)
{
    put_quoted(stdout, name, len);
}

/* Whether the verdict names a file of the job, whose length is that of an accepted target. */
static int has_file(const tufcheck_job *job, const tufcheck_verdict *row)
{
    if (row->source != TUFCHECK_IN_TARGETS)
        return row->source == 0 && row->kind != TUFCHECK_ACCEPTED;
    return row->file_at < job->target_count
        && (row->kind != TUFCHECK_ACCEPTED || job->targets[row->file_at].bytes.len == row->length);
}

static void print_verdict(const tufcheck_job *job, tufcheck_bytes path, const tufcheck_verdict *row, const uint8_t *names)
{
    if (!has_file(job, row))
        fputs("another file: ", stdout);
    fputs(row->kind == TUFCHECK_ACCEPTED ? "ok " : "no ", stdout);
    quoted(path.data, path.len);
    if (row->kind == TUFCHECK_ACCEPTED)
        printf(" %" PRIu64 " ", row->length);
    else
        printf(" %s", row->fault ? FAULTS[row->fault - TUFCHECK_NOT_LISTED] : KINDS[row->kind - TUFCHECK_ACCEPTED]);
    if (row->kind == TUFCHECK_ROLE_REFUSED)
        putchar(' ');
    if (row->kind == TUFCHECK_ACCEPTED || row->kind == TUFCHECK_ROLE_REFUSED)
        quoted(names + row->role_at, row->role_len);
    putchar('\n');
}

static void print_all(const tufcheck_job *job, const tufcheck_answer *answer)
{
    const tufcheck_summary *summary = &answer->summary;
    printf("root %" PRIu64 "\nend %s", summary->root_version, ENDS[summary->end - TUFCHECK_READY]);
    if (summary->fault)
        printf(" %s", FAULTS[summary->fault - TUFCHECK_NOT_LISTED]);
    putchar('\n');
    for (size_t i = 0; i < summary->role_count; i++) {
        fputs("role ", stdout);
        quoted(answer->names + answer->roles[i].name_at, answer->roles[i].name_len);
        printf(" %" PRIu64 "\n", answer->roles[i].version);
    }
    for (size_t i = 0; i < summary->verdict_count; i++)
        print_verdict(job, job->wanted[i], &answer->verdicts[i], answer->names);
}

/* The texts of a cycle, whose numbers are those of the call's family. */
static void print_cycle(FILE *out, const char *call, int32_t result, const tufcheck_summary *summary)
{
    fprintf(out, "%s: %" PRId32 ", %s, %s, %" PRIu64 "\n", call, result, tufcheck_text((int32_t)summary->end),
            tufcheck_text((int32_t)summary->fault), summary->root_version);
}

static void print_digest(FILE *out, int is_listed, const uint8_t *digest, size_t len)
{
    fputc(' ', out);
    if (!is_listed)
        fputc('-', out);
    for (size_t i = 0; is_listed && i < len; i++)
        fprintf(out, "%02x", digest[i]);
}

static int print_listing(FILE *out, const tufcheck_job *job)
{
    tufcheck_listing listing = {.size = sizeof listing};
    int32_t result = tufcheck_list(job, &listing);
    if (result != TUFCHECK_NO_ROOM)
        return 0;
    listing.state = room(listing.state_room = listing.summary.state_len);
    listing.rows = room((listing.row_room = listing.summary.verdict_count) * sizeof *listing.rows);
    listing.names = room(listing.name_room = listing.summary.name_len);
    result = tufcheck_list(job, &listing);
    print_cycle(out, "list", result, &listing.summary);
    for (size_t i = 0; i < listing.summary.verdict_count; i++) {
        const tufcheck_listed *row = &listing.rows[i];
        put_quoted(out, job->wanted[i].data, job->wanted[i].len);
        fprintf(out, " %s, %s, %" PRIu64 " ", tufcheck_text((int32_t)row->kind), tufcheck_text((int32_t)row->fault), row->length);
        put_quoted(out, listing.names + row->role_at, row->role_len);
        put_quoted(out, listing.names + row->name_at, row->name_len);
        print_digest(out, row->has_sha256, row->sha256, sizeof row->sha256);
        print_digest(out, row->has_sha512, row->sha512, sizeof row->sha512);
        fputc('\n', out);
    }
    free(listing.state);
    free(listing.rows);
    free(listing.names);
    return 1;
}

static int print_needs(FILE *out, const tufcheck_job *job)
{
    tufcheck_needs needs = {.size = sizeof needs};
    int32_t result = tufcheck_next(job, &needs);
    if (result < 0 && result != TUFCHECK_NO_ROOM)
        return 0;
    needs.rows = room((needs.row_room = needs.summary.verdict_count) * sizeof *needs.rows);
    needs.names = room(needs.name_room = needs.summary.name_len);
    result = tufcheck_next(job, &needs);
    print_cycle(out, "next", result, &needs.summary);
    for (size_t i = 0; i < needs.summary.verdict_count; i++) {
        const tufcheck_need *row = &needs.rows[i];
        fprintf(out, "%s ", tufcheck_text((int32_t)row->place));
        put_quoted(out, needs.names + row->name_at, row->name_len);
        fprintf(out, " %" PRIu64 " %d\n", row->most, row->optional);
    }
    free(needs.rows);
    free(needs.names);
    return 1;
}

/* A line for each file that a state trusts. */
static int print_trusted(FILE *out, tufcheck_bytes state)
{
    static const char *const names[] = {"root", "timestamp", "snapshot", "targets"};
    tufcheck_trusted trusted = {.size = sizeof trusted};
    if (tufcheck_show(state.data, state.len, &trusted) != TUFCHECK_GOOD)
        return 0;
    const tufcheck_trusted_file rows[] = {trusted.root, trusted.timestamp, trusted.snapshot,
                                          trusted.targets};
    for (int i = 0; i < 4; i++) {
        const tufcheck_trusted_file *row = &rows[i];
        if (row->version != 0)
            fprintf(out, "%s %" PRIu64 " %" PRId64 "\n", names[i], row->version, row->expires);
    }
    return 1;
}

/* Writes what is listed, what is needed with the job's target files and without any, and what the
 * job's state and the new one trust. */
static int write_more(const char *name, const tufcheck_job *job, const tufcheck_answer *answer)
{
    char *path = room(strlen(name) + strlen(".more"));
    FILE *out = fopen(strcat(strcpy(path, name), ".more"), "wb");
    tufcheck_job bare = *job;
    bare.targets = NULL;
    bare.target_count = 0;
    tufcheck_bytes state = {answer->state, answer->summary.state_len};
    int holds = out != NULL && print_listing(out, job) && print_needs(out, job)
        && print_needs(out, &bare) && print_trusted(out, job->state) && print_trusted(out, state);
    free(path);
    return holds && fclose(out) == 0;
}

int main(int argc, char **argv)
{
    char *words[256];
    if (argc < 7 || argc > 256)
        return 3;
    for (int i = 1; i < 6; i++)
        words[i - 1] = argv[i];
    for (int i = 7; i < argc; i++)
        words[i - 2] = argv[i];
    tufcheck_job job = job_of(words, argc - 2);
    tufcheck_answer answer = rooms(0, 0, 0, 0);
    int32_t result = tufcheck_verify(&job, &answer);
    if (result == TUFCHECK_NO_ROOM) {
        tufcheck_summary needed = answer.summary;
        forget(&answer);
        answer = rooms(needed.state_len, needed.verdict_count, needed.role_count, needed.name_len);
        result = tufcheck_verify(&job, &answer);
    }
    if (result < 0)
        return 10 - result;
    print_all(&job, &answer);
    FILE *out = fopen(argv[6], "wb");
    if (out == NULL || fwrite(answer.state, 1, answer.summary.state_len, out) != answer.summary.state_len || fclose(out))
        return 4;
    if (!write_more(argv[6], &job, &answer))
        return 5;
    return result;
}
