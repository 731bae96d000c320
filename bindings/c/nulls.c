/* The calls of the header, over the proved ones, which take no null pointer: null becomes another
 * address, where nobody reads or writes, since its length or count is 0. bindings/link.sh names the
 * proved calls proved_*, and hides them.
 *
 * Only the struct of a call is copied, and of an answer the summary back. What a list of the job
 * points to stays as it is: there null with length 0 goes to the proved code, which reads nothing
 * through a pointer of length 0. */
#include "tufcheck.h"

int32_t proved_first(const uint8_t *root, size_t root_len, uint8_t *state, size_t state_room,
                     size_t *len);
int32_t proved_show(const uint8_t *state, size_t state_len, tufcheck_trusted *trusted);
int32_t proved_next(const tufcheck_job *job, tufcheck_needs *needs);
int32_t proved_list(const tufcheck_job *job, tufcheck_listing *listing);
int32_t proved_verify(const tufcheck_job *job, tufcheck_answer *answer);
int32_t proved_lms_verify(const uint8_t *key, size_t key_len, const uint8_t *message,
                          size_t message_len, const uint8_t *signature, size_t signature_len);

/* Where null leads to, aligned for every struct. */
static uint64_t nothing;

static const void *from(const void *at)
{
    return at != NULL ? at : &nothing;
}

static void *into(void *at)
{
    return at != NULL ? at : &nothing;
}

static tufcheck_job without_null(const tufcheck_job *job)
{
    tufcheck_job own = *job;
    own.state.data = from(own.state.data);
    own.metadata = from(own.metadata);
    own.targets = from(own.targets);
    own.digests = from(own.digests);
    own.wanted = from(own.wanted);
    return own;
}

int32_t tufcheck_first(const uint8_t *root, size_t root_len, uint8_t *state, size_t state_room,
                       size_t *len)
{
    return proved_first(from(root), root_len, into(state), state_room, len);
}

int32_t tufcheck_show(const uint8_t *state, size_t state_len, tufcheck_trusted *trusted)
{
    if (trusted->size != sizeof *trusted)
        return TUFCHECK_NO_SIZE;
    return proved_show(from(state), state_len, trusted);
}

int32_t tufcheck_next(const tufcheck_job *job, tufcheck_needs *needs)
{
    if (job->size != sizeof *job || needs->size != sizeof *needs)
        return TUFCHECK_NO_SIZE;
    tufcheck_job own = without_null(job);
    tufcheck_needs rooms = *needs;
    rooms.rows = into(rooms.rows);
    rooms.names = into(rooms.names);
    int32_t result = proved_next(&own, &rooms);
    needs->summary = rooms.summary;
    return result;
}

int32_t tufcheck_list(const tufcheck_job *job, tufcheck_listing *listing)
{
    if (job->size != sizeof *job || listing->size != sizeof *listing)
        return TUFCHECK_NO_SIZE;
    tufcheck_job own = without_null(job);
    tufcheck_listing rooms = *listing;
    rooms.state = into(rooms.state);
    rooms.rows = into(rooms.rows);
    rooms.names = into(rooms.names);
    int32_t result = proved_list(&own, &rooms);
    listing->summary = rooms.summary;
    return result;
}

int32_t tufcheck_verify(const tufcheck_job *job, tufcheck_answer *answer)
{
    if (job->size != sizeof *job || answer->size != sizeof *answer)
        return TUFCHECK_NO_SIZE;
    tufcheck_job own = without_null(job);
    tufcheck_answer rooms = *answer;
    rooms.state = into(rooms.state);
    rooms.verdicts = into(rooms.verdicts);
    rooms.roles = into(rooms.roles);
    rooms.names = into(rooms.names);
    int32_t result = proved_verify(&own, &rooms);
    answer->summary = rooms.summary;
    return result;
}

int32_t tufcheck_lms_verify(const uint8_t *key, size_t key_len, const uint8_t *message,
                            size_t message_len, const uint8_t *signature, size_t signature_len)
{
    return proved_lms_verify(from(key), key_len, from(message), message_len, from(signature),
                             signature_len);
}
