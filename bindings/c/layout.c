/* Checks that the header has the layout of the library's structs on 64-bit x86: it compiles only if
 * each field is where the library has it. */
#include "tufcheck.h"

#define AT(type, field, at) _Static_assert(offsetof(type, field) == at, #type "." #field)
#define SIZE(type, size) _Static_assert(sizeof(type) == size, #type)

SIZE(tufcheck_bytes, 16);
AT(tufcheck_bytes, len, 8);

SIZE(tufcheck_file, 32);
AT(tufcheck_file, bytes, 16);

SIZE(tufcheck_digests, 128);
AT(tufcheck_digests, length, 16);
AT(tufcheck_digests, has_sha256, 24);
AT(tufcheck_digests, has_sha512, 25);
AT(tufcheck_digests, sha256, 26);
AT(tufcheck_digests, sha512, 58);

SIZE(tufcheck_job, 104);
AT(tufcheck_job, state, 8);
AT(tufcheck_job, metadata, 24);
AT(tufcheck_job, metadata_count, 32);
AT(tufcheck_job, targets, 40);
AT(tufcheck_job, target_count, 48);
AT(tufcheck_job, digests, 56);
AT(tufcheck_job, digest_count, 64);
AT(tufcheck_job, wanted, 72);
AT(tufcheck_job, wanted_count, 80);
AT(tufcheck_job, moment, 88);
AT(tufcheck_job, limit, 96);

SIZE(tufcheck_summary, 80);
AT(tufcheck_summary, fault, 4);
AT(tufcheck_summary, root_version, 8);
AT(tufcheck_summary, state_len, 16);
AT(tufcheck_summary, verdict_count, 24);
AT(tufcheck_summary, role_count, 32);
AT(tufcheck_summary, name_len, 40);
AT(tufcheck_summary, reserved, 48);

SIZE(tufcheck_verdict, 64);
AT(tufcheck_verdict, fault, 4);
AT(tufcheck_verdict, length, 8);
AT(tufcheck_verdict, role_at, 16);
AT(tufcheck_verdict, role_len, 24);
AT(tufcheck_verdict, file_at, 32);
AT(tufcheck_verdict, source, 40);
AT(tufcheck_verdict, reserved, 44);

SIZE(tufcheck_role, 40);
AT(tufcheck_role, name_at, 8);
AT(tufcheck_role, name_len, 16);
AT(tufcheck_role, reserved, 24);

SIZE(tufcheck_answer, 152);
AT(tufcheck_answer, state, 8);
AT(tufcheck_answer, state_room, 16);
AT(tufcheck_answer, verdicts, 24);
AT(tufcheck_answer, roles, 40);
AT(tufcheck_answer, names, 56);
AT(tufcheck_answer, summary, 72);

SIZE(tufcheck_listed, 176);
AT(tufcheck_listed, length, 8);
AT(tufcheck_listed, role_at, 16);
AT(tufcheck_listed, role_len, 24);
AT(tufcheck_listed, name_at, 32);
AT(tufcheck_listed, name_len, 40);
AT(tufcheck_listed, has_sha256, 48);
AT(tufcheck_listed, has_sha512, 49);
AT(tufcheck_listed, sha256, 50);
AT(tufcheck_listed, sha512, 82);
AT(tufcheck_listed, reserved, 146);

SIZE(tufcheck_listing, 136);
AT(tufcheck_listing, state, 8);
AT(tufcheck_listing, rows, 24);
AT(tufcheck_listing, names, 40);
AT(tufcheck_listing, summary, 56);

SIZE(tufcheck_need, 48);
AT(tufcheck_need, optional, 4);
AT(tufcheck_need, most, 8);
AT(tufcheck_need, name_at, 16);
AT(tufcheck_need, name_len, 24);
AT(tufcheck_need, reserved, 32);

SIZE(tufcheck_needs, 120);
AT(tufcheck_needs, rows, 8);
AT(tufcheck_needs, names, 24);
AT(tufcheck_needs, summary, 40);

SIZE(tufcheck_trusted_file, 32);
AT(tufcheck_trusted_file, expires, 8);
AT(tufcheck_trusted_file, reserved, 16);

SIZE(tufcheck_trusted, 136);
AT(tufcheck_trusted, root, 8);
AT(tufcheck_trusted, timestamp, 40);
AT(tufcheck_trusted, snapshot, 72);
AT(tufcheck_trusted, targets, 104);
