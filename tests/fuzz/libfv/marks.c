/* SPDX-License-Identifier: BSD-2-Clause-Patent */
/* Checks the calls with the flag FV_WITHOUT_MARKS (README.md says how). */
#include "format.h"
#include "rows.h"
#include "volume.h"

/* The largest number of rows that are extracted, and of streams that are tried. */
#define MOST_PARTS 5u
#define MOST_STREAMS 3u

/* The volume without marks, which is made here, and its rows. */
static uint8_t plain[MOST_BUFFER];
static fv_node nodes[MOST_NODES];
static uint8_t part[MOST_BUFFER], other[MOST_BUFFER];
static size_t row_of_call;

#define ROWS_CALL_WITH(call, function)                                                                                 \
    static fv_result call(const uint8_t *bytes, size_t len, void *rows, size_t room, size_t *count, fv_fault *fault)   \
    {                                                                                                                  \
        return function(bytes, len, FV_WITHOUT_MARKS, rows, room, count, fault);                                       \
    }
ROWS_CALL_WITH(tree, fv_volume_tree_with)
ROWS_CALL_WITH(digests, fv_volume_tree_digests_with)
ROWS_CALL_WITH(stream_tree, fv_sections_tree)

static fv_result extract(const uint8_t *bytes, size_t len, void *buffer, size_t room, size_t *length, fv_fault *fault)
{
    return fv_volume_extract_with(bytes, len, FV_WITHOUT_MARKS, row_of_call, buffer, room, length, fault);
}

/* Makes `plain`: takes the marks away one after another, each from the file for which fv_volume_tree reports fault 15.
 * Returns the last result, and its rows. */
static fv_result take_marks(const struct volume *v, size_t *count, fv_fault *fault)
{
    fv_result result;
    memcpy(plain, v->bytes, v->len);
    while ((result = fv_volume_tree(plain, v->len, nodes, MOST_NODES, count, fault)) == FV_FAULT_FIXED) {
        uint64_t at = fault->offset;
        CHECK(at >= ATTRIBUTES && at < v->len && plain[at] & FIXED, "marks: no file is fixed at %lu", at);
        plain[at] = (uint8_t)(plain[at] - FIXED);
        plain[at - ATTRIBUTES + HEAD_SUM] = (uint8_t)(plain[at - ATTRIBUTES + HEAD_SUM] + FIXED);
    }
    return result == FV_BUFFER_TOO_SMALL ? FV_OK : result;
}

/* The digests with the flag are the digests of the volume without marks. */
static void check_digests(const struct volume *v)
{
    static fv_sha256 found[MOST_BUFFER / sizeof(fv_sha256)], wanted[MOST_BUFFER / sizeof(fv_sha256)];
    const size_t most = sizeof found / sizeof *found;
    const struct rows rows = {"digests_with", digests, sizeof *found, 1, most, v->bytes, v->len, v->parameters, 1};
    size_t count, all = 0;
    fv_fault fault, same = unset_fault;
    fv_result result = try_rows(&rows, found, &count, &fault);
    fv_result of = fv_volume_tree_digests(plain, v->len, wanted, most, &all, &same);
    if (of == FV_BUFFER_TOO_SMALL) return;
    CHECK(result == of && is_same_fault(&fault, &same), "digests_with: %u, not %u", result, of);
    if (!result)
        CHECK(count == all && !memcmp(found, wanted, count * sizeof *found), "digests_with: another digest");
}

/* A row has the same bytes with the flag as in the volume without marks. */
static void check_part(const struct volume *v, size_t row)
{
    const struct rows rows = {"extract_with", extract, 1, 1, sizeof part, v->bytes, v->len, v->parameters, row % 3};
    size_t length, wanted = 0;
    fv_fault fault, same = unset_fault;
    row_of_call = row;
    fv_result result = try_rows(&rows, part, &length, &fault);
    fv_result of = fv_volume_extract(plain, v->len, row, other, sizeof other, &wanted, &same);
    CHECK(result == of && is_same_fault(&fault, &same), "extract_with: %u, not %u", result, of);
    if (!result) CHECK(length == wanted && !memcmp(part, other, length), "extract_with: row %zu is another", row);
}

/* A stream has the same rows and the same first part with the flag as in the volume without marks. */
static void check_stream(const struct volume *v, const fv_node *holder)
{
    static fv_node found[MOST_NODES], wanted[MOST_NODES];
    const uint8_t *bytes = place_stream(v->bytes + holder->offset, holder->length), *its = plain + holder->offset;
    const struct rows rows = {"sections_tree", stream_tree, sizeof *found, 8, MOST_NODES, bytes, holder->length,
                              v->parameters, 0};
    size_t count, all = 0, length = 0, its_length = 0;
    fv_fault fault, same = unset_fault;
    fv_result result = try_rows(&rows, found, &count, &fault);
    fv_result of = fv_sections_tree(its, holder->length, 0, wanted, MOST_NODES, &all, &same);
    if (of == FV_BUFFER_TOO_SMALL) return;
    CHECK(result == of && is_same_fault(&fault, &same), "sections_tree: with the flag %u, not %u", result, of);
    CHECK(count == all && !memcmp(found, wanted, count * sizeof *found), "sections_tree: another row with the flag");
    if (!count) return;
    result = fv_sections_extract(bytes, holder->length, FV_WITHOUT_MARKS, 0, part, sizeof part, &length, &fault);
    of = fv_sections_extract(its, holder->length, 0, 0, other, sizeof other, &its_length, &same);
    CHECK(result == of && length == its_length && (result || !memcmp(part, other, length)),
          "sections_extract: with the flag %u, not %u", result, of);
    fv_sha256 digest, its_digest;
    result = fv_sections_tree_digests(bytes, holder->length, FV_WITHOUT_MARKS, &digest, 1, &count, &fault);
    of = fv_sections_tree_digests(its, holder->length, 0, &its_digest, 1, &all, &same);
    CHECK(result == of && (result || !memcmp(&digest, &its_digest, sizeof digest)),
          "sections_tree_digests: with the flag %u, not %u", result, of);
}

void try_marks(const struct volume *v)
{
    static fv_node found[MOST_NODES];
    const struct rows rows = {"tree_with", tree, sizeof *found, 8, MOST_NODES, v->bytes, v->len, v->parameters, 2};
    size_t count, all = 0;
    fv_fault fault, same = unset_fault;
    fv_result of = take_marks(v, &all, &same);
    fv_result result = try_rows(&rows, found, &count, &fault);
    bool is_changed = memcmp(plain, v->bytes, v->len) != 0;
    saw(__func__, result, is_changed, fault.depth);
    if (all > MOST_NODES) return;
    CHECK(result == of && is_same_fault(&fault, &same), "tree_with: %u, not %u", result, of);
    if (result || (!is_changed && v->parameters[ROW_CHOICE] & 3)) return;
    CHECK(count == all && !memcmp(found, nodes, count * sizeof *found), "tree_with: another row");
    check_digests(v);
    for (size_t i = 0; i < count && i < MOST_PARTS; i++)
        check_part(v, count <= MOST_PARTS ? i : i ? (i * 5 + v->parameters[ROW_CHOICE]) % count : 0);
    for (size_t i = 0, tried = 0; i < count && tried < MOST_STREAMS; i++)
        if (nodes[i].content == FV_CONTENT_SECTIONS) tried++, check_stream(v, nodes + i);
}
