/* SPDX-License-Identifier: BSD-2-Clause-Patent */
/* Checks fv_sections_tree, fv_sections_tree_digests and fv_sections_extract (README.md says how). */
#include "rows.h"
#include "volume.h"

/* The largest number of streams of a volume that are tried, and of rows of a stream that are extracted. */
#define MOST_STREAMS 3u
#define MOST_PARTS 9u
/* The most rows of a stream that is tried, and the most bytes of a part that is compared. */
#define MOST_STREAM_ROWS 4000u

static fv_node nodes[MOST_STREAM_ROWS];
static fv_sha256 digests[MOST_STREAM_ROWS];
static uint8_t part[MOST_BUFFER], other[MOST_BUFFER];
static size_t row_of_call;

static fv_result tree(const uint8_t *bytes, size_t len, void *rows, size_t room, size_t *count, fv_fault *fault)
{
    return fv_sections_tree(bytes, len, 0, rows, room, count, fault);
}

static fv_result tree_digests(const uint8_t *bytes, size_t len, void *rows, size_t room, size_t *count, fv_fault *fault)
{
    return fv_sections_tree_digests(bytes, len, 0, rows, room, count, fault);
}

static fv_result extract(const uint8_t *bytes, size_t len, void *buffer, size_t room, size_t *length, fv_fault *fault)
{
    return fv_sections_extract(bytes, len, 0, row_of_call, buffer, room, length, fault);
}

/* Returns the rows of a call over a stream. */
static struct rows rows_of(const char *name, rows_call *call, size_t size, size_t alignment, size_t most,
                           const uint8_t *bytes, size_t len, const uint8_t *parameters, int which)
{
    const struct rows rows = {name, call, size, alignment, most, bytes, len, parameters, which};
    return rows;
}

/* The rows inside row `row` of the volume are the rows of the stream, with other depths, parents and offsets. */
static void check_rows(const struct volume *v, size_t row, size_t count)
{
    const fv_node *holder = v->nodes + row;
    for (size_t i = 0; i < count; i++) {
        fv_node moved = nodes[i];
        moved.offset += holder->offset;
        moved.depth += holder->depth + 1;
        moved.parent = moved.parent == FV_NO_PARENT ? row : moved.parent + row + 1;
        CHECK(row + 1 + i < v->node_count && !memcmp(&moved, v->nodes + row + 1 + i, sizeof moved),
              "sections_tree: number %zu, in number %zu", i, row);
    }
    CHECK(row + 1 + count == v->node_count || v->nodes[row + 1 + count].depth <= holder->depth,
          "sections_tree: more rows in number %zu", row);
}

/* The digests of the stream are the digests of the volume, if both have some. */
static void check_digests(const struct volume *v, size_t row, const uint8_t *bytes, size_t count)
{
    static fv_sha256 of_volume[MOST_BUFFER / sizeof(fv_sha256)];
    size_t found, all;
    fv_fault fault;
    const struct rows rows = rows_of("sections_tree_digests", tree_digests, sizeof *digests, 1, MOST_STREAM_ROWS, bytes,
                                     v->nodes[row].length, v->parameters, 1);
    fv_result result = try_rows(&rows, digests, &found, &fault);
    saw(__func__, result, (uint32_t)count, 0);
    check_result("sections_tree_digests", result, &fault, FV_FAULT_TOP_ALIGNMENT, v->len);
    CHECK(!result || result == FV_FAULT_NO_ROOM || result == FV_FAULT_TOP_ALIGNMENT, "sections_tree_digests: %u", result);
    CHECK(!result || !v->image, "sections_tree_digests: %u, but the volume has an image", result);
    if (result) return;
    CHECK(found == count, "sections_tree_digests: %zu of %zu rows", found, count);
    if (!v->image || v->node_count > sizeof of_volume / sizeof *of_volume) return;
    result = fv_volume_tree_digests(v->bytes, v->len, of_volume, sizeof of_volume / sizeof *of_volume, &all, &fault);
    CHECK(result == FV_OK && !memcmp(digests, of_volume + row + 1, count * sizeof *digests),
          "sections_tree_digests: another digest in number %zu", row);
}

/* A row of the stream has the same bytes as the row of the volume, or both are rejected alike. */
static void check_part(const struct volume *v, size_t row, const uint8_t *bytes, size_t i)
{
    size_t length = 0, wanted = 0;
    fv_fault fault, of_volume = unset_fault;
    const struct rows rows = rows_of("sections_extract", extract, 1, 1, sizeof part, bytes, v->nodes[row].length,
                                     v->parameters, (int)(i % 3));
    row_of_call = i;
    fv_result result = try_rows(&rows, part, &length, &fault);
    fv_result of = fv_volume_extract(v->bytes, v->len, row + 1 + i, other, sizeof other, &wanted, &of_volume);
    saw(__func__, result, nodes[i].kind * 4 + nodes[i].content, nodes[i].depth);
    CHECK(result == of && (!result || is_same_fault(&fault, &of_volume)), "sections_extract: %u, not %u", result, of);
    if (!result)
        CHECK(length == wanted && !memcmp(part, other, length), "sections_extract: number %zu, in number %zu", i, row);
}

/* Checks that the stream has no row with this number. */
static void check_no_row(const uint8_t *bytes, size_t len, size_t row)
{
    size_t length = UNTOUCHED_64;
    fv_fault fault = unset_fault;
    fv_result result = fv_sections_extract(bytes, len, 0, row, no_buffer(), 0, &length, &fault);
    check_no_block_is_kept("sections_extract");
    check_plain("sections_extract", result, FV_NOT_FOUND, &fault);
    CHECK(length == UNTOUCHED_64, "sections_extract has changed the length");
}

/* Tries the data of a file, or the body of a group, as a stream. */
static void try_stream(const struct volume *v, size_t row)
{
    const fv_node *holder = v->nodes + row;
    const uint8_t *bytes = place_stream(v->bytes + holder->offset, holder->length);
    size_t count;
    fv_fault fault;
    const struct rows rows = rows_of("sections_tree", tree, sizeof *nodes, 8, MOST_STREAM_ROWS, bytes, holder->length,
                                     v->parameters, 2);
    fv_result result = try_rows(&rows, nodes, &count, &fault);
    check_plain("sections_tree", result, FV_OK, &fault);
    if (count > MOST_STREAM_ROWS) return;
    check_rows(v, row, count);
    check_digests(v, row, bytes, count);
    for (size_t i = 0; i < count && i < MOST_PARTS; i++)
        check_part(v, row, bytes, count <= MOST_PARTS ? i : (i * 7 + v->parameters[ROW_CHOICE]) % count);
    check_no_row(bytes, holder->length, count);
    check_no_row(bytes, holder->length, SIZE_MAX);
}

void try_streams(const struct volume *v)
{
    unsigned tried = 0;
    for (size_t i = 0; v->nodes && i < v->node_count && tried < MOST_STREAMS; i++) {
        if (v->nodes[i].content != FV_CONTENT_SECTIONS) continue;
        tried++;
        try_stream(v, i);
    }
}

/* Checks the results for bytes that may be no stream: the three calls have the same fault. */
void try_sections(const uint8_t *bytes, size_t len, const uint8_t *parameters)
{
    size_t count, length;
    fv_fault fault, same;
    const struct rows rows = rows_of("sections_tree", tree, sizeof *nodes, 8, MOST_STREAM_ROWS, bytes, len, parameters, 0);
    fv_result result = try_rows(&rows, nodes, &count, &fault);
    check_result("sections_tree", result, &fault, FV_FAULT_DEPTH, len);
    saw(__func__, result, fault.depth, 0);
    try_sections_survey(bytes, len, parameters);
    const struct rows sums = rows_of("sections_tree_digests", tree_digests, sizeof *digests, 1, MOST_STREAM_ROWS, bytes,
                                     len, parameters, 1);
    fv_result of_digests = try_rows(&sums, digests, &length, &same);
    if (result)
        CHECK(of_digests == result && is_same_fault(&fault, &same), "sections_tree_digests: %u, not %u", of_digests, result);
    else if (!of_digests)
        CHECK(length == count, "sections_tree_digests: %zu of %zu rows", length, count);
    row_of_call = parameters[ROW_CHOICE];
    const struct rows parts = rows_of("sections_extract", extract, 1, 1, sizeof part, bytes, len, parameters, 2);
    if (!result && row_of_call >= count) {
        check_no_row(bytes, len, row_of_call);
        return;
    }
    fv_result of_part = try_rows(&parts, part, &length, &same);
    if (result)
        CHECK(of_part == result && is_same_fault(&fault, &same), "sections_extract: %u, not %u", of_part, result);
    else
        check_result("sections_extract", of_part, &same, FV_FAULT_TOP_ALIGNMENT, len);
}
