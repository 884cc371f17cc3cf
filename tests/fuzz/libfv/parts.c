/* SPDX-License-Identifier: BSD-2-Clause-Patent */
/* Checks fv_volume_extract (README.md says how). */
#include "rows.h"
#include "volume.h"

/* The largest number of rows that are extracted. */
#define MOST_PARTS 9u

static uint8_t part[MOST_BUFFER];
static size_t row_of_call;

static fv_result extract(const uint8_t *bytes, size_t len, void *buffer, size_t room, size_t *length, fv_fault *fault)
{
    return fv_volume_extract(bytes, len, row_of_call, buffer, room, length, fault);
}

/* Makes all calls for a row. Reads its bytes to `part`. */
static fv_result try_row(const struct volume *v, size_t row, size_t *length, fv_fault *fault)
{
    const struct rows rows = {"extract", extract, 1, 1, sizeof part, v->bytes, v->len, v->parameters, row % 3};
    row_of_call = row;
    return try_rows(&rows, part, length, fault);
}

/* Checks that a part is rejected only if a volume in it does not fit in its canonical form. Then the parent of the part
 * is rejected too, and the whole volume has no image. */
static void check_no_part(const struct volume *v, size_t row, fv_result result, const fv_fault *fault)
{
    size_t length;
    check_result("extract", result, fault, FV_FAULT_TOP_ALIGNMENT, v->len);
    CHECK((result == FV_FAULT_NO_ROOM || result == FV_FAULT_TOP_ALIGNMENT) && !v->image, "extract: %u, normalise: %u",
          result, v->result);
    if (!row) {
        check_agrees("extract of the first row", v, result, fault, v->result, FV_FAULT_TOP_ALIGNMENT);
        return;
    }
    uint64_t parent = v->nodes[row].parent;
    fv_result above = fv_volume_extract(v->bytes, v->len, parent, NULL, 0, &length, NULL);
    CHECK(above == FV_FAULT_NO_ROOM || above == FV_FAULT_TOP_ALIGNMENT, "extract: %u of row %zu, %u of %lu", result,
          row, above, parent);
}

/* Checks the bytes in `part`. The image has the same bytes, and so has the input if only their place may differ. */
static void check_part(const struct volume *v, size_t row)
{
    const fv_node *node = v->nodes + row;
    if (node->kind == FV_NODE_VOLUME || node->content == FV_CONTENT_VOLUME) {
        uint32_t canonical = 9;
        fv_fault fault = unset_fault;
        fv_result result = fv_volume_is_canonical(part, node->length, &canonical, &fault);
        check_plain("is_canonical", result, FV_OK, &fault);
        CHECK(canonical == 1, "extract: the volume of row %zu is not its own image", row);
    }
    bool is_stored = node->content == FV_CONTENT_BYTES && (node->kind == FV_NODE_SECTION || node->efi_type == 0x01);
    if (is_stored)
        CHECK(!memcmp(part, v->bytes + node->offset, node->length), "extract: row %zu is not in the input", row);
    if (v->image_nodes)
        CHECK(!memcmp(part, v->image + v->image_nodes[row].offset, node->length),
              "extract: row %zu is not in the image", row);
}

static void try_part(const struct volume *v, size_t row)
{
    const fv_node *node = v->nodes + row;
    size_t length;
    fv_fault fault;
    fv_result result = try_row(v, row, &length, &fault);
    saw(__func__, result, node->kind * 4 + node->content, node->depth);
    if (result) {
        check_no_part(v, row, result, &fault);
        return;
    }
    CHECK(length == node->length, "extract: row %zu: %lu of %lu", row, length, node->length);
    check_part(v, row);
}

/* Checks that the tree has no row with this number. */
static void check_no_row(const struct volume *v, size_t row)
{
    size_t length = UNTOUCHED_64;
    fv_fault fault = unset_fault;
    fv_result result = fv_volume_extract(v->bytes, v->len, row, no_buffer(), 0, &length, &fault);
    check_no_block_is_kept("extract");
    check_plain("extract", result, FV_NOT_FOUND, &fault);
    CHECK(length == UNTOUCHED_64, "extract has changed the length");
}

/* Checks that each row of a rejected volume has the fault of the volume, also a row that cannot exist. */
static void check_rejected(const struct volume *v)
{
    size_t length, row = v->parameters[ROW_CHOICE] & 1 ? SIZE_MAX : v->parameters[ROW_CHOICE] / 2;
    fv_fault fault;
    fv_result result = try_row(v, row, &length, &fault);
    check_agrees("extract", v, result, &fault, v->unread, FV_FAULT_DEPTH);
}

void try_parts(const struct volume *v)
{
    if (v->unread) {
        check_rejected(v);
        return;
    }
    for (size_t i = 0; v->nodes && i < v->node_count && i < MOST_PARTS; i++) {
        size_t choice = i ? (i * 7 + v->parameters[ROW_CHOICE]) % v->node_count : 0;
        try_part(v, v->node_count <= MOST_PARTS ? i : choice);
    }
    check_no_row(v, v->node_count);
    check_no_row(v, SIZE_MAX);
}
