/* SPDX-License-Identifier: BSD-2-Clause-Patent */
/* Checks fv_variables_read and fv_signatures_read (README.md says how). */
#include "format.h"
#include "harness.h"
#include "rows.h"

#define MOST_VARIABLES 5000u
enum { STORE_HEAD = 28, LIST_HEAD = 28, OWNER = 16, WORKING_HEAD = 32 };

/* The rows of the two calls, and the call that is tried. */
static fv_variable_row all[MOST_VARIABLES];
static size_t all_count;
static __typeof__(fv_variables_read) *tried;

/* Makes the call. If the buffer is too small, checks that it is full of the first rows, and takes these rows away, so
 * that try_rows finds the buffer untouched. */
static fv_result read_rows(const uint8_t *bytes, size_t len, void *rows, size_t room, size_t *count, fv_fault *fault)
{
    fv_result result = tried(bytes, len, rows, room, count, fault);
    if (result == FV_OK) return result;
    CHECK(result == FV_BUFFER_TOO_SMALL && room < all_count, "variables: %u, room for %lu", result, room);
    CHECK(!room || !memcmp(rows, all, room * sizeof *all), "variables: other rows in a short buffer of %lu", room);
    if (room) memset(rows, UNTOUCHED, room * sizeof *all);
    return result;
}

/* Returns the row that the bytes of the header of a store have. */
static fv_variable_row store_row(const uint8_t *at, const fv_variable_row *row)
{
    bool is_plain = at[0] == 0x16;
    return (fv_variable_row){.offset = row->offset, .length = STORE_HEAD, .part = row->part, .finding = row->finding,
                             .format = is_plain ? FV_STORE_PLAIN : FV_STORE_AUTHENTICATED,
                             .size = (uint32_t)number_at(at + 16, 4), .state = at[21], .formatted = at[20]};
}

/* Returns what State of a variable says. */
static uint32_t status_of(uint8_t state)
{
    return state == 0x3f   ? FV_VARIABLE_ADDED
           : state == 0x3e ? FV_VARIABLE_REPLACED
           : state == 0x3d || state == 0x3c ? FV_VARIABLE_DELETED
           : state == 0x7f ? FV_VARIABLE_HEADER_ONLY
                           : FV_VARIABLE_OTHER;
}

/* Returns the row that the bytes of a variable have, in a store of this format. */
static fv_variable_row variable_row(const uint8_t *at, const fv_variable_row *row, uint32_t format)
{
    bool is_plain = format == FV_STORE_PLAIN;
    const uint8_t *sizes = at + (is_plain ? 8 : 36);
    fv_variable_row made = {.offset = row->offset, .part = row->part, .state = at[2], .status = status_of(at[2]),
                            .attributes = (uint32_t)number_at(at + 4, 4), .header_length = is_plain ? 32 : 60,
                            .name_size = (uint32_t)number_at(sizes, 4), .data_size = (uint32_t)number_at(sizes + 4, 4)};
    made.length = (uint64_t)made.header_length + made.name_size + made.data_size;
    memcpy(&made.guid, sizes + 8, sizeof made.guid);
    if (is_plain) return made;
    made.monotonic_count = number_at(at + 8, 8);
    made.public_key = (uint32_t)number_at(at + 32, 4);
    memcpy(made.time_stamp, at + 16, sizeof made.time_stamp);
    return made;
}

/* Returns the row that the bytes of a part of signature lists have. */
static fv_variable_row list_row(const uint8_t *at, const fv_variable_row *row)
{
    fv_variable_row made = {.offset = row->offset, .length = row->length, .part = row->part};
    memcpy(&made.guid, at, sizeof made.guid);
    if (row->part == FV_PART_SIGNATURE) return made;
    made.size = (uint32_t)number_at(at + 16, 4);
    made.length = LIST_HEAD + number_at(at + 20, 4);
    made.data_size = (uint32_t)number_at(at + 24, 4);
    return made;
}

/* Checks the fields of a row with the bytes. `before` is the last header of a store or of a list before it. */
static void check_fields(const uint8_t *bytes, const fv_variable_row *row, const fv_variable_row *before)
{
    const uint8_t *at = bytes + row->offset;
    fv_variable_row made = {.offset = row->offset, .length = row->length, .part = row->part, .finding = row->finding};
    bool is_list = row->part == FV_PART_LIST_HEADER || row->part == FV_PART_SIGNATURE;
    CHECK(row->part >= FV_PART_STORE_HEADER && row->part <= FV_PART_UNREAD, "variables: part %u", row->part);
    CHECK(row->finding <= FV_FINDING_SIGNATURE_SIZE, "variables: finding %u", row->finding);
    if (row->part == FV_PART_STORE_HEADER) made = store_row(at, row);
    if (row->part == FV_PART_VARIABLE) made = variable_row(at, row, before->format);
    if (is_list) made = list_row(at, row);
    CHECK(!memcmp(row, &made, sizeof made), "variables: the row at %lu, part %u", row->offset, row->part);
    CHECK(row->part != FV_PART_SIGNATURE || row->length == before->data_size, "variables: %lu bytes", row->length);
    CHECK(row->part != FV_PART_FREE || is_all(at, row->length, 0xff), "variables: free bytes at %lu", row->offset);
    CHECK(row->part != FV_PART_FILLER || row->length < 4, "variables: filler of %lu bytes", row->length);
    CHECK(row->part != FV_PART_UNREAD || row->finding, "variables: unread bytes at %lu", row->offset);
    CHECK(row->part != FV_PART_WORKING_BLOCK || row->finding || row->length == WORKING_HEAD + number_at(at + 24, 8),
          "variables: a working block of %lu bytes", row->length);
}

static void try_call(const uint8_t *bytes, size_t len, const uint8_t *parameters, const char *name)
{
    static fv_variable_row again[MOST_VARIABLES];
    const struct rows rows = {name, read_rows, sizeof *all, 8, MOST_VARIABLES, bytes, len, parameters, 0};
    const fv_variable_row *before = NULL;
    uint64_t at = 0;
    size_t count;
    fv_fault fault = unset_fault;
    fv_result result = tried(bytes, len, all, MOST_VARIABLES, &all_count, &fault);
    check_plain(name, result, all_count > MOST_VARIABLES ? FV_BUFFER_TOO_SMALL : FV_OK, &fault);
    CHECK(all_count <= len, "%s: %lu rows", name, all_count);
    if (result) return;
    for (size_t i = 0; i < all_count; i++) {
        CHECK(all[i].offset == at && all[i].length && all[i].length <= len - at, "%s: row %lu is at %lu", name, i, at);
        at += all[i].length;
        check_fields(bytes, all + i, before);
        if (all[i].part == FV_PART_STORE_HEADER || all[i].part == FV_PART_LIST_HEADER) before = all + i;
        saw(name, all[i].part, all[i].finding, all[i].status);
    }
    CHECK(at == len, "%s: the rows end at %lu", name, at);
    result = try_rows(&rows, again, &count, &fault);
    CHECK(result == FV_OK && count == all_count, "%s: %u, %lu rows, then %lu", name, result, all_count, count);
    CHECK(!memcmp(again, all, count * sizeof *all), "%s: other rows for the same bytes", name);
}

void try_variables(const uint8_t *bytes, size_t len, const uint8_t *parameters)
{
    tried = fv_variables_read;
    try_call(bytes, len, parameters, "variables_read");
    tried = fv_signatures_read;
    try_call(bytes, len, parameters, "signatures_read");
}
