/* SPDX-License-Identifier: BSD-2-Clause-Patent */
/* Checks fv_image_open, and the calls that lend what it has found (README.md says how). */
#include "harness.h"

/* The most bytes of all contents, and the most rows of a survey that are compared. */
#define LIMIT (1u << 17)
#define MOST_ROWS 16000u

enum { COMPRESSED = 1, DEFINED_BY_GUID = 2, DEEPEST = 8 };

/* The image that is open: the packed sections, of which this many are opened, and the number of all. */
static const fv_image *image;
static const fv_packed *packed;
static size_t opened, all;

/* Returns the bytes of a packed section. */
static const uint8_t *section_of(const fv_packed *row)
{
    size_t size;
    const uint8_t *bytes = fv_image_source_bytes(image, row->source, &size);
    CHECK(row->source <= opened && row->offset <= size && row->length <= size - row->offset,
          "image_open: a section at %lu of source %lu", row->offset, row->source);
    return bytes + row->offset;
}

/* Checks the source that is the contents of this section. */
static void check_opened(const fv_packed *row)
{
    static uint8_t contents[LIMIT];
    size_t size, number = (size_t)(row - packed) + 1;
    const uint8_t *bytes = fv_image_source_bytes(image, number, &size);
    fv_contents found = {0, 0, 0};
    CHECK(row->source < number && !row->reason && is_all(&row->fault, sizeof row->fault, 0) && row->depth < DEEPEST,
          "image_open: source %zu: reason %u", number, row->reason);
    CHECK(row->contents_length == size && size <= LIMIT, "image_open: source %zu has %zu bytes", number, size);
    fv_result result = fv_section_open(section_of(row), row->length, size, contents, sizeof contents, &found, NULL);
    CHECK(result == FV_OK && found.length == size && found.way == row->way && !memcmp(contents, bytes, size),
          "image_open: source %zu is not the contents of its section: %u", number, result);
}

/* Checks a section that is not opened. (A section can have another fault with another limit if its data are LZMA, maybe
 * after four other bytes.) */
static void check_closed(const fv_packed *row)
{
    fv_contents found;
    fv_fault fault = unset_fault;
    CHECK(!row->way && !row->contents_length && row->reason >= FV_REASON_FAULT && row->reason <= FV_REASON_LIMIT &&
              (row->depth == DEEPEST) == (row->reason == FV_REASON_DEPTH),
          "image_open: reason %u at depth %u", row->reason, row->depth);
    CHECK((row->reason == FV_REASON_FAULT) == (row->fault.result != 0), "image_open: reason %u, and fault %u", row->reason,
          row->fault.result);
    fv_result result = fv_section_open(section_of(row), row->length, LIMIT, NULL, 0, &found, &fault);
    if (row->reason != FV_REASON_FAULT || is_counted(result) || fault.result == FV_FAULT_OPEN_TOO_LONG) return;
    CHECK(is_same_fault(&fault, &row->fault) || row->fault.result == FV_FAULT_OPEN_TOO_LONG,
          "image_open: fault %u at %lu, not %u at %lu", row->fault.result, row->fault.offset, result, fault.offset);
}

/* Checks the rows of a source: they are the rows of its survey. Its packed sections are the next ones among those that
 * are opened and those that are not. */
static void check_source(size_t source, size_t *next_opened, size_t *next_closed)
{
    static fv_survey_row rows[MOST_ROWS];
    size_t size, count, lent;
    const uint8_t *bytes = fv_image_source_bytes(image, source, &size);
    const fv_survey_row *its = fv_image_source_rows(image, source, &lent);
    fv_result result = source ? fv_sections_survey(bytes, size, rows, MOST_ROWS, &count, NULL)
                              : fv_image_survey(bytes, size, rows, MOST_ROWS, &count, NULL);
    CHECK(is_counted(result) && count == lent, "image_open: source %zu has %zu rows, not %zu", source, lent, count);
    CHECK(!memcmp(its, rows, (count < MOST_ROWS ? count : MOST_ROWS) * sizeof *rows), "image_open: rows of %zu", source);
    uint32_t depth = source ? packed[source - 1].depth + 1 : 0;
    uint64_t end = 0; /* of the last section that is opened */
    for (const fv_survey_row *row = its; row < its + lent; row++) {
        if (row->kind != FV_ROW_SECTION || (row->efi_type != COMPRESSED && row->efi_type != DEFINED_BY_GUID)) continue;
        if (row->offset < end) continue; /* a part of the contents of that section */
        const fv_packed *a = packed + *next_opened, *b = packed + *next_closed;
        bool is_opened = *next_opened < opened && a->source == source && a->offset == row->offset;
        CHECK(is_opened || (*next_closed < all && b->source == source && b->offset == row->offset),
              "image_open: the section at %lu of source %zu is missing", row->offset, source);
        const fv_packed *it = is_opened ? a : b;
        CHECK(it->length == row->length && it->depth == depth && !it->reserved, "image_open: section at %lu of %zu",
              row->offset, source);
        ++*(is_opened ? next_opened : next_closed);
        if (is_opened) end = row->offset + row->length;
    }
}

/* Checks all that the open image lends. */
static void check_image(const uint8_t *bytes, size_t len)
{
    size_t size, none;
    packed = fv_image_packed(image, &all);
    opened = fv_image_source_count(image) - 1;
    CHECK(opened <= all, "image_open: %zu of %zu sections are opened", opened, all);
    CHECK(fv_image_source_bytes(image, 0, &size) == bytes && size == len, "image_open: source 0 is not the image");
    CHECK(!fv_image_source_bytes(image, opened + 1, &none) && !none && !fv_image_source_rows(image, opened + 1, &none) &&
              !none,
          "image_open: a source after the last");
    size_t next_opened = 0, next_closed = opened;
    for (size_t i = 0; i <= opened; i++) check_source(i, &next_opened, &next_closed);
    CHECK(next_opened == opened && next_closed == all, "image_open: a section without a row");
    for (size_t i = 0; i < opened; i++) check_opened(packed + i);
    for (size_t i = opened; i < all; i++) check_closed(packed + i);
    saw(__func__, opened > 9 ? 9 : (uint32_t)opened, all - opened > 9 ? 9 : (uint32_t)(all - opened),
        all > opened ? packed[all - 1].reason : 0);
}

void try_levels(const uint8_t *bytes, size_t len, const uint8_t *parameters)
{
    fv_image *made = NULL;
    fv_fault fault = unset_fault, *wanted = FAULT_OR_NULL(parameters, &fault);
    check_plain("image_open", fv_image_open(bytes, len, LIMIT, &made, &fault), FV_OK, &fault);
    image = made;
    check_image(bytes, len);
    fv_image_close(made);
    check_no_block_is_kept("image_close");
    refuse_allocation(parameters[REFUSED]);
    fv_result result = fv_image_open(bytes, len, LIMIT, &made, wanted);
    if (result) CHECK(!made, "image_open: %u, and a handle", result);
    fv_image_close(made);
    check_refusal("image_open", result, FV_OK, wanted);
}
