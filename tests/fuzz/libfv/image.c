/* SPDX-License-Identifier: BSD-2-Clause-Patent */
/* Checks fv_image_scan, fv_image_normalise and fv_image_check (README.md says how). */
#include "harness.h"
#include "rows.h"

#define MOST_VOLUMES 8000u

static fv_header headers[MOST_VOLUMES];

/* Checks that no volume begins at a multiple of 8 between these two offsets. */
static void check_none_between(const uint8_t *bytes, size_t len, uint64_t from, uint64_t to)
{
    for (uint64_t at = (from + 7) & ~UINT64_C(7); at < to; at += 8) {
        fv_header header;
        if (len - at >= 56 && !memcmp(bytes + at + 40, "_FVH", 4))
            CHECK(fv_header_read(bytes + at, len - at, &header, NULL) != FV_OK,
                  "image_scan: the volume at %lu is missing", at);
    }
}

/* Checks that a row agrees with the header at its offset. */
static void check_header(const uint8_t *bytes, size_t len, size_t number, uint64_t end)
{
    uint64_t at = headers[number].offset;
    fv_header header;
    fv_fault fault = unset_fault;
    CHECK(at % 8 == 0 && at >= end && at < len, "image_scan: number %lu is at %lu", number, at);
    check_plain("header_read", fv_header_read(bytes + at, len - at, &header, &fault), FV_OK, &fault);
    header.offset = at;
    CHECK(!memcmp(&header, headers + number, sizeof header), "image_scan: number %lu is not its header", number);
}

/* Writes to `expected` the image with each of its volumes normalised, up to the first volume that has a fault. Returns
 * this fault.
 */
static fv_result expected_image(const uint8_t *bytes, size_t len, size_t count, uint8_t *expected, fv_fault *fault)
{
    uint64_t end = 0;
    fv_result result = FV_OK;
    memcpy(expected, bytes, len);
    for (size_t i = 0; i < count; i++) {
        uint64_t at = headers[i].offset, length = headers[i].length;
        check_header(bytes, len, i, end);
        check_none_between(bytes, len, end, at);
        end = at + length;
        if (result) continue;
        result = fv_volume_normalise(bytes + at, length, expected + at, length, fault);
        if (result) fault->offset += at;
    }
    check_none_between(bytes, len, end, len);
    return result;
}

COPY_CALL(normalise, fv_image_normalise)

static void try_image_normalise(const uint8_t *bytes, size_t len, size_t count, const uint8_t *parameters)
{
    static uint8_t expected[MOST_BUFFER], image[MOST_BUFFER];
    const struct rows rows = {"image_normalise", normalise, 1, 1, sizeof image, bytes, len, parameters, 0};
    size_t written;
    fv_fault fault, usual = {0, 0, 0, 0, 0};
    fv_result otherwise = expected_image(bytes, len, count, expected, &usual);
    fv_result result = try_rows(&rows, image, &written, &fault);
    check_result("image_normalise", result, &fault, FV_FAULT_TOP_ALIGNMENT, len);
    CHECK(result == otherwise && is_same_fault(&fault, &usual), "image_normalise: fault %u at %lu, not %u at %lu",
          result, fault.offset, otherwise, usual.offset);
    saw(__func__, result, fault.depth, count > 4 ? 4 : count);
    CHECK(result || !memcmp(image, expected, len), "image_normalise: not the images of the volumes");
}

/* Checks that the row of a volume in the image agrees with fv_volume_is_canonical of the volume. */
static void check_row(const uint8_t *bytes, size_t number, const fv_volume_check *row)
{
    uint64_t at = headers[number].offset, length = headers[number].length;
    uint32_t canonical = 0;
    fv_fault fault = unset_fault;
    fv_result result = fv_volume_is_canonical(bytes + at, length, &canonical, &fault);
    if (result) fault.offset += at;
    CHECK(row->offset == at && row->length == length && !row->reserved, "image_check: number %lu", number);
    CHECK(row->canonical == canonical && row->fault.result == result && is_same_fault(&row->fault, &fault),
          "image_check: number %lu: %u, fault %u at %lu, not %u, fault %u at %lu", number, row->canonical,
          row->fault.result, row->fault.offset, canonical, result, fault.offset);
    saw(__func__, number > 3 ? 3 : (uint32_t)number, result, canonical);
}

ROWS_CALL(check, fv_image_check)

static void try_image_check(const uint8_t *bytes, size_t len, size_t n, const uint8_t *parameters)
{
    static fv_volume_check checks[MOST_VOLUMES];
    const struct rows rows = {"image_check", check, sizeof *checks, 8, MOST_VOLUMES, bytes, len, parameters, 2};
    size_t count;
    fv_fault fault;
    fv_result result = try_rows(&rows, checks, &count, &fault);
    CHECK(result == FV_OK && count == n, "image_check: %u, %lu volumes, image_scan: %lu", result, count, n);
    for (size_t i = 0; i < n; i++) check_row(bytes, i, checks + i);
}

ROWS_CALL(scan, fv_image_scan)

void try_image(const uint8_t *bytes, size_t len, const uint8_t *parameters)
{
    const struct rows rows = {"image_scan", scan, sizeof *headers, 8, MOST_VOLUMES, bytes, len, parameters, 1};
    size_t count;
    fv_fault fault;
    fv_result result = try_rows(&rows, headers, &count, &fault);
    CHECK(result == FV_OK, "image_scan: %u", result);
    if (count > MOST_VOLUMES) return;
    saw(__func__, count > 9 ? 9 : (uint32_t)count, 0, 0);
    try_image_normalise(bytes, len, count, parameters);
    try_image_check(bytes, len, count, parameters);
    try_survey(bytes, len, parameters, headers, count);
    try_levels(bytes, len, parameters);
    try_variables(bytes, len, parameters);
}
