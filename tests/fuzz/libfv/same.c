/* SPDX-License-Identifier: BSD-2-Clause-Patent */
/* Checks fv_image_same (README.md says how). */
#include "harness.h"

/* The most bytes of the contents of each image. */
#define LIMIT (1u << 17)

static fv_sameness sameness_of(struct input first, struct input second)
{
    fv_sameness found;
    fv_fault fault = unset_fault;
    memset(&found, UNTOUCHED, sizeof found);
    fv_result result = fv_image_same(first.bytes, first.len, second.bytes, second.len, LIMIT, &found, &fault);
    check_plain("image_same", result, FV_OK, &fault);
    check_no_block_is_kept("image_same");
    CHECK(found.is_same <= 1 && !found.reserved, "image_same: %u", found.is_same);
    return found;
}

/* Returns the kind of the innermost row of an open image with this place, or 0 if there is none. */
static uint32_t kind_at(const fv_image *image, const fv_part_place *place)
{
    size_t count;
    uint32_t kind = 0;
    const fv_survey_row *rows = fv_image_source_rows(image, place->source, &count);
    for (size_t i = 0; i < count; i++)
        if (rows[i].offset == place->offset && rows[i].length == place->length) kind = rows[i].kind;
    return kind;
}

/* Checks the place of a part of an image, and returns the kind of its row, or 0 if there is no part. */
static uint32_t check_place(struct input it, const fv_part_place *place)
{
    fv_image *image;
    fv_fault fault = unset_fault;
    CHECK(place->has_place <= 1 && !place->reserved, "image_same: a place has %u", place->has_place);
    if (!place->has_place) {
        CHECK(is_all(place, sizeof *place, 0), "image_same: no part, at %lu of source %lu", place->offset, place->source);
        return 0;
    }
    check_plain("image_open", fv_image_open(it.bytes, it.len, LIMIT, &image, &fault), FV_OK, &fault);
    uint32_t kind = kind_at(image, place);
    CHECK(kind, "image_same: a part at %lu of source %lu", place->offset, place->source);
    fv_image_close(image);
    return kind;
}

/* Checks that an image means the same as itself. */
static void check_own(struct input it)
{
    fv_sameness found = sameness_of(it, it);
    CHECK(found.is_same, "image_same: an image and itself differ at %lu of source %lu", found.first.offset,
          found.first.source);
}

/* Compares again, while an allocation is refused. */
static void try_refused(struct input a, struct input b, const fv_sameness *wanted, const uint8_t *parameters)
{
    fv_sameness found;
    fv_fault fault = unset_fault, *its_fault = FAULT_OR_NULL(parameters, &fault);
    memset(&found, UNTOUCHED, sizeof found);
    refuse_allocation(parameters[REFUSED]);
    fv_result result = fv_image_same(a.bytes, a.len, b.bytes, b.len, LIMIT, &found, its_fault);
    CHECK(result ? is_all(&found, sizeof found, UNTOUCHED) : !memcmp(&found, wanted, sizeof found),
          "image_same: result %u, and has found something else", result);
    check_refusal("image_same", result, FV_OK, its_fault);
}

void try_sameness(struct input a, struct input b, bool is_one_meaning, const uint8_t *parameters)
{
    fv_sameness found = sameness_of(a, b), back = sameness_of(b, a);
    CHECK(found.is_same == back.is_same && !memcmp(&found.first, &back.second, sizeof found.first) &&
              !memcmp(&found.second, &back.first, sizeof found.first),
          "image_same: both ways");
    CHECK(found.is_same ? !found.first.has_place && !found.second.has_place
                        : found.first.has_place || found.second.has_place,
          "image_same: %u, and places", found.is_same);
    uint32_t kind = check_place(a, &found.first), kind_of_second = check_place(b, &found.second);
    /* The meaning of a volume leaves out UsedSize, which an extended header can have. */
    bool is_size = kind == FV_ROW_EXT_HEADER && kind_of_second == FV_ROW_EXT_HEADER;
    CHECK(found.is_same || !is_one_meaning || is_size, "image_same: volumes of one meaning differ at %lu of source %lu",
          found.first.offset, found.first.source);
    check_own(a);
    check_own(b);
    try_refused(a, b, &found, parameters);
    saw(__func__, kind, kind_of_second, found.first.source > 3 ? 3 : found.first.source);
}
