/* SPDX-License-Identifier: BSD-2-Clause-Patent */
/* Checks fv_image_survey and fv_sections_survey (README.md says how). */
#include "format.h"
#include "harness.h"
#include "rows.h"

#define MOST_SURVEY 16000u
/* The bits of the findings that a row can have: the faults of volumes. */
#define KNOWN_FINDINGS ((1u << (FV_FAULT_TOP_ALIGNMENT + 1)) - (1u << FV_FAULT_TRUNCATED))

/* The rows of the survey. Depths are below MOST_DEPTH: volumes that were found nest at most 8 deep, and in each of them
 * groups and volumes in sections nest at most 8 deep, with at most three rows for each. */
enum { MOST_DEPTH = 300 };
static fv_survey_row all[MOST_SURVEY];
static size_t all_count;

/* The call that is tried. */
static __typeof__(fv_image_survey) *call;

/* Makes the call. If it fails, checks that the buffer begins with the first rows, all of them if it is full, and takes
 * these rows away, so that try_rows finds the buffer untouched. */
static fv_result survey(const uint8_t *bytes, size_t len, void *rows, size_t room, size_t *count, fv_fault *fault)
{
    fv_result result = call(bytes, len, rows, room, count, fault);
    const fv_survey_row *found = rows;
    size_t written = 0;
    if (result == FV_OK) return result;
    while (written < room && written < all_count && !memcmp(found + written, all + written, sizeof *all)) written++;
    CHECK(result != FV_BUFFER_TOO_SMALL || written == room, "survey: %lu of %lu rows in a short buffer", written, room);
    if (written) memset(rows, UNTOUCHED, written * sizeof *all);
    return result;
}

static bool is_leaf(const fv_survey_row *row)
{
    return row->kind > FV_ROW_LOST;
}

static bool has_zeros(const fv_guid *guid)
{
    static const fv_guid zeros;
    return !memcmp(guid, &zeros, sizeof zeros);
}

/* Checks the fields of a row that do not depend on other rows. */
static void check_fields(const uint8_t *bytes, const fv_survey_row *row, size_t number)
{
    bool is_volume = row->kind == FV_ROW_VOLUME, is_file = row->kind == FV_ROW_FILE;
    bool is_section = row->kind == FV_ROW_SECTION;
    const uint8_t *at = bytes + row->offset;
    CHECK(row->kind >= FV_ROW_VOLUME && row->kind <= FV_ROW_UNREAD, "survey: row %lu: kind %u", number, row->kind);
    CHECK(!row->reserved && row->found <= is_volume, "survey: row %lu: found %u", number, row->found);
    CHECK(!(row->findings & ~KNOWN_FINDINGS), "survey: row %lu: findings %x", number, row->findings);
    CHECK(row->found || row->depth || !is_volume, "survey: row %lu is a volume of depth 0 and not found", number);
    CHECK(!is_volume || !memcmp(&row->name, at + FILE_SYSTEM, 16), "survey: row %lu: the file system", number);
    CHECK(!is_file || has_zeros(&row->name) || !memcmp(&row->name, at, 16), "survey: row %lu: the name", number);
    CHECK(is_volume || is_file || has_zeros(&row->name), "survey: row %lu has a name", number);
    uint32_t type = is_file ? at[KIND] : is_section ? at[SECTION_KIND] : 0;
    CHECK(row->efi_type == type, "survey: row %lu: type %u, not %u", number, row->efi_type, type);
}

/* Checks that the rows lie one after another in each row and in the image, from its first byte to its end, and that a
 * row in another row is one deeper. `ends` has the ends of the rows around the next row. */
static void check_nesting(size_t len)
{
    uint64_t at = 0, ends[MOST_DEPTH];
    size_t depth = 0;
    for (size_t i = 0; i < all_count; i++) {
        const fv_survey_row *row = all + i;
        CHECK(row->depth <= depth, "survey: row %lu has depth %u, after %lu", i, row->depth, depth);
        while (depth > row->depth) CHECK(ends[--depth] == at, "survey: the rows before %lu end at %lu", i, at);
        CHECK(row->offset == at, "survey: row %lu is at %lu, not %lu", i, row->offset, at);
        uint64_t end = depth ? ends[depth - 1] : len;
        CHECK(row->length && row->length <= end - at, "survey: row %lu has %lu bytes", i, row->length);
        if (is_leaf(row)) {
            at += row->length;
            continue;
        }
        CHECK(depth < MOST_DEPTH, "survey: row %lu has depth %lu", i, depth);
        ends[depth++] = at + row->length;
    }
    while (depth) CHECK(ends[--depth] == at, "survey: the last rows end at %lu", at);
    CHECK(at == len, "survey: the rows end at %lu", at);
}

/* Checks that a volume which image_scan finds does not begin in bytes outside of volumes. */
static void check_volumes(const fv_header *headers, size_t count)
{
    size_t i = 0;
    for (size_t row = 0; row < all_count; row++) {
        if (all[row].depth) continue;
        uint64_t end = all[row].offset + all[row].length;
        for (; i < count && headers[i].offset < end; i++)
            CHECK(all[row].kind == FV_ROW_VOLUME, "survey: the volume at %lu is missing", headers[i].offset);
    }
    CHECK(i == count, "survey: %lu of %lu volumes", i, count);
}

/* Checks that the image is one volume without findings exactly if volume_tree accepts it, as far as the rows decide:
 * volumes that were found in the volume, and superseded files, may have findings. */
static void check_verdict(const uint8_t *bytes, size_t len)
{
    size_t count;
    uint32_t findings = 0, stores = 0;
    for (size_t i = 0; i < all_count; i++) {
        findings |= all[i].findings;
        stores += all[i].kind == FV_ROW_STORE;
    }
    fv_result result = fv_volume_tree(bytes, len, NULL, 0, &count, NULL);
    bool is_one = all_count && all->kind == FV_ROW_VOLUME && all->length == len && !all->findings;
    bool is_accepted = result == FV_BUFFER_TOO_SMALL;
    CHECK(is_one || !is_accepted, "survey: the image is a volume, and its first row has findings %x", all->findings);
    CHECK(is_accepted || !is_one || findings || stores, "survey: no finding, but fault %u", result);
    saw(__func__, findings, stores > 1, is_one + 2u * is_accepted);
}

/* Tries a call of this name. Returns whether all rows were read. */
static bool try_call(const char *name, const uint8_t *bytes, size_t len, const uint8_t *parameters)
{
    static fv_survey_row again[MOST_SURVEY];
    const struct rows rows = {name, survey, sizeof *all, 8, MOST_SURVEY, bytes, len, parameters, 0};
    size_t count;
    fv_fault fault = unset_fault;
    fv_result result = call(bytes, len, all, MOST_SURVEY, &all_count, &fault);
    check_plain(name, result, all_count > MOST_SURVEY ? FV_BUFFER_TOO_SMALL : FV_OK, &fault);
    CHECK(all_count <= 2 * len, "%s: %lu rows", name, all_count);
    if (result) return false;
    for (size_t i = 0; i < all_count; i++) saw(__func__, all[i].kind, all[i].findings, all[i].depth);
    check_nesting(len);
    for (size_t i = 0; i < all_count; i++) check_fields(bytes, all + i, i);
    result = try_rows(&rows, again, &count, &fault);
    CHECK(result == FV_OK && count == all_count, "%s: %u, %lu rows, then %lu", name, result, all_count, count);
    CHECK(!memcmp(again, all, count * sizeof *all), "%s: other rows for the same bytes", name);
    return true;
}

void try_survey(const uint8_t *bytes, size_t len, const uint8_t *parameters, const fv_header *headers, size_t volumes)
{
    call = fv_image_survey;
    if (!try_call("image_survey", bytes, len, parameters)) return;
    check_volumes(headers, volumes);
    check_verdict(bytes, len);
}

/* Checks that the rows of depth 0 are sections, bytes between them, or lost bytes; and that none of them is lost or has a
 * finding if sections_tree accepts the bytes. */
void try_sections_survey(const uint8_t *bytes, size_t len, const uint8_t *parameters)
{
    size_t count;
    uint32_t findings = 0;
    call = fv_sections_survey;
    if (!try_call("sections_survey", bytes, len, parameters)) return;
    bool is_accepted = is_counted(fv_sections_tree(bytes, len, 0, NULL, 0, &count, NULL));
    for (size_t i = 0; i < all_count; i++) {
        uint32_t kind = all[i].kind;
        if (all[i].depth) continue;
        findings |= all[i].findings;
        CHECK(kind == FV_ROW_SECTION || kind == FV_ROW_LOST || is_leaf(all + i), "sections_survey: row %lu has kind %u", i,
              kind);
        CHECK(!is_accepted || (kind != FV_ROW_LOST && !all[i].findings), "sections_survey: row %lu of a stream: %x", i,
              all[i].findings);
    }
    saw(__func__, findings, is_accepted, 0);
}
