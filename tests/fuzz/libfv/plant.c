/* SPDX-License-Identifier: BSD-2-Clause-Patent */
/* Faults that are put into calls of the library, to check that the harness finds them. The environment variable PLANT
 * has the number of the active fault, as in PLANT=1. The program that looks for true findings does not contain these
 * faults. `build` has the linker replace each call that WRAPS names: by __wrap_fv_.., which makes the library's call by
 * the name __real_fv_... */
#include "format.h"
#include "harness.h"

/* The numbers of the planted faults. */
enum {
    TWO_PADS = 1,    /* the last byte of an image with exactly two pads is wrong */
    DEEP_FAULT,      /* the offset of a fault at depth 3 is one too high */
    FOURTH_VOLUME,   /* image_scan leaves out the fourth of four volumes */
    WRITE_ON_TWINS,  /* fault 17 writes to the buffer */
    SHORT_VOLUME,    /* the last byte of a nested volume that is extracted is wrong */
    NO_NOT,          /* a NOT at the third place, after FALSE, does nothing */
    UNMOVED_FILE,    /* the offset of a file in a nested volume counts from that volume */
    UNMOVED_FAULT,   /* the offset of the fault of a second volume counts from that volume */
    SIXTH_DIGEST,    /* the last byte of the last of exactly six digests is wrong, if this row has a digest */
    SECOND_MARK,     /* unfix leaves the last of several marks */
    DIGEST_ON_FAULT, /* tree_digests writes to the buffer after a fault */
    DIGEST_BEHIND,   /* tree_digests writes to the buffer after its digests */
    FIFTH_PART,      /* the last byte of the part of the sixth row is wrong */
    SYSTEM_NAME,     /* the row of a nested volume without a name has the GUID of its file system */
    NO_NUL,          /* the text of a difference in a section is not ended */
    FIRST_INPUT,     /* a fault of the second volume is reported for the first */
    THIRD_NAME,      /* the name of the third of several volumes that are found is zeros */
    FIRST_PARENT,    /* the third row of a stream, if no row holds it, has the parent 0 */
    THIRD_DIGEST,    /* the last byte of the third digest of a stream is wrong, if this row has a digest */
    SECOND_PART,     /* the last byte of the part of the second row of a stream is wrong */
    LATE_DATA,       /* the data of a compression section of CompressionType 0 are one byte later */
    LONGER_LIMIT,    /* section_open opens contents that are one byte longer than the limit */
    LAST_CONTENT,    /* the last byte of contents that are stored as they are is wrong */
    OUTER_MARKS,     /* FV_WITHOUT_MARKS takes away only the marks of the volume's own files */
    KEPT_MARK,       /* with FV_WITHOUT_MARKS the last row has the attribute of a fixed file, if it was one */
    MARKED_DIGEST,   /* tree_digests_with ignores its flags */
    MARKED_PART,     /* extract_with ignores its flags for the first row */
    MARKED_STREAM,   /* sections_tree ignores its flags */
    SHORT_ROW,       /* the third row of a variable store is one byte shorter */
    ADDED_AGAIN,     /* a variable that was deleted is there */
    NO_OWNER,        /* the second signature of a list has no owner */
    SHORT_LEAF,      /* the third row of a survey is one byte shorter */
    DEEP_ROW,        /* the last row of a survey with exactly five rows is one deeper */
    NO_FINDING,      /* the first row of a survey has no finding */
    FULL_BUFFER,     /* the last element of a buffer is left out if it is too small for a survey */
    LAST_LENT,       /* the last row of the survey of contents is left out, if an open image lends several */
    CLOSED_SECTION,  /* the last of the packed sections of an open image is left out, if it is not opened */
    SHORT_CONTENTS,  /* the contents of the second section that is opened are one byte shorter */
    SHORT_SECTION    /* the second of several rows of the survey of a stream is one byte shorter */
};

#define WRAPS(call) __typeof__(call) __wrap_##call, __real_##call
WRAPS(fv_volume_normalise);
WRAPS(fv_volume_unfix);
WRAPS(fv_volume_compare);
WRAPS(fv_image_scan);
WRAPS(fv_image_check);
WRAPS(fv_image_survey);
WRAPS(fv_image_source_bytes);
WRAPS(fv_image_source_rows);
WRAPS(fv_image_packed);
WRAPS(fv_variables_read);
WRAPS(fv_signatures_read);
WRAPS(fv_volume_tree);
WRAPS(fv_volume_tree_digests);
WRAPS(fv_volume_extract);
WRAPS(fv_volume_tree_with);
WRAPS(fv_volume_tree_digests_with);
WRAPS(fv_volume_extract_with);
WRAPS(fv_section_way);
WRAPS(fv_section_open);
WRAPS(fv_sections_survey);
WRAPS(fv_sections_tree);
WRAPS(fv_sections_tree_digests);
WRAPS(fv_sections_extract);
WRAPS(fv_depex_evaluate);

static int planted(void)
{
    const char *number = getenv("PLANT");
    return number ? atoi(number) : 0;
}

/* Returns the number of pads in an image. This function reads the cells itself, because a call of the library would
 * allocate memory. */
static int pads_of(const uint8_t *image, size_t len)
{
    int pads = 0;
    size_t at = first_cell(image, len);
    while (at + HEAD <= len) {
        bool is_large = image[at + ATTRIBUTES] & LARGE && at + LARGE_HEAD <= len;
        uint64_t size = is_large ? file_size(image + at) : number_at(image + at + SIZE, 3);
        if (size < HEAD || size > len - at) break;
        pads += image[at + KIND] == 0xF0;
        at = (at + size + 7) & ~(size_t)7;
    }
    return pads;
}

fv_result __wrap_fv_volume_normalise(const void *volume, size_t size, void *buffer, size_t buffer_size, fv_fault *fault)
{
    fv_result result = __real_fv_volume_normalise(volume, size, buffer, buffer_size, fault);
    uint8_t *image = buffer;
    int plant = planted();
    if (plant == TWO_PADS && !result && pads_of(image, size) == 2) image[size - 1] ^= 1;
    if (plant == DEEP_FAULT && result && result < FV_BUFFER_TOO_SMALL && fault && fault->depth == 3) fault->offset++;
    if (plant == WRITE_ON_TWINS && result == FV_FAULT_DUPLICATE_NAME && buffer_size > 200) image[199] = 0;
    return result;
}

fv_result __wrap_fv_volume_unfix(const void *volume, size_t size, void *buffer, size_t buffer_size, fv_fault *fault)
{
    fv_result result = __real_fv_volume_unfix(volume, size, buffer, buffer_size, fault);
    const uint8_t *input = volume;
    uint8_t *copy = buffer;
    if (planted() != SECOND_MARK || result) return result;
    int changed = 0, kept = 2;
    for (size_t i = 0; i < size; i++) changed += copy[i] != input[i];
    for (size_t i = size; changed > 2 && kept && i--;) {
        kept -= copy[i] != input[i];
        copy[i] = input[i];
    }
    return result;
}

fv_result __wrap_fv_volume_compare(const void *first, size_t first_size, const void *second, size_t second_size,
                                   char *text, size_t text_size, fv_comparison *found, fv_fault *fault)
{
    fv_result result = __real_fv_volume_compare(first, first_size, second, second_size, text, text_size, found, fault);
    if (planted() == NO_NUL && !result && strstr(text, " section ")) text[found->text_length] = '\n';
    if (planted() == FIRST_INPUT && result == FV_FAULT_FILE_SUM && fault) fault->input = 0;
    return result;
}

fv_result __wrap_fv_image_scan(const void *image, size_t size, fv_header *rows, size_t room, size_t *count,
                               fv_fault *fault)
{
    fv_result result = __real_fv_image_scan(image, size, rows, room, count, fault);
    if (planted() == THIRD_NAME && !result && *count > 2) memset(&rows[2].name, 0, sizeof rows[2].name);
    if (planted() != FOURTH_VOLUME || result == FV_OUT_OF_MEMORY || *count != 4) return result;
    fv_header all[4];
    if (room == 3) {
        result = __real_fv_image_scan(image, size, all, 4, count, fault);
        memcpy(rows, all, 3 * sizeof *all);
    }
    *count = 3;
    return result;
}

fv_result __wrap_fv_image_check(const void *image, size_t size, fv_volume_check *rows, size_t room, size_t *count,
                                fv_fault *fault)
{
    fv_result result = __real_fv_image_check(image, size, rows, room, count, fault);
    if (planted() == UNMOVED_FAULT && !result && *count > 1 && rows[1].fault.result)
        rows[1].fault.offset -= rows[1].offset;
    return result;
}

fv_result __wrap_fv_image_survey(const void *image, size_t size, fv_survey_row *rows, size_t room, size_t *count,
                                 fv_fault *fault)
{
    static fv_survey_row before;
    if (room) before = rows[room - 1];
    fv_result result = __real_fv_image_survey(image, size, rows, room, count, fault);
    int plant = planted();
    if (plant == FULL_BUFFER && result == FV_BUFFER_TOO_SMALL && room) rows[room - 1] = before;
    if (result) return result;
    if (plant == SHORT_LEAF && *count > 2) rows[2].length--;
    if (plant == DEEP_ROW && *count == 5) rows[4].depth++;
    if (plant == NO_FINDING && *count) rows[0].findings = 0;
    return result;
}

fv_result __wrap_fv_variables_read(const void *bytes, size_t size, fv_variable_row *rows, size_t room, size_t *count,
                                   fv_fault *fault)
{
    fv_result result = __real_fv_variables_read(bytes, size, rows, room, count, fault);
    if (planted() == SHORT_ROW && !result && *count > 2) rows[2].length--;
    for (size_t i = 0; planted() == ADDED_AGAIN && !result && i < *count; i++)
        if (rows[i].status == FV_VARIABLE_DELETED) rows[i].status = FV_VARIABLE_ADDED;
    return result;
}

fv_result __wrap_fv_signatures_read(const void *bytes, size_t size, fv_variable_row *rows, size_t room, size_t *count,
                                    fv_fault *fault)
{
    fv_result result = __real_fv_signatures_read(bytes, size, rows, room, count, fault);
    static const fv_guid no_owner;
    if (planted() == NO_OWNER && !result && *count > 2 && rows[2].part == FV_PART_SIGNATURE) rows[2].guid = no_owner;
    return result;
}

const void *__wrap_fv_image_source_bytes(const fv_image *image, size_t source, size_t *size)
{
    const void *bytes = __real_fv_image_source_bytes(image, source, size);
    if (planted() == SHORT_CONTENTS && source == 2 && *size) --*size;
    return bytes;
}

const fv_survey_row *__wrap_fv_image_source_rows(const fv_image *image, size_t source, size_t *count)
{
    const fv_survey_row *rows = __real_fv_image_source_rows(image, source, count);
    if (planted() == LAST_LENT && source && *count > 2) --*count;
    return rows;
}

const fv_packed *__wrap_fv_image_packed(const fv_image *image, size_t *count)
{
    const fv_packed *rows = __real_fv_image_packed(image, count);
    if (planted() == CLOSED_SECTION && *count && rows[*count - 1].reason) --*count;
    return rows;
}

fv_result __wrap_fv_sections_survey(const void *sections, size_t size, fv_survey_row *rows, size_t room, size_t *count,
                                    fv_fault *fault)
{
    fv_result result = __real_fv_sections_survey(sections, size, rows, room, count, fault);
    if (planted() == SHORT_SECTION && !result && *count > 2) rows[1].length--;
    return result;
}

fv_result __wrap_fv_volume_tree(const void *volume, size_t size, fv_node *rows, size_t room, size_t *count,
                                fv_fault *fault)
{
    fv_result result = __real_fv_volume_tree(volume, size, rows, room, count, fault);
    const uint8_t *bytes = volume;
    static const fv_guid no_name;
    for (size_t i = 0; !result && i < *count; i++) {
        fv_node *row = rows + i;
        if (planted() == UNMOVED_FILE && row->kind == FV_NODE_FILE) row->offset -= rows[row->parent].offset;
        bool is_nested = i && row->kind == FV_NODE_VOLUME;
        if (planted() == SYSTEM_NAME && is_nested && !memcmp(&row->guid, &no_name, sizeof no_name))
            memcpy(&row->guid, bytes + row->offset + FILE_SYSTEM, sizeof row->guid);
    }
    return result;
}

fv_result __wrap_fv_volume_tree_digests(const void *volume, size_t size, fv_sha256 *rows, size_t room, size_t *count,
                                        fv_fault *fault)
{
    fv_result result = __real_fv_volume_tree_digests(volume, size, rows, room, count, fault);
    int plant = planted();
    if (plant == SIXTH_DIGEST && !result && *count == 6 && rows[5].bytes[0]) rows[5].bytes[31] ^= 1;
    if (plant == DIGEST_ON_FAULT && result && result < FV_OUT_OF_MEMORY && room) rows[0].bytes[0] ^= 1;
    if (plant == DIGEST_BEHIND && !result && room > *count) rows[*count].bytes[0] ^= 1;
    return result;
}

fv_result __wrap_fv_volume_extract(const void *volume, size_t size, size_t row, void *buffer, size_t buffer_size,
                                   size_t *length, fv_fault *fault)
{
    fv_result result = __real_fv_volume_extract(volume, size, row, buffer, buffer_size, length, fault);
    uint8_t *part = buffer;
    if (planted() == SHORT_VOLUME && !result && row && *length > 60 && !memcmp(part + SIGNATURE, "_FVH", 4))
        part[*length - 1] ^= 0x10;
    if (planted() == FIFTH_PART && !result && row == 5 && *length) part[*length - 1] ^= 1;
    return result;
}

fv_result __wrap_fv_volume_tree_with(const void *volume, size_t size, uint32_t flags, fv_node *rows, size_t room,
                                     size_t *count, fv_fault *fault)
{
    static uint8_t copy[1 << 20];
    if (planted() == OUTER_MARKS && flags && size <= sizeof copy &&
        __real_fv_volume_unfix(volume, size, copy, size, NULL) == FV_OK)
        return __real_fv_volume_tree_with(copy, size, 0, rows, room, count, fault);
    fv_result result = __real_fv_volume_tree_with(volume, size, flags, rows, room, count, fault);
    if (planted() != KEPT_MARK || !flags || result) return result;
    for (size_t i = *count; i--;) {
        if (rows[i].kind != FV_NODE_FILE) continue;
        const uint8_t *header = (const uint8_t *)volume + rows[i].offset - rows[i].header_length;
        rows[i].attributes |= header[ATTRIBUTES] & FIXED;
        break;
    }
    return result;
}

fv_result __wrap_fv_volume_tree_digests_with(const void *volume, size_t size, uint32_t flags, fv_sha256 *rows,
                                             size_t room, size_t *count, fv_fault *fault)
{
    if (planted() == MARKED_DIGEST) flags = 0;
    return __real_fv_volume_tree_digests_with(volume, size, flags, rows, room, count, fault);
}

fv_result __wrap_fv_volume_extract_with(const void *volume, size_t size, uint32_t flags, size_t row, void *buffer,
                                        size_t buffer_size, size_t *length, fv_fault *fault)
{
    if (planted() == MARKED_PART && !row) flags = 0;
    return __real_fv_volume_extract_with(volume, size, flags, row, buffer, buffer_size, length, fault);
}

fv_result __wrap_fv_section_way(const void *section, size_t size, fv_way *way, fv_fault *fault)
{
    fv_result result = __real_fv_section_way(section, size, way, fault);
    if (planted() == LATE_DATA && !result && way->way == FV_WAY_STORED) way->data_offset++;
    return result;
}

fv_result __wrap_fv_section_open(const void *section, size_t size, size_t limit, void *buffer, size_t buffer_size,
                                 fv_contents *found, fv_fault *fault)
{
    if (planted() == LONGER_LIMIT) limit++;
    fv_result result = __real_fv_section_open(section, size, limit, buffer, buffer_size, found, fault);
    uint8_t *contents = buffer;
    if (planted() == LAST_CONTENT && !result && found->way == FV_WAY_STORED && found->length)
        contents[found->length - 1] ^= 1;
    return result;
}

fv_result __wrap_fv_sections_tree(const void *sections, size_t size, uint32_t flags, fv_node *rows, size_t room,
                                  size_t *count, fv_fault *fault)
{
    if (planted() == MARKED_STREAM) flags = 0;
    fv_result result = __real_fv_sections_tree(sections, size, flags, rows, room, count, fault);
    if (planted() == FIRST_PARENT && !result && *count > 2 && !rows[2].depth) rows[2].parent = 0;
    return result;
}

fv_result __wrap_fv_sections_tree_digests(const void *sections, size_t size, uint32_t flags, fv_sha256 *rows,
                                          size_t room, size_t *count, fv_fault *fault)
{
    fv_result result = __real_fv_sections_tree_digests(sections, size, flags, rows, room, count, fault);
    if (planted() == THIRD_DIGEST && !result && *count > 2 && rows[2].bytes[0]) rows[2].bytes[31] ^= 1;
    return result;
}

fv_result __wrap_fv_sections_extract(const void *sections, size_t size, uint32_t flags, size_t row, void *buffer,
                                     size_t buffer_size, size_t *length, fv_fault *fault)
{
    fv_result result = __real_fv_sections_extract(sections, size, flags, row, buffer, buffer_size, length, fault);
    uint8_t *part = buffer;
    if (planted() == SECOND_PART && !result && row == 1 && *length) part[*length - 1] ^= 1;
    return result;
}

fv_result __wrap_fv_depex_evaluate(const void *expression, size_t size, uint32_t phase, const fv_guid *installed,
                                   size_t installed_count, uint32_t *value, fv_fault *fault)
{
    fv_result result = __real_fv_depex_evaluate(expression, size, phase, installed, installed_count, value, fault);
    const uint8_t *ops = expression;
    if (planted() == NO_NOT && !result && *value < 2 && size > 3 && ops[1] == 7 && ops[2] == 5) *value ^= 1;
    return result;
}
