/* SPDX-License-Identifier: BSD-2-Clause-Patent */
/* The calls of fv.h that are made over proved calls. Each call checks its pointers, sizes and choices, and passes them
 * on to the proved call of the same name with the prefix fvp_, which has the same parameters. In place of flags, a proved
 * call has a truth value (whether the marks of fixed files are taken away), and fvp_volume_tree is the proved call of
 * fv_volume_tree and of fv_volume_tree_with. This layer reads no byte of an input, and changes no result. This file is
 * not proved: tests/libfv/arguments.c and tests/libfv/layer.c try it.
 *
 * The proved calls take slices and references, as Rattle and Rust do. So none of their pointers may be NULL, each
 * pointer must be aligned, a slice has at most half of the addresses, and a buffer or result must not overlap any other
 * argument. */
#include "arguments.h"

fv_result fvp_volume_compare(const void *, size_t, const void *, size_t, char *, size_t, fv_comparison *, fv_fault *);
fv_result fvp_image_same(const void *, size_t, const void *, size_t, uint64_t, fv_sameness *, fv_fault *);
fv_result fvp_section_open(const void *, size_t, size_t, void *, size_t, fv_contents *, fv_fault *);
fv_result fvp_depex_evaluate(const void *, size_t, uint32_t, const fv_guid *, size_t, uint32_t *, fv_fault *);
fv_result fvp_hobs_read(const void *, size_t, fv_hob *, size_t, size_t *, size_t *, fv_fault *);

/* Defines a call that writes one value about its input. */
#define VALUE_CALL(name, type)                                                                                        \
    fv_result fvp_##name(const void *, size_t, type *, fv_fault *);                                                   \
    fv_result fv_##name(const void *bytes, size_t size, type *value, fv_fault *fault)                                 \
    {                                                                                                                 \
        NEEDS_FAULT(fv_##name(bytes, size, value, &unwanted))                                                         \
        CHECK(BYTES(bytes, size), RESULT(value));                                                                     \
        return fvp_##name(input(bytes), size, value, fault);                                                          \
    }

/* Defines a call that writes as many bytes as its input has. */
#define IMAGE_CALL(name)                                                                                              \
    fv_result fvp_##name(const void *, size_t, void *, size_t, fv_fault *);                                           \
    fv_result fv_##name(const void *bytes, size_t size, void *buffer, size_t buffer_size, fv_fault *fault)            \
    {                                                                                                                 \
        NEEDS_FAULT(fv_##name(bytes, size, buffer, buffer_size, &unwanted))                                           \
        CHECK(BYTES(bytes, size), BUFFER(buffer, buffer_size));                                                       \
        return fvp_##name(input(bytes), size, buffer_of(buffer), buffer_size, fault);                                 \
    }

/* Defines a call that writes rows about its input. */
#define ROWS_CALL(name, type)                                                                                         \
    fv_result fvp_##name(const void *, size_t, type *, size_t, size_t *, fv_fault *);                                 \
    fv_result fv_##name(const void *bytes, size_t size, type *rows, size_t room, size_t *count, fv_fault *fault)      \
    {                                                                                                                 \
        NEEDS_FAULT(fv_##name(bytes, size, rows, room, count, &unwanted))                                             \
        CHECK(BYTES(bytes, size), ROWS(rows, room), RESULT(count));                                                   \
        return fvp_##name(input(bytes), size, buffer_of(rows), room, count, fault);                                   \
    }

/* Returns FV_BAD_ARGUMENT from the call if a flag is unknown. */
#define CHECK_FLAGS \
    if (!LIKELY((flags & ~(uint32_t)FV_WITHOUT_MARKS) == 0)) return FV_BAD_ARGUMENT

/* Defines a call with flags that writes rows about its input, over the proved call of this name. */
#define ROWS_CALL_WITH(name, proved, type)                                                                            \
    fv_result fvp_##proved(const void *, size_t, bool, type *, size_t, size_t *, fv_fault *);                         \
    fv_result fv_##name(const void *bytes, size_t size, uint32_t flags, type *rows, size_t room, size_t *count,       \
                        fv_fault *fault)                                                                              \
    {                                                                                                                 \
        NEEDS_FAULT(fv_##name(bytes, size, flags, rows, room, count, &unwanted))                                      \
        CHECK_FLAGS;                                                                                                  \
        CHECK(BYTES(bytes, size), ROWS(rows, room), RESULT(count));                                                   \
        return fvp_##proved(input(bytes), size, flags != 0, buffer_of(rows), room, count, fault);                     \
    }

/* Defines a call with flags that writes the part of a row of its input, over the proved call of this name. */
#define PART_CALL_WITH(name, proved)                                                                                  \
    fv_result fvp_##proved(const void *, size_t, bool, size_t, void *, size_t, size_t *, fv_fault *);                 \
    fv_result fv_##name(const void *bytes, size_t size, uint32_t flags, size_t row, void *buffer, size_t buffer_size, \
                        size_t *length, fv_fault *fault)                                                              \
    {                                                                                                                 \
        NEEDS_FAULT(fv_##name(bytes, size, flags, row, buffer, buffer_size, length, &unwanted))                       \
        CHECK_FLAGS;                                                                                                  \
        CHECK(BYTES(bytes, size), BUFFER(buffer, buffer_size), RESULT(length));                                       \
        return fvp_##proved(input(bytes), size, flags != 0, row, buffer_of(buffer), buffer_size, length, fault);      \
    }

VALUE_CALL(header_read, fv_header)
VALUE_CALL(volume_is_canonical, uint32_t)
VALUE_CALL(volume_digest, fv_sha256)
VALUE_CALL(section_way, fv_way)
IMAGE_CALL(image_normalise)
IMAGE_CALL(volume_normalise)
IMAGE_CALL(volume_unfix)
ROWS_CALL(image_scan, fv_header)
ROWS_CALL(image_check, fv_volume_check)
ROWS_CALL(image_survey, fv_survey_row)
ROWS_CALL(volume_cells, fv_cell)
ROWS_CALL(sections_survey, fv_survey_row)
ROWS_CALL(variables_read, fv_variable_row)
ROWS_CALL(signatures_read, fv_variable_row)
ROWS_CALL_WITH(volume_tree_with, volume_tree, fv_node)
ROWS_CALL_WITH(volume_tree_digests_with, volume_tree_digests, fv_sha256)
ROWS_CALL_WITH(sections_tree, sections_tree, fv_node)
ROWS_CALL_WITH(sections_tree_digests, sections_tree_digests, fv_sha256)
PART_CALL_WITH(volume_extract_with, volume_extract)
PART_CALL_WITH(sections_extract, sections_extract)

fv_result fv_volume_tree(const void *volume, size_t size, fv_node *rows, size_t room, size_t *count, fv_fault *fault)
{
    return fv_volume_tree_with(volume, size, 0, rows, room, count, fault);
}

fv_result fv_volume_tree_digests(const void *volume, size_t size, fv_sha256 *rows, size_t room, size_t *count,
                                 fv_fault *fault)
{
    return fv_volume_tree_digests_with(volume, size, 0, rows, room, count, fault);
}

fv_result fv_volume_extract(const void *volume, size_t size, size_t row, void *buffer, size_t buffer_size,
                            size_t *length, fv_fault *fault)
{
    return fv_volume_extract_with(volume, size, 0, row, buffer, buffer_size, length, fault);
}

fv_result fv_volume_compare(const void *first, size_t first_size, const void *second, size_t second_size, char *text,
                            size_t text_size, fv_comparison *found, fv_fault *fault)
{
    NEEDS_FAULT(fv_volume_compare(first, first_size, second, second_size, text, text_size, found, &unwanted))
    CHECK(BYTES(first, first_size), BYTES(second, second_size), BUFFER(text, text_size), RESULT(found));
    return fvp_volume_compare(input(first), first_size, input(second), second_size, buffer_of(text), text_size, found,
                              fault);
}

fv_result fv_image_same(const void *first, size_t first_size, const void *second, size_t second_size, uint64_t limit,
                        fv_sameness *found, fv_fault *fault)
{
    NEEDS_FAULT(fv_image_same(first, first_size, second, second_size, limit, found, &unwanted))
    CHECK(BYTES(first, first_size), BYTES(second, second_size), RESULT(found));
    return fvp_image_same(input(first), first_size, input(second), second_size, limit, found, fault);
}

fv_result fv_section_open(const void *section, size_t size, size_t limit, void *buffer, size_t buffer_size,
                          fv_contents *found, fv_fault *fault)
{
    NEEDS_FAULT(fv_section_open(section, size, limit, buffer, buffer_size, found, &unwanted))
    CHECK(BYTES(section, size), BUFFER(buffer, buffer_size), RESULT(found));
    return fvp_section_open(input(section), size, limit, buffer_of(buffer), buffer_size, found, fault);
}

fv_result fv_depex_evaluate(const void *expression, size_t size, uint32_t phase, const fv_guid *installed,
                            size_t installed_count, uint32_t *value, fv_fault *fault)
{
    NEEDS_FAULT(fv_depex_evaluate(expression, size, phase, installed, installed_count, value, &unwanted))
    if (phase > FV_PHASE_DXE) return FV_BAD_ARGUMENT;
    CHECK(BYTES(expression, size), SPAN(installed, installed_count, sizeof *installed, 1, false), RESULT(value));
    return fvp_depex_evaluate(input(expression), size, phase, input(installed), installed_count, value, fault);
}

fv_result fv_hobs_read(const void *list, size_t size, fv_hob *rows, size_t room, size_t *count, size_t *list_length,
                       fv_fault *fault)
{
    NEEDS_FAULT(fv_hobs_read(list, size, rows, room, count, list_length, &unwanted))
    CHECK(BYTES(list, size), ROWS(rows, room), RESULT(count), RESULT(list_length));
    return fvp_hobs_read(input(list), size, buffer_of(rows), room, count, list_length, fault);
}

uint32_t fv_version_number(void)
{
    return FV_VERSION_NUMBER;
}

const char *fv_version(void)
{
    return FV_VERSION;
}
