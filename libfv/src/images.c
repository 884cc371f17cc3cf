/* SPDX-License-Identifier: BSD-2-Clause-Patent */
/* The handle of fv.h: an image that is open at every level. The proved calls keep nothing, so the handle is memory of
 * this layer. fvp_image_open writes the rows of the packed sections to one buffer, and the contents of those that are
 * opened to another. A call for each source writes the rows of its survey. This layer reads no byte of a source, and
 * changes no result. This file is not proved: tests/libfv/fields.c and tests/fuzz/libfv/levels.c try it. */
#include "arguments.h"
#include "heap.h"

/* How much there is at all levels: the packed sections that are opened, those that are not, and the bytes of all
 * contents. */
struct levels {
    uint64_t opened, closed, length;
};

struct source {
    const void *bytes;
    size_t size;
    fv_survey_row *rows;
    size_t row_count;
};

/* Source N + 1 is the contents of the section of row N of `packed`. The contents of the sources lie one after another. */
struct fv_image {
    struct levels found;
    fv_packed *packed;
    uint8_t *contents;
    struct source *sources;
};

typedef fv_result survey(const void *, size_t, fv_survey_row *, size_t, size_t *, fv_fault *);
survey fvp_image_survey, fvp_sections_survey;
fv_result fvp_image_open(const void *, size_t, uint64_t, fv_packed *, size_t, void *, size_t, struct levels *,
                         fv_fault *);

/* The first buffers have room for this many rows of packed sections, for contents of 16 times the bytes of the image,
 * and for a row of a survey for each 8 bytes, up to 65,536 rows. Memory that is not written to costs little, and a
 * buffer that is too small costs a second call. */
enum { FIRST_ROWS = 256, EXPANSION = 16, BYTES_OF_ROW = 8, MOST_ROOM = 65536, ALIGNMENT = 16 };

static fv_result out_of_memory(fv_fault *fault)
{
    *fault = (fv_fault){.result = FV_OUT_OF_MEMORY};
    return FV_OUT_OF_MEMORY;
}

static void drop(void *block)
{
    if (block) rattle_dealloc(block);
}

/* Drops a block, and returns a new one of this many elements, or NULL if memory runs out. */
static void *renewed(void *block, size_t count, size_t size)
{
    drop(block);
    if (count > SIZE_MAX / 2 / size) return NULL;
    struct tried it = rattle_alloc(count * size, ALIGNMENT);
    return it.ok ? it.p : NULL;
}

/* Returns a block without its elements after the first `count`. Drops it, and returns NULL, if memory runs out. */
static void *cut(void *block, size_t count, size_t size)
{
    struct tried it = rattle_realloc(block, count * size, count * size, ALIGNMENT);
    if (it.ok) return it.p;
    rattle_dealloc(block);
    return NULL;
}

/* Reads the packed sections at all levels, and their contents. */
static fv_result read_levels(fv_image *it, const void *image, size_t size, uint64_t limit, fv_fault *fault)
{
    size_t most = limit < FV_CONTENTS_MAX ? limit : FV_CONTENTS_MAX;
    size_t rows = FIRST_ROWS, bytes = size < most / EXPANSION ? size * EXPANSION : most;
    fv_result result;
    do {
        it->packed = renewed(it->packed, rows, sizeof *it->packed);
        it->contents = renewed(it->contents, bytes, 1);
        if (!it->packed || !it->contents) return out_of_memory(fault);
        result = fvp_image_open(input(image), size, limit, it->packed, rows, it->contents, bytes, &it->found, fault);
        rows = it->found.opened + it->found.closed;
        bytes = it->found.length;
    } while (result == FV_BUFFER_TOO_SMALL);
    if (result != FV_OK) return result;
    it->packed = cut(it->packed, rows, sizeof *it->packed);
    it->contents = cut(it->contents, bytes, 1);
    return it->packed && it->contents ? FV_OK : out_of_memory(fault);
}

/* Reads the rows of the survey of a source. */
static fv_result read_rows(struct source *it, survey *call, fv_fault *fault)
{
    size_t room = it->size / BYTES_OF_ROW < MOST_ROOM ? it->size / BYTES_OF_ROW + 1 : MOST_ROOM;
    fv_result result;
    do {
        it->rows = renewed(it->rows, room, sizeof *it->rows);
        if (!it->rows) return out_of_memory(fault);
        result = call(input(it->bytes), it->size, it->rows, room, &it->row_count, fault);
        room = it->row_count;
    } while (result == FV_BUFFER_TOO_SMALL);
    if (result != FV_OK) return result;
    it->rows = cut(it->rows, room, sizeof *it->rows);
    return it->rows ? FV_OK : out_of_memory(fault);
}

/* Reads an image at every level. */
static fv_result read_image(fv_image *it, const void *image, size_t size, uint64_t limit, fv_fault *fault)
{
    fv_result result = read_levels(it, image, size, limit, fault);
    if (result != FV_OK) return result;
    it->sources = renewed(NULL, it->found.opened + 1, sizeof *it->sources);
    if (!it->sources) return out_of_memory(fault);
    it->sources[0] = (struct source){.bytes = image, .size = size};
    const uint8_t *next = it->contents;
    for (size_t i = 0; i < it->found.opened; next += it->packed[i++].contents_length)
        it->sources[i + 1] = (struct source){.bytes = next, .size = it->packed[i].contents_length};
    for (size_t i = 0; i <= it->found.opened && result == FV_OK; i++)
        result = read_rows(it->sources + i, i ? fvp_sections_survey : fvp_image_survey, fault);
    return result;
}

fv_result fv_image_open(const void *image, size_t size, uint64_t limit, fv_image **opened, fv_fault *fault)
{
    NEEDS_FAULT(fv_image_open(image, size, limit, opened, &unwanted))
    CHECK(BYTES(image, size), RESULT(opened));
    fv_image *it = *opened = renewed(NULL, 1, sizeof *it);
    if (!it) return out_of_memory(fault);
    *it = (fv_image){.packed = NULL};
    fv_result result = read_image(it, image, size, limit, fault);
    if (result == FV_OK) return FV_OK;
    fv_image_close(it);
    *opened = NULL;
    return result;
}

void fv_image_close(fv_image *image)
{
    if (!image) return;
    for (size_t i = 0; image->sources && i <= image->found.opened; i++) drop(image->sources[i].rows);
    drop(image->sources);
    drop(image->contents);
    drop(image->packed);
    drop(image);
}

size_t fv_image_source_count(const fv_image *image)
{
    return image ? image->found.opened + 1 : 0;
}

/* Returns a source of an image, or a source without bytes and rows if there is none with this number. */
static const struct source *source_of(const fv_image *image, size_t source)
{
    static const struct source none;
    return source < fv_image_source_count(image) ? image->sources + source : &none;
}

const void *fv_image_source_bytes(const fv_image *image, size_t source, size_t *size)
{
    if (size) *size = source_of(image, source)->size;
    return source_of(image, source)->bytes;
}

const fv_survey_row *fv_image_source_rows(const fv_image *image, size_t source, size_t *count)
{
    if (count) *count = source_of(image, source)->row_count;
    return source_of(image, source)->rows;
}

const fv_packed *fv_image_packed(const fv_image *image, size_t *count)
{
    if (count) *count = image ? image->found.opened + image->found.closed : 0;
    return image ? image->packed : NULL;
}
