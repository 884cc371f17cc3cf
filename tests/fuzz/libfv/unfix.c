/* SPDX-License-Identifier: BSD-2-Clause-Patent */
/* Checks fv_volume_unfix (README.md says how). The fault is a fault of the header or of the cells. */
#include "format.h"
#include "rows.h"
#include "volume.h"

static uint8_t unfixed[MOST_BUFFER];

/* Checks that the cells cover the volume without the marks. Each fixed file has lost its mark, and no other byte has
 * changed. */
static void check_marks(const struct volume *v)
{
    static fv_cell cells[MOST_ROWS];
    static uint8_t expected[MOST_BUFFER];
    size_t count = 7;
    uint64_t marks = 0;
    fv_fault fault = unset_fault;
    fv_result result = fv_volume_cells(unfixed, v->len, cells, MOST_ROWS, &count, &fault);
    if (result == FV_BUFFER_TOO_SMALL) return;
    check_plain("cells", result, FV_OK, &fault);
    memcpy(expected, v->bytes, v->len);
    for (uint64_t i = 0; i < count; i++) {
        uint8_t *header = expected + cells[i].offset;
        if (cells[i].kind != FV_CELL_FILE) continue;
        CHECK(!(cells[i].attributes & FIXED), "unfix: the file at %lu is fixed", cells[i].offset);
        if (!(header[ATTRIBUTES] & FIXED)) continue;
        header[HEAD_SUM] = (uint8_t)(header[HEAD_SUM] + FIXED);
        header[ATTRIBUTES] = (uint8_t)(header[ATTRIBUTES] - FIXED);
        marks++;
    }
    CHECK(!memcmp(unfixed, expected, v->len), "unfix: a byte outside of %lu marks has changed", marks);
    saw(__func__, marks > 9 ? 9 : (uint32_t)marks, 0, 0);
}

/* Checks that the other calls read the output, and that their results are the results for the input if no file in the
 * input is fixed. */
static void check_others(const struct volume *v)
{
    fv_header header;
    fv_fault fault = unset_fault;
    CHECK(fv_header_read(unfixed, v->len, &header, &fault) == FV_OK && !memcmp(&header, &v->header, sizeof header),
          "unfix: another header");
    static uint8_t image[MOST_BUFFER];
    fv_result result = fv_volume_normalise(unfixed, v->len, image, v->len, &fault);
    CHECK(result != FV_FAULT_FIXED || fault.depth, "unfix: normalise finds the file at %lu fixed", fault.offset);
    if (v->result != FV_FAULT_FIXED || v->fault.depth) {
        CHECK(!memcmp(unfixed, v->bytes, v->len), "unfix: a byte of a volume without fixed files");
        CHECK(result == v->result && is_same_fault(&fault, &v->fault), "unfix: normalise is %u, not %u", result,
              v->result);
    }
}

/* Checks that a second call changes nothing. */
static void check_twice(const struct volume *v)
{
    uint8_t *buffer = new_buffer(v->len, 1);
    fv_fault fault = unset_fault;
    check_plain("unfix", fv_volume_unfix(unfixed, v->len, buffer, v->len, &fault), FV_OK, &fault);
    CHECK(!memcmp(buffer, unfixed, v->len), "unfix: twice is another");
}

static void check_fault(const struct volume *v, fv_result result, const fv_fault *fault)
{
    size_t count;
    fv_fault of_cells = unset_fault;
    fv_result cells = fv_volume_cells(v->bytes, v->len, no_buffer(), 0, &count, &of_cells);
    CHECK(result != FV_FAULT_FIXED && !fault->depth, "unfix: fault %u at %lu, depth %u", result, fault->offset,
          fault->depth);
    if (cells == FV_OK || cells == FV_BUFFER_TOO_SMALL) /* bytes follow the volume */
        CHECK(result == FV_FAULT_LENGTH && fault->offset == v->header.length && v->header.length < v->len,
              "unfix: fault %u at %lu, and the cells have none", result, fault->offset);
    else if (cells != FV_FAULT_FIXED)
        CHECK(result == cells && is_same_fault(fault, &of_cells), "unfix: %u, cells: %u", result, cells);
    else
        CHECK(result == FV_FAULT_LENGTH || fault->offset + 2 >= of_cells.offset,
              "unfix: %u at %lu, before the fixed file at %lu", result, fault->offset, of_cells.offset);
}

COPY_CALL(unfix, fv_volume_unfix)

void try_unfix(const struct volume *v)
{
    const struct rows rows = {"unfix", unfix, 1, 1, sizeof unfixed, v->bytes, v->len, v->parameters, 0};
    unsigned long before = allocations;
    size_t count;
    fv_fault fault;
    fv_result result = try_rows(&rows, unfixed, &count, &fault);
    CHECK(allocations == before, "unfix has asked for memory");
    check_result("unfix", result, &fault, FV_FAULT_FREE_SPACE, v->len);
    saw(__func__, 10, result, fault.offset & 7);
    if (result) {
        check_fault(v, result, &fault);
        return;
    }
    check_marks(v);
    check_twice(v);
    check_others(v);
}
