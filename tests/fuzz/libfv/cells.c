/* SPDX-License-Identifier: BSD-2-Clause-Patent */
/* Checks fv_volume_cells (README.md says how). */
#include "format.h"
#include "rows.h"
#include "volume.h"

/* The bits of State. The highest bit that was written determines the kind of a cell. */
enum { CONSTRUCTION = 0x01, HEADER_VALID = 0x02, DATA_VALID = 0x04, MARKED = 0x08, DELETED = 0x10, INVALID = 0x20 };

/* Returns whether a cell of this state may be reported as this kind. */
static bool fits_state(uint32_t kind, uint8_t state, uint8_t efi_type)
{
    if (state & INVALID) return kind == FV_CELL_UNFINISHED;
    if (state & DELETED) return kind == FV_CELL_DELETED;
    if (state & (MARKED | DATA_VALID)) return kind == (efi_type == 0xF0 ? FV_CELL_PAD : FV_CELL_FILE);
    if (state & (HEADER_VALID | CONSTRUCTION)) return kind == FV_CELL_UNFINISHED;
    return kind == FV_CELL_FREE;
}

static bool has_header(const fv_cell *cell)
{
    return cell->kind == FV_CELL_FILE || cell->kind == FV_CELL_PAD;
}

static void check_bytes_of(const struct volume *v, const fv_cell *cell)
{
    const uint8_t *bytes = v->bytes + cell->offset;
    if (cell->kind == FV_CELL_FREE) {
        const fv_cell expected = {.offset = cell->offset, .length = cell->length, .kind = FV_CELL_FREE};
        CHECK(!memcmp(cell, &expected, sizeof expected), "cells: fields of the free bytes at %lu", cell->offset);
        CHECK(is_all(bytes, cell->length, (uint8_t)v->header.erased_byte), "cells: bytes at %lu", cell->offset);
        return;
    }
    CHECK(cell->length >= HEAD, "cells: a cell of %lu bytes", cell->length);
    uint8_t state = bytes[STATE] ^ (uint8_t)v->header.erased_byte;
    CHECK(fits_state(cell->kind, state, bytes[KIND]), "cells: state %02x is reported as %u", state, cell->kind);
    fv_cell expected = {.offset = cell->offset, .length = cell->length, .kind = cell->kind};
    if (has_header(cell)) {
        expected.header_length = bytes[ATTRIBUTES] & LARGE ? LARGE_HEAD : HEAD;
        expected.length = file_size(bytes);
        expected.efi_type = bytes[KIND];
        expected.attributes = bytes[ATTRIBUTES];
        memcpy(expected.name.bytes, bytes, sizeof expected.name);
    }
    CHECK(!memcmp(cell, &expected, sizeof expected), "cells: the cell at %lu differs from its bytes", cell->offset);
}

static void check_cells(const struct volume *v)
{
    uint64_t at = v->header.first_file;
    for (uint64_t i = 0; i < v->cell_count; i++) {
        const fv_cell *cell = v->cells + i;
        CHECK(cell->offset == at && cell->length && cell->length <= v->header.length - at,
              "cells: number %lu at %lu, %lu bytes", i, cell->offset, cell->length);
        check_bytes_of(v, cell);
        at += cell->length;
        if (has_header(cell)) at = (at + 7) & ~UINT64_C(7);
        if (at > v->header.length) at = v->header.length;
    }
    CHECK(at == v->header.length, "cells: they end at %lu of %lu", at, v->header.length);
}

ROWS_CALL(call, fv_volume_cells)

void try_cells(struct volume *v)
{
    static fv_cell cells[MOST_ROWS];
    const struct rows rows = {"cells", call, sizeof *cells, 8, MOST_ROWS, v->bytes, v->len, v->parameters, 2};
    size_t count;
    fv_fault fault;
    fv_result result = try_rows(&rows, cells, &count, &fault);
    check_agrees("cells", v, result, &fault, result ? v->result : FV_OK, FV_FAULT_FREE_SPACE);
    if (result) return;
    v->cell_count = count;
    if (count > MOST_ROWS) return;
    v->cells = cells;
    check_cells(v);
    saw(__func__, count > 20 ? 20 : (uint32_t)count, 0, 0);
}
