/* SPDX-License-Identifier: BSD-2-Clause-Patent */
/* Checks fv_hobs_read: the blocks follow one another up to the end block, and each block agrees with its bytes. */
#include "format.h"
#include "rows.h"

enum { VOLUME_BLOCK = 0x0005, SECOND_VOLUME_BLOCK = 0x0009, END_BLOCK = 0xFFFF };
#define MOST_BLOCKS 30000u

static void check_block(const uint8_t *bytes, const fv_hob *block, uint64_t number)
{
    fv_hob expected = {0, 0, (uint32_t)number_at(bytes, 2), (uint32_t)number_at(bytes + 2, 2), 0};
    if (expected.hob_type == VOLUME_BLOCK || expected.hob_type == SECOND_VOLUME_BLOCK) {
        expected.volume_base = number_at(bytes + 8, 8);
        expected.volume_length = number_at(bytes + 16, 8);
    }
    CHECK(!memcmp(block, &expected, sizeof expected), "hobs: number %lu differs from its bytes", number);
    CHECK(block->hob_length >= 8 && block->hob_length % 8 == 0, "hobs: number %lu has %u bytes", number,
          block->hob_length);
    saw(__func__, block->hob_type, 0, 0);
}

static size_t list_length;

/* Makes a call. The length of the list is written exactly if the count is. */
static fv_result call(const uint8_t *bytes, size_t len, void *rows, size_t room, size_t *count, fv_fault *fault)
{
    list_length = UNTOUCHED_64;
    fv_result result = fv_hobs_read(bytes, len, rows, room, count, &list_length, fault);
    CHECK(is_counted(result) == (list_length != UNTOUCHED_64), "hobs: %u, and a list of %lu", result, list_length);
    return result;
}

static void check_blocks(const uint8_t *bytes, size_t len, const fv_hob *blocks, size_t n)
{
    uint64_t at = 0;
    size_t count;
    fv_result result = call(bytes, len, NULL, 0, &count, NULL);
    CHECK(result == FV_BUFFER_TOO_SMALL && count == n, "hobs: result %u", result);
    for (size_t i = 0; i < n; i++) {
        CHECK(at + 8 <= len && blocks[i].hob_length <= len - at, "hobs: number %lu is past the end", i);
        check_block(bytes + at, blocks + i, i);
        CHECK((blocks[i].hob_type == END_BLOCK) == (i == n - 1), "hobs: the end block is not the last");
        at += blocks[i].hob_length;
    }
    CHECK(at == list_length && at <= len, "hobs: %lu bytes, not %lu", list_length, at);
}

void try_hand_off_list(const uint8_t *bytes, size_t len, const uint8_t *parameters)
{
    static fv_hob blocks[MOST_BLOCKS];
    const struct rows rows = {"hobs", call, sizeof *blocks, 8, MOST_BLOCKS, bytes, len, parameters, 0};
    size_t count;
    fv_fault fault;
    fv_result result = try_rows(&rows, blocks, &count, &fault);
    saw(__func__, result, count > 12 ? 12 : (uint32_t)count, 0);
    if (result) {
        check_result("hobs", result, &fault, FV_FAULT_HOB_NO_END, len);
        CHECK(result >= FV_FAULT_HOB_SHORT && !fault.depth && !fault.input, "hobs: %u, depth %u", result, fault.depth);
        return;
    }
    CHECK(count, "hobs: no block, and no room for it");
    if (count <= MOST_BLOCKS) check_blocks(bytes, len, blocks, count);
}
