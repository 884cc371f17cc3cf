/* SPDX-License-Identifier: BSD-2-Clause-Patent */
/* Checks fv_section_way and fv_section_open (README.md says how). */
#include "format.h"
#include "rows.h"

/* The most bytes of contents that are read, and the limit of the first call. */
#define MOST_CONTENTS (1u << 17)

enum { COMPRESSED = 1, DEFINED_BY_GUID = 2, GUID_FIELDS = 20, SHORT_HEAD = 4, LONG_HEAD = 8 };

static size_t limit;
/* The way of the contents that a call has found last. */
static uint32_t way_of_contents;

static bool is_stored(uint32_t way)
{
    return way == FV_WAY_STORED || way == FV_WAY_CRC32 || way == FV_WAY_SIGNED || way == FV_WAY_PLAIN;
}

/* Makes a call. The length and the way of the contents are written together. */
static fv_result open_section(const uint8_t *bytes, size_t len, void *buffer, size_t room, size_t *length,
                              fv_fault *fault)
{
    fv_contents found;
    memset(&found, UNTOUCHED, sizeof found);
    fv_result result = fv_section_open(bytes, len, limit, buffer, room, &found, fault);
    if (!is_counted(result))
        CHECK(is_all(&found, sizeof found, UNTOUCHED), "section_open: %u, and contents", result);
    else
        CHECK(found.way >= FV_WAY_STORED && found.way <= FV_WAY_PLAIN && found.way != FV_WAY_STANDARD &&
                  found.way != FV_WAY_CUSTOMIZED && !found.reserved,
              "section_open: way %u", found.way);
    if (is_counted(result)) way_of_contents = found.way;
    *length = found.length;
    return result;
}

/* Returns the way of a compression section by its CompressionType, or 0. */
static uint32_t way_of_type(uint8_t type)
{
    switch (type) {
    case 0: return FV_WAY_STORED;
    case 1: return FV_WAY_STANDARD;
    case 2: return FV_WAY_CUSTOMIZED;
    case 0x86: return FV_WAY_LZMA_X86;
    default: return 0;
    }
}

/* Checks what the header of a section says, and returns where the section ends. */
static size_t check_way(const uint8_t *bytes, size_t len, const fv_way *way)
{
    bool is_long = len >= LONG_HEAD && number_at(bytes, 3) == 0xFFFFFF;
    size_t head = is_long ? LONG_HEAD : SHORT_HEAD, end = number_at(bytes + (is_long ? 4 : 0), is_long ? 4 : 3);
    CHECK(end <= len && way->data_offset <= end && !way->reserved, "section_way: data at %lu of %zu", way->data_offset,
          end);
    if (bytes[3] == COMPRESSED) {
        CHECK(way->way == way_of_type(bytes[head + 4]) && way->data_offset == head + 5 &&
                  way->promised == number_at(bytes + head, 4),
              "section_way: way %u, data at %lu, %lu bytes", way->way, way->data_offset, way->promised);
        return end;
    }
    CHECK(bytes[3] == DEFINED_BY_GUID && way->data_offset == number_at(bytes + head + 16, 2) &&
              way->data_offset >= head + GUID_FIELDS,
          "section_way: data at %lu", way->data_offset);
    CHECK(way->way >= FV_WAY_TIANO && way->way <= FV_WAY_PLAIN && way->way != FV_WAY_CUSTOMIZED,
          "section_way: way %u", way->way);
    if (is_stored(way->way))
        CHECK(way->promised == end - way->data_offset, "section_way: %lu bytes from %lu", way->promised,
              way->data_offset);
    return end;
}

/* Reads the header, also without memory. Returns 0, or the fault. */
static fv_result try_way(const uint8_t *bytes, size_t len, const uint8_t *parameters, fv_way *way, fv_fault *fault)
{
    unsigned long before = allocations;
    fv_fault *wanted = FAULT_OR_NULL(parameters, fault);
    memset(way, UNTOUCHED, sizeof *way);
    *fault = unset_fault;
    fv_result result = fv_section_way(bytes, len, way, wanted);
    CHECK(allocations == before, "section_way has asked for memory");
    CHECK(!result == !is_all(way, sizeof *way, UNTOUCHED), "section_way: %u, and a way", result);
    if (!wanted) CHECK(fv_section_way(bytes, len, way, fault) == result, "section_way: not %u", result);
    check_result("section_way", result, fault, FV_FAULT_OPEN_WAY, len);
    CHECK(!result || result >= FV_FAULT_OPEN_SHORT, "section_way: %u", result);
    return result;
}

/* Checks the contents of a section, which are in `contents` if there are few enough. */
static void check_contents(const uint8_t *bytes, size_t end, const fv_way *way, const uint8_t *contents, size_t length)
{
    size_t count;
    fv_fault fault = unset_fault;
    CHECK(length <= limit, "section_open: %zu bytes, and the limit %zu", length, limit);
    if (is_stored(way->way)) {
        CHECK(way_of_contents == way->way && length == end - way->data_offset, "section_open: way %u, %zu bytes",
              way_of_contents, length);
        CHECK(length > MOST_CONTENTS || !memcmp(contents, bytes + way->data_offset, length), "section_open: bytes");
    }
    uint32_t by = way_of_contents;
    bool is_same = way->way == FV_WAY_STANDARD     ? by == FV_WAY_UEFI || by == FV_WAY_TIANO
                   : way->way == FV_WAY_CUSTOMIZED ? by == FV_WAY_LZMA
                                                   : by == way->way;
    CHECK(is_same, "section_open: way %u, and the header says %u", by, way->way);
    if (!length) return;
    limit = length;
    fv_result result = open_section(bytes, end, no_buffer(), 0, &count, &fault);
    CHECK(result == FV_BUFFER_TOO_SMALL && count == length, "section_open: %u with the limit %zu", result, limit);
    limit = length - 1;
    result = open_section(bytes, end, no_buffer(), 0, &count, &fault);
    /* (A stream after four bytes has the fault of the bytes before it.) */
    CHECK(result == FV_FAULT_OPEN_TOO_LONG || way->way == FV_WAY_CUSTOMIZED, "section_open: %u with the limit %zu",
          result, limit);
}

void try_packed(const uint8_t *bytes, size_t len, const uint8_t *parameters)
{
    static uint8_t contents[MOST_CONTENTS];
    const struct rows rows = {"section_open", open_section, 1, 1, MOST_CONTENTS, bytes, len, parameters, 0};
    size_t length;
    fv_fault fault, of_way;
    fv_way way;
    fv_result of_head = try_way(bytes, len, parameters, &way, &of_way);
    unsigned long before = allocations;
    limit = MOST_CONTENTS;
    fv_result result = try_rows(&rows, contents, &length, &fault);
    saw(__func__, result, of_head ? 0 : way.way, 0);
    check_result("section_open", result, &fault, FV_FAULT_OPEN_TOO_LONG, len);
    CHECK(!result || (result >= FV_FAULT_OPEN_SHORT && !fault.depth && !fault.input), "section_open: %u", result);
    if (of_head) {
        CHECK(result == of_head && is_same_fault(&fault, &of_way), "section_open: %u, not %u", result, of_head);
        return;
    }
    CHECK(!result || result > FV_FAULT_OPEN_WAY, "section_open: %u, and a way", result);
    CHECK(!is_stored(way.way) || allocations == before, "section_open has asked for memory");
    size_t end = check_way(bytes, len, &way);
    if (!result) check_contents(bytes, end, &way, contents, length);
}
