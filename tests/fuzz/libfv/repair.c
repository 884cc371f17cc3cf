/* SPDX-License-Identifier: BSD-2-Clause-Patent */
/* Corrects the checksums and lengths of a changed volume. Otherwise the first wrong checksum would end each try. */
#include "mutate.h"

#define DEEPEST 12
#define BLOCK_PAIR 8u

static uint8_t sum_of(const uint8_t *bytes, size_t len)
{
    uint8_t sum = 0;
    while (len--) sum += *bytes++;
    return sum;
}

/* Returns the size in a field. A size that is too small or too large is replaced by the wanted size. Returns 0 if it is
 * left wrong. */
static size_t repair_size(uint8_t *field, int width, size_t least, size_t most, size_t wanted)
{
    uint64_t size = number_at(field, width);
    if (size >= least && size <= most) return size;
    if (one_in(6)) return 0;
    put_number(field, width, wanted);
    return wanted;
}

static void repair_sections(uint8_t *bytes, size_t len, int depth)
{
    size_t at = 0, header;
    while (at < len && len - at >= 4) {
        uint8_t *section = bytes + at;
        bool is_extended = number_at(section, 3) == 0xFFFFFF && len - at >= 8;
        header = is_extended ? 8 : 4;
        size_t size = repair_size(is_extended ? section + 4 : section, is_extended ? 4 : 3, header, len - at, len - at);
        if (!size) return;
        uint8_t kind = section[SECTION_KIND];
        if (kind == VOLUME)
            repair_volume(section + header, size - header, depth + 1);
        else if (kind == GROUP && depth < DEEPEST)
            repair_sections(section + header, size - header, depth + 1);
        at += (size + 3) & ~(size_t)3;
    }
}

/* Corrects a wrong block map. The last pair gets one block of 8 bytes for each 8 bytes of the volume, and all pairs
 * before it get zeros. */
static void repair_block_map(uint8_t *volume, size_t len, size_t header)
{
    uint64_t total = 0;
    bool has_zeros = false;
    size_t at = BLOCK_MAP;
    for (; at + 2 * BLOCK_PAIR <= header; at += BLOCK_PAIR) {
        total += number_at(volume + at, 4) * number_at(volume + at + 4, 4);
        has_zeros |= !number_at(volume + at, 8);
    }
    if (header >= LEAST_VOLUME && (total != len || has_zeros)) {
        for (at = BLOCK_MAP; at + 3 * BLOCK_PAIR <= header; at += BLOCK_PAIR) {
            put_number(volume + at, 4, 1);
            put_number(volume + at + 4, 4, 0);
        }
        put_number(volume + at, 4, len / 8);
        put_number(volume + at + 4, 4, 8);
    }
    memset(volume + header - BLOCK_PAIR, 0, BLOCK_PAIR);
}

static void repair_names(uint8_t *volume)
{
    memcpy(volume + SIGNATURE, "_FVH", 4);
    volume[REVISION] = 2;
    if (memcmp(volume + FILE_SYSTEM, file_systems[0], 16) && memcmp(volume + FILE_SYSTEM, file_systems[1], 16))
        memcpy(volume + FILE_SYSTEM, file_systems[below(2)], 16);
}

static void repair_ext_header(uint8_t *volume, size_t len, size_t header)
{
    size_t ext = number_at(volume + EXT_HEADER, 2);
    if (!ext || one_in(8)) return;
    if (ext < header || ext + 20 > len) {
        put_number(volume + EXT_HEADER, 2, 0);
        return;
    }
    uint64_t size = number_at(volume + ext + 16, 4);
    if (size > len - ext || size < 20) put_number(volume + ext + 16, 4, 20);
}

/* Gives the header a state that is usual for a file. */
static void repair_state(uint8_t *head, uint8_t erased)
{
    uint8_t state = head[STATE] ^ erased;
    bool is_usual = state == 7 || state == 15 || state == 0x17 || state == 0x1f || state == 1 || state == 3;
    if (!is_usual && !one_in(8)) head[STATE] = ONE_OF(7, 7, 7, 7, 15, 0x17, 1, 3) ^ erased;
}

/* Returns the size of a file, and the size of its header. Returns 0 if the size is left wrong. */
static size_t repair_file_size(uint8_t *head, size_t left, size_t *header)
{
    bool is_large = head[ATTRIBUTES] & LARGE && left >= LARGE_HEAD;
    *header = is_large ? LARGE_HEAD : HEAD;
    size_t wanted = *header + below(64);
    if (wanted > left) wanted = left;
    if (is_large && !one_in(16)) put_number(head + SIZE, 3, 0);
    return repair_size(head + (is_large ? LARGE_SIZE : SIZE), is_large ? 8 : 3, *header, left, wanted);
}

static void repair_file_sums(uint8_t *head, size_t header, size_t size)
{
    uint8_t state = head[STATE];
    head[HEAD_SUM] = head[FILE_SUM] = head[STATE] = 0;
    head[HEAD_SUM] = (uint8_t)-sum_of(head, header);
    head[STATE] = state;
    head[FILE_SUM] = head[ATTRIBUTES] & SUMMED ? (uint8_t)-sum_of(head + header, size - header) : 0xAA;
}

/* Repairs a file and the filler after it. Returns the offset after them, or `len` if the rest is left as it is. */
static size_t repair_file(uint8_t *volume, size_t len, size_t at, uint8_t erased, int depth)
{
    uint8_t *head = volume + at;
    size_t header;
    repair_state(head, erased);
    size_t size = repair_file_size(head, len - at, &header);
    if (!size) return len;
    uint8_t state = head[STATE] ^ erased;
    if (state & 1 && !(state & 2)) size = header = HEAD; /* a header that was never finished */
    if (!one_in(3)) head[ATTRIBUTES] &= (uint8_t)~FIXED;
    uint8_t kind = head[KIND];
    bool has_sections = kind >= 2 && kind <= 0x0F && !(kind == 3 && below(2));
    if (has_sections) repair_sections(head + header, size - header, depth);
    repair_file_sums(head, header, size);
    size_t end = (at + size + 7) & ~(size_t)7;
    if (end > len) end = len;
    if (!one_in(4)) memset(volume + at + size, erased, end - at - size);
    return end;
}

static void repair_files(uint8_t *volume, size_t len, size_t header, int depth)
{
    uint8_t erased = erased_byte(volume);
    size_t at = first_cell(volume, len);
    while (at >= header && at + HEAD <= len) {
        if (!is_all(volume + at, HEAD, erased)) {
            at = repair_file(volume, len, at, erased, depth);
            continue;
        }
        if (!one_in(8) && !is_all(volume + at, len - at, erased) && below(2)) memset(volume + at, erased, len - at);
        return;
    }
}

static void repair_header_sum(uint8_t *volume, size_t header)
{
    uint32_t sum = 0;
    put_number(volume + HEADER_SUM, 2, 0);
    for (size_t i = 0; i + 1 < header; i += 2) sum += (uint32_t)number_at(volume + i, 2);
    put_number(volume + HEADER_SUM, 2, (uint16_t)-sum);
}

void repair_volume(uint8_t *volume, size_t len, int depth)
{
    if (len < LEAST_VOLUME || depth > DEEPEST) return;
    if (number_at(volume + FV_LENGTH_FIELD, 8) != len && !one_in(6)) put_number(volume + FV_LENGTH_FIELD, 8, len);
    size_t header = number_at(volume + HEADER_LENGTH, 2);
    if ((header < 64 || header > len || header % 8) && !one_in(8)) {
        header = LEAST_VOLUME;
        put_number(volume + HEADER_LENGTH, 2, header);
    }
    if (header < 64 || header > len) return;
    if (!one_in(8)) repair_block_map(volume, len, header);
    if (!one_in(16)) repair_names(volume);
    repair_ext_header(volume, len, header);
    repair_files(volume, len, header, depth);
    repair_header_sum(volume, header);
}
