/* SPDX-License-Identifier: BSD-2-Clause-Patent */
/* The changes that the mutator makes in a volume. Each function takes the volume, its number of bytes and the largest
 * number of bytes that it may have, and returns the new number of bytes. These functions may leave wrong checksums and
 * lengths, which repair.c corrects. */
#include "mutate.h"

#define MOST_FOUND 64u

/* Returns a random cell of the volume. Its length is 0 if there is no cell. */
static struct place any_cell(const uint8_t *volume, size_t len)
{
    struct place found[MOST_FOUND];
    uint32_t count = 0;
    size_t at = first_cell(volume, len);
    while (at + HEAD <= len && count < MOST_FOUND) {
        uint64_t size = number_at(volume + at + SIZE, 3);
        if (volume[at + ATTRIBUTES] & LARGE && at + LARGE_HEAD <= len && !size)
            size = number_at(volume + at + LARGE_SIZE, 8);
        bool is_wrong = size < HEAD || size > len - at;
        bool is_free = (size & 0xFFFFFF) == 0xFFFFFF || size == 0;
        if (is_wrong && !is_free) break;
        found[count++] = (struct place){at, is_wrong ? len - at : size};
        if (is_wrong) break;
        at = (at + size + 7) & ~(size_t)7;
    }
    return count ? found[below(count)] : (struct place){0, 0};
}

struct place any_volume(const uint8_t *image, size_t len, bool is_nested)
{
    struct place found[MOST_FOUND];
    uint32_t count = 0;
    for (size_t at = 0; at + BLOCK_MAP <= len && count < MOST_FOUND; at++) {
        if (memcmp(image + at + SIGNATURE, "_FVH", 4)) continue;
        uint64_t size = number_at(image + at + FV_LENGTH_FIELD, 8);
        bool is_right = size > BLOCK_MAP && size <= len - at;
        found[count++] = (struct place){at, is_right ? size : len - at};
        if (is_right && !is_nested) at += size - 1;
    }
    return count ? found[below(count)] : (struct place){0, 0};
}

/* The bytes of all first inputs (seeds.py), from which files and volumes are taken. */
extern const uint8_t _binary_stock_start[], _binary_stock_end[];

/* Returns a random volume of the first inputs. Its length is 0 if none was found. */
static struct input other_volume(void)
{
    const uint8_t *from = _binary_stock_start + below((uint32_t)(_binary_stock_end - _binary_stock_start));
    struct place place = any_volume(from, (size_t)(_binary_stock_end - from), true);
    return (struct input){from + place.at, place.len};
}

/* Replaces the volume by another. */
static size_t take_volume(uint8_t *volume, size_t len, size_t most)
{
    struct input other = other_volume();
    if (!other.len || other.len > most) return len;
    memcpy(volume, other.bytes, other.len);
    return other.len;
}

/* Puts a file of another volume before a cell, or before all cells. */
static size_t add_file(uint8_t *volume, size_t len, size_t most, struct place cell)
{
    struct input other = other_volume();
    struct place file = other.len ? any_cell(other.bytes, other.len) : (struct place){0, 0};
    size_t at = cell.len && below(2) ? cell.at : first_cell(volume, len), size = (file.len + 7) & ~(size_t)7;
    if (at > len) at = LEAST_VOLUME;
    size_t new_len = open_gap(volume, len, most, at, size);
    if (new_len == len) return len;
    memset(volume + at, erased_byte(volume), size);
    memcpy(volume + at, other.bytes + file.at, file.len);
    volume[at + STATE] ^= erased_byte(volume) ^ erased_byte(other.bytes);
    return new_len;
}

static size_t taken_by(struct place cell, size_t len)
{
    size_t taken = (cell.len + 7) & ~(size_t)7;
    return taken > len - cell.at ? len - cell.at : taken;
}

static size_t remove_cell(uint8_t *volume, size_t len, struct place cell)
{
    size_t taken = taken_by(cell, len);
    memmove(volume + cell.at, volume + cell.at + taken, len - cell.at - taken);
    return len - taken;
}

/* Repeats a cell once, or often with other names. */
static size_t repeat_cell(uint8_t *volume, size_t len, size_t most, struct place cell)
{
    size_t taken = taken_by(cell, len);
    if (taken < HEAD) return len;
    uint32_t most_names = one_in(4) ? 200 : 1, names = most_names > 1 ? below(16) : 16;
    for (uint32_t count = 1 + below(most_names); count > 0; count--) {
        size_t new_len = open_gap(volume, len, most, cell.at, taken);
        if (new_len == len) return len;
        memcpy(volume + cell.at, volume + cell.at + taken, taken);
        for (size_t i = names; i < 16; i++) volume[cell.at + i] = (uint8_t)chance();
        if (most_names == 1 && below(2)) volume[cell.at + STATE] = 15 ^ erased_byte(volume); /* marked for update */
        len = new_len;
    }
    return len;
}

static size_t add_free_space(uint8_t *volume, size_t len, size_t most)
{
    size_t count = 8 * (1 + below(below(4) ? 12 : 600));
    if (len + count > most) return len;
    memset(volume + len, erased_byte(volume), count);
    return len + count;
}

static size_t cut_end(size_t len)
{
    size_t count = 8 * (1 + below(8));
    return len > count + LEAST_VOLUME ? len - count : len;
}

static void make_large(uint8_t *head, struct place cell)
{
    if (cell.len <= 56) return;
    head[ATTRIBUTES] |= LARGE;
    put_number(head + SIZE, 3, 0);
    put_number(head + LARGE_SIZE, 8, cell.len);
}

/* Changes a field of a file's header. */
static void change_head(uint8_t *head, struct place cell, uint8_t erased)
{
    switch (below(5)) {
    case 0:
        head[ATTRIBUTES] ^=
            ONE_OF(FIXED, 8, 0x10, 0x18, 0x20, 0x28, 0x30, 0x38, 2, 0x0A, 0x12, 0x1A, 0x22, 0x2A, 0x40, 0x80);
        break;
    case 1: head[KIND] = (uint8_t)(below(3) ? below(16) : chance()); break;
    case 2: head[STATE] = ONE_OF(7, 15, 0x17, 0x1F, 1, 3, 0x27, 0x2F, 0x3F, 0) ^ erased; break;
    case 3: put_number(head + SIZE, 3, below(2) ? cell.len + below(9) - 4 : 24 + below(200)); break;
    default: make_large(head, cell);
    }
}

static size_t change_cell(uint8_t *volume, size_t len, size_t most, struct place cell)
{
    switch (below(7)) {
    case 0: return remove_cell(volume, len, cell);
    case 1: return repeat_cell(volume, len, most, cell);
    default: change_head(volume + cell.at, cell, erased_byte(volume)); return len;
    }
}

void change_inside(uint8_t *volume, size_t len)
{
    struct place place = any_volume(volume, len, true);
    if (!place.len) return;
    uint8_t *nested = volume + place.at;
    struct place cell = any_cell(nested, place.len);
    if (!cell.len) return;
    if (one_in(3))
        change_head(nested + cell.at, cell, erased_byte(nested));
    else
        nested[cell.at + below((uint32_t)cell.len)] ^= (uint8_t)(1 << below(8));
}

size_t change_volume(uint8_t *volume, size_t len, size_t most)
{
    if (len < LEAST_VOLUME) return LLVMFuzzerMutate(volume, len, most);
    struct place cell = any_cell(volume, len);
    switch (below(16)) {
    case 0:
    case 1:
    case 7: return add_file(volume, len, most, cell);
    case 2: return add_free_space(volume, len, most);
    case 3: return cut_end(len);
    case 4: return take_volume(volume, len, most);
    case 5: volume[SIGNATURE + below(16)] ^= (uint8_t)(1 << below(8)); return len;
    case 6: change_inside(volume, len); return len;
    case 8: return LLVMFuzzerMutate(volume, len, most);
    default: return cell.len ? change_cell(volume, len, most, cell) : len;
    }
}
