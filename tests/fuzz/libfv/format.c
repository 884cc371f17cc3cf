/* SPDX-License-Identifier: BSD-2-Clause-Patent */
#include "format.h"

const uint8_t file_systems[2][16] = {
    {0x78, 0xe5, 0x8c, 0x8c, 0x3d, 0x8a, 0x1c, 0x4f, 0x99, 0x35, 0x89, 0x61, 0x85, 0xc3, 0x2d, 0xd3},
    {0x7a, 0xc0, 0x73, 0x54, 0xcb, 0x3d, 0xca, 0x4d, 0xbd, 0x6f, 0x1e, 0x96, 0x89, 0xe7, 0x34, 0x9a}};

uint64_t number_at(const uint8_t *bytes, int width)
{
    uint64_t number = 0;
    while (width--) number = number << 8 | bytes[width];
    return number;
}

void put_number(uint8_t *bytes, int width, uint64_t number)
{
    for (int i = 0; i < width; i++) bytes[i] = (uint8_t)(number >> 8 * i);
}

uint8_t erased_byte(const uint8_t *volume)
{
    return volume[POLARITY] & 8 ? 0xFF : 0;
}

uint64_t file_size(const uint8_t *head)
{
    return head[ATTRIBUTES] & LARGE ? number_at(head + LARGE_SIZE, 8) : number_at(head + SIZE, 3);
}

size_t first_cell(const uint8_t *volume, size_t len)
{
    size_t header = number_at(volume + HEADER_LENGTH, 2), ext = number_at(volume + EXT_HEADER, 2);
    if (!ext || ext + 20 > len) return header;
    uint64_t size = number_at(volume + ext + 16, 4);
    return size <= len - ext ? (ext + size + 7) & ~(size_t)7 : header;
}
