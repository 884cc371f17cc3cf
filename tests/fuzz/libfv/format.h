/* SPDX-License-Identifier: BSD-2-Clause-Patent */
/* The fields of a volume, and the numbers in them. */
#ifndef FORMAT_H
#define FORMAT_H

#include <stddef.h>
#include <stdint.h>

/* The places of fields in a volume header, a file header and a section header. */
enum {
    FILE_SYSTEM = 16,
    FV_LENGTH_FIELD = 32,
    SIGNATURE = 40,
    FV_ATTRIBUTES = 44,
    POLARITY = 45,
    HEADER_LENGTH = 48,
    HEADER_SUM = 50,
    EXT_HEADER = 52,
    REVISION = 55,
    BLOCK_MAP = 56,
    LEAST_VOLUME = 72
};
enum { HEAD_SUM = 16, FILE_SUM = 17, KIND = 18, ATTRIBUTES = 19, SIZE = 20, STATE = 23, LARGE_SIZE = 24, HEAD = 24 };
enum { LARGE = 0x01, FIXED = 0x04, SUMMED = 0x40 };
enum { GROUP = 0x03, VOLUME = 0x17 };
#define SECTION_KIND 3
#define LARGE_HEAD 32u

/* The GUIDs of FFS2 and FFS3. */
extern const uint8_t file_systems[2][16];

uint64_t number_at(const uint8_t *bytes, int width);
void put_number(uint8_t *bytes, int width, uint64_t number);
uint8_t erased_byte(const uint8_t *volume);

/* Returns the number of bytes of a file, by its header. */
uint64_t file_size(const uint8_t *head);

/* Returns the offset of the first cell of a volume, by its header. */
size_t first_cell(const uint8_t *volume, size_t len);

#endif
