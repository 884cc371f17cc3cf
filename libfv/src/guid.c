/* SPDX-License-Identifier: BSD-2-Clause-Patent */
/* The text of a GUID, and a GUID from its text. This file is not proved:
 * tests/fuzz/libfv/guid.c and tests/libfv/fields.c try it. */
#include "arguments.h"

/* The place among the bytes of a GUID of each byte of the text, in the order of the text. The first three fields have
 * their least significant byte first. */
static const uint8_t places[16] = {3, 2, 1, 0, 5, 4, 7, 6, 8, 9, 10, 11, 12, 13, 14, 15};

/* Returns whether a hyphen is before the byte of the text with this number. */
static bool follows_hyphen(size_t number)
{
    return number == 4 || number == 6 || number == 8 || number == 10;
}

/* Returns the value of a hexadecimal digit of either case, or -1 for another character. The result does not depend on
 * the locale. */
static int value_of(char character)
{
    if (character >= '0' && character <= '9') return character - '0';
    if (character >= 'a' && character <= 'f') return character - 'a' + 10;
    if (character >= 'A' && character <= 'F') return character - 'A' + 10;
    return -1;
}

fv_result fv_guid_text(const fv_guid *guid, char *text, size_t text_size)
{
    static const char digits[] = "0123456789abcdef";
    if (are_bad(BYTES(guid, sizeof *guid), BUFFER(text, text_size), NONE, NONE, NONE)) return FV_BAD_ARGUMENT;
    if (text_size < FV_GUID_TEXT_SIZE) return FV_BUFFER_TOO_SMALL;
    for (size_t number = 0; number < sizeof places; number++) {
        uint8_t byte = guid->bytes[places[number]];
        if (follows_hyphen(number)) *text++ = '-';
        *text++ = digits[byte >> 4];
        *text++ = digits[byte & 15];
    }
    *text = 0;
    return FV_OK;
}

/* A text that is read: its next character, and the number of characters that may be read. */
struct rest {
    const char *at;
    size_t size;
};

/* Returns the next character of a text, or NUL if the text has ended. A NUL is not passed. */
static char next(struct rest *rest)
{
    if (!rest->size || !*rest->at) return 0;
    rest->size--;
    return *rest->at++;
}

fv_result fv_guid_parse(const char *text, size_t text_size, fv_guid *guid)
{
    struct rest rest = {text, text_size};
    fv_guid read;
    if (are_bad(BYTES(text, text_size), RESULT(guid), NONE, NONE, NONE)) return FV_BAD_ARGUMENT;
    for (size_t number = 0; number < sizeof places; number++) {
        if (follows_hyphen(number) && next(&rest) != '-') return FV_BAD_GUID;
        int high = value_of(next(&rest));
        int low = high < 0 ? -1 : value_of(next(&rest));
        if (low < 0) return FV_BAD_GUID;
        read.bytes[places[number]] = (uint8_t)(high << 4 | low);
    }
    if (next(&rest)) return FV_BAD_GUID;
    *guid = read;
    return FV_OK;
}
