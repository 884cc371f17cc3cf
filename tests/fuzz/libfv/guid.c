/* SPDX-License-Identifier: BSD-2-Clause-Patent */
/* Checks fv_guid_text and fv_guid_parse: the first bytes of an input are a GUID, and the input is a text. */
#include "harness.h"
#include <ctype.h>

enum { LENGTH = FV_GUID_TEXT_SIZE - 1 };

/* Returns whether a text is a GUID: 8-4-4-4-12 hexadecimal digits up to its end or its first NUL. */
static bool is_guid(const uint8_t *text, size_t len)
{
    static const char form[] = "00000000-0000-0000-0000-000000000000";
    if (len < LENGTH || (len > LENGTH && text[LENGTH])) return false;
    for (size_t i = 0; i < LENGTH; i++)
        if (form[i] == '-' ? text[i] != '-' : !isxdigit(text[i])) return false;
    return true;
}

/* Checks that the text of a GUID has its bytes in their order, in lower case, and is read back. */
static void check_text(const fv_guid *guid, char *text)
{
    fv_guid again;
    CHECK(fv_guid_text(guid, text, FV_GUID_TEXT_SIZE) == FV_OK && !text[LENGTH], "guid: no text");
    const uint8_t *b = guid->bytes;
    char expected[FV_GUID_TEXT_SIZE];
    snprintf(expected, sizeof expected, "%02x%02x%02x%02x-%02x%02x-%02x%02x-%02x%02x-%02x%02x%02x%02x%02x%02x", b[3],
             b[2], b[1], b[0], b[5], b[4], b[7], b[6], b[8], b[9], b[10], b[11], b[12], b[13], b[14], b[15]);
    CHECK(!memcmp(text, expected, sizeof expected), "guid: the text is %s, not %s", text, expected);
    CHECK(fv_guid_parse(text, FV_GUID_TEXT_SIZE, &again) == FV_OK && !memcmp(&again, guid, sizeof again),
          "guid: %s is read as another", text);
}

void try_guid(const uint8_t *bytes, size_t len)
{
    fv_guid guid, untouched;
    char text[FV_GUID_TEXT_SIZE];
    memset(&untouched, UNTOUCHED, sizeof untouched);
    guid = untouched;
    fv_result result = fv_guid_parse((const char *)bytes, len, &guid);
    CHECK(result == (is_guid(bytes, len) ? FV_OK : FV_BAD_GUID), "guid: result %u", result);
    if (result) {
        CHECK(!memcmp(&guid, &untouched, sizeof guid), "guid: result %u, and a GUID", result);
    } else {
        check_text(&guid, text);
        for (size_t i = 0; i < LENGTH; i++) CHECK(tolower(bytes[i]) == text[i], "guid: %s is another text", text);
    }
    if (len < sizeof guid) return;
    memcpy(&guid, bytes, sizeof guid);
    check_text(&guid, text);
}
