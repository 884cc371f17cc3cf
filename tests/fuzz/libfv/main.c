/* SPDX-License-Identifier: BSD-2-Clause-Patent */
/* Tries an input. README.md lists the checks. */
#include "harness.h"

unsigned long runs;

static void try_input(const uint8_t *bytes, size_t len, const uint8_t *parameters)
{
    switch (parameters[MODE] % MODES) {
    case AS_IMAGE: try_image(bytes, len, parameters); break;
    case AS_EXPRESSION: try_expression(bytes, len, parameters); break;
    case AS_HAND_OFF_LIST: try_hand_off_list(bytes, len, parameters); break;
    case AS_PAIR: try_pair(bytes, len, parameters); break;
    case AS_SECTIONS: try_sections(bytes, len, parameters); break;
    case AS_PACKED: try_packed(bytes, len, parameters); break;
    case AS_IMAGE_AND_VOLUME: try_image(bytes, len, parameters); /* fall through */
    default: try_volume(bytes, len, parameters);
    }
}

int LLVMFuzzerTestOneInput(const uint8_t *data, size_t size)
{
    if (size < PARAMETERS || size > MOST_INPUT) return 0;
    size_t len = size - PARAMETERS;
    const uint8_t *bytes = place_input(data + PARAMETERS, len, data[MODE] & AT_START);
    runs++;
    try_input(bytes, len, data);
    try_guid(bytes, len);
    return 0;
}
