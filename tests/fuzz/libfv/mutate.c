/* SPDX-License-Identifier: BSD-2-Clause-Patent */
/* The mutator that libFuzzer calls. It changes a volume, an op or a block in an input, depending on the kind of the
 * input, and has checksums and lengths corrected. */
#define _DEFAULT_SOURCE
#include "mutate.h"

/* The largest number of bytes of the data of an input, and of a changed volume in a flash image. */
#define MOST_DATA 40000u
#define MOST_IN_IMAGE 30000u

size_t LLVMFuzzerCustomMutator(uint8_t *data, size_t size, size_t most, unsigned seed);

static uint32_t how_often(void)
{
    return 1 + one_in(3) + 3 * one_in(8);
}

/* Puts ops into an expression that leave the number of values on the stack unchanged: NOT, or a value and AND or OR. */
static size_t add_ops(uint8_t *ops, size_t len, size_t most)
{
    static const uint8_t added[][2] = {{5, 5}, {6, 3}, {6, 4}, {7, 3}, {7, 4}};
    const uint8_t *pair = added[below(5)];
    size_t at = below((uint32_t)len + 1), count = pair[0] == 5 ? 1 : 2;
    size_t new_len = open_gap(ops, len, most, at, count);
    if (new_len > len) memcpy(ops + at, pair, count);
    return new_len;
}

/* Writes a valid expression: a value, the ops that add_ops adds, and END. */
static size_t make_expression(uint8_t *ops, size_t most)
{
    size_t len = 1;
    ops[0] = ONE_OF(6, 7);
    for (uint32_t i = below(16); i > 0; i--) len = 1 + add_ops(ops + 1, len - 1, most - 2);
    ops[len] = 8;
    return len + 1;
}

static size_t change_expression(uint8_t *ops, size_t len, size_t most)
{
    switch (below(4)) {
    case 0: return LLVMFuzzerMutate(ops, len, most);
    case 1: return add_ops(ops, len, most);
    default:
        if (len) ops[below((uint32_t)len)] = (uint8_t)below(10);
        return len;
    }
}

/* Repeats a block of a hand-off list, with another code or other bytes. */
static size_t repeat_block(uint8_t *list, size_t len, size_t most)
{
    size_t at = 56, size = number_at(list + at + 2, 2);
    for (uint32_t steps = below(5); steps > 0 && size >= 8 && at + size + 8 <= len; steps--) {
        at += size;
        size = number_at(list + at + 2, 2);
    }
    size_t new_len = size >= 8 && size <= len - at ? open_gap(list, len, most, at, size) : len;
    if (new_len == len) return LLVMFuzzerMutate(list, len, most);
    memcpy(list + at, list + at + size, size);
    if (one_in(2)) put_number(list + at, 2, 1 + below(12));
    for (size_t i = 8; i < size; i++) list[at + i] = (uint8_t)chance();
    return new_len;
}

static size_t changed_copy(uint8_t *copy, const uint8_t *volume, size_t len, size_t most)
{
    memcpy(copy, volume, len);
    if (!one_in(6))
        for (uint32_t i = how_often(); i > 0; i--) len = change_volume(copy, len, most);
    if (!one_in(8)) repair_volume(copy, len, 0);
    return len;
}

/* Makes two copies of a volume, and now and then changes the second copy. */
static size_t pair_of(uint8_t *data, const uint8_t *volume, size_t len, size_t most, uint8_t *parameters)
{
    if (2 * len > most) return 0;
    memcpy(data, volume, len);
    memcpy(data + len, volume, len);
    parameters[PAIR] |= 1;
    if (one_in(2)) return 2 * len;
    size_t second = len;
    if (one_in(2))
        change_inside(data + len, len);
    else
        second = change_volume(data + len, len, most - len);
    repair_volume(data + len, second, 0);
    return len + second;
}

/* Changes a volume in a flash image, or in a pair. */
static size_t mutate_image(uint8_t *image, size_t len, size_t most, uint8_t *parameters)
{
    static uint8_t volume[MOST_DATA];
    struct place place = any_volume(image, len, false);
    if (!place.len || place.len > MOST_IN_IMAGE || one_in(6)) return LLVMFuzzerMutate(image, len, most);
    size_t new_len = changed_copy(volume, image + place.at, place.len, sizeof volume);
    bool is_pair = parameters[MODE] % MODES == AS_PAIR;
    if (is_pair && one_in(2)) {
        size_t both = pair_of(image, volume, new_len, most, parameters);
        if (both) return both;
    }
    size_t after = len - place.at - place.len;
    if (place.at + new_len + after > most) return len;
    memmove(image + place.at + new_len, image + place.at + place.len, after);
    memcpy(image + place.at, volume, new_len);
    len = place.at + new_len + after;
    if (one_in(8) && len + new_len <= most) { /* once more, after the image */
        memcpy(image + len, volume, new_len);
        len += new_len;
    }
    return len;
}

static size_t mutate_one_volume(uint8_t *volume, size_t len, size_t most)
{
    if (one_in(12))
        len = LLVMFuzzerMutate(volume, len, most);
    else
        for (uint32_t i = how_often(); i > 0; i--) len = change_volume(volume, len, most);
    if (!one_in(12)) repair_volume(volume, len, 0);
    return len;
}

static size_t mutate_data(uint8_t *data, size_t len, size_t most, uint8_t *parameters)
{
    uint8_t mode = parameters[MODE] % MODES;
    switch (mode) {
    case AS_EXPRESSION:
        for (uint32_t i = how_often(); i > 0; i--) len = change_expression(data, len, most);
        return len;
    case AS_HAND_OFF_LIST:
        return len >= 64 && one_in(3) ? repeat_block(data, len, most) : LLVMFuzzerMutate(data, len, most);
    case AS_SECTIONS:
    case AS_PACKED: return LLVMFuzzerMutate(data, len, most);
    case AS_IMAGE:
    case AS_PAIR: return mutate_image(data, len, most, parameters);
    case AS_IMAGE_AND_VOLUME:
        if (one_in(2)) return mutate_image(data, len, most, parameters);
        return mutate_one_volume(data, len, most);
    default: return mutate_one_volume(data, len, most);
    }
}

size_t LLVMFuzzerCustomMutator(uint8_t *data, size_t size, size_t most, unsigned seed)
{
    srandom(seed);
    if (most <= PARAMETERS) return LLVMFuzzerMutate(data, size, most);
    if (size < PARAMETERS) {
        memset(data, 0, PARAMETERS);
        size = PARAMETERS;
    }
    if (one_in(20)) data[below(PARAMETERS)] = (uint8_t)chance();
    if (one_in(40))
        data[MODE] = (data[MODE] & AT_START) | ONE_OF(0, 0, 0, 0, 0, 0, 0, AS_IMAGE, AS_IMAGE, AS_IMAGE, AS_EXPRESSION,
                                                      AS_HAND_OFF_LIST, AS_PAIR, AS_PAIR, AS_PAIR, AS_IMAGE_AND_VOLUME,
                                                      AS_SECTIONS, AS_PACKED);
    size_t len = size - PARAMETERS, most_data = most - PARAMETERS;
    if (most_data > MOST_DATA) most_data = MOST_DATA;
    if (len > most_data) len = most_data;
    if (one_in(50) && most_data > 2) {
        data[MODE] = (data[MODE] & AT_START) | AS_EXPRESSION;
        return PARAMETERS + make_expression(data + PARAMETERS, most_data);
    }
    return PARAMETERS + mutate_data(data + PARAMETERS, len, most_data, data);
}
