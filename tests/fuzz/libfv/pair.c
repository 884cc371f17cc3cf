/* SPDX-License-Identifier: BSD-2-Clause-Patent */
/* Checks fv_volume_compare (README.md says how). */
#define _GNU_SOURCE
#include "rows.h"

static const fv_comparison unset_comparison = {UINT64_C(0x0102030405060708), 0x090a0b0c, 0x0d0e0f10};

/* The inputs of `compare`, and what it has found in them, or unset_comparison. */
static struct input first, second;
static fv_comparison found;

/* Compares the inputs. The rows are the bytes of the text, with its NUL. If memory runs out, either input may have
 * taken it. */
static fv_result compare(const uint8_t *bytes, size_t len, void *text, size_t room, size_t *count, fv_fault *fault)
{
    (void)bytes, (void)len;
    fv_comparison it = unset_comparison;
    fv_result result = fv_volume_compare(first.bytes, first.len, second.bytes, second.len, text, room, &it, fault);
    bool is_first = !memcmp(&found, &unset_comparison, sizeof found);
    const fv_comparison *expected = !is_counted(result) ? &unset_comparison : is_first ? &it : &found;
    CHECK(!memcmp(&it, expected, sizeof it), "compare: result %u, and has found something else", result);
    if (is_counted(result)) {
        found = it;
        *count = it.text_length + 1;
    }
    if (result == FV_OUT_OF_MEMORY && fault) {
        CHECK(fault->input <= 1, "compare: input %u", fault->input);
        fault->input = 0;
    }
    return result;
}

static void begin(struct input a, struct input b)
{
    first = a;
    second = b;
    found = unset_comparison;
}

/* Counts the kind of a difference and the steps to it, without the numbers of these steps. */
static void saw_difference(const char *text)
{
    uint32_t hash = 0;
    for (; *text; text++)
        if (*text < '0' || *text > '9') hash = hash * 31 + (uint8_t)*text;
    saw(__func__, hash, 0, 0);
}

static void check_digests(struct input a, struct input b)
{
    fv_sha256 of_a, of_b;
    fv_result of_first = fv_volume_digest(a.bytes, a.len, &of_a, NULL);
    fv_result of_second = fv_volume_digest(b.bytes, b.len, &of_b, NULL);
    if (!of_first && !of_second) CHECK(found.same == !memcmp(&of_a, &of_b, sizeof of_a), "compare and the digests");
    if (found.same) CHECK(of_first == of_second, "compare: same, and the digests have %u and %u", of_first, of_second);
}

static void check_text(const char *text)
{
    CHECK(found.text_length < FV_DIFFERENCE_SIZE && !found.reserved, "compare: a text of %lu", found.text_length);
    CHECK(strnlen(text, FV_DIFFERENCE_SIZE) == found.text_length, "compare: the end of the text");
    if (found.same) {
        CHECK(found.same == 1 && !strcmp(text, "same"), "compare: the text of what is the same");
    } else {
        CHECK(!strncmp(text, "different at ", 13) && found.text_length > 13, "compare: the text of a difference");
        saw_difference(text + 13);
    }
}

/* Checks that the fault is the fault of the first input, or the fault of the second input if the first input is a
 * volume. */
static void check_fault(struct input a, struct input b, fv_result result, const fv_fault *fault)
{
    fv_fault own;
    uint32_t canonical;
    struct input of_fault = fault->input ? b : a;
    check_result("compare", result, fault, FV_FAULT_DEPTH, of_fault.len);
    fv_result of_first = fv_volume_is_canonical(a.bytes, a.len, &canonical, &own);
    CHECK(fault->input == !of_first, "compare: input %u, and the first has %u", fault->input, of_first);
    fv_result usual = fv_volume_is_canonical(of_fault.bytes, of_fault.len, &canonical, &own);
    own.input = fault->input;
    CHECK(result == usual && is_same_fault(&own, fault), "compare: %u of input %u, is_canonical: %u", result, own.input,
          usual);
}

bool try_comparison(struct input a, struct input b, const uint8_t *parameters)
{
    char text[FV_DIFFERENCE_SIZE] = "", other[FV_DIFFERENCE_SIZE] = "";
    const struct rows rows = {"compare", compare, 1, 1, sizeof text, a.bytes, a.len, parameters, 0};
    size_t count;
    fv_fault fault, of_back;
    begin(b, a);
    fv_result back = compare(NULL, 0, other, sizeof other, &count, &of_back);
    fv_comparison found_back = found;
    begin(a, b);
    fv_result result = try_rows(&rows, text, &count, &fault);
    CHECK(!result == !back, "compare: %u, and the other way %u", result, back);
    CHECK(!memcmp(&found, &found_back, sizeof found) && !strncmp(text, other, sizeof text), "compare: both ways");
    /* Other inputs are also compared, with themselves. They are not kept for that. */
    if (parameters[MODE] % MODES == AS_PAIR) saw(__func__, result, fault.input, 0);
    if (result) {
        check_fault(a, b, result, &fault);
        return false;
    }
    check_text(text);
    check_digests(a, b);
    return found.same;
}

void try_pair(const uint8_t *bytes, size_t len, const uint8_t *parameters)
{
    fv_header header;
    size_t parted = len / 2 & ~(size_t)7;
    bool is_after_first = parameters[PAIR] & 1 && len > 64;
    if (is_after_first && fv_header_read(bytes, len, &header, NULL) == FV_OK && header.length < len)
        parted = header.length;
    struct input a = {bytes, parted}, b = {bytes + parted, len - parted};
    try_sameness(a, b, try_comparison(a, b, parameters), parameters);
}
