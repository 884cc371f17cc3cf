/* SPDX-License-Identifier: BSD-2-Clause-Patent */
#include "harness.h"
#include <stdarg.h>

const fv_fault unset_fault = {UINT64_C(0x1122334455667788), 0x99aabbcc, 0xddeeff00, 0x12345678, 0x9abcdef0};

_Noreturn void finding(const char *function, int line, const char *text, ...)
{
    va_list arguments;
    va_start(arguments, text);
    fprintf(stderr, "finding: %s, line %d: ", function, line);
    vfprintf(stderr, text, arguments);
    fputc('\n', stderr);
    va_end(arguments);
    abort();
}

bool is_all(const void *bytes, size_t len, uint8_t value)
{
    const uint8_t *at = bytes;
    for (size_t i = 0; i < len; i++)
        if (at[i] != value) return false;
    return true;
}

bool is_counted(fv_result result)
{
    return result == FV_OK || result == FV_BUFFER_TOO_SMALL;
}

static bool is_no_fault(const fv_fault *fault)
{
    return is_all(fault, sizeof *fault, 0);
}

bool is_same_fault(const fv_fault *a, const fv_fault *b)
{
    return !memcmp(a, b, sizeof *a);
}

void check_result(const char *call, fv_result result, const fv_fault *fault, fv_result most, size_t len)
{
    CHECK(result <= most, "%s: result %u", call, result);
    CHECK(fv_result_text(result)[0], "%s: result %u has no text", call, result);
    if (result == FV_OK) {
        CHECK(is_no_fault(fault), "%s: no fault, and fault %u at %lu", call, fault->result, fault->offset);
        return;
    }
    CHECK(fault->result == result && fault->depth <= 8 && fault->offset <= len && fault->input <= 1 && !fault->reserved,
          "%s: result %u, and fault %u at %lu of %zu, depth %u", call, result, fault->result, fault->offset, len,
          fault->depth);
}

void check_plain(const char *call, fv_result result, fv_result wanted, const fv_fault *fault)
{
    CHECK(result == wanted, "%s: result %u, not %u", call, result, wanted);
    CHECK(is_no_fault(fault), "%s: result %u, and fault %u at %lu", call, result, fault->result, fault->offset);
}

void check_refusal(const char *call, fv_result result, fv_result otherwise, const fv_fault *fault)
{
    bool was_refused = end_refusal();
    check_no_block_is_kept(call);
    if (!was_refused) {
        CHECK(result == otherwise, "%s: result %u, and before %u", call, result, otherwise);
        return;
    }
    CHECK(result == FV_OUT_OF_MEMORY, "%s: result %u where an allocation was refused", call, result);
    if (!fault) return;
    CHECK(fault->result == FV_OUT_OF_MEMORY && !fault->offset && !fault->depth && !fault->input && !fault->reserved,
          "%s: result %u, and fault %u at %lu, depth %u", call, result, fault->result, fault->offset, fault->depth);
}
