/* SPDX-License-Identifier: BSD-2-Clause-Patent */
/* The checks of the arguments of a call: rules 1 to 3 of fv.h, and what a proved call gets in place of NULL. They read no
 * byte of an argument. This file is not proved: tests/libfv/arguments.c tries it. */
#ifndef ARGUMENTS_H
#define ARGUMENTS_H

#include "fv.h"
#include <stdbool.h>

/* The checks are inlined into each call, so most of their numbers are known there. */
#define INLINE static inline __attribute__((always_inline))

/* In almost every call this condition holds. */
#define LIKELY(condition) __builtin_expect(condition, true)

/* An argument: its address, the number of its elements, their size and alignment, and whether the call writes to it. */
struct span {
    uintptr_t at;
    size_t count, size, align;
    bool is_result;
};

#define SPAN(pointer, ...) ((struct span){(uintptr_t)(pointer), __VA_ARGS__})
#define BYTES(pointer, count) SPAN(pointer, (count), 1, 1, false)
#define BUFFER(pointer, count) SPAN(pointer, (count), 1, 1, true)
#define ROWS(pointer, count) SPAN(pointer, (count), sizeof *(pointer), _Alignof(__typeof__(*(pointer))), true)
#define RESULT(pointer) ROWS(pointer, 1)
#define NONE BYTES(NULL, 0)

/* Returns the address after the last byte of an argument, or 0 for an empty argument. Every argument begins at or after
 * address 0, so none overlaps an empty argument. */
INLINE uintptr_t end_of(struct span it)
{
    return LIKELY(it.count != 0) ? it.at + it.count * it.size : 0;
}

/* Returns whether this argument on its own is not allowed. The last comparison finds NULL, where the end is the number
 * of bytes, and a size that reaches past the last address, where the end is less than this number. */
INLINE bool is_bad(struct span it)
{
    if (it.at % it.align) return true;
    if (!it.count) return false;
    return it.count > SIZE_MAX / 2 / it.size || end_of(it) <= it.count * it.size;
}

/* Returns whether these two arguments, each of which is allowed on its own, have a byte in common, and the call writes
 * to one of them. */
INLINE bool collide(struct span a, struct span b)
{
    return (a.is_result || b.is_result) && a.at < end_of(b) && b.at < end_of(a);
}

/* Returns whether one of the arguments is not allowed, or overlaps an argument to which the call writes. */
INLINE bool are_bad(struct span a, struct span b, struct span c, struct span d, struct span e)
{
    if (is_bad(a) || is_bad(b) || is_bad(c) || is_bad(d) || is_bad(e)) return true;
    return collide(a, b) || collide(a, c) || collide(a, d) || collide(a, e) || collide(b, c) || collide(b, d) ||
           collide(b, e) || collide(c, d) || collide(c, e) || collide(d, e);
}

/* Returns FV_BAD_ARGUMENT from the call if one of these two to four arguments is bad, or `fault`. */
#define CHECK(...) CHECK_FOUR(__VA_ARGS__, NONE, NONE, NONE)
#define CHECK_FOUR(a, b, c, d, ...) \
    if (!LIKELY(!are_bad(RESULT(fault), a, b, c, d))) return FV_BAD_ARGUMENT

/* If the caller does not ask for the fault, makes the call again with a variable `unwanted`. No other path of the call
 * has a variable on the stack, so the compiler can jump to the proved call (a tail call). */
#define NEEDS_FAULT(...)                  \
    if (!LIKELY(fault != NULL)) {         \
        fv_fault unwanted;                \
        return __VA_ARGS__;               \
    }

/* The target of an empty argument that is NULL. It is aligned for each type of fv.h, and neither read nor written. */
static _Alignas(16) uint8_t nothing[16];

INLINE const void *input(const void *pointer)
{
    return LIKELY(pointer != NULL) ? pointer : nothing;
}

INLINE void *buffer_of(void *pointer)
{
    return LIKELY(pointer != NULL) ? pointer : nothing;
}

#endif
