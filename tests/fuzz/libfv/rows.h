/* SPDX-License-Identifier: BSD-2-Clause-Patent */
/* The checks of a call that writes to a buffer: rows, or bytes, which are rows of one byte. */
#ifndef ROWS_H
#define ROWS_H

#include "harness.h"

/* A call of the library for `struct rows`, and two definitions of such a call: of a function that writes rows and
 * counts them, and of a function that writes as many bytes as its input has. */
typedef fv_result rows_call(const uint8_t *bytes, size_t len, void *rows, size_t room, size_t *count, fv_fault *fault);
#define ROWS_CALL(call, function)                                                                                      \
    static fv_result call(const uint8_t *bytes, size_t len, void *rows, size_t room, size_t *count, fv_fault *fault)   \
    {                                                                                                                  \
        return function(bytes, len, rows, room, count, fault);                                                         \
    }
#define COPY_CALL(call, function)                                                                                      \
    static fv_result call(const uint8_t *bytes, size_t len, void *rows, size_t room, size_t *count, fv_fault *fault)   \
    {                                                                                                                  \
        fv_result result = function(bytes, len, rows, room, fault);                                                    \
        if (is_counted(result)) *count = len;                                                                          \
        return result;                                                                                                 \
    }

/* A call, the size and the alignment of its rows, the most rows that are read, the input that it is tried on, and which
 * of the three parameters is the number of the allocation that is refused. */
struct rows {
    const char *name;
    rows_call *call;
    size_t size, alignment, most;
    const uint8_t *bytes;
    size_t len;
    const uint8_t *parameters;
    int which;
};

/* Counts the rows by a call without a buffer. Returns 0, or the fault of a rejected input. For a rejected input, checks
 * that the call with room for rows returns the same fault and writes neither rows nor a count.
 *
 * If there are no more than the most rows, reads them to `into`. The first call has room for one row too few and must
 * fail. The second has room for all rows, or for some more, which must stay as they are. At last makes the call again
 * with an allocation refused. */
fv_result try_rows(const struct rows *rows, void *into, size_t *count, fv_fault *fault);

#endif
