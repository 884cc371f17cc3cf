/* SPDX-License-Identifier: BSD-2-Clause-Patent */
/* The three functions of heap.c, with which the library gets and returns memory. */
#ifndef HEAP_H
#define HEAP_H

#include <stdbool.h>
#include <stddef.h>
#include <stdint.h>

/* Whether there is memory, and its address. */
struct tried {
    bool ok;
    uint8_t *p;
};

/* `a` is the alignment of a block of `n` bytes. A block that is moved has `kept` bytes. */
struct tried rattle_alloc(size_t n, size_t a);
struct tried rattle_realloc(uint8_t *p, size_t kept, size_t n, size_t a);
void rattle_dealloc(uint8_t *p);

#endif
