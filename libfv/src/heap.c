/* SPDX-License-Identifier: BSD-2-Clause-Patent */
/* The heap of libfv: the three functions with which the proved code and images.c get and return memory. They call malloc,
 * realloc and free, and are not proved. To link libfv.a on a system without malloc, replace these three.
 *
 * `a` is the alignment, 1 to 16. malloc aligns to 16 on x86-64 Linux. For a request of 0 bytes the functions
 * ask for `a` bytes, since malloc(0) may return NULL. If memory runs out, `p` is the address of a byte that is never
 * used, because the proved code does not accept a null pointer. */
#include "heap.h"
#include <stdlib.h>

_Static_assert(sizeof(struct tried) == 16 && offsetof(struct tried, p) == 8, "the layout of a result");

static uint8_t nothing;

static struct tried tried(void *p)
{
    return (struct tried){.ok = p != NULL, .p = p ? p : &nothing};
}

struct tried rattle_alloc(size_t n, size_t a)
{
    return tried(malloc(n ? n : a));
}

struct tried rattle_realloc(uint8_t *p, size_t kept, size_t n, size_t a)
{
    (void)kept;
    return tried(realloc(p, n ? n : a));
}

void rattle_dealloc(uint8_t *p)
{
    free(p);
}
