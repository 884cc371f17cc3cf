/* SPDX-License-Identifier: BSD-2-Clause-Patent */
/* This object is loaded into a program. It refuses the program's allocation with the number REFUSE_AT, counted from 1,
   and no allocation if that is 0. When the program ends, five numbers are written to the descriptor REPORT: the most
   bytes that the program held at one time, the number of allocations that it asked for, whether one was refused, and
   the sizes of the two allocations after the refused allocation. */
#include <malloc.h>
#include <stddef.h>
#include <stdlib.h>
#include <unistd.h>

extern void *__libc_malloc(size_t size);
extern void *__libc_realloc(void *old, size_t size);
extern void __libc_free(void *old);

static long calls;
static long refused = -1;
static size_t held;
static size_t most;
static size_t after[2];

static long number_of(const char *name)
{
    const char *text = getenv(name);
    return text ? atol(text) : 0;
}

static int is_refused(size_t size)
{
    if (refused < 0)
        refused = number_of("REFUSE_AT");
    calls++;
    if (refused > 0 && calls > refused && calls - refused <= 2)
        after[calls - refused - 1] = size;
    return calls == refused;
}

/* Counts a new block, or a block that replaces an old block of this many bytes. Both count as held for a moment,
   wherever the C library puts the new block. */
static void *counted(void *block, size_t old)
{
    if (block != NULL) {
        held += malloc_usable_size(block);
        most = most < held ? held : most;
        held -= old;
    }
    return block;
}

void *malloc(size_t size)
{
    return is_refused(size) ? NULL : counted(__libc_malloc(size), 0);
}

void *realloc(void *old, size_t size)
{
    size_t before = malloc_usable_size(old);
    return is_refused(size) ? NULL : counted(__libc_realloc(old, size), before);
}

void free(void *old)
{
    held -= malloc_usable_size(old);
    __libc_free(old);
}

/* Reports a number. This function allocates nothing, but printf might. */
static void tell(size_t number)
{
    char text[24];
    size_t at = sizeof text;

    text[--at] = '\n';
    do
        text[--at] = (char)('0' + number % 10);
    while ((number /= 10) != 0);
    if (write((int)number_of("REPORT"), text + at, sizeof text - at) < 0)
        _exit(99);
}

__attribute__((destructor)) static void tell_at_end(void)
{
    tell(most);
    tell((size_t)calls);
    tell(refused > 0 && calls >= refused);
    tell(after[0]);
    tell(after[1]);
}
