/* SPDX-License-Identifier: BSD-2-Clause-Patent */
/* A read or a write past an argument ends the process by a signal, or changes a byte that is UNTOUCHED. */
#define _GNU_SOURCE
#include "harness.h"
#include <sys/mman.h>

#define PAGE 4096u
#define BESIDE 64u /* the number of checked bytes before and after a buffer */

static uint8_t *input, *stream, *output;
static bool is_at_start, is_null;
static uint8_t *buffer, *from, *to; /* the buffer, and the bytes that are checked: the buffer and the bytes beside it */

static uint8_t *open_room(void)
{
    uint8_t *room = mmap(NULL, MOST_BUFFER + 2 * PAGE, PROT_NONE, MAP_PRIVATE | MAP_ANONYMOUS, -1, 0);
    if (room == MAP_FAILED || mprotect(room + PAGE, MOST_BUFFER, PROT_READ | PROT_WRITE)) abort();
    return room + PAGE;
}

void open_rooms(void)
{
    input = open_room();
    stream = open_room();
    output = open_room();
}

/* Copies an input to the start or to the end of a room, which then cannot be written to. */
static const uint8_t *place_in(uint8_t *room, const uint8_t *data, size_t len)
{
    uint8_t *place = is_at_start ? room : room + MOST_BUFFER - len;
    if (mprotect(room, MOST_BUFFER, PROT_READ | PROT_WRITE)) abort();
    memcpy(place, data, len);
    if (mprotect(room, MOST_BUFFER, PROT_READ)) abort();
    return place;
}

const uint8_t *place_input(const uint8_t *data, size_t len, bool at_start)
{
    is_null = true;
    is_at_start = at_start;
    return place_in(input, data, len);
}

const uint8_t *place_stream(const uint8_t *data, size_t len)
{
    return place_in(stream, data, len);
}

uint8_t *new_buffer(size_t len, size_t alignment)
{
    size_t taken = (len + alignment - 1) / alignment * alignment;
    size_t at = is_at_start ? 0 : MOST_BUFFER - taken, end = at + taken;
    buffer = output + at;
    from = buffer - (at < BESIDE ? at : BESIDE);
    to = output + (MOST_BUFFER - end < BESIDE ? MOST_BUFFER : end + BESIDE);
    memset(from, UNTOUCHED, (size_t)(to - from));
    return buffer;
}

void *no_buffer(void)
{
    uint8_t *none = new_buffer(0, 8);
    is_null = !is_null;
    return is_null ? NULL : none;
}

void check_untouched(const char *call)
{
    CHECK(is_all(from, (size_t)(to - from), UNTOUCHED), "%s has written to a buffer", call);
}

void check_written(size_t len, const char *call)
{
    CHECK(is_all(from, (size_t)(buffer - from), UNTOUCHED), "%s has written before its buffer", call);
    CHECK(is_all(buffer + len, (size_t)(to - buffer) - len, UNTOUCHED), "%s has written more than it reports", call);
}
