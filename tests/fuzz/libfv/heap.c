/* SPDX-License-Identifier: BSD-2-Clause-Patent */
/* The three functions with which the library gets and returns memory. They find wrong uses of a block. Each block is at
 * the end of a room, and the page after it cannot be touched. The bytes around the block are checked when it is
 * returned, and its room is used again as late as possible. */
#define _GNU_SOURCE
#include "../../../libfv/src/heap.h"
#include "harness.h"
#include <sys/mman.h>

#define PAGE 4096u
#define ROOMS 16384u
#define RESTING 256u /* the number of rooms that are empty before a room is used again */
#define ROOM ((size_t)16 << 20)
#define STRIDE (ROOM + PAGE)
#define FENCE 32u /* the number of checked bytes before and after a block */
#define FENCED 0xFD
#define NEW 0xA5
#define RETURNED 0xDE

static uint8_t nothing;
static uint8_t *rooms;
static size_t len_in[ROOMS];                      /* of the block in a room, or 0 */
static uint32_t opened;                           /* the number of rooms that were used */
static uint32_t queue[ROOMS], queue_from, queued; /* the empty rooms of these, the longest empty room first */
static long refuse_in = -1, refuse_by;
unsigned long allocations, refusals;

static uint8_t *end_of_room(uint32_t room)
{
    return rooms + room * STRIDE + ROOM;
}

void open_heap(void)
{
    rooms = mmap(NULL, ROOMS * STRIDE, PROT_NONE, MAP_PRIVATE | MAP_ANONYMOUS | MAP_NORESERVE, -1, 0);
    if (rooms == MAP_FAILED) abort();
}

/* Returns a room that is empty. */
static uint32_t empty_room(void)
{
    uint32_t room = opened;
    if (queued < RESTING && opened < ROOMS) {
        if (mprotect(end_of_room(opened++) - ROOM, ROOM, PROT_READ | PROT_WRITE)) abort();
        return room;
    }
    CHECK(queued, "the harness has no room for more than %u blocks", ROOMS);
    room = queue[queue_from];
    queue_from = (queue_from + 1) % ROOMS;
    queued--;
    return room;
}

void refuse_allocation(unsigned number)
{
    refuse_in = refuse_by + (long)number;
}

void refuse_later(int by)
{
    refuse_by = by;
}

bool end_refusal(void)
{
    bool was_refused = refuse_in < 0;
    refuse_in = -1;
    return was_refused;
}

void check_no_block_is_kept(const char *call)
{
    CHECK(queued == opened, "%s: %u blocks are kept", call, opened - queued);
}

/* Returns whether this allocation is refused. After a refusal `refuse_in` is -1, which end_refusal reads. */
static bool is_refused(void)
{
    allocations++;
    if (refuse_in < 0 || refuse_in--) return false;
    refusals++;
    return true;
}

static uint32_t room_of(const uint8_t *block)
{
    return (uint32_t)((size_t)(block - rooms) / STRIDE);
}

static struct tried take(size_t len, size_t alignment)
{
    if (is_refused()) return (struct tried){false, &nothing};
    CHECK(alignment >= 1 && alignment <= 16 && !(alignment & (alignment - 1)), "an alignment of %zu", alignment);
    CHECK(len < ROOM - 2 * FENCE, "the harness has no room for a block of %zu bytes", len);
    if (!len) len = alignment;
    uint32_t room = empty_room();
    len_in[room] = len;
    size_t taken = (len + alignment - 1) / alignment * alignment;
    uint8_t *block = end_of_room(room) - taken;
    memset(block - FENCE, FENCED, FENCE);
    memset(block, NEW, len);
    memset(block + len, FENCED, taken - len);
    return (struct tried){true, block};
}

struct tried rattle_alloc(size_t n, size_t a)
{
    return take(n, a);
}

void rattle_dealloc(uint8_t *p)
{
    uint32_t room = room_of(p);
    CHECK(p >= rooms && room < ROOMS, "the returned memory is not a block");
    size_t len = len_in[room];
    CHECK(len, "a block is returned twice");
    CHECK(p + len <= end_of_room(room) && p + len + 16 > end_of_room(room), "the returned memory is not a block");
    CHECK(is_all(p - FENCE, FENCE, FENCED), "bytes before a block of %zu were written", len);
    CHECK(is_all(p + len, (size_t)(end_of_room(room) - p) - len, FENCED), "bytes after a block of %zu", len);
    memset(p, RETURNED, len);
    len_in[room] = 0;
    queue[(queue_from + queued++) % ROOMS] = room;
}

struct tried rattle_realloc(uint8_t *p, size_t kept, size_t n, size_t a)
{
    struct tried block = take(n, a);
    if (!block.ok) return block;
    size_t old = len_in[room_of(p)];
    CHECK(kept <= old, "%zu bytes of a block of %zu are to be kept", kept, old);
    memcpy(block.p, p, kept < n ? kept : n);
    rattle_dealloc(p);
    return block;
}
