/* SPDX-License-Identifier: BSD-2-Clause-Patent */
/* Checks rules 1 to 4 of fv.h. Each call returns FV_BAD_ARGUMENT for an
 * argument that is not allowed, and writes nothing, not even the fault. It does
 * the same with NULL as with a pointer if NULL is allowed. It reads and writes
 * only its arguments, which lie beside pages that cannot be touched.
 *
 * Each argument of a call is tried as NULL, one byte too far, and over each
 * other argument. Sizes that reach past the last address are tried too. The
 * test fills the buffer and the results before a call. After a rejected call
 * they must be unchanged. */
#define _DEFAULT_SOURCE
#include "calls.h"
#include <sys/mman.h>
#include <unistd.h>

static unsigned long refused, accepted;

/* All buffers and results. */
static const struct {
    void *at;
    size_t size;
} written[] = {
    {&buffer, sizeof buffer}, {header, sizeof header}, {digest, sizeof digest},
    {found, sizeof found},    {guid, sizeof guid},     {fault, sizeof fault},
    {count, sizeof count},    {length, sizeof length}, {number, sizeof number},
    {way, sizeof way},        {contents, sizeof contents}, {handle, sizeof handle},
};
enum { WRITTEN = sizeof written / sizeof *written };

static void fill(void)
{
    for (size_t i = 0; i < WRITTEN; i++) memset(written[i].at, FILLED, written[i].size);
}

static bool is_full(const void *at, size_t size)
{
    const uint8_t *byte = at;
    while (size && *byte == FILLED) byte++, size--;
    return !size;
}

static void begin(const struct call *call, const char *how, const struct argument *it)
{
    snprintf(trying, sizeof trying, "%s, %s %s", call->name, it->name, how);
    fill();
}

/* Makes a call that must be rejected. */
static void refuse(const struct call *call, const struct argument *all, const char *how, const struct argument *it)
{
    begin(call, how, it);
    EXPECT(call->make(all) == FV_BAD_ARGUMENT);
    for (size_t i = 0; i < WRITTEN; i++) EXPECT(is_full(written[i].at, written[i].size));
    EXPECT(!memcmp(volume, other, sizeof volume));
    refused++;
}

/* Makes a call that must not be rejected because of its arguments, and returns
 * its result. */
static fv_result accept(const struct call *call, const struct argument *all, const char *how, const struct argument *it)
{
    begin(call, how, it);
    fv_result result = call->make(all);
    EXPECT(result != FV_BAD_ARGUMENT);
    accepted++;
    return result;
}

/* Tries an argument as NULL. */
static void try_null(const struct call *call, struct argument *all, int i, fv_result usual)
{
    all[i].at = NULL;
    if (all[i].kind == FAULT)
        EXPECT(accept(call, all, "NULL", all + i) == usual && is_full(fault, sizeof fault));
    else
        refuse(call, all, "NULL", all + i);
}

/* Tries an empty argument with an address and with NULL, with which the call
 * must do the same. Then tries sizes that are too large: more than half of the
 * addresses, too large by the size of a row, and past the last address. */
static void try_sizes(const struct call *call, struct argument *all, int i)
{
    uint8_t seen[sizeof buffer];
    void *at = all[i].at;
    all[i].at = NULL, all[i].count = 0;
    fv_result empty = accept(call, all, "NULL, and empty", all + i);
    fv_fault of_null = *fault;
    memcpy(seen, &buffer, sizeof seen);
    all[i].at = at;
    EXPECT(accept(call, all, "empty", all + i) == empty);
    EXPECT(!memcmp(&of_null, fault, sizeof of_null) && !memcmp(seen, &buffer, sizeof seen));
    all[i].count = SIZE_MAX;
    refuse(call, all, "as large as can be", all + i);
    all[i].count = SIZE_MAX / 2 / all[i].size + 1;
    refuse(call, all, "larger than half of the addresses", all + i);
    all[i].at = (void *)((uintptr_t)1 << 62); /* after all other arguments, so
                                                 that it overlaps none of them */
    refuse(call, all, "larger than half of the addresses, and after all others", all + i);
    all[i].at = (void *)(UINTPTR_MAX - 127); /* aligned for each type */
    all[i].count = 512 / all[i].size;
    refuse(call, all, "past the last address", all + i);
}

static void try_misaligned(const struct call *call, struct argument *all, int i)
{
    void *at = all[i].at;
    if (has_size(all + i)) all[i].count--;
    for (size_t by = 1; by < all[i].align; by++) {
        all[i].at = (uint8_t *)at + by;
        refuse(call, all, "misaligned", all + i);
    }
    if (all[i].align == 1 || !has_size(all + i)) return;
    all[i].count = 0;
    refuse(call, all, "misaligned, and empty", all + i);
}

/* Tries an argument over another argument: at the first byte of the other, and
 * over its last bytes only. */
static void try_over(const struct call *call, struct argument *all, int i, const struct argument *its)
{
    size_t last = (its->count * its->size - 1) / all[i].align * all[i].align;
    all[i].at = its->at;
    if ((uintptr_t)its->at % all[i].align) return;
    if (!is_result(all + i) && !is_result(its)) {
        accept(call, all, "over another input", all + i);
        return;
    }
    refuse(call, all, "over another argument", all + i);
    all[i].at = (uint8_t *)its->at + last;
    if ((uintptr_t)all[i].at % all[i].align == 0) refuse(call, all, "over the last bytes of another", all + i);
}

static void try_each_argument(const struct call *call)
{
    struct argument all[MOST];
    fv_result usual = accept(call, call->all, "as usual", call->all);
    EXPECT(usual == FV_OK);
    for (EACH_ARGUMENT(i, call)) {
        if (!is_pointer(call->all + i)) continue;
#define AFRESH(test) (memcpy(all, call->all, sizeof all), test)
        AFRESH(try_null(call, all, i, usual));
        if (has_size(all + i)) AFRESH(try_sizes(call, all, i));
        AFRESH(try_misaligned(call, all, i));
        for (EACH_ARGUMENT(j, call))
            if (i != j && is_pointer(call->all + j)) AFRESH(try_over(call, all, i, call->all + j));
    }
}

/* Makes a call with each argument in pages of its own, at their end or their
 * start. The pages before and after them cannot be touched, and inputs cannot
 * be written to. The call must write what it writes elsewhere, and nothing
 * else.
 */
static void try_in_pages(const struct call *call, bool at_end)
{
    enum { PAGE = 4096 };
    struct argument all[MOST];
    uint8_t *pages[MOST], *place;
    fv_result usual = accept(call, call->all, "beside a page", call->all);
    memcpy(all, call->all, sizeof all);
    for (EACH_ARGUMENT(i, call)) {
        if (!is_pointer(all + i)) continue;
        size_t size = all[i].count * all[i].size;
        pages[i] = mmap(NULL, 3 * PAGE, PROT_NONE, MAP_PRIVATE | MAP_ANONYMOUS, -1, 0);
        if (pages[i] == MAP_FAILED || mprotect(pages[i] + PAGE, PAGE, PROT_READ | PROT_WRITE)) exit(3);
        memset(pages[i] + PAGE, FILLED, PAGE);
        place = pages[i] + (at_end ? 2 * PAGE - size : PAGE);
        if (!is_result(all + i)) {
            memcpy(place, all[i].at, size);
            mprotect(pages[i] + PAGE, PAGE, PROT_READ);
        }
        all[i].at = place;
    }
    EXPECT(call->make(all) == usual);
    for (EACH_ARGUMENT(i, call)) {
        if (!is_pointer(all + i)) continue;
        size_t size = all[i].count * all[i].size;
        EXPECT(!memcmp(all[i].at, call->all[i].at, size));
        if (is_result(all + i)) EXPECT(is_full(at_end ? pages[i] + PAGE : (uint8_t *)all[i].at + size, PAGE - size));
        munmap(pages[i], 3 * PAGE);
    }
}

/* Tries arguments that are adjacent and do not overlap. */
static void try_neighbours(void)
{
    struct {
        uint8_t before[LENGTH], input[LENGTH], after[LENGTH];
    } near;
    strcpy(trying, "neighbours");
    memcpy(near.input, volume, LENGTH);
    EXPECT(fv_volume_normalise(near.input, LENGTH, near.before, LENGTH, NULL) == FV_OK);
    EXPECT(fv_volume_normalise(near.input, LENGTH, near.after, LENGTH, NULL) == FV_OK);
    EXPECT(!memcmp(near.before, volume, LENGTH) && !memcmp(near.after, volume, LENGTH));
    EXPECT(fv_volume_normalise(near.input, LENGTH, near.before, LENGTH + 1, NULL) == FV_BAD_ARGUMENT);
    EXPECT(fv_volume_normalise(near.input, LENGTH, near.input + LENGTH - 1, LENGTH, NULL) == FV_BAD_ARGUMENT);
    /* Checks that an empty argument overlaps nothing. */
    EXPECT(fv_volume_normalise(near.input, LENGTH, near.input + 5, 0, NULL) == FV_BUFFER_TOO_SMALL);
    EXPECT(fv_volume_normalise(near.before + 5, 0, near.before, LENGTH, NULL) == FV_FAULT_TRUNCATED);
    EXPECT(!memcmp(near.input, volume, LENGTH));
}

static void try_phases(void)
{
    uint32_t value = 7;
    strcpy(trying, "phases");
    memset(fault, FILLED, sizeof fault);
    for (uint32_t phase = 2; phase; phase <<= 1) {
        EXPECT(fv_depex_evaluate(expression, sizeof expression, phase, NULL, 0, &value, fault) == FV_BAD_ARGUMENT);
        EXPECT(fv_depex_evaluate(expression, sizeof expression, phase | 1, NULL, 0, &value, fault) == FV_BAD_ARGUMENT);
        EXPECT(value == 7 && is_full(fault, sizeof fault));
    }
    EXPECT(fv_depex_evaluate(expression, sizeof expression, UINT32_MAX, NULL, 0, &value, fault) == FV_BAD_ARGUMENT);
    EXPECT(fv_depex_evaluate(expression, sizeof expression, FV_PHASE_PEI, NULL, 0, &value, fault) == FV_OK);
    EXPECT(value == FV_DEPEX_FALSE && fault->result == 0);
}

/* Checks that each call with flags refuses flags that do not exist, and
 * accepts none. */
static void try_flags(void)
{
    for (EACH_CALL(call)) {
        struct argument all[MOST];
        memcpy(all, call->all, sizeof all);
        for (EACH_ARGUMENT(i, call)) {
            if (all[i].kind != FLAGS) continue;
            for (uint32_t flag = 2; flag; flag <<= 1) {
                all[i].count = flag;
                refuse(call, all, "unknown", all + i);
                all[i].count = flag | FV_WITHOUT_MARKS;
                refuse(call, all, "unknown and known", all + i);
            }
            all[i].count = 0;
            EXPECT(accept(call, all, "none", all + i) == FV_OK);
        }
    }
}

/* Checks what each call does without an input, without a buffer, and with NULL
 * for both. */
static void try_nothing(void)
{
    for (EACH_CALL(call)) {
        struct argument all[MOST];
        memcpy(all, call->all, sizeof all);
        for (EACH_ARGUMENT(i, call))
            if (has_size(all + i)) all[i].at = NULL, all[i].count = 0;
        fv_result result = accept(call, all, "and all others, NULL and empty", all);
        EXPECT(result == call->of_nothing);
        if (result != FV_OK) EXPECT(is_full(count, sizeof count) && is_full(length, sizeof length));
        for (EACH_ARGUMENT(i, call))
            if (result == FV_OK && all[i].at == count) EXPECT(*count == 0);
        if (result && result < FV_BUFFER_TOO_SMALL) EXPECT(fault->result == result && !fault->offset && !fault->input);
    }
    strcpy(trying, "the second of two volumes is empty");
    EXPECT(fv_volume_compare(volume, LENGTH, NULL, 0, NULL, 0, found, fault) == FV_FAULT_TRUNCATED &&
           fault->input == 1);
}

/* Checks that an image above the limit is scanned and surveyed, but neither
 * checked nor normalised, and that an image at the limit is accepted. */
static void try_large_image(void)
{
    uint8_t *image = mmap(NULL, FV_LENGTH_MAX + 8, PROT_READ, MAP_PRIVATE | MAP_ANONYMOUS | MAP_NORESERVE, -1, 0);
    size_t rows = 7;
    if (image == MAP_FAILED) exit(3);
    strcpy(trying, "an image above the limit");
    EXPECT(fv_image_check(image, FV_LENGTH_MAX + 1, NULL, 0, &rows, fault) == FV_FAULT_LENGTH && rows == 7);
    EXPECT(fault->result == FV_FAULT_LENGTH && fault->offset == FV_LENGTH_MAX && fault->depth == 0);
    EXPECT(fv_image_normalise(image, FV_LENGTH_MAX + 1, NULL, 0, fault) == FV_FAULT_LENGTH);
    EXPECT(fault->offset == FV_LENGTH_MAX);
    EXPECT(fv_image_check(image, FV_LENGTH_MAX, NULL, 0, &rows, fault) == FV_OK && rows == 0);
    EXPECT(fv_image_normalise(image, FV_LENGTH_MAX, NULL, 0, fault) == FV_BUFFER_TOO_SMALL);
    rows = 7;
    EXPECT(fv_image_scan(image, FV_LENGTH_MAX + 8, NULL, 0, &rows, fault) == FV_OK && rows == 0);
    const fv_survey_row gap = {.length = FV_LENGTH_MAX + 8, .kind = FV_ROW_GAP};
    EXPECT(fv_image_survey(image, FV_LENGTH_MAX + 8, buffer.survey, 1, &rows, fault) == FV_OK && rows == 1);
    EXPECT(!memcmp(buffer.survey, &gap, sizeof gap));
    munmap(image, FV_LENGTH_MAX + 8);
}

int main(void)
{
    make_both();
    for (EACH_CALL(call)) {
        try_each_argument(call);
        for (int at_end = 0; at_end < 2; at_end++) try_in_pages(call, at_end);
    }
    try_neighbours();
    try_phases();
    try_flags();
    try_nothing();
    try_large_image();
    printf("arguments: %lu calls are refused and %lu accepted, as they should be\n", refused, accepted);
    return 0;
}
