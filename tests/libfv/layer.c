/* SPDX-License-Identifier: BSD-2-Clause-Patent */
/* Checks the arguments that the layer in C (src/calls.c) passes to the proved calls. Here the proved calls are replaced
 * by functions that only remember their arguments, and return a number. So the linker leaves the proved calls out. The
 * layer must pass each argument as it is, in the same order, and flags as a truth value. It must replace NULL by an
 * address that is aligned for each type. It must return the result of the proved call. A size of half of the addresses is the largest that is
 * passed on. */
#include "calls.h"

enum { RETURNED = 0x12345678, MOST_PASSED = 9 };

/* What was passed on. The truth value that stands for flags is not among the other arguments. */
static struct {
    const char *name;
    int count;
    uintptr_t all[MOST_PASSED];
    bool is_unmarked;
} passed;

#define U(it) (uintptr_t)(it)
#define PROVED(call, parameters, ...) PROVED_WITH(call, parameters, false, __VA_ARGS__)
#define PROVED_WITH(call, parameters, unmarked, ...)                                                                   \
    fv_result fvp_##call parameters;                                                                                   \
    fv_result fvp_##call parameters                                                                                    \
    {                                                                                                                  \
        const uintptr_t all[] = {__VA_ARGS__};                                                                         \
        passed.name = "fv_" #call;                                                                                     \
        passed.count = sizeof all / sizeof *all;                                                                       \
        memcpy(passed.all, all, sizeof all);                                                                           \
        passed.is_unmarked = unmarked;                                                                                 \
        return RETURNED;                                                                                               \
    }
#define PROVED_ROWS(call, row)                                                                                         \
    PROVED(call, (const void *a, size_t b, row *c, size_t d, size_t *e, fv_fault *f), U(a), b, U(c), d, U(e), U(f))
#define PROVED_COPY(call)                                                                                              \
    PROVED(call, (const void *a, size_t b, void *c, size_t d, fv_fault *e), U(a), b, U(c), d, U(e))
#define PROVED_ONE(call, result) PROVED(call, (const void *a, size_t b, result *c, fv_fault *d), U(a), b, U(c), U(d))
#define PROVED_ROWS_WITH(call, row)                                                                                    \
    PROVED_WITH(call, (const void *a, size_t b, bool c, row *d, size_t e, size_t *f, fv_fault *g), c, U(a), b, U(d),   \
                e, U(f), U(g))
#define PROVED_PART_WITH(call)                                                                                         \
    PROVED_WITH(call, (const void *a, size_t b, bool c, size_t d, void *e, size_t f, size_t *g, fv_fault *h), c, U(a), \
                b, d, U(e), f, U(g), U(h))

PROVED_ONE(header_read, fv_header)
PROVED_ROWS(image_scan, fv_header)
PROVED_ROWS(image_check, fv_volume_check)
PROVED_ROWS(image_survey, fv_survey_row)
PROVED(image_open,
       (const void *a, size_t b, uint64_t c, fv_packed *d, size_t e, void *f, size_t g, void *h, fv_fault *i), U(a), b,
       c, U(d), e, U(f), g, U(h), U(i))
PROVED(image_same,
       (const void *a, size_t b, const void *c, size_t d, uint64_t e, fv_sameness *f, fv_fault *g), U(a), b, U(c), d, e,
       U(f), U(g))
PROVED_COPY(image_normalise)
PROVED_ONE(volume_is_canonical, uint32_t)
PROVED_COPY(volume_normalise)
PROVED_COPY(volume_unfix)
PROVED_ONE(volume_digest, fv_sha256)
PROVED(volume_compare,
       (const void *a, size_t b, const void *c, size_t d, char *e, size_t f, fv_comparison *g, fv_fault *h), U(a), b,
       U(c), d, U(e), f, U(g), U(h))
PROVED_ROWS(volume_cells, fv_cell)
PROVED_ROWS_WITH(volume_tree, fv_node)
PROVED_ROWS_WITH(volume_tree_digests, fv_sha256)
PROVED_PART_WITH(volume_extract)
PROVED_ONE(section_way, fv_way)
PROVED(section_open, (const void *a, size_t b, size_t c, void *d, size_t e, fv_contents *f, fv_fault *g), U(a), b, c,
       U(d), e, U(f), U(g))
PROVED_ROWS(sections_survey, fv_survey_row)
PROVED_ROWS_WITH(sections_tree, fv_node)
PROVED_ROWS_WITH(sections_tree_digests, fv_sha256)
PROVED_PART_WITH(sections_extract)
PROVED_ROWS(variables_read, fv_variable_row)
PROVED_ROWS(signatures_read, fv_variable_row)
PROVED(depex_evaluate, (const void *a, size_t b, uint32_t c, const fv_guid *d, size_t e, uint32_t *f, fv_fault *g),
       U(a), b, c, U(d), e, U(f), U(g))
PROVED(hobs_read, (const void *a, size_t b, fv_hob *c, size_t d, size_t *e, size_t *f, fv_fault *g), U(a), b, U(c), d,
       U(e), U(f), U(g))

/* Checks that the next value that was passed on is this number. */
static void expect_number(int *at, uintptr_t wanted)
{
    EXPECT(*at < passed.count && passed.all[*at] == wanted);
    ++*at;
}

/* Checks that the next value that was passed on is this pointer, or for NULL an aligned address. */
static void expect_pointer(int *at, void *wanted)
{
    if (!wanted) EXPECT(*at < passed.count && passed.all[*at] && passed.all[*at] % 8 == 0);
    expect_number(at, wanted ? U(wanted) : passed.all[*at]);
}

/* Returns whether a call is made over the proved call of this name. */
static bool is_over(const struct call *call, const char *proved)
{
    size_t size = proved ? strlen(proved) : 0;
    return size && !strncmp(call->name, proved, size) && (!call->name[size] || !strcmp(call->name + size, "_with"));
}

/* Makes a call with these arguments, and checks what is passed on. */
static void pass(const struct call *call, const struct argument *all)
{
    int at = 0;
    bool is_unmarked = false;
    memset(&passed, 0, sizeof passed);
    EXPECT(call->make(all) == RETURNED);
    EXPECT(is_over(call, passed.name));
    for (EACH_ARGUMENT(i, call)) {
        if (all[i].kind == FLAGS) is_unmarked = all[i].count != 0;
        if (is_pointer(all + i)) expect_pointer(&at, all[i].at);
        if (all[i].kind == NUMBER || has_size(all + i)) expect_number(&at, all[i].count);
    }
    EXPECT(at == passed.count && passed.is_unmarked == is_unmarked);
}

int main(void)
{
    unsigned tried = 0;
    for (EACH_CALL(call)) {
        if (!strncmp(call->name, "fv_guid_", 8)) continue; /* these calls are below no layer */
        if (!strcmp(call->name, "fv_image_open")) continue; /* this call makes several proved calls */
        struct argument all[MOST];
        memcpy(all, call->all, sizeof all);
        snprintf(trying, sizeof trying, "%s", call->name);
        for (EACH_ARGUMENT(i, call))
            if (all[i].count > MOST && all[i].kind != FLAGS) all[i].count -= (size_t)i; /* the sizes of a call differ */
        pass(call, all);
        for (EACH_ARGUMENT(i, call)) {
            if (all[i].kind != FLAGS) continue;
            all[i].count = 0;
            pass(call, all);
            all[i].count = FV_WITHOUT_MARKS;
            tried++;
        }
        for (EACH_ARGUMENT(i, call)) {
            if (!has_size(all + i)) continue;
            struct argument usual = all[i];
            snprintf(trying, sizeof trying, "%s, %s", call->name, usual.name);
            all[i].at = (void *)(U(1) << 62), all[i].count = SIZE_MAX / 2 / all[i].size;
            pass(call, all);
            all[i].count++;
            EXPECT(call->make(all) == FV_BAD_ARGUMENT);
            all[i] = usual;
            tried++;
        }
        for (EACH_ARGUMENT(i, call))
            if (has_size(all + i) || all[i].kind == FAULT) all[i].at = NULL, all[i].count = 0;
        snprintf(trying, sizeof trying, "%s with NULL", call->name);
        pass(call, all);
        tried += 2;
    }
    printf("layer: %u calls pass on what they are passed\n", tried);
    return 0;
}
