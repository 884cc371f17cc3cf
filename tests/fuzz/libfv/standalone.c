/* SPDX-License-Identifier: BSD-2-Clause-Patent */
/* standalone FILE..: tries each file with all checks of the harness, without libFuzzer: as an image and a volume, as an
 * expression, as a hand-off list, as a stream of sections, as a packed section, and after the file before it as a pair.
 * Each is tried in all forms of the parameters, and with each allocation of each call refused in turn.
 *   standalone --changes FILE..   tries each file with each of its bits flipped, and each of its beginnings
 *   standalone --texts            tries a GUID with each character in each place, and cut short */
#include "harness.h"
#include <limits.h>

enum { FORMS = 16, NONE_REFUSED = INT_MAX };
static const uint8_t modes[] = {AS_IMAGE_AND_VOLUME, AS_EXPRESSION, AS_HAND_OFF_LIST,
                                AS_PAIR,             AS_SECTIONS,   AS_PACKED};

static uint8_t given[PARAMETERS + 2 * MOST_INPUT], *const data = given + PARAMETERS;

void saw(const char *function, uint32_t a, uint32_t b, uint64_t c)
{
    (void)function, (void)a, (void)b, (void)c;
}

/* Reads a file to a place. Returns the number of its bytes. */
static size_t read_file(const char *path, uint8_t *to)
{
    FILE *file = fopen(path, "rb");
    size_t size = file ? fread(to, 1, MOST_INPUT, file) : 0;
    if (!file || ferror(file) || getc(file) != EOF) {
        fprintf(stderr, "standalone: cannot read %s, or it is too long\n", path);
        exit(3);
    }
    fclose(file);
    return size;
}

/* Tries the bytes at `data` in a form: each bit of its number is a choice. The allocations with the number `refused`
 * are refused. */
static void try_form(uint8_t mode, size_t size, unsigned form, int refused)
{
    const uint8_t parameters[PARAMETERS] = {
        [MODE] = mode | (form & 1 ? AT_START : 0),
        [PAIR] = (form >> 1 & 1) | (form >> 1 & 2),
        [FILE_CHOICE] = (form >> 2 & 2) | (form << 2 & 4),
        [ROW_CHOICE] = (form >> 2 & 1) + 2 * form,
        [REFUSED] = 1,
        1,
        1, /* odd: the buffer has room */
    };
    memcpy(given, parameters, PARAMETERS);
    refuse_later(refused - 1);
    LLVMFuzzerTestOneInput(given, PARAMETERS + size);
}

static void try_mode(uint8_t mode, size_t size)
{
    for (unsigned form = 0; form < FORMS; form++) try_form(mode, size, form, NONE_REFUSED);
    unsigned long before;
    int number = 0;
    do {
        before = refusals;
        try_form(mode, size, 0, number++);
    } while (refusals > before);
}

static void try_file(const char *path, const char *path_before)
{
    size_t size = read_file(path, data), before = 0;
    for (size_t i = 0; i < sizeof modes; i++) {
        if (modes[i] == AS_PAIR && path_before) {
            before = read_file(path_before, data);
            read_file(path, data + before);
        }
        if (before + size <= MOST_INPUT - PARAMETERS) try_mode(modes[i], before + size);
    }
}

static void try_changes(const char *path)
{
    size_t size = read_file(path, data);
    for (size_t i = 0; i < sizeof modes; i++) {
        for (size_t bit = 0; bit < 8 * size; bit++) {
            data[bit / 8] ^= (uint8_t)(1 << bit % 8);
            try_form(modes[i], size, bit % FORMS, NONE_REFUSED);
            data[bit / 8] ^= (uint8_t)(1 << bit % 8);
        }
        for (size_t count = 0; count < size; count++) try_form(modes[i], count, count % FORMS, NONE_REFUSED);
    }
}

static void try_texts(void)
{
    static const char text[] = "8c8ce578-8a3d-4f1c-9935-896185c32dd3";
    for (size_t at = 0; at < sizeof text - 1; at++) {
        for (int it = 0; it <= UCHAR_MAX; it++) {
            memcpy(data, text, sizeof text);
            data[at] = (uint8_t)it;
            for (unsigned form = 0; form < 2; form++) try_form(AS_EXPRESSION, sizeof text - form, form, NONE_REFUSED);
        }
        try_form(AS_EXPRESSION, at, 0, NONE_REFUSED);
    }
}

int main(int argc, char **argv)
{
    const char *option = argc > 1 && !strncmp(argv[1], "--", 2) ? argv[1] : "";
    open_rooms();
    open_heap();
    if (!strcmp(option, "--texts")) try_texts();
    for (int i = *option ? 2 : 1; i < argc; i++) {
        if (*option)
            try_changes(argv[i]);
        else
            try_file(argv[i], i > 1 ? argv[i - 1] : NULL);
    }
    printf("%lu runs, %lu allocations refused\n", runs, refusals);
    return 0;
}
