/* SPDX-License-Identifier: BSD-2-Clause-Patent */
/* An example for C programs: lists the drivers and other files of a flash image, also those in compressed sections. Each
 * line has the type of a file (07 is a driver, 06 a PEIM) and its name, or its GUID if it has no name.
 *   cc -std=c11 drivers.c $(pkg-config --cflags --libs libfv)        ./a.out IMAGE */
#include <fv.h>
#include <stdbool.h>
#include <stdio.h>
#include <stdlib.h>

enum { MOST_OPEN = 4, MOST_IMAGE = 1 << 28, MOST_CONTENTS = 1 << 26 };

/* The last file, if its line was not printed yet. */
static struct {
    bool waits;
    uint32_t type;
    fv_guid guid;
} last;

/* Returns memory for this many elements, or ends the program. */
static void *allocate(size_t count, size_t size)
{
    void *memory = calloc(count + 1, size);
    if (memory == NULL) {
        fputs("drivers: out of memory\n", stderr);
        exit(2);
    }
    return memory;
}

/* Prints the line of the last file, if it has no name. Then remembers a file, if there is one. */
static void begin_file(const fv_node *file)
{
    char text[FV_GUID_TEXT_SIZE];
    if (last.waits && fv_guid_text(&last.guid, text, sizeof text) == FV_OK) printf("%02x %s\n", last.type, text);
    last.waits = file != NULL;
    if (file != NULL) last.type = file->efi_type, last.guid = file->guid;
}

/* Prints the line of the last file, with the name in a section, whose characters have two bytes each. */
static void print_name(const uint8_t *text, size_t size)
{
    if (!last.waits) return;
    printf("%02x ", last.type);
    for (size_t i = 0; i + 1 < size && (text[i] || text[i + 1]); i += 2)
        putchar(text[i + 1] || text[i] < ' ' || text[i] > '~' ? '?' : text[i]);
    putchar('\n');
    last.waits = false;
}

static void list_packed(const uint8_t *section, size_t size, int most_open);

/* Lists the files among the rows of a volume, or of a stream of sections: `tree` is fv_volume_tree_with or
 * fv_sections_tree. Files that are marked as fixed, as in images for ARM, are read without their marks. */
static void list(__typeof__(fv_sections_tree) *tree, const uint8_t *bytes, size_t size, int most_open)
{
    size_t count = 0;
    fv_node *rows = NULL;
    fv_result result = tree(bytes, size, FV_WITHOUT_MARKS, NULL, 0, &count, NULL);
    if (result == FV_BUFFER_TOO_SMALL) {
        rows = allocate(count, sizeof *rows);
        result = tree(bytes, size, FV_WITHOUT_MARKS, rows, count, &count, NULL);
    }
    for (size_t i = 0; result == FV_OK && i < count; i++) {
        const uint8_t *body = bytes + rows[i].offset;
        if (rows[i].kind == FV_NODE_FILE) begin_file(&rows[i]);
        if (rows[i].kind != FV_NODE_SECTION) continue;
        if (rows[i].efi_type == FV_SECTION_USER_INTERFACE) print_name(body, rows[i].length);
        if (rows[i].efi_type == FV_SECTION_COMPRESSION || rows[i].efi_type == FV_SECTION_GUID_DEFINED)
            list_packed(body - rows[i].header_length, rows[i].header_length + rows[i].length, most_open);
    }
    free(rows);
}

/* Lists the files in the contents of a packed section. */
static void list_packed(const uint8_t *section, size_t size, int most_open)
{
    fv_way way;
    fv_contents found;
    if (most_open == 0 || fv_section_way(section, size, &way, NULL) != FV_OK) return;
    size_t room = way.promised <= MOST_CONTENTS ? way.promised : 0;
    uint8_t *contents = allocate(room, 1);
    fv_result result = fv_section_open(section, size, MOST_CONTENTS, contents, room, &found, NULL);
    if (result == FV_BUFFER_TOO_SMALL) { /* the promise was wrong, or there was none */
        free(contents);
        contents = allocate(found.length, 1);
        result = fv_section_open(section, size, MOST_CONTENTS, contents, found.length, &found, NULL);
    }
    if (result == FV_OK) list(fv_sections_tree, contents, found.length, most_open - 1);
    free(contents);
}

int main(int argc, char **argv)
{
    FILE *file = argc == 2 ? fopen(argv[1], "rb") : NULL;
    if (file == NULL) {
        fputs("usage: drivers IMAGE\n", stderr);
        return 2;
    }
    uint8_t *image = allocate(MOST_IMAGE, 1);
    size_t size = fread(image, 1, MOST_IMAGE, file), count = 0;
    if (ferror(file) || fv_image_scan(image, size, NULL, 0, &count, NULL) == FV_OUT_OF_MEMORY) return 2;
    fclose(file);
    fv_header *headers = allocate(count, sizeof *headers);
    if (fv_image_scan(image, size, headers, count, &count, NULL) != FV_OK) return 2;
    for (size_t i = 0; i < count; i++)
        list(fv_volume_tree_with, image + headers[i].offset, headers[i].length, MOST_OPEN);
    begin_file(NULL);
    free(headers);
    free(image);
    return fflush(stdout) == 0 ? 0 : 2;
}
