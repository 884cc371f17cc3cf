/* SPDX-License-Identifier: BSD-2-Clause-Patent */
/* An example for C programs: lists the volumes of a flash image with their files and bytes of data, and reports whether
 * all of the volumes are canonical.
 *   cc -std=c11 volumes.c $(pkg-config --cflags --libs libfv)        ./a.out IMAGE */
#include <fv.h>
#include <inttypes.h>
#include <stdio.h>
#include <stdlib.h>
#include <string.h>

/* Returns zeroed memory for this many elements, or ends the program. */
static void *allocate(size_t count, size_t size)
{
    void *memory = calloc(count, size);
    if (memory == NULL && count > 0) {
        fputs("volumes: out of memory\n", stderr);
        exit(2);
    }
    return memory;
}

/* Returns the bytes of a file and sets their number, or ends the program. */
static uint8_t *read_file(const char *path, size_t *size)
{
    size_t room = 1 << 16;
    uint8_t *bytes = allocate(room, 1);
    FILE *file = fopen(path, "rb");
    *size = 0;
    while (file != NULL && !feof(file) && !ferror(file)) {
        if (*size == room) {
            uint8_t *larger = allocate(room, 2);
            memcpy(larger, bytes, room);
            free(bytes);
            bytes = larger;
            room *= 2;
        }
        *size += fread(bytes + *size, 1, room - *size, file);
    }
    if (file == NULL || ferror(file)) {
        fprintf(stderr, "volumes: cannot read %s\n", path);
        exit(2);
    }
    fclose(file);
    return bytes;
}

/* Prints a line for a volume of the image. */
static void print_volume(const uint8_t *image, const fv_header *header)
{
    const uint8_t *volume = image + header->offset;
    fv_node *nodes = NULL;
    size_t count = 0;
    /* Without a buffer, the call says how many rows there are. */
    fv_result result = fv_volume_tree(volume, header->length, NULL, 0, &count, NULL);
    if (result == FV_BUFFER_TOO_SMALL) {
        nodes = allocate(count, sizeof *nodes);
        result = fv_volume_tree(volume, header->length, nodes, count, &count, NULL);
    }
    if (result != FV_OK) {
        printf("volume at %" PRIu64 ": %s\n", header->offset, fv_result_text(result));
        return;
    }
    uint64_t files = 0, bytes = 0;
    for (size_t i = 0; i < count; i++) {
        if (nodes[i].depth == 1) { /* a file of this volume, not of a volume in it */
            files++;
            bytes += nodes[i].length;
        }
    }
    printf("volume at %" PRIu64 ": %" PRIu64 " files, %" PRIu64 " bytes of data\n", header->offset, files, bytes);
    free(nodes);
}

int main(int argc, char **argv)
{
    if (argc != 2) {
        fputs("usage: volumes IMAGE\n", stderr);
        return 2;
    }
    size_t size, count = 0;
    uint8_t *image = read_file(argv[1], &size);
    fv_header *headers = NULL;
    fv_result result = fv_image_scan(image, size, NULL, 0, &count, NULL);
    if (result == FV_BUFFER_TOO_SMALL) {
        headers = allocate(count, sizeof *headers);
        result = fv_image_scan(image, size, headers, count, &count, NULL);
    }
    if (result != FV_OK) {
        fprintf(stderr, "volumes: %s\n", fv_result_text(result));
        return 2;
    }
    for (size_t i = 0; i < count; i++) {
        print_volume(image, &headers[i]);
    }

    uint8_t *canonical = allocate(size, 1);
    result = fv_image_normalise(image, size, canonical, size, NULL);
    if (result != FV_OK) {
        puts(fv_result_text(result));
    } else if (size > 0 && memcmp(image, canonical, size) != 0) {
        puts("not canonical");
    } else {
        puts("canonical");
    }
    free(canonical);
    free(headers);
    free(image);
    return fflush(stdout) == 0 ? 0 : 2;
}
