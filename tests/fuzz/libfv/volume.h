/* SPDX-License-Identifier: BSD-2-Clause-Patent */
/* A volume that is tried, and the results of the calls that were made so far. */
#ifndef VOLUME_H
#define VOLUME_H

#include "harness.h"

/* The largest number of rows of a table that are checked. */
#define MOST_ROWS 16000u
/* The largest number of rows of a tree that are checked. */
#define MOST_NODES (MOST_BUFFER / sizeof(fv_node))

struct volume {
    const uint8_t *bytes;
    size_t len;
    const uint8_t *parameters;
    fv_result header_result; /* the result of fv_header_read, and its fault */
    fv_fault header_fault;
    fv_header header;
    fv_result result; /* the result of fv_volume_normalise, and its fault */
    fv_fault fault;
    fv_result unread;     /* the result of a call that needs no image: 0, or the fault */
    const uint8_t *image; /* the image, if it has one */
    fv_sha256 digest;     /* of the image */
    const fv_cell *cells;
    size_t cell_count;
    const fv_node *nodes;       /* the rows of its tree, if they were read */
    const fv_node *image_nodes; /* the rows of its image, if they were read */
    size_t node_count;          /* the number of rows of each */
};

/* Checks that a call has the wanted result, at most `most`, and the fault of fv_volume_normalise if it has a fault. */
void check_agrees(const char *call, const struct volume *v, fv_result result, const fv_fault *fault, fv_result wanted,
                  fv_result most);

/* Each function compares a call with the results that are known of the volume, and adds its own results. */
void try_cells(struct volume *volume);
void try_tree(struct volume *volume);
void try_parts(const struct volume *volume);
void try_digests(const struct volume *volume);
void try_unfix(const struct volume *volume);
void try_streams(const struct volume *volume);
void try_marks(const struct volume *volume);

#endif
