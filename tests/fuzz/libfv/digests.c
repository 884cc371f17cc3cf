/* SPDX-License-Identifier: BSD-2-Clause-Patent */
/* Checks fv_volume_tree_digests (README.md says how). */
#include "rows.h"
#include "volume.h"

#define MOST_DIGESTS (MOST_BUFFER / sizeof(fv_sha256))
/* The largest image, in bytes, that is hashed here. */
#define MOST_HASHED 65536u

/* Checks that the digests cover the bytes in the image. A section that holds sections or a volume has no digest. */
static void check_digests(const struct volume *v, const fv_sha256 *digests)
{
    uint64_t hashed = 0;
    CHECK(!memcmp(digests, &v->digest, sizeof *digests), "tree_digests: the first is not the digest of the volume");
    for (size_t i = 1; i < v->node_count && hashed < MOST_HASHED; i++) {
        const fv_node *node = v->image_nodes + i;
        uint8_t expected[32] = {0};
        if (node->kind != FV_NODE_SECTION || node->content == FV_CONTENT_BYTES) {
            sha256(v->image + node->offset, node->length, expected);
            hashed += node->length;
        }
        CHECK(!memcmp(digests[i].bytes, expected, 32), "tree_digests: number %lu is not the digest of its bytes", i);
    }
}

ROWS_CALL(call, fv_volume_tree_digests)

void try_digests(const struct volume *v)
{
    static fv_sha256 digests[MOST_DIGESTS];
    const struct rows rows = {"tree_digests", call,   sizeof *digests, 1, MOST_DIGESTS,
                              v->bytes,       v->len, v->parameters,   0};
    size_t count;
    fv_fault fault;
    fv_result result = try_rows(&rows, digests, &count, &fault);
    check_agrees("tree_digests", v, result, &fault, v->result, FV_FAULT_TOP_ALIGNMENT);
    if (result) return;
    CHECK(count == v->node_count, "tree_digests: %lu of %lu rows", count, v->node_count);
    if (v->image_nodes) check_digests(v, digests);
}
