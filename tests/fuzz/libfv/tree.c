/* SPDX-License-Identifier: BSD-2-Clause-Patent */
/* Checks fv_volume_tree (README.md says how). */
#include "format.h"
#include "rows.h"
#include "volume.h"

/* Checks that a row of this kind may hold its content, and that its parent may hold the row. */
static bool is_held(const fv_node *parent, const fv_node *node)
{
    switch (node->kind) {
    case FV_NODE_VOLUME:
        return node->content == FV_CONTENT_FILES && parent->content == FV_CONTENT_VOLUME && !node->index &&
               node->offset == parent->offset && node->length == parent->length;
    case FV_NODE_FILE:
        return parent->kind == FV_NODE_VOLUME &&
               (node->content == FV_CONTENT_BYTES || node->content == FV_CONTENT_SECTIONS);
    default:
        return node->kind == FV_NODE_SECTION && parent->content == FV_CONTENT_SECTIONS &&
               node->content >= FV_CONTENT_BYTES && node->content <= FV_CONTENT_VOLUME;
    }
}

/* Checks that the row of a volume has the fields of its header. */
static void check_volume_row(const struct volume *v, const fv_node *node, size_t row)
{
    fv_header header;
    fv_fault fault = unset_fault;
    fv_result result = fv_header_read(v->bytes + node->offset, node->length, &header, &fault);
    check_plain("header_read", result, FV_OK, &fault);
    CHECK(header.length == node->length && header.header_length == node->header_length &&
              header.attributes == node->attributes && header.file_system == node->file_system &&
              !memcmp(&header.name, &node->guid, sizeof node->guid) && !node->efi_type,
          "tree: the volume of number %lu", row);
}

/* Checks that the row of a file or a section has the fields of its header, and no other fields. */
static void check_part_row(const struct volume *v, const fv_node *node, size_t row)
{
    static const fv_guid no_name;
    const uint8_t *header = v->bytes + node->offset - node->header_length;
    bool is_file = node->kind == FV_NODE_FILE, is_extended = !is_file && number_at(header, 3) == 0xFFFFFF;
    bool is_large = is_file && header[ATTRIBUTES] & LARGE;
    uint64_t size = is_file ? file_size(header) : is_extended ? number_at(header + 4, 4) : number_at(header, 3);
    uint32_t header_length = is_file ? (is_large ? LARGE_HEAD : HEAD) : is_extended ? 8 : 4;
    CHECK(node->header_length == header_length && node->length == size - header_length, "tree: the size of number %lu",
          row);
    CHECK(node->efi_type == header[is_file ? KIND : SECTION_KIND] && !node->file_system, "tree: the type of number %lu",
          row);
    CHECK(!memcmp(&node->guid, is_file ? header : no_name.bytes, 16), "tree: the name of number %lu", row);
    CHECK(node->attributes == (is_file ? header[ATTRIBUTES] & ~1u : 0), "tree: the attributes of number %lu", row);
}

/* Checks that each row lies in the row of its parent, after the preceding row with the same parent. */
static void check_nodes(const struct volume *v, const fv_node *nodes, size_t count)
{
    static uint64_t held[MOST_NODES], ends[MOST_NODES];
    const fv_node *top = nodes;
    CHECK(top->kind == FV_NODE_VOLUME && top->content == FV_CONTENT_FILES && top->parent == FV_NO_PARENT &&
              !top->depth && !top->index && !top->offset && top->length == v->len &&
              is_all(top->reserved, sizeof top->reserved, 0),
          "tree: the row of the volume");
    check_volume_row(v, top, 0);
    held[0] = ends[0] = 0;
    for (size_t i = 1; i < count; i++) {
        const fv_node *node = nodes + i;
        CHECK(node->parent < i, "tree: number %lu has parent %lu", i, node->parent);
        const fv_node *parent = nodes + node->parent;
        CHECK(node->depth == parent->depth + 1 && node->depth <= 27 && is_all(node->reserved, sizeof node->reserved, 0),
              "tree: number %lu", i);
        CHECK(node->index == held[node->parent]++ && is_held(parent, node), "tree: number %lu", i);
        uint64_t before = node->kind == FV_NODE_VOLUME ? 0 : node->header_length;
        CHECK(node->offset >= parent->offset + ends[node->parent] + before &&
                  node->offset + node->length <= parent->offset + parent->length,
              "tree: number %lu is not in number %lu", i, node->parent);
        if (node->kind == FV_NODE_VOLUME)
            check_volume_row(v, node, i);
        else
            check_part_row(v, node, i);
        ends[node->parent] = node->offset + node->length - parent->offset;
        held[i] = ends[i] = 0;
        saw(__func__, node->efi_type, node->content, node->header_length);
    }
}

/* Checks that the files of the volume are cells, in the same order. */
static void check_files_are_cells(const struct volume *v, const fv_node *nodes, size_t count)
{
    size_t at = 0;
    for (size_t i = 1; v->cells && i < count; i++) {
        const fv_node *node = nodes + i;
        if (node->depth != 1) continue;
        while (at < v->cell_count &&
               !(v->cells[at].kind == FV_CELL_FILE && v->cells[at].offset + v->cells[at].header_length == node->offset))
            at++;
        CHECK(at < v->cell_count, "tree: number %lu is not a cell", i);
        const fv_cell *cell = v->cells + at++;
        CHECK(node->efi_type == cell->efi_type && node->attributes == (cell->attributes & ~1u) &&
                  !memcmp(&node->guid, &cell->name, sizeof cell->name) && node->header_length == cell->header_length &&
                  node->length == cell->length - cell->header_length,
              "tree: number %lu and its cell", i);
    }
}

/* The largest number of nested volumes that are read on their own. */
#define MOST_NESTED 20u

/* Checks that the nested volumes, or the first of many, have the same rows as on their own. */
static void check_volumes_of_tree(const struct volume *v, const fv_node *nodes, size_t count)
{
    static fv_node own[MOST_NODES];
    unsigned nested = 0;
    for (size_t i = 1; i < count && nested < MOST_NESTED; i++) {
        const fv_node *node = nodes + i;
        if (node->kind != FV_NODE_VOLUME) continue;
        nested++;
        size_t found = 7;
        fv_fault fault = unset_fault;
        fv_result result = fv_volume_tree(v->bytes + node->offset, node->length, own, MOST_NODES, &found, &fault);
        check_plain("tree", result, FV_OK, &fault);
        for (size_t j = 0; j < found; j++) {
            fv_node moved = own[j];
            moved.offset += node->offset;
            moved.depth += node->depth;
            moved.parent = j ? moved.parent + i : node->parent;
            CHECK(i + j < count && !memcmp(&moved, node + j, sizeof moved), "tree: number %lu, in a volume", i + j);
        }
        CHECK(i + found == count || node[found].depth <= node->depth, "tree: more in the volume of number %lu", i);
    }
}

static const fv_node *check_tree_of_image(const struct volume *v, const fv_node *nodes, size_t n)
{
    static fv_node of_image[MOST_NODES];
    size_t count = 7;
    fv_fault fault = unset_fault;
    fv_result result = fv_volume_tree(v->image, v->len, of_image, MOST_NODES, &count, &fault);
    check_plain("tree", result, FV_OK, &fault);
    CHECK(count == n, "tree: the image has %lu, not %lu", count, n);
    saw(__func__, of_image[n - 1].depth, n > 9 ? 9 : (uint32_t)n, 0);
    for (size_t i = 0; i < n; i++) {
        fv_node a = nodes[i], b = of_image[i];
        a.offset = b.offset = 0;
        if (a.kind == FV_NODE_FILE) a.header_length = b.header_length = 0;
        CHECK(!memcmp(&a, &b, sizeof a), "tree: number %lu of the image is another", i);
    }
    return of_image;
}

ROWS_CALL(call, fv_volume_tree)

void try_tree(struct volume *v)
{
    static fv_node nodes[MOST_NODES];
    const struct rows rows = {"tree", call, sizeof *nodes, 8, MOST_NODES, v->bytes, v->len, v->parameters, 2};
    size_t count;
    fv_fault fault;
    fv_result result = try_rows(&rows, nodes, &count, &fault);
    check_agrees("tree", v, result, &fault, v->unread, FV_FAULT_DEPTH);
    if (result) return;
    v->node_count = count;
    CHECK(count, "tree: no row");
    if (count > MOST_NODES) return;
    v->nodes = nodes;
    check_nodes(v, nodes, count);
    check_files_are_cells(v, nodes, count);
    check_volumes_of_tree(v, nodes, count);
    if (v->image) v->image_nodes = check_tree_of_image(v, nodes, count);
}
