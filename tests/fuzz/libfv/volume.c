/* SPDX-License-Identifier: BSD-2-Clause-Patent */
/* Checks the calls that take a volume (README.md says how). */
#include "volume.h"
#include "format.h"
#include "rows.h"

static uint8_t image[MOST_BUFFER];

void check_agrees(const char *call, const struct volume *v, fv_result result, const fv_fault *fault, fv_result wanted,
                  fv_result most)
{
    check_result(call, result, fault, most, v->len);
    CHECK(result == wanted, "%s: %u, normalise: %u", call, result, v->result);
    CHECK(!result || is_same_fault(fault, &v->fault), "%s and normalise: the places of fault %u", call, result);
}

/* Returns the header as its bytes have it. */
static fv_header expected_header(const uint8_t *bytes)
{
    size_t length = number_at(bytes + FV_LENGTH_FIELD, 8), ext = number_at(bytes + EXT_HEADER, 2);
    fv_header header = {
        .length = length,
        .first_file = first_cell(bytes, length),
        .header_length = (uint32_t)number_at(bytes + HEADER_LENGTH, 2),
        .attributes = (uint32_t)number_at(bytes + FV_ATTRIBUTES, 4),
        .file_system = memcmp(bytes + FILE_SYSTEM, file_systems[1], 16) ? 2 : 3,
        .erased_byte = erased_byte(bytes),
    };
    if (ext) memcpy(header.name.bytes, bytes + ext, sizeof header.name);
    return header;
}

static void try_header(struct volume *v)
{
    fv_header untouched;
    memset(&untouched, UNTOUCHED, sizeof untouched);
    v->header = untouched;
    v->header_fault = unset_fault;
    unsigned long before = allocations;
    v->header_result = fv_header_read(v->bytes, v->len, &v->header, &v->header_fault);
    CHECK(allocations == before, "header_read has asked for memory");
    check_result("header_read", v->header_result, &v->header_fault, FV_FAULT_EXT_HEADER, v->len);
    saw(__func__, v->header_result, v->header_fault.depth, 0);
    if (v->header_result) {
        CHECK(!memcmp(&v->header, &untouched, sizeof untouched), "header_read has changed the header");
        CHECK(v->header_fault.depth == 0, "header_read: depth %u", v->header_fault.depth);
        return;
    }
    const fv_header *h = &v->header, expected = expected_header(v->bytes);
    CHECK(h->header_length <= h->first_file && h->first_file <= h->length && h->length <= v->len, "the lengths");
    CHECK(!memcmp(h, &expected, sizeof expected), "the header differs from its bytes");
}

COPY_CALL(normalise, fv_volume_normalise)

static void try_normalise(struct volume *v)
{
    const struct rows rows = {"normalise", normalise, 1, 1, sizeof image, v->bytes, v->len, v->parameters, 0};
    size_t count;
    v->result = try_rows(&rows, image, &count, &v->fault);
    v->image = v->result ? NULL : image;
    check_result("normalise", v->result, &v->fault, FV_FAULT_TOP_ALIGNMENT, v->len);
    saw(__func__, v->result, v->fault.depth, v->fault.offset & 7);
    bool is_read = v->result == FV_FAULT_NO_ROOM || v->result == FV_FAULT_TOP_ALIGNMENT;
    v->unread = is_read ? FV_OK : v->result;
    if (v->header_result)
        CHECK(v->result == v->header_result && is_same_fault(&v->header_fault, &v->fault),
              "header_read: %u, normalise: %u", v->header_result, v->result);
}

/* Tries a call that writes one result, of `size` bytes: as it is, and then with an allocation refused. */
typedef fv_result one_call(const struct volume *v, void *one, fv_fault *fault);
static void try_one(const struct volume *v, const char *name, one_call *call, const void *expected, size_t size,
                    fv_result wanted, fv_result most, int which)
{
    uint32_t untouched[8], found[8];
    memset(untouched, UNTOUCHED, sizeof untouched);
    memcpy(found, untouched, sizeof found);
    fv_fault fault = unset_fault, *unless_null = FAULT_OR_NULL(v->parameters, &fault);
    fv_result result = call(v, found, &fault);
    check_no_block_is_kept(name);
    check_agrees(name, v, result, &fault, wanted, most);
    CHECK(!memcmp(found, result ? untouched : expected, size), "%s: another result than the expected", name);
    memcpy(found, untouched, sizeof found);
    refuse_allocation(v->parameters[REFUSED + which]);
    fv_result again = call(v, found, unless_null);
    check_refusal(name, again, result, unless_null);
    CHECK(!memcmp(found, again ? untouched : expected, size), "%s: another result without memory", name);
}

static fv_result is_canonical(const struct volume *v, void *one, fv_fault *fault)
{
    return fv_volume_is_canonical(v->bytes, v->len, one, fault);
}

static fv_result digest(const struct volume *v, void *one, fv_fault *fault)
{
    return fv_volume_digest(v->bytes, v->len, one, fault);
}

static void try_single_results(struct volume *v)
{
    uint32_t canonical = v->image && !memcmp(v->bytes, v->image, v->len);
    try_one(v, "is_canonical", is_canonical, &canonical, sizeof canonical, v->unread, FV_FAULT_DEPTH, 1);
    if (v->image) sha256(v->image, v->len, v->digest.bytes);
    try_one(v, "digest", digest, &v->digest, sizeof v->digest, v->result, FV_FAULT_TOP_ALIGNMENT, 2);
}

/* Checks the comparison of a volume with itself, or with its image. */
static void try_compare(const struct volume *v)
{
    struct input volume = {v->bytes, v->len}, its_image = {v->image, v->len};
    bool is_other = v->image && v->parameters[PAIR] & 1;
    bool is_same = try_comparison(volume, is_other ? its_image : volume, v->parameters);
    CHECK(is_same == !v->unread, "compare: a volume with %s", is_other ? "its image" : "itself");
    if (is_other) try_sameness(volume, its_image, is_same, v->parameters);
}

/* Checks that the image is a volume of the same meaning, and its own image. */
static void try_image_of(const struct volume *v)
{
    static uint8_t second[MOST_BUFFER];
    fv_fault fault;
    fv_sha256 digest;
    fv_header header;
    uint32_t canonical;
    CHECK(fv_volume_normalise(v->image, v->len, second, v->len, &fault) == FV_OK, "normalise: the image has fault %u",
          fault.result);
    CHECK(!memcmp(v->image, second, v->len), "normalise: the image has another image");
    CHECK(fv_volume_is_canonical(v->image, v->len, &canonical, &fault) == FV_OK && canonical == 1,
          "is_canonical: the image is not canonical");
    CHECK(fv_volume_digest(v->image, v->len, &digest, &fault) == FV_OK && !memcmp(&digest, &v->digest, sizeof digest),
          "digest: the image has another digest");
    CHECK(fv_header_read(v->image, v->len, &header, &fault) == FV_OK && header.length == v->len &&
              header.file_system == v->header.file_system && header.erased_byte == v->header.erased_byte &&
              header.attributes == v->header.attributes && !memcmp(&header.name, &v->header.name, sizeof header.name),
          "header_read: the image has another header");
}

void try_volume(const uint8_t *bytes, size_t len, const uint8_t *parameters)
{
    struct volume volume = {.bytes = bytes, .len = len, .parameters = parameters};
    try_header(&volume);
    try_normalise(&volume);
    try_single_results(&volume);
    try_cells(&volume);
    try_tree(&volume);
    try_parts(&volume);
    try_digests(&volume);
    try_unfix(&volume);
    try_streams(&volume);
    try_marks(&volume);
    try_compare(&volume);
    if (volume.image) try_image_of(&volume);
}
