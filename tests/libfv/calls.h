/* SPDX-License-Identifier: BSD-2-Clause-Patent */
/* The calls of fv.h in one table, each with an input that was written by hand, for the tests that try all calls. */
#ifndef CALLS_H
#define CALLS_H

#include <fv.h>
#include <stdbool.h>
#include <stdio.h>
#include <stdlib.h>
#include <string.h>

/* What a test tries at this moment. A test ends with this text if a condition does not hold. */
static char trying[200] = "";
#define EXPECT(holds)                                                                                                  \
    do {                                                                                                               \
        if (!(holds)) {                                                                                                \
            printf("%s, line %d: %s: not %s\n", __FILE__, __LINE__, trying, #holds);                                   \
            exit(1);                                                                                                   \
        }                                                                                                              \
    } while (0)

enum { MOST = 7, ROOM = 8, SURVEY_ROOM = 32, FILE_AT = 72, DATA_AT = 96, DATA_LEN = 44, LENGTH = 160, FILLED = 0xee };

/* The bytes of a volume with one file and 16 free bytes. The file has type 02, attribute 40 and these sections:
 *   0: type 14 with an extended header and 6 bytes
 *   1: a group of two sections, 2: type 19 with 5 bytes, and 3: a group of none
 *   4: type 19 with 3 bytes */
static uint8_t volume[LENGTH], other[LENGTH];
/* The sections, which are the data of the file, as a stream. */
static uint8_t stream[DATA_LEN];
#define NAME_BYTES {11, 12, 13, 14, 15, 16, 17, 18, 19, 20, 21, 22, 23, 24, 25, 26}
static const uint8_t name[16] = NAME_BYTES;

/* A GUID-defined section, whose data are the LZMA stream that liblzma makes of a section of type 19 with 3 bytes. The
 * stream does not say how long its contents are. */
static uint8_t packed[54] = {0x36, 0, 0, 2, 0x98, 0x58, 0x4e, 0xee, 0x14, 0x39, 0x59, 0x42, 0x9d, 0x6e, 0xdc, 0x7b,
                             0xd7, 0x94, 3, 0xcf, 0x18, 0, 1, 0, 0x5d, 0, 0x10, 0, 0, 255, 255, 255, 255, 255, 255, 255, 255,
                             0, 3, 0x80, 0x32, 0x73, 0xca, 0xc3, 0xf1, 0xe8, 0xf6, 0x83, 255, 255, 0xec, 0xdf, 0x80, 0};

/* The other inputs: an expression (PUSH of the name, END), a list of its table, a block for a volume and the end block,
 * and a text. */
static uint8_t expression[18] = {2, 11, 12, 13, 14, 15, 16, 17, 18, 19, 20, 21, 22, 23, 24, 25, 26, 8};
static uint8_t list[88] = {[0] = 1, [2] = 56, [56] = 5, [58] = 24, [64] = 1, 2, 3, 4, 5, 6, 7, 8,
                           [72] = 0x10, 0x20, 0x30, 0x40, [80] = 255, 255, 8};
static char text_of_guid[] = "0e0d0c0b-100f-1211-1314-15161718191a";

static inline void put(uint8_t *to, const char *digits)
{
    for (unsigned byte; sscanf(digits, "%2x", &byte) == 1; digits += 2) *to++ = (uint8_t)byte;
}

/* Makes `volume`, whose file has these data. */
static inline void make_of(const uint8_t *bytes, unsigned size)
{
    unsigned sum = 0, header = 0, data = 0;
    memset(volume, 0xff, sizeof volume);
    memset(volume, 0, FILE_AT);
    put(volume + 16, "78e58c8c3d8a1c4f9935896185c32dd3a0000000000000005f465648fffe04004800");
    put(volume + 54, "000201000000a0000000");
    for (size_t i = 0; i < FILE_AT; i += 2) sum += volume[i] | (unsigned)volume[i + 1] << 8;
    volume[50] = (uint8_t)-sum;
    volume[51] = (uint8_t)(-sum >> 8);
    memcpy(volume + FILE_AT, name, sizeof name);
    put(volume + FILE_AT + 16, "00000240000000f8");
    volume[FILE_AT + 20] = (uint8_t)(DATA_AT - FILE_AT + size);
    memcpy(volume + DATA_AT, bytes, size);
    for (unsigned i = 0; i < size; i++) data += bytes[i];
    for (int i = 0; i < 23; i++) header += volume[FILE_AT + i];
    volume[FILE_AT + 16] = (uint8_t)-header; /* the header checksum leaves out the file checksum and State */
    volume[FILE_AT + 17] = (uint8_t)-data;
}

/* Makes `volume` with the sections. The parameter is the size in the header of section 2; 9 is right. */
static inline void make(unsigned inner)
{
    uint8_t sections[DATA_LEN];
    put(sections, "ffffff140e00000007007600310000001400000309000019a1a2a3a4a50000000400000307000019b1b2b300");
    sections[20] = (uint8_t)inner;
    make_of(sections, sizeof sections);
}

static inline void make_both(void)
{
    make(9);
    memcpy(other, volume, sizeof other);
    memcpy(stream, volume + DATA_AT, sizeof stream);
}

/* The buffers and results that calls write to. Each result has room for a second element, so that a misaligned result
 * overlaps no other result. */
static union {
    uint8_t bytes[4096];
    fv_header headers[ROOM];
    fv_volume_check checks[ROOM];
    fv_survey_row survey[SURVEY_ROOM];
    fv_variable_row variables[SURVEY_ROOM];
    fv_cell cells[ROOM];
    fv_node nodes[ROOM];
    fv_sha256 digests[ROOM];
    fv_hob hobs[ROOM];
    char text[FV_DIFFERENCE_SIZE];
} buffer;
static fv_header header[2];
static fv_sha256 digest[2];
static fv_comparison found[2];
static fv_sameness sameness[2];
static fv_way way[2];
static fv_contents contents[2];
static fv_fault fault[2];
static fv_guid guid[2];
static fv_image *handle[2];
static size_t count[2], length[2];
static uint32_t number[2];

/* An argument: an input or a buffer with a size of its own, one const object, a result, the fault, or a number or flags,
 * which have no pointer. A pointer has a target with `count` elements of this size and alignment. */
enum kind { NO_MORE, INPUT, BUFFER, OBJECT, RESULT, FAULT, NUMBER, FLAGS };
struct argument {
    enum kind kind;
    const char *name;
    void *at;
    size_t count, size, align;
};

/* A call: the function that makes the call with its arguments, its result if all inputs and buffers are empty, and its
 * arguments, in the order of its parameters. */
struct call {
    const char *name;
    fv_result (*make)(const struct argument *);
    fv_result of_nothing;
    struct argument all[MOST];
};

#define P(i) (a[i].at)
#define N(i) (a[i].count)
#define MAKES(call, ...) static fv_result call(const struct argument *a) { return fv_##call(__VA_ARGS__); }
MAKES(header_read, P(0), N(0), P(1), P(2))
MAKES(image_scan, P(0), N(0), P(1), N(1), P(2), P(3))
MAKES(image_check, P(0), N(0), P(1), N(1), P(2), P(3))
MAKES(image_survey, P(0), N(0), P(1), N(1), P(2), P(3))
/* Opens an image, and closes it. */
static fv_result image_open(const struct argument *a)
{
    fv_image **opened = P(2);
    fv_result result = fv_image_open(P(0), N(0), N(1), opened, P(3));
    if (result) return result;
    fv_image_close(*opened);
    *opened = NULL;
    return result;
}
MAKES(image_same, P(0), N(0), P(1), N(1), N(2), P(3), P(4))
MAKES(image_normalise, P(0), N(0), P(1), N(1), P(2))
MAKES(volume_is_canonical, P(0), N(0), P(1), P(2))
MAKES(volume_normalise, P(0), N(0), P(1), N(1), P(2))
MAKES(volume_unfix, P(0), N(0), P(1), N(1), P(2))
MAKES(volume_digest, P(0), N(0), P(1), P(2))
MAKES(volume_compare, P(0), N(0), P(1), N(1), P(2), N(2), P(3), P(4))
MAKES(volume_cells, P(0), N(0), P(1), N(1), P(2), P(3))
MAKES(volume_tree, P(0), N(0), P(1), N(1), P(2), P(3))
MAKES(volume_tree_digests, P(0), N(0), P(1), N(1), P(2), P(3))
MAKES(volume_extract, P(0), N(0), N(1), P(2), N(2), P(3), P(4))
MAKES(volume_tree_with, P(0), N(0), (uint32_t)N(1), P(2), N(2), P(3), P(4))
MAKES(volume_tree_digests_with, P(0), N(0), (uint32_t)N(1), P(2), N(2), P(3), P(4))
MAKES(volume_extract_with, P(0), N(0), (uint32_t)N(1), N(2), P(3), N(3), P(4), P(5))
MAKES(section_way, P(0), N(0), P(1), P(2))
MAKES(section_open, P(0), N(0), N(1), P(2), N(2), P(3), P(4))
MAKES(sections_survey, P(0), N(0), P(1), N(1), P(2), P(3))
MAKES(sections_tree, P(0), N(0), (uint32_t)N(1), P(2), N(2), P(3), P(4))
MAKES(sections_tree_digests, P(0), N(0), (uint32_t)N(1), P(2), N(2), P(3), P(4))
MAKES(sections_extract, P(0), N(0), (uint32_t)N(1), N(2), P(3), N(3), P(4), P(5))
MAKES(variables_read, P(0), N(0), P(1), N(1), P(2), P(3))
MAKES(signatures_read, P(0), N(0), P(1), N(1), P(2), P(3))
MAKES(depex_evaluate, P(0), N(0), (uint32_t)N(1), P(2), N(2), P(3), P(4))
MAKES(hobs_read, P(0), N(0), P(1), N(1), P(2), P(3), P(4))
MAKES(guid_text, P(0), P(1), N(1))
MAKES(guid_parse, P(0), N(0), P(1))

#define BYTES(kind, of, count) {kind, #of, of, count, 1, 1}
#define ELEMENTS(kind, of, count) {kind, #of, of, count, sizeof *of, _Alignof(__typeof__(*of))}
#define VALUE(of) {NUMBER, #of, NULL, of, 0, 1}
#define UNMARKED {FLAGS, "flags", NULL, FV_WITHOUT_MARKS, 0, 1}
#define IN(of) BYTES(INPUT, of, sizeof of)
#define OUT(of) BYTES(BUFFER, buffer.of, sizeof buffer.of)
#define ROWS(of) ELEMENTS(BUFFER, buffer.of, ROOM)
#define ONE(of) ELEMENTS(RESULT, of, 1)
#define ITS_FAULT ELEMENTS(FAULT, fault, 1)
#define CALL(call, of_nothing, ...) {"fv_" #call, call, FV_##of_nothing, {__VA_ARGS__}}

static const struct call calls[] = {
    CALL(header_read, FAULT_TRUNCATED, IN(volume), ONE(header), ITS_FAULT),
    CALL(image_scan, OK, IN(volume), ROWS(headers), ONE(count), ITS_FAULT),
    CALL(image_check, OK, IN(volume), ROWS(checks), ONE(count), ITS_FAULT),
    CALL(image_survey, OK, IN(volume), ELEMENTS(BUFFER, buffer.survey, SURVEY_ROOM), ONE(count), ITS_FAULT),
    CALL(image_open, OK, IN(volume), VALUE(100), ONE(handle), ITS_FAULT),
    CALL(image_same, OK, IN(volume), IN(other), VALUE(100), ONE(sameness), ITS_FAULT),
    CALL(image_normalise, OK, IN(volume), OUT(bytes), ITS_FAULT),
    CALL(volume_is_canonical, FAULT_TRUNCATED, IN(volume), ONE(number), ITS_FAULT),
    CALL(volume_normalise, FAULT_TRUNCATED, IN(volume), OUT(bytes), ITS_FAULT),
    CALL(volume_unfix, FAULT_TRUNCATED, IN(volume), OUT(bytes), ITS_FAULT),
    CALL(volume_digest, FAULT_TRUNCATED, IN(volume), ONE(digest), ITS_FAULT),
    CALL(volume_compare, FAULT_TRUNCATED, IN(volume), IN(other), OUT(text), ONE(found), ITS_FAULT),
    CALL(volume_cells, FAULT_TRUNCATED, IN(volume), ROWS(cells), ONE(count), ITS_FAULT),
    CALL(volume_tree, FAULT_TRUNCATED, IN(volume), ROWS(nodes), ONE(count), ITS_FAULT),
    CALL(volume_tree_digests, FAULT_TRUNCATED, IN(volume), ROWS(digests), ONE(count), ITS_FAULT),
    CALL(volume_extract, FAULT_TRUNCATED, IN(volume), VALUE(1), OUT(bytes), ONE(length), ITS_FAULT),
    CALL(volume_tree_with, FAULT_TRUNCATED, IN(volume), UNMARKED, ROWS(nodes), ONE(count), ITS_FAULT),
    CALL(volume_tree_digests_with, FAULT_TRUNCATED, IN(volume), UNMARKED, ROWS(digests), ONE(count), ITS_FAULT),
    CALL(volume_extract_with, FAULT_TRUNCATED, IN(volume), UNMARKED, VALUE(1), OUT(bytes), ONE(length), ITS_FAULT),
    CALL(section_way, FAULT_OPEN_SHORT, IN(packed), ONE(way), ITS_FAULT),
    CALL(section_open, FAULT_OPEN_SHORT, IN(packed), VALUE(100), OUT(bytes), ONE(contents), ITS_FAULT),
    CALL(sections_survey, OK, IN(stream), ELEMENTS(BUFFER, buffer.survey, SURVEY_ROOM), ONE(count), ITS_FAULT),
    CALL(sections_tree, OK, IN(stream), UNMARKED, ROWS(nodes), ONE(count), ITS_FAULT),
    CALL(sections_tree_digests, OK, IN(stream), UNMARKED, ROWS(digests), ONE(count), ITS_FAULT),
    CALL(sections_extract, NOT_FOUND, IN(stream), UNMARKED, VALUE(1), OUT(bytes), ONE(length), ITS_FAULT),
    CALL(variables_read, OK, IN(volume), ELEMENTS(BUFFER, buffer.variables, SURVEY_ROOM), ONE(count), ITS_FAULT),
    CALL(signatures_read, OK, IN(volume), ELEMENTS(BUFFER, buffer.variables, SURVEY_ROOM), ONE(count), ITS_FAULT),
    CALL(depex_evaluate, FAULT_DEPEX_NO_END, IN(expression), VALUE(FV_PHASE_DXE), ELEMENTS(INPUT, guid, 1), ONE(number),
         ITS_FAULT),
    CALL(hobs_read, FAULT_HOB_NO_END, IN(list), ROWS(hobs), ONE(count), ONE(length), ITS_FAULT),
    CALL(guid_text, BUFFER_TOO_SMALL, ELEMENTS(OBJECT, guid, 1), OUT(text)),
    CALL(guid_parse, BAD_GUID, IN(text_of_guid), ONE(guid)),
};
enum { CALLS = sizeof calls / sizeof *calls };

#define EACH_CALL(call) const struct call *call = calls; call < calls + CALLS; call++
#define EACH_ARGUMENT(i, call) int i = 0; i < MOST && (call)->all[i].kind; i++

/* Returns whether an argument is a pointer; whether it is one with a size of its own, so that it may be empty; and whether
 * the call writes to it. */
static inline bool is_pointer(const struct argument *it)
{
    return it->kind != NUMBER && it->kind != FLAGS;
}

static inline bool has_size(const struct argument *it)
{
    return it->kind == INPUT || it->kind == BUFFER;
}

static inline bool is_result(const struct argument *it)
{
    return it->kind == BUFFER || it->kind == RESULT || it->kind == FAULT;
}

#endif
