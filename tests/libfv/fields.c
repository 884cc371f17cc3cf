/* SPDX-License-Identifier: BSD-2-Clause-Patent */
/* Checks results that were worked out by hand, for the volume of calls.h: the rows of its tree and of its survey, its
 * parts and digests, and a fault, and for the stream of sections in it. Also checks the surveys of small images, the rows
 * of variable stores and of signature lists, the contents of packed sections, an open image, images that mean the same,
 * the text of a GUID, and the text of each result. (The checks of tests/fuzz/libfv compare each field of each structure
 * with the bytes of an input.) */
#include "calls.h"

enum { ATTRIBUTES = 0x0004feff };

/* Begins a step: the buffer and the results have a value that no call leaves. */
static void begin(const char *step)
{
    snprintf(trying, sizeof trying, "%s", step);
    memset(&buffer, FILLED, sizeof buffer);
    *count = *length = 9;
}

/* The rows of the volume: the volume itself, its file and the five sections of the file. */
static const fv_node nodes[7] = {
    {0, LENGTH, FV_NO_PARENT, 0, 0, FV_NODE_VOLUME, FV_CONTENT_FILES, 0, ATTRIBUTES, 72, {{0}}, 2, {0}},
    {DATA_AT, DATA_LEN, 0, 0, 1, FV_NODE_FILE, FV_CONTENT_SECTIONS, 2, 0x40, 24, {NAME_BYTES}, 0, {0}},
    {DATA_AT + 8, 6, 1, 0, 2, FV_NODE_SECTION, FV_CONTENT_BYTES, 0x14, 0, 8, {{0}}, 0, {0}},
    {DATA_AT + 20, 16, 1, 1, 2, FV_NODE_SECTION, FV_CONTENT_SECTIONS, 0x03, 0, 4, {{0}}, 0, {0}},
    {DATA_AT + 24, 5, 3, 0, 3, FV_NODE_SECTION, FV_CONTENT_BYTES, 0x19, 0, 4, {{0}}, 0, {0}},
    {DATA_AT + 36, 0, 3, 1, 3, FV_NODE_SECTION, FV_CONTENT_SECTIONS, 0x03, 0, 4, {{0}}, 0, {0}},
    {DATA_AT + 40, 3, 1, 2, 2, FV_NODE_SECTION, FV_CONTENT_BYTES, 0x19, 0, 4, {{0}}, 0, {0}}};

/* The first bytes of the digests of these rows, as sha256sum prints them. Two rows have no digest. */
static const uint8_t digests[7][4] = {
    [1] = {0xdb, 0x77, 0xfb, 0xa8}, /* the 44 bytes of data */
    [2] = {0xb8, 0x06, 0x4f, 0x50}, /* 07 00 76 00 31 00 */
    [4] = {0xe4, 0xdc, 0x78, 0x1c}, /* a1 a2 a3 a4 a5 */
    [6] = {0x0d, 0xe8, 0x0e, 0x00}  /* b1 b2 b3 */
};

/* Checks the tree, the digests and the parts. The volume is its own image. */
static void try_tree(void)
{
    make(9);
    begin("a tree");
    EXPECT(fv_volume_tree(volume, LENGTH, buffer.nodes, 7, count, fault) == FV_OK && *count == 7);
    EXPECT(!memcmp(buffer.nodes, nodes, sizeof nodes));
    begin("digests");
    EXPECT(fv_volume_tree_digests(volume, LENGTH, buffer.digests, 7, count, fault) == FV_OK && *count == 7);
    for (int i = 1; i < 7; i++) EXPECT(!memcmp(buffer.digests[i].bytes, digests[i], sizeof digests[i]));
    begin("parts");
    for (size_t i = 0; i < 7; i++) {
        EXPECT(fv_volume_extract(volume, LENGTH, i, buffer.bytes, LENGTH, length, fault) == FV_OK);
        EXPECT(*length == nodes[i].length && !memcmp(buffer.bytes, volume + nodes[i].offset, *length));
    }
    EXPECT(fv_volume_extract(volume, LENGTH, 7, buffer.bytes, LENGTH, length, fault) == FV_NOT_FOUND);
}

/* Checks the same of the stream of sections that are the data of the file. The rows are the last five rows of the
 * volume: two less deep, with the parents numbered from the first of them, and counted from the first byte of the data. */
static void try_stream(void)
{
    make_both();
    begin("the rows of a stream");
    EXPECT(fv_sections_tree(stream, DATA_LEN, 0, buffer.nodes, 5, count, fault) == FV_OK && *count == 5);
    for (int i = 0; i < 5; i++) {
        fv_node wanted = nodes[i + 2];
        wanted.offset -= DATA_AT;
        wanted.depth -= 2;
        wanted.parent = wanted.parent == 1 ? FV_NO_PARENT : wanted.parent - 2;
        EXPECT(!memcmp(buffer.nodes + i, &wanted, sizeof wanted));
    }
    begin("the digests of a stream");
    EXPECT(fv_sections_tree_digests(stream, DATA_LEN, 0, buffer.digests, 5, count, fault) == FV_OK && *count == 5);
    for (int i = 0; i < 5; i++) EXPECT(!memcmp(buffer.digests[i].bytes, digests[i + 2], sizeof digests[i + 2]));
    begin("the parts of a stream");
    for (size_t i = 0; i < 5; i++) {
        EXPECT(fv_sections_extract(stream, DATA_LEN, 0, i, buffer.bytes, DATA_LEN, length, fault) == FV_OK);
        EXPECT(*length == nodes[i + 2].length && !memcmp(buffer.bytes, volume + nodes[i + 2].offset, *length));
    }
    EXPECT(fv_sections_extract(stream, DATA_LEN, 0, 5, buffer.bytes, DATA_LEN, length, fault) == FV_NOT_FOUND);
    begin("an empty stream");
    EXPECT(fv_sections_tree(NULL, 0, 0, NULL, 0, count, fault) == FV_OK && *count == 0);
    begin("a stream whose group has a section that does not fit");
    stream[20] = 40;
    const fv_fault wanted = {20, FV_FAULT_SECTION_SIZE, 1, 0, 0};
    EXPECT(fv_sections_tree(stream, DATA_LEN, 0, buffer.nodes, 5, count, fault) == FV_FAULT_SECTION_SIZE);
    EXPECT(!memcmp(fault, &wanted, sizeof wanted) && *count == 9 && buffer.bytes[0] == FILLED);
    EXPECT(fv_sections_tree_digests(stream, DATA_LEN, 0, buffer.digests, 5, count, fault) == FV_FAULT_SECTION_SIZE);
    EXPECT(!memcmp(fault, &wanted, sizeof wanted) && *count == 9 && buffer.bytes[0] == FILLED);
    EXPECT(fv_sections_extract(stream, DATA_LEN, 0, 9, buffer.bytes, DATA_LEN, length, fault) == FV_FAULT_SECTION_SIZE);
    EXPECT(!memcmp(fault, &wanted, sizeof wanted) && *length == 9 && buffer.bytes[0] == FILLED);
    make_both();
}

/* The GUID of FFS2. */
#define FFS2_BYTES {0x78, 0xe5, 0x8c, 0x8c, 0x3d, 0x8a, 0x1c, 0x4f, 0x99, 0x35, 0x89, 0x61, 0x85, 0xc3, 0x2d, 0xd3}

/* The rows of the survey of the volume. The file ends with four bytes of filler, after a byte in its data that no
 * section includes. */
static const fv_survey_row rows[22] = {
    {0, LENGTH, FV_ROW_VOLUME, 0, 0, 1, 0, {FFS2_BYTES}, 0},
    {0, FILE_AT, FV_ROW_VOLUME_HEADER, 1, 0, 0, 0, {{0}}, 0},
    {FILE_AT, 72, FV_ROW_FILE, 1, 2, 0, 0, {NAME_BYTES}, 0},
    {FILE_AT, 24, FV_ROW_FILE_HEADER, 2, 0, 0, 0, {{0}}, 0},
    {DATA_AT, 14, FV_ROW_SECTION, 2, 0x14, 0, 0, {{0}}, 0},
    {DATA_AT, 8, FV_ROW_SECTION_HEADER, 3, 0, 0, 0, {{0}}, 0},
    {DATA_AT + 8, 6, FV_ROW_BODY, 3, 0, 0, 0, {{0}}, 0},
    {DATA_AT + 14, 2, FV_ROW_FILLER, 2, 0, 0, 0, {{0}}, 0},
    {DATA_AT + 16, 20, FV_ROW_SECTION, 2, 0x03, 0, 0, {{0}}, 0},
    {DATA_AT + 16, 4, FV_ROW_SECTION_HEADER, 3, 0, 0, 0, {{0}}, 0},
    {DATA_AT + 20, 9, FV_ROW_SECTION, 3, 0x19, 0, 0, {{0}}, 0},
    {DATA_AT + 20, 4, FV_ROW_SECTION_HEADER, 4, 0, 0, 0, {{0}}, 0},
    {DATA_AT + 24, 5, FV_ROW_BODY, 4, 0, 0, 0, {{0}}, 0},
    {DATA_AT + 29, 3, FV_ROW_FILLER, 3, 0, 0, 0, {{0}}, 0},
    {DATA_AT + 32, 4, FV_ROW_SECTION, 3, 0x03, 0, 0, {{0}}, 0},
    {DATA_AT + 32, 4, FV_ROW_SECTION_HEADER, 4, 0, 0, 0, {{0}}, 0},
    {DATA_AT + 36, 7, FV_ROW_SECTION, 2, 0x19, 0, 0, {{0}}, 0},
    {DATA_AT + 36, 4, FV_ROW_SECTION_HEADER, 3, 0, 0, 0, {{0}}, 0},
    {DATA_AT + 40, 3, FV_ROW_BODY, 3, 0, 0, 0, {{0}}, 0},
    {DATA_AT + 43, 1, FV_ROW_FILLER, 2, 0, 0, 0, {{0}}, 0},
    {DATA_AT + 44, 4, FV_ROW_FILLER, 2, 0, 0, 0, {{0}}, 0},
    {DATA_AT + 48, 16, FV_ROW_FREE, 1, 0, 0, 0, {{0}}, 0}};
enum { ALL_ROWS = sizeof rows / sizeof *rows };

/* Checks that the survey of an image has these rows. */
static void expect_survey(const uint8_t *image, size_t size, const fv_survey_row *wanted, size_t n)
{
    memset(&buffer, FILLED, sizeof buffer);
    EXPECT(fv_image_survey(image, size, buffer.survey, SURVEY_ROOM, count, fault) == FV_OK && *count == n);
    EXPECT(!memcmp(buffer.survey, wanted, n * sizeof *wanted) && buffer.bytes[n * sizeof *wanted] == FILLED);
    EXPECT(!fault->result);
}

/* Checks the survey of the stream: the rows of the data of the file, two less deep, and counted from the first byte of the
 * data. */
static void try_stream_survey(void)
{
    enum { FIRST = 4, ROWS_OF_DATA = 16 };
    fv_survey_row wanted[ROWS_OF_DATA];
    memcpy(wanted, rows + FIRST, sizeof wanted);
    for (int i = 0; i < ROWS_OF_DATA; i++) wanted[i].offset -= DATA_AT, wanted[i].depth -= 2;
    make_both();
    begin("the survey of a stream");
    EXPECT(fv_sections_survey(stream, DATA_LEN, buffer.survey, SURVEY_ROOM, count, fault) == FV_OK && *count == ROWS_OF_DATA);
    EXPECT(!memcmp(buffer.survey, wanted, sizeof wanted) && buffer.bytes[sizeof wanted] == FILLED);
}

/* Checks surveys: of bytes outside of volumes, of the volume, of the volume with a wrong header checksum, and of a
 * volume with a byte in its free space. A buffer that is too small is full of the first rows. */
static void try_survey(void)
{
    uint8_t image[88];
    const fv_survey_row gap = {0, 3, FV_ROW_GAP, 0, 0, 0, 0, {{0}}, 0};
    const uint32_t space = 1u << FV_FAULT_FREE_SPACE;
    const fv_survey_row damaged[] = {
        {0, 88, FV_ROW_VOLUME, 0, 0, 1, 0, {FFS2_BYTES}, 0},
        {0, 72, FV_ROW_VOLUME_HEADER, 1, 0, 0, 0, {{0}}, 0},
        {72, 8, FV_ROW_FREE, 1, 0, 0, space, {{0}}, 0},
        {80, 8, FV_ROW_LOST, 1, 0, 0, space, {{0}}, 0},
        {80, 8, FV_ROW_UNREAD, 2, 0, 0, 0, {{0}}, 0}};
    begin("bytes outside of volumes");
    expect_survey(name, 3, &gap, 1);
    expect_survey(NULL, 0, rows, 0);
    begin("a survey");
    expect_survey(volume, LENGTH, rows, ALL_ROWS);
    begin("a survey in a short buffer");
    EXPECT(fv_image_survey(volume, LENGTH, buffer.survey, ALL_ROWS - 1, count, fault) == FV_BUFFER_TOO_SMALL);
    EXPECT(*count == ALL_ROWS && !fault->result && !memcmp(buffer.survey, rows, sizeof rows - sizeof *rows));
    EXPECT(buffer.bytes[sizeof rows - sizeof *rows] == FILLED);
    begin("the survey of a damaged header");
    fv_survey_row wanted[ALL_ROWS];
    memcpy(wanted, rows, sizeof rows);
    wanted[0].findings = 1u << FV_FAULT_HEADER_SUM;
    volume[50]++;
    expect_survey(volume, LENGTH, wanted, ALL_ROWS);
    volume[50]--;
    begin("the survey of damaged free space");
    memset(image, 0xff, sizeof image);
    memset(image, 0, 72);
    put(image + 16, "78e58c8c3d8a1c4f9935896185c32dd358000000000000005f465648fffe0000480022f600000002");
    put(image + 56, "0100000058");
    image[87] = 0;
    expect_survey(image, sizeof image, damaged, 5);
}

/* The bytes of the GUIDs of a plain store, of an authenticated store, and of a working block; and the owner of the
 * variables. */
#define PLAIN "1636cfdd7532644198b6fe85707ffe7d"
#define AUTHENTICATED "782cf3aa7b949a43a1802e144ec37792"
#define WORKING "2b29589e687c7d49a0ce6500fd9f1b95"
#define VENDOR "101112131415161718191a1b1c1d1e1f"
#define VENDOR_BYTES {{16, 17, 18, 19, 20, 21, 22, 23, 24, 25, 26, 27, 28, 29, 30, 31}}

/* Checks that a call writes these rows. */
static void expect_variables(__typeof__(fv_variables_read) read, const uint8_t *bytes, size_t size,
                             const fv_variable_row *wanted, size_t n)
{
    memset(&buffer, FILLED, sizeof buffer);
    EXPECT(read(bytes, size, buffer.variables, SURVEY_ROOM, count, fault) == FV_OK && *count == n && !fault->result);
    EXPECT(!memcmp(buffer.variables, wanted, n * sizeof *wanted) && buffer.bytes[n * sizeof *wanted] == FILLED);
    memset(&buffer, FILLED, sizeof buffer);
    if (!n) return;
    EXPECT(read(bytes, size, buffer.variables, n - 1, count, fault) == FV_BUFFER_TOO_SMALL && *count == n);
    EXPECT(!memcmp(buffer.variables, wanted, (n - 1) * sizeof *wanted));
    EXPECT(buffer.bytes[(n - 1) * sizeof *wanted] == FILLED && !fault->result);
}

/* Checks the rows of a plain store with a variable, a filler, a deleted variable and free bytes, of a working block and
 * of other bytes; of an authenticated store with a variable; and of a signature list with a signature and two bytes. */
static void try_variables(void)
{
    uint8_t plain[180], authenticated[97], lists[66];
    const fv_variable_row of_plain[] = {
        {.length = 28, .part = FV_PART_STORE_HEADER, .format = FV_STORE_PLAIN, .size = 128, .state = 0xfe,
         .formatted = 0x5a},
        {.offset = 28, .length = 39, .part = FV_PART_VARIABLE, .state = 0x3f, .status = FV_VARIABLE_ADDED,
         .attributes = 7, .header_length = 32, .name_size = 4, .data_size = 3, .guid = VENDOR_BYTES},
        {.offset = 67, .length = 1, .part = FV_PART_FILLER},
        {.offset = 68, .length = 36, .part = FV_PART_VARIABLE, .state = 0x3c, .status = FV_VARIABLE_DELETED,
         .attributes = 3, .header_length = 32, .name_size = 4, .guid = VENDOR_BYTES},
        {.offset = 104, .length = 24, .part = FV_PART_FREE},
        {.offset = 128, .length = 8, .part = FV_PART_FREE},
        {.offset = 136, .length = 40, .part = FV_PART_WORKING_BLOCK},
        {.offset = 176, .length = 4, .part = FV_PART_UNREAD, .finding = FV_FINDING_NO_STORE}};
    const fv_variable_row of_authenticated[] = {
        {.length = 28, .part = FV_PART_STORE_HEADER, .finding = FV_FINDING_STORE_STATE, .format = FV_STORE_AUTHENTICATED,
         .size = 97, .formatted = 0x5a},
        {.offset = 28, .length = 65, .monotonic_count = 5, .part = FV_PART_VARIABLE, .state = 0x3e,
         .status = FV_VARIABLE_REPLACED, .attributes = 0x27, .header_length = 60, .name_size = 4, .data_size = 1,
         .public_key = 9, .guid = VENDOR_BYTES, .time_stamp = {0xe6, 0x07, 0x0c, 0x01, 0x0e, 0x32}},
        {.offset = 93, .length = 3, .part = FV_PART_FILLER},
        {.offset = 96, .length = 1, .part = FV_PART_UNREAD, .finding = FV_FINDING_START_ID}};
    const fv_variable_row of_lists[] = {
        {.length = 28, .part = FV_PART_LIST_HEADER, .size = 47, .data_size = 17, .guid = VENDOR_BYTES},
        {.offset = 28, .length = 17, .part = FV_PART_SIGNATURE, .guid = {NAME_BYTES}},
        {.offset = 45, .length = 2, .part = FV_PART_UNREAD, .finding = FV_FINDING_SIGNATURE_SIZE},
        {.offset = 47, .length = 19, .part = FV_PART_UNREAD, .finding = FV_FINDING_LIST_SIZE}};
    memset(plain, 0xff, sizeof plain);
    put(plain, PLAIN "800000005afe000000000000");
    put(plain + 28, "aa553f00070000000400000003000000" VENDOR "4100000078797a");
    put(plain + 68, "aa553c00030000000400000000000000" VENDOR "42000000");
    put(plain + 136, WORKING "00000000feffffff0800000000000000");
    put(plain + 176, "61626364");
    begin("a plain store");
    expect_variables(fv_variables_read, plain, sizeof plain, of_plain, 8);
    memset(authenticated, 0, sizeof authenticated);
    put(authenticated, AUTHENTICATED "610000005a");
    put(authenticated + 28, "aa553e00270000000500000000000000e6070c010e320000");
    put(authenticated + 60, "090000000400000001000000" VENDOR "4b0000007a");
    begin("an authenticated store");
    expect_variables(fv_variables_read, authenticated, sizeof authenticated, of_authenticated, 4);
    memset(lists, 0, sizeof lists);
    put(lists, VENDOR "2f0000000000000011000000");
    memcpy(lists + 28, name, 16);
    begin("signature lists");
    expect_variables(fv_signatures_read, lists, sizeof lists, of_lists, 4);
    begin("no bytes");
    expect_variables(fv_variables_read, NULL, 0, of_plain, 0);
    expect_variables(fv_signatures_read, NULL, 0, of_lists, 0);
}

/* Checks a volume whose file is marked as fixed: with the flag, the rows, the digests and the parts are the same as in
 * the volume without the mark. */
static void try_marks(void)
{
    volume[FILE_AT + 19] |= 4;
    volume[FILE_AT + 16] = (uint8_t)(volume[FILE_AT + 16] - 4); /* the header checksum */
    const fv_fault wanted = {FILE_AT + 19, FV_FAULT_FIXED, 0, 0, 0};
    begin("a fixed file");
    EXPECT(fv_volume_tree_with(volume, LENGTH, 0, buffer.nodes, 7, count, fault) == FV_FAULT_FIXED);
    EXPECT(!memcmp(fault, &wanted, sizeof wanted) && *count == 9 && buffer.bytes[0] == FILLED);
    EXPECT(fv_volume_tree_with(volume, LENGTH, FV_WITHOUT_MARKS, buffer.nodes, 7, count, fault) == FV_OK);
    EXPECT(*count == 7 && !memcmp(buffer.nodes, nodes, sizeof nodes));
    EXPECT(fv_volume_tree_digests_with(volume, LENGTH, FV_WITHOUT_MARKS, buffer.digests, 7, count, fault) == FV_OK);
    for (int i = 1; i < 7; i++) EXPECT(!memcmp(buffer.digests[i].bytes, digests[i], sizeof digests[i]));
    EXPECT(fv_volume_digest(other, LENGTH, digest, fault) == FV_OK && !memcmp(buffer.digests, digest, sizeof *digest));
    EXPECT(fv_volume_extract_with(volume, LENGTH, FV_WITHOUT_MARKS, 0, buffer.bytes, LENGTH, length, fault) == FV_OK);
    EXPECT(*length == LENGTH && !memcmp(buffer.bytes, other, LENGTH));
    make_both();
}

/* A section of type 19 with 3 bytes, which packed sections hold. */
static const uint8_t inner[7] = {7, 0, 0, 0x19, 0xb1, 0xb2, 0xb3};

/* Checks what a header says. */
static void expect_way(const uint8_t *section, size_t size, fv_way wanted)
{
    EXPECT(fv_section_way(section, size, way, fault) == FV_OK && !memcmp(way, &wanted, sizeof wanted));
}

/* Checks that a section has the contents `inner`, with and without room for them. */
static void expect_contents(const uint8_t *section, size_t size, uint32_t by)
{
    const fv_contents wanted = {sizeof inner, by, 0};
    memset(&buffer, FILLED, sizeof buffer);
    EXPECT(fv_section_open(section, size, 7, buffer.bytes, 6, contents, fault) == FV_BUFFER_TOO_SMALL);
    EXPECT(!memcmp(contents, &wanted, sizeof wanted) && buffer.bytes[0] == FILLED && !fault->result);
    memset(contents, FILLED, sizeof contents);
    EXPECT(fv_section_open(section, size, SIZE_MAX, buffer.bytes, 8, contents, fault) == FV_OK);
    EXPECT(!memcmp(contents, &wanted, sizeof wanted) && !memcmp(buffer.bytes, inner, sizeof inner));
    EXPECT(buffer.bytes[sizeof inner] == FILLED);
}

/* Checks that a section of these bytes is not opened, because of this fault, and that nothing else is changed. */
static void expect_closed(const uint8_t *section, size_t size, size_t limit, fv_result result, uint64_t offset)
{
    const fv_fault wanted = {offset, result, 0, 0, 0};
    memset(&buffer, FILLED, sizeof buffer);
    memset(contents, FILLED, sizeof contents);
    memset(way, FILLED, sizeof way);
    EXPECT(fv_section_open(section, size, limit, buffer.bytes, 100, contents, fault) == result);
    EXPECT(!memcmp(fault, &wanted, sizeof wanted) && contents->way == FILLED * 0x01010101u);
    EXPECT(buffer.bytes[0] == FILLED);
    if (result > FV_FAULT_OPEN_WAY) return;
    EXPECT(fv_section_way(section, size, way, fault) == result && !memcmp(fault, &wanted, sizeof wanted));
    EXPECT(way->way == FILLED * 0x01010101u);
}

/* Checks packed sections: LZMA, stored, and with a CRC32, which is the one of zlib. */
static void try_packed(void)
{
    uint8_t stored[17] = {16, 0, 0, 1, 9, 0, 0, 0, 0}, summed[35], bad[54];
    memcpy(stored + 9, inner, sizeof inner);
    put(summed, "23000002b0cd1bfc317daa49936aa4600d9dd0831c000000ce43dd35");
    memcpy(summed + 28, inner, sizeof inner);
    memcpy(bad, packed, sizeof bad);
    begin("what headers say");
    expect_way(packed, sizeof packed, (fv_way){FV_NO_LENGTH, 24, FV_WAY_LZMA, 0});
    expect_way(stored, sizeof stored, (fv_way){9, 9, FV_WAY_STORED, 0});
    expect_way(summed, sizeof summed, (fv_way){7, 28, FV_WAY_CRC32, 0});
    begin("contents");
    expect_contents(packed, sizeof packed, FV_WAY_LZMA);
    expect_contents(stored, sizeof stored, FV_WAY_STORED); /* the last byte is not read */
    expect_contents(summed, sizeof summed, FV_WAY_CRC32);
    begin("sections that are not opened");
    expect_closed(packed, 53, 7, FV_FAULT_OPEN_SHORT, 0);
    expect_closed(inner, sizeof inner, 7, FV_FAULT_OPEN_WAY, 3);
    expect_closed(stored, sizeof stored, 6, FV_FAULT_OPEN_TOO_LONG, 9);
    bad[24] = 225; /* the properties of LZMA are below 225 */
    expect_closed(bad, sizeof bad, 7, FV_FAULT_OPEN_DAMAGED, 24);
    summed[30]++;
    expect_closed(summed, sizeof summed, 7, FV_FAULT_OPEN_SUM, 24);
    summed[20] = 27; /* DataOffset, within the sum */
    expect_closed(summed, sizeof summed, 7, FV_FAULT_OPEN_SHORT, 20);
    stored[8] = 3;
    expect_closed(stored, sizeof stored, 7, FV_FAULT_OPEN_WAY, 8);
}

/* Checks that a source of an open image has these bytes, and these rows. */
static void expect_source(const fv_image *it, size_t source, const void *bytes, size_t size, const fv_survey_row *rows,
                          size_t n)
{
    EXPECT(!memcmp(fv_image_source_bytes(it, source, count), bytes, size) && *count == size);
    EXPECT(!memcmp(fv_image_source_rows(it, source, count), rows, n * sizeof *rows) && *count == n);
}

/* Checks that an open image has only this packed section. */
static void expect_section(const fv_image *it, fv_packed wanted)
{
    const fv_packed *all = fv_image_packed(it, count);
    EXPECT(*count == 1 && !memcmp(all, &wanted, sizeof wanted));
}

/* Checks that no image and no source has bytes or rows. */
static void expect_no_source(const fv_image *it, size_t source)
{
    *count = *length = 9;
    EXPECT(!fv_image_source_bytes(it, source, count) && !*count && !fv_image_source_rows(it, source, length) && !*length);
    EXPECT(!fv_image_source_bytes(it, source, NULL) && !fv_image_source_rows(it, source, NULL));
}

/* Checks an open image: the volume with the packed section as its file, first opened, and then with a limit of 0. */
static void try_image(void)
{
    const fv_survey_row of_inner[3] = {{0, 7, FV_ROW_SECTION, 0, 0x19, 0, 0, {{0}}, 0},
                                       {0, 4, FV_ROW_SECTION_HEADER, 1, 0, 0, 0, {{0}}, 0},
                                       {4, 3, FV_ROW_BODY, 1, 0, 0, 0, {{0}}, 0}};
    fv_survey_row own[SURVEY_ROOM];
    size_t n;
    make_of(packed, sizeof packed);
    EXPECT(fv_image_survey(volume, LENGTH, own, SURVEY_ROOM, &n, NULL) == FV_OK);
    begin("an open image");
    EXPECT(fv_image_open(volume, LENGTH, UINT64_MAX, handle, fault) == FV_OK && !fault->result);
    EXPECT(fv_image_source_count(*handle) == 2 && fv_image_source_bytes(*handle, 0, NULL) == volume);
    expect_source(*handle, 0, volume, LENGTH, own, n);
    expect_source(*handle, 1, inner, sizeof inner, of_inner, 3);
    expect_section(*handle, (fv_packed){0, DATA_AT, sizeof packed, 7, {0, 0, 0, 0, 0}, 0, FV_WAY_LZMA, 0, 0});
    expect_no_source(*handle, 2);
    expect_no_source(*handle, SIZE_MAX);
    fv_image_close(*handle);
    begin("an open image with a limit");
    EXPECT(fv_image_open(volume, LENGTH, 0, handle, NULL) == FV_OK && fv_image_source_count(*handle) == 1);
    expect_source(*handle, 0, volume, LENGTH, own, n);
    expect_section(*handle, (fv_packed){0, DATA_AT, sizeof packed, 0, {0, 0, 0, 0, 0}, 0, 0, FV_REASON_LIMIT, 0});
    fv_image_close(*handle);
    begin("no image");
    EXPECT(fv_image_open(NULL, 0, 7, handle, fault) == FV_OK && fv_image_source_count(*handle) == 1);
    EXPECT(!fv_image_source_bytes(*handle, 0, count) && !*count && fv_image_source_rows(*handle, 0, count) && !*count);
    EXPECT(fv_image_packed(*handle, NULL) && fv_image_packed(*handle, count) && !*count);
    fv_image_close(*handle);
    fv_image_close(NULL);
    EXPECT(!fv_image_source_count(NULL) && !fv_image_packed(NULL, count) && !*count && !fv_image_packed(NULL, NULL));
    expect_no_source(NULL, 0);
    make(9);
}

/* Checks that a call rejects a volume whose group has a section that does not fit, and changes nothing else. */
static void expect_fault(fv_result result, uint32_t input)
{
    const fv_fault wanted = {DATA_AT + 20, FV_FAULT_SECTION_SIZE, 1, input, 0};
    EXPECT(result == FV_FAULT_SECTION_SIZE && !memcmp(fault, &wanted, sizeof wanted));
    EXPECT(*count == 9 && *length == 9 && buffer.bytes[0] == FILLED);
}

/* Compares two images, and checks what is found. */
static void expect_sameness(const uint8_t *first, size_t first_size, const uint8_t *second, size_t second_size,
                            const fv_sameness *wanted)
{
    memset(sameness, FILLED, sizeof sameness);
    EXPECT(fv_image_same(first, first_size, second, second_size, FV_CONTENTS_MAX, sameness, fault) == FV_OK);
    EXPECT(!memcmp(sameness, wanted, sizeof *wanted) && !fault->result);
    EXPECT(*(const uint8_t *)(sameness + 1) == FILLED);
}

/* Checks images that differ in a checksum, in a byte of a section, and in the number of parts. */
static void try_same(void)
{
    const fv_sameness none = {{0}, {0}, 1, 0};
    const fv_part_place body = {0, DATA_AT + 40, 3, 1, 0}, first = {0, 0, FILE_AT, 1, 0};
    make_both();
    begin("two images that mean the same");
    other[50]++;
    expect_sameness(volume, LENGTH, other, LENGTH, &none);
    expect_sameness(NULL, 0, NULL, 0, &none);
    begin("two images that differ in a section");
    other[DATA_AT + 41]++;
    expect_sameness(volume, LENGTH, other, LENGTH, &(fv_sameness){body, body, 0, 0});
    begin("an image without parts");
    expect_sameness(volume, LENGTH, NULL, 0, &(fv_sameness){first, {0}, 0, 0});
    expect_sameness(NULL, 0, volume, LENGTH, &(fv_sameness){{0}, first, 0, 0});
    make_both();
}

static void try_fault(void)
{
    make(40);
    begin("a section that is too short");
    expect_fault(fv_volume_is_canonical(volume, LENGTH, number, fault), 0);
    expect_fault(fv_volume_normalise(volume, LENGTH, buffer.bytes, LENGTH, fault), 0);
    expect_fault(fv_volume_digest(volume, LENGTH, digest, fault), 0);
    expect_fault(fv_volume_tree(volume, LENGTH, buffer.nodes, 7, count, fault), 0);
    expect_fault(fv_volume_tree_digests(volume, LENGTH, buffer.digests, 7, count, fault), 0);
    expect_fault(fv_volume_extract(volume, LENGTH, 9, buffer.bytes, LENGTH, length, fault), 0);
    expect_fault(fv_volume_compare(volume, LENGTH, volume, 8, buffer.text, FV_DIFFERENCE_SIZE, found, fault), 0);
    expect_fault(fv_volume_compare(other, LENGTH, volume, LENGTH, buffer.text, FV_DIFFERENCE_SIZE, found, fault), 1);
}

static void try_guid(void)
{
    begin("the text of a GUID");
    EXPECT(fv_guid_parse(text_of_guid, FV_GUID_TEXT_SIZE, guid) == FV_OK && !memcmp(guid, name, sizeof name));
    for (size_t size = 0; size < FV_GUID_TEXT_SIZE; size++)
        EXPECT(fv_guid_text(guid, buffer.text, size) == FV_BUFFER_TOO_SMALL && buffer.bytes[0] == FILLED);
    EXPECT(fv_guid_text(guid, buffer.text, FV_GUID_TEXT_SIZE) == FV_OK && !strcmp(buffer.text, text_of_guid));
}

/* Checks that each result of the header has a sentence of its own, and no other number has a sentence of its own. */
static void try_texts(void)
{
    const char *none = fv_result_text(0x7fffffff);
    unsigned known = 0;
    begin("texts");
    for (fv_result result = 0; result < 0x1000; result++) {
        const char *it = fv_result_text(result);
        EXPECT(it && *it);
        known += strcmp(it, none) != 0;
    }
    EXPECT(known == 25 + 4 + 5 + 5 + 5);
    EXPECT(!strcmp(fv_result_text(FV_OK), "done") && !strcmp(fv_result_text(UINT32_MAX), none));
    EXPECT(strcmp(fv_result_text(FV_FAULT_HOB_NO_END), none) && strcmp(fv_result_text(FV_BAD_ARGUMENT), none));
    EXPECT(strcmp(fv_result_text(FV_FAULT_OPEN_TOO_LONG), none));
    EXPECT(fv_version_number() == FV_VERSION_NUMBER && !strcmp(fv_version(), FV_VERSION));
    EXPECT(FV_VERSION_NUMBER == (FV_VERSION_MAJOR << 16 | FV_VERSION_MINOR << 8 | FV_VERSION_PATCH));
}

int main(void)
{
    make_both();
    try_tree();
    try_stream();
    try_survey();
    try_stream_survey();
    try_variables();
    try_marks();
    try_packed();
    try_image();
    try_same();
    try_fault();
    try_guid();
    try_texts();
    puts("fields: the results are as they were worked out");
    return 0;
}
