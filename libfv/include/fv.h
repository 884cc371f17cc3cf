/* SPDX-License-Identifier: BSD-2-Clause-Patent */
/* fv.h - the calls of libfv 2, for C and C++ programs that read, check, compare or rebuild UEFI firmware volumes (PI
 * specification 1.8, volume 3). Link with `pkg-config --libs libfv`.
 *
 * The meaning of a volume is the content of its header, files and sections, wherever they are stored, and whatever
 * pads, fillers and deleted files hold. Its canonical image is the one image that all volumes of that meaning share.
 *
 * Question                                                Call                      Input                   Memory
 *   Do the bytes begin with a volume? How long is it?     fv_header_read            a volume, then more     none
 *   Where are the volumes of a flash image?               fv_image_scan             any bytes               1
 *   Which volumes of a flash image are canonical?         fv_image_check            any bytes               5
 *   What is a flash image with each volume canonical?     fv_image_normalise        any bytes               5
 *   What is each byte of an image, and what is wrong?     fv_image_survey           any bytes               3
 *   The same, also in packed sections, at every level?    fv_image_open             any bytes               see below
 *   Do two images mean the same, at every level?          fv_image_same             any bytes, twice        see below
 *   Is a volume its own canonical image?                  fv_volume_is_canonical    a volume                5
 *   What is its canonical image?                          fv_volume_normalise       a volume                5
 *   What is a volume without the marks of fixed files?    fv_volume_unfix           a volume                none
 *   Which digest do all volumes of one meaning share?     fv_volume_digest          a volume                5
 *   Do two volumes mean the same? Where do they differ?   fv_volume_compare         two volumes             5, of both
 *   Where are files, pads, deleted files, free bytes?     fv_volume_cells           a volume, then more     3
 *   What is in a volume, at every level?                  fv_volume_tree            a volume                22
 *   Which digest does each of these parts have?           fv_volume_tree_digests    a volume                9
 *   What are the bytes of one of these parts?             fv_volume_extract         a volume                5
 *   The same three, without the marks of fixed files?     fv_volume_.._with         a volume                1 more
 *   How is a packed section opened? How long is it then?  fv_section_way            a section, then more    none
 *   What are the contents of a packed section?            fv_section_open           a section, then more    see below
 *   What is each byte of a stream, and what is wrong?     fv_sections_survey        any bytes               3
 *   What is in a stream of sections, at every level?      fv_sections_tree          a stream                22
 *   Which digest does each of these parts have?           fv_sections_tree_digests  a stream                9
 *   What are the bytes of one of these parts?             fv_sections_extract       a stream                5
 *   What is in a variable store of EDK II?                fv_variables_read         any bytes               none
 *   Which signatures do signature lists have?             fv_signatures_read        any bytes               none
 *   Is a dependency expression true?                      fv_depex_evaluate         expression, then more   18
 *   Which blocks does a hand-off list have?               fv_hobs_read              a list, then more       14
 *   What is a GUID as text?                               fv_guid_text              a GUID                  none
 *   Which GUID is in a text?                              fv_guid_parse             a text                  none
 *   What does a result mean?                              fv_result_text            a number                none
 *   Which version of the library is this?                 fv_version(_number)       none                    none
 *
 * Input: "a volume" must be exactly one volume, and bytes after it are fault 8. "Then more" means that other bytes may
 * follow the volume, the section, the list or the expression, and that the call does not read them. "A stream" must be
 * sections one after another, as a packed section holds them when it is opened: a compressed or GUID-defined section.
 * Any bytes may be passed to any call: bytes that are not an input of the right kind are rejected with a fault.
 * Memory: in addition to its arguments, a call takes up to this many times the size of the input. This was measured
 * for inputs that consist of tiny parts only, which cost most. fv_section_open takes as many bytes as its contents have
 * if it has to decode them, and otherwise none. For LZMA it takes up to 6.1 MiB more, and if the stream does not say how
 * long the contents are, three times their bytes. With FV_WITHOUT_MARKS, each call takes the bytes of its input more.
 * fv_image_open takes as many bytes as all contents have, and 56 for each row of a survey, until the image is closed. (A
 * source has at most two rows for each byte, so the limit of the call bounds this.)
 * While it runs, it takes the bytes of all contents once more, and what fv_section_open takes for the longest section.
 * fv_image_same takes as many bytes as all contents of both images have, up to 4 times the bytes of both images and of
 * their contents for the names of files, and what fv_section_open takes for the longest section.
 * Of address space, which a limit such as `ulimit -v` counts, the two calls that write digests take up to 16 times.
 * fv_image_open takes up to 16 times the size of the image more than its memory, and at most 1 GiB more.
 * Stack: at most 29.5 KiB in fv_image_open and fv_image_same, 29 KiB in fv_section_open, and 20.5 KiB in every other
 * call, as measured.
 *
 * Rules for the caller
 *   1. NULL. An input may be NULL if its size is 0, a buffer may be NULL if its room is 0, and `fault` may always be
 *      NULL. Any other NULL is FV_BAD_ARGUMENT.
 *   2. Each pointer is aligned for its type. A misaligned pointer is FV_BAD_ARGUMENT.
 *   3. A buffer or a result (each pointer to an object that is not const) must not overlap any other argument of the
 *      same call. An overlap is FV_BAD_ARGUMENT.
 *   4. Each pointer points to as many bytes or elements as its size, count or room says. The library cannot check this.
 *   5. While a call runs, nothing else may write to an argument: no other thread, no process that has the same memory
 *      mapped, no device. No other thread may read a buffer or a result.
 *   6. No call may be made from a signal handler, nor in the child of a fork of a process with several threads (before
 *      the child calls exec).
 *   7. An fv_image comes from fv_image_open, and is closed once, by fv_image_close. Until then the image that was passed
 *      to fv_image_open stays where it is, and nothing writes to it. After that nothing uses the fv_image, nor anything
 *      that it has lent.
 * Threads: the library keeps no state and takes no lock. Any number of threads may call it at once, even with the same
 * input, as far as malloc, realloc and free allow this. Any number of threads may use one fv_image at once, because it
 * never changes. One thread closes it when no other uses it any more.
 *
 * Results: FV_OK is success. If several other results are possible, a call returns the first of them in this order:
 *   FV_BAD_ARGUMENT      A pointer breaks rule 1, 2 or 3, the phase is not one of FV_PHASE_*, or a flag is unknown. No
 *                        input was read, and nothing was written, not even `fault`.
 *   1 to 24, 0x201 ..,   The first fault of the input. FAULTS.md, which is installed beside the library's README, lists
 *   0x301 .., 0x401 ..   the faults and their order. 24 is out of memory, in every call. If memory runs out, a call
 *                        returns 24 instead of the result that it would have returned with more memory. (But a call
 *                        that reads an input as a volume returns 24 only if that input begins with the header of a
 *                        volume, and fv_sections_* only if the input has a section and all its headers are right. With
 *                        FV_WITHOUT_MARKS these calls can return 24 for any input.)
 *                        Only `fault` was written.
 *   FV_BAD_GUID          The text is not a GUID. Only fv_guid_parse returns this result. Nothing was written.
 *   FV_NOT_FOUND         The tree of the input has no row with the number that was passed. Returned only if the input
 *                        is a volume, or for fv_sections_extract a stream. Only `fault` was written: its fields are 0.
 *   FV_BUFFER_TOO_SMALL  The buffer is too small. Returned only if the input has no fault and the part exists. Then the
 *                        counts (`count`, `length`, `list_length`, `found`) have the values that FV_OK would have given
 *                        them, and the fields of `fault` are 0. Nothing else was written. So pass no buffer (NULL, and
 *                        room 0) to ask for the number of rows or bytes.
 * After any result except FV_OK the buffer is unchanged. After FV_OK, and only then, rows or bytes are written: to the
 * start of the buffer. The rest of the buffer is unchanged. The exceptions keep no rows in memory: after
 * FV_BUFFER_TOO_SMALL of fv_image_survey, fv_sections_survey, fv_variables_read and fv_signatures_read the buffer is full
 * of the first rows, and after FV_OUT_OF_MEMORY of the first two, some of the first rows may have been written to its
 * start.
 *
 * Growth within 2.x: calls, results, rows and fields keep their names, numbers, sizes and places.
 *   - `reserved` is 0, and may get a meaning: do not read it.
 *   - Results may be added. Treat every result except FV_OK, FV_BUFFER_TOO_SMALL, FV_NOT_FOUND and FV_BAD_ARGUMENT as a
 *     fault of the input.
 *   - FV_CELL_*, FV_NODE_*, FV_CONTENT_*, FV_DEPEX_* and FV_PHASE_* get no new member. FV_FILE_*, FV_SECTION_*,
 *     FV_WAY_*, FV_ROW_*, FV_PART_* and FV_FINDING_* may.
 *   - `efi_type` and `attributes` are bytes of the input, so they may have any value.
 *
 * All lengths and offsets are in bytes. A GUID has its bytes as in the volume: the least significant byte of each of
 * the first three fields comes first.
 *
 * Rows: two volumes of one meaning can have their parts at other places. So these fields depend on how the input is
 * stored:
 *   fv_header, fv_cell, fv_hob  All fields. All cells are listed, also superseded and deleted files, although these are
 *   and fv_survey_row           not part of the meaning. A survey lists all bytes.
 *   fv_variable_row             All fields. All bytes are listed.
 *   fv_node                     `offset` and, for a file, `header_length`. All other fields depend only on the meaning:
 *                               volumes of one meaning, such as a volume and its canonical image, have the same rows
 *                               except for these two fields.
 * fv_volume_extract writes bytes of the canonical image, and the digests of fv_volume_tree_digests cover bytes of the
 * canonical image, so both depend only on the meaning too. The same is true of the calls fv_sections_*, for which the
 * meaning of a stream is the list of its sections, and the number of bytes after the last section.
 *
 * Proofs: the calls from fv_header_read to fv_hobs_read are written in Rattle, below a layer in C. Each of them is
 * proved to do what its comment here says, if that layer accepts its pointers, except for these statements:
 *   - which faults a call can return;
 *   - which input fv_volume_compare reports if memory runs out after both inputs were read (it is proved that the
 *     function below the call that compares them reports 0; but for the same two inputs, memory could also have run out
 *     while the second was read, so no statement about the arguments can show the difference);
 *   - how often fv_volume_tree and fv_volume_tree_digests read the input, that these calls and fv_sections_tree_digests
 *     keep no image in memory, and that the two surveys keep no row in memory;
 *   - that fv_section_open stops decoding at its limit;
 *   - the numbers for memory and stack above, which were measured.
 * This header, the layer (src/calls.c: FV_BAD_ARGUMENT, and NULL in place of an empty argument), fv_image and its calls
 * (src/images.c), fv_guid_text and fv_guid_parse (src/guid.c), src/heap.c and src/result_text.c are plain C, and not
 * proved. What fv_image_open finds is proved: the layer keeps it, and lends it. The proofs hold only if the caller keeps
 * the rules 4 to 7. */
#ifndef FV_H
#define FV_H

#include <stddef.h>
#include <stdint.h>

#define FV_VERSION "2.1.0-dev"
#define FV_VERSION_MAJOR 2
#define FV_VERSION_MINOR 1
#define FV_VERSION_PATCH 0
#define FV_VERSION_NUMBER 0x020100 /* major << 16 | minor << 8 | patch */

#define FV_LENGTH_MAX 268435456u /* the most bytes of a volume, a stream, or an image that is checked or normalised */
#define FV_CONTENTS_MAX 1073741824u /* the most bytes of all contents together that fv_image_open opens */
#define FV_DIFFERENCE_SIZE 553   /* the most bytes of the text of fv_volume_compare, its NUL included */
#define FV_GUID_TEXT_SIZE 37     /* the bytes of the text of fv_guid_text, its NUL included */
#define FV_NO_PARENT UINT64_MAX  /* the parent of a row of depth 0, which no row holds */
#define FV_NO_LENGTH UINT64_MAX  /* the promised length of a packed section, if its headers promise none */

/* FV_.._ are for this header only, which undefines them at its end. */
#if defined __cplusplus
#define FV_EXTERN_ extern "C"
#else
#define FV_EXTERN_ extern
#endif
#if defined __cplusplus && __cplusplus >= 201103L
#define FV_ASSERT_ static_assert
#elif defined __STDC_VERSION__ && __STDC_VERSION__ >= 201112L
#define FV_ASSERT_ _Static_assert
#else
#define FV_ASSERT_(condition, text) struct fv_assert_
#endif
#if defined __GNUC__
#define FV_API_ FV_EXTERN_ __attribute__((visibility("default")))
#define FV_CHECKED_ FV_API_ __attribute__((warn_unused_result))
#else
#define FV_API_ FV_EXTERN_
#define FV_CHECKED_ FV_EXTERN_
#endif

FV_ASSERT_(sizeof(size_t) == 8 && sizeof(void *) == 8, "libfv is for 64-bit systems");

/* The result of a call. The bits from 8 on show what the result is about: 0 a volume or an image, 1 the call, 2 a
 * dependency expression, 3 a hand-off list, 4 a section that is opened. Except for 1, the low byte is the number of the
 * fault in FAULTS.md; but out of memory is 24 in every call. fv_result_text has a sentence for each result. */
typedef uint32_t fv_result;
enum {
    FV_OK = 0,
    FV_FAULT_TRUNCATED = 1,
    FV_FAULT_SIGNATURE = 2,
    FV_FAULT_FILE_SYSTEM = 3,
    FV_FAULT_REVISION = 4,
    FV_FAULT_HEADER_LENGTH = 5,
    FV_FAULT_HEADER_SUM = 6,
    FV_FAULT_BLOCK_MAP = 7,
    FV_FAULT_LENGTH = 8,
    FV_FAULT_EXT_HEADER = 9,
    FV_FAULT_FILE_STATE = 10,
    FV_FAULT_FILE_HEADER_SUM = 11,
    FV_FAULT_FILE_SIZE = 12,
    FV_FAULT_LARGE_FILE = 13,
    FV_FAULT_FILE_SUM = 14,
    FV_FAULT_FIXED = 15,
    FV_FAULT_FREE_SPACE = 16,
    FV_FAULT_DUPLICATE_NAME = 17,
    FV_FAULT_TOP_FILE = 18,
    FV_FAULT_SECTION_SIZE = 19,
    FV_FAULT_SECTION_TAIL = 20,
    FV_FAULT_DEPTH = 21,
    FV_FAULT_NO_ROOM = 22,
    FV_FAULT_TOP_ALIGNMENT = 23,
    FV_OUT_OF_MEMORY = 24,
    FV_BUFFER_TOO_SMALL = 0x100,
    FV_NOT_FOUND = 0x101,
    FV_BAD_ARGUMENT = 0x102,
    FV_BAD_GUID = 0x103,
    FV_FAULT_DEPEX_SHORT = 0x201,
    FV_FAULT_DEPEX_OPCODE = 0x202,
    FV_FAULT_DEPEX_STACK = 0x203,
    FV_FAULT_DEPEX_NO_END = 0x204,
    FV_FAULT_DEPEX_POSITION = 0x205,
    FV_FAULT_HOB_SHORT = 0x301,
    FV_FAULT_HOB_LENGTH = 0x302,
    FV_FAULT_HOB_FIRST = 0x303,
    FV_FAULT_HOB_SHAPE = 0x304,
    FV_FAULT_HOB_NO_END = 0x305,
    FV_FAULT_OPEN_SHORT = 0x401,
    FV_FAULT_OPEN_WAY = 0x402,
    FV_FAULT_OPEN_DAMAGED = 0x403,
    FV_FAULT_OPEN_SUM = 0x404,
    FV_FAULT_OPEN_TOO_LONG = 0x405
};

/* The kinds of cells of a volume's body: a valid file, even if it is superseded; a pad file; a deleted file; a file
 * whose data or header were never finished; erased bytes up to the end of the volume. The state of the file decides
 * between deleted and unfinished. */
enum { FV_CELL_FILE = 1, FV_CELL_PAD = 2, FV_CELL_DELETED = 3, FV_CELL_UNFINISHED = 4, FV_CELL_FREE = 5 };

/* The kinds of rows of a tree. */
enum { FV_NODE_VOLUME = 1, FV_NODE_FILE = 2, FV_NODE_SECTION = 3 };

/* The kinds of contents of a row's part: a volume holds files; a file holds bytes or sections; a section holds bytes,
 * sections (it is a group) or a volume. The type of a file decides: it holds sections if the type is 0x02 or 0x04 to
 * 0x0F, and bytes otherwise, also for a security core (0x03). A file of these types, or a group, holds sections even if
 * it has no bytes: then no row is below its row. */
enum { FV_CONTENT_FILES = 0, FV_CONTENT_BYTES = 1, FV_CONTENT_SECTIONS = 2, FV_CONTENT_VOLUME = 3 };

/* The kinds of rows of a survey. The rows of the first four kinds contain other rows: a volume; a file, a pad or a
 * deleted file, with the filler after it; a section; and lost bytes, which should be a part of a volume and cannot be
 * read as one, with the volumes that are found among them. All other rows are leaf rows: the header of a volume with
 * its block map, the extended header of a volume, the header of a file, the header of a section; data of a file that
 * are not read as sections; the body of a section that is not opened, which is FV_ROW_PACKED for a compression or
 * GUID-defined section; the erased bytes of a pad, and other bytes of a pad; the data of a file that was deleted or
 * never finished; a header that was never finished; erased bytes where a file would begin; bytes between two parts;
 * bytes between the header of a volume and its extended header; bytes outside of volumes; the contents of a volume with
 * a file system that holds no files, such as a variable store; and bytes that should be a part of a volume and cannot
 * be read. */
enum {
    FV_ROW_VOLUME = 1,
    FV_ROW_FILE = 2,
    FV_ROW_SECTION = 3,
    FV_ROW_LOST = 4,
    FV_ROW_VOLUME_HEADER = 5,
    FV_ROW_EXT_HEADER = 6,
    FV_ROW_FILE_HEADER = 7,
    FV_ROW_SECTION_HEADER = 8,
    FV_ROW_DATA = 9,
    FV_ROW_BODY = 10,
    FV_ROW_PACKED = 11,
    FV_ROW_PAD = 12,
    FV_ROW_PAD_DATA = 13,
    FV_ROW_DEAD = 14,
    FV_ROW_STUB = 15,
    FV_ROW_FREE = 16,
    FV_ROW_FILLER = 17,
    FV_ROW_BETWEEN = 18,
    FV_ROW_GAP = 19,
    FV_ROW_STORE = 20,
    FV_ROW_UNREAD = 21
};

/* The types of files, with the names of the specification after EFI_FV_FILETYPE_. A file may have any other type too:
 * 0xC0 to 0xDF are for vendors, and 0xE0 to 0xEF for debugging. */
enum {
    FV_FILE_RAW = 0x01,
    FV_FILE_FREEFORM = 0x02,
    FV_FILE_SECURITY_CORE = 0x03,
    FV_FILE_PEI_CORE = 0x04,
    FV_FILE_DXE_CORE = 0x05,
    FV_FILE_PEIM = 0x06,
    FV_FILE_DRIVER = 0x07,
    FV_FILE_COMBINED_PEIM_DRIVER = 0x08,
    FV_FILE_APPLICATION = 0x09,
    FV_FILE_MM = 0x0A,
    FV_FILE_FIRMWARE_VOLUME_IMAGE = 0x0B,
    FV_FILE_COMBINED_MM_DXE = 0x0C,
    FV_FILE_MM_CORE = 0x0D,
    FV_FILE_MM_STANDALONE = 0x0E,
    FV_FILE_MM_CORE_STANDALONE = 0x0F,
    FV_FILE_FFS_PAD = 0xF0
};

/* The types of sections, with the names of the specification after EFI_SECTION_. A section may have any other type
 * too. */
enum {
    FV_SECTION_COMPRESSION = 0x01,
    FV_SECTION_GUID_DEFINED = 0x02,
    FV_SECTION_DISPOSABLE = 0x03,
    FV_SECTION_PE32 = 0x10,
    FV_SECTION_PIC = 0x11,
    FV_SECTION_TE = 0x12,
    FV_SECTION_DXE_DEPEX = 0x13,
    FV_SECTION_VERSION = 0x14,
    FV_SECTION_USER_INTERFACE = 0x15,
    FV_SECTION_COMPATIBILITY16 = 0x16,
    FV_SECTION_FIRMWARE_VOLUME_IMAGE = 0x17,
    FV_SECTION_FREEFORM_SUBTYPE_GUID = 0x18,
    FV_SECTION_RAW = 0x19,
    FV_SECTION_PEI_DEPEX = 0x1B,
    FV_SECTION_MM_DEPEX = 0x1C
};

/* What a row of variable stores or of signature lists is about: the header of a variable store; a variable, with its
 * header, its name and its data; the header of a variable that was never finished; the bytes from the end of a variable
 * to the next multiple of 4; erased bytes, which are 0xFF; the working block of the fault tolerant write driver, with its
 * queue; the header of a signature list; a signature, with its owner; and bytes that cannot be read. */
enum {
    FV_PART_STORE_HEADER = 1,
    FV_PART_VARIABLE = 2,
    FV_PART_UNFINISHED = 3,
    FV_PART_FILLER = 4,
    FV_PART_FREE = 5,
    FV_PART_WORKING_BLOCK = 6,
    FV_PART_LIST_HEADER = 7,
    FV_PART_SIGNATURE = 8,
    FV_PART_UNREAD = 9
};

/* The finding of a row of variable stores or of signature lists. FV_FINDING_STORE_SIZE: Size of a store is not possible,
 * so the store is read up to the end of the bytes. FV_FINDING_STORE_STATE: EDK II does not use the store, because Format
 * is not 0x5A or State is not 0xFE. FV_FINDING_START_ID: the rest of a store does not begin with StartId, and is not
 * erased. FV_FINDING_VARIABLE_SIZE: the rest of a store has no room for the variable with which it begins.
 * FV_FINDING_QUEUE_SIZE: WriteQueueSize of a working block is not possible. FV_FINDING_NO_STORE: the bytes are outside
 * of stores, and are not erased. FV_FINDING_LIST_SIZE: the sizes of a signature list are not possible, so no further
 * list is read. FV_FINDING_SIGNATURE_SIZE: the rest of a signature list has no room for a signature. */
enum {
    FV_FINDING_STORE_SIZE = 1,
    FV_FINDING_STORE_STATE = 2,
    FV_FINDING_START_ID = 3,
    FV_FINDING_VARIABLE_SIZE = 4,
    FV_FINDING_QUEUE_SIZE = 5,
    FV_FINDING_NO_STORE = 6,
    FV_FINDING_LIST_SIZE = 7,
    FV_FINDING_SIGNATURE_SIZE = 8
};

/* The formats of the variables of a store: VARIABLE_HEADER, of 32 bytes, or AUTHENTICATED_VARIABLE_HEADER, of 60. */
enum { FV_STORE_PLAIN = 1, FV_STORE_AUTHENTICATED = 2 };

/* What State of a variable says. FV_VARIABLE_ADDED (0x3F): the variable is there. FV_VARIABLE_REPLACED (0x3E): it is about
 * to be replaced, and is there as long as no other variable with its name and vendor is added. FV_VARIABLE_DELETED (0x3D
 * or 0x3C): it was deleted. FV_VARIABLE_HEADER_ONLY (0x7F): only its header was written in full. FV_VARIABLE_OTHER: any
 * other byte. */
enum {
    FV_VARIABLE_ADDED = 1,
    FV_VARIABLE_REPLACED = 2,
    FV_VARIABLE_DELETED = 3,
    FV_VARIABLE_HEADER_ONLY = 4,
    FV_VARIABLE_OTHER = 5
};

/* The phase in which a dependency expression is evaluated. FV_PHASE_DXE is for DXE and for MM. */
enum { FV_PHASE_PEI = 0, FV_PHASE_DXE = 1 };

/* The flags of the calls fv_volume_*_with and fv_sections_*; 0 sets no flag. With FV_WITHOUT_MARKS a call makes a copy
 * of its input, takes the marks of fixed files away as fv_volume_unfix does, but also in the volumes in sections, and
 * reads this copy. So fault 15 does not occur. Nothing is moved: an offset in the copy is the same offset in the input.
 * The attributes of a file are without bit 0x04. Digests cover bytes of the copy, and extracted bytes come from the
 * copy. The extracted bytes are for reading, comparing and archiving, and must not be flashed. */
enum { FV_WITHOUT_MARKS = 1 };

/* The value of a dependency expression. BEFORE and AFTER only say in which order drivers run, and have no truth value:
 * FV_DEPEX_ORDER. */
enum { FV_DEPEX_FALSE = 0, FV_DEPEX_TRUE = 1, FV_DEPEX_ORDER = 2 };

/* The ways to open a packed section, which is a section of type 0x01 (compression) or 0x02 (GUID-defined). The contents
 * are as they are in the section with FV_WAY_STORED (CompressionType 0); with FV_WAY_CRC32, after their CRC32 (the GUID
 * fc1bcdb0-7d31-49aa-936a-a4600d9dd083); with FV_WAY_SIGNED, after a signature that is not verified (the GUID
 * 0f9d89e8-9259-4f76-a5af-0c89e34023df or, with RSA 2048 and SHA-256, a7717414-c616-4977-9420-844712a735bf); and with
 * FV_WAY_PLAIN (any other GUID, if bit 0x01 of Attributes is clear). They are decoded with FV_WAY_UEFI, the compression
 * of the UEFI specification; with FV_WAY_TIANO, Tiano's form of it (a31280ad-481e-41b6-95e8-127f4c984779); with
 * FV_WAY_LZMA (ee4e5898-3914-4259-9d6e-dc7bd79403cf, or 0ed85e23-f253-413f-a03c-901987b04397); and with FV_WAY_LZMA_X86
 * LZMA of x86 code (CompressionType 0x86, or d42ae6bd-1352-4bfb-909a-ca72a6eae889). FV_WAY_STANDARD (CompressionType 1)
 * is FV_WAY_UEFI or FV_WAY_TIANO, of which only decoding shows which. FV_WAY_CUSTOMIZED (CompressionType 2) is
 * FV_WAY_LZMA, maybe after four other bytes. These two are what a header says, and no contents have them. */
enum {
    FV_WAY_STORED = 1,
    FV_WAY_STANDARD = 2,
    FV_WAY_UEFI = 3,
    FV_WAY_TIANO = 4,
    FV_WAY_CUSTOMIZED = 5,
    FV_WAY_LZMA = 6,
    FV_WAY_LZMA_X86 = 7,
    FV_WAY_CRC32 = 8,
    FV_WAY_SIGNED = 9,
    FV_WAY_PLAIN = 10
};

/* Why a packed section of an image is not opened: it has a fault; 8 opened sections are around it; or nothing is left
 * of the number of bytes that may be opened. */
enum { FV_REASON_FAULT = 1, FV_REASON_DEPTH = 2, FV_REASON_LIMIT = 3 };

/* A GUID, by its bytes in a volume. */
typedef struct fv_guid {
    uint8_t bytes[16];
} fv_guid;
FV_ASSERT_(sizeof(fv_guid) == 16, "the layout of fv_guid");

/* A SHA-256 digest. */
typedef struct fv_sha256 {
    uint8_t bytes[32];
} fv_sha256;
FV_ASSERT_(sizeof(fv_sha256) == 32, "the layout of fv_sha256");

/* A fault and its place. All fields are 0 if there is no fault. */
typedef struct fv_fault {
    uint64_t offset;   /* in bytes, from the first byte of the input */
    fv_result result;  /* the result of the call; in a row of fv_image_check the fault of that volume */
    uint32_t depth;    /* the number of groups and opened volumes around the fault, 0 to 8 */
    uint32_t input;    /* 1 if the fault is in the second input of fv_volume_compare, otherwise 0 */
    uint32_t reserved; /* 0 */
} fv_fault;
FV_ASSERT_(sizeof(fv_fault) == 24 && offsetof(fv_fault, offset) == 0 && offsetof(fv_fault, result) == 8 &&
               offsetof(fv_fault, depth) == 12 && offsetof(fv_fault, input) == 16 && offsetof(fv_fault, reserved) == 20,
           "the layout of fv_fault");

/* A volume, by its header. */
typedef struct fv_header {
    uint64_t offset;        /* where the volume begins, from the first byte of the input; 0 from fv_header_read */
    uint64_t length;        /* FvLength */
    uint64_t first_file;    /* where its first file may begin, from the first byte of the volume */
    uint32_t header_length; /* HeaderLength */
    uint32_t attributes;    /* Attributes */
    uint32_t file_system;   /* 2: FFS2, 3: FFS3 */
    uint32_t erased_byte;   /* the value of an erased byte, 0 or 255 */
    fv_guid name;           /* FvName of its extended header; zeros if it has none */
    uint64_t reserved;      /* 0 */
} fv_header;
FV_ASSERT_(sizeof(fv_header) == 64 && offsetof(fv_header, offset) == 0 && offsetof(fv_header, length) == 8 &&
               offsetof(fv_header, first_file) == 16 && offsetof(fv_header, header_length) == 24 &&
               offsetof(fv_header, attributes) == 28 && offsetof(fv_header, file_system) == 32 &&
               offsetof(fv_header, erased_byte) == 36 && offsetof(fv_header, name) == 40 &&
               offsetof(fv_header, reserved) == 56,
           "the layout of fv_header");

/* A volume of a flash image, and the result of its check. */
typedef struct fv_volume_check {
    uint64_t offset;    /* where the volume begins, from the first byte of the image */
    uint64_t length;    /* FvLength */
    fv_fault fault;     /* the fault of a rejected volume, at its offset in the image; otherwise all fields are 0 */
    uint32_t canonical; /* 1 if the volume is its own canonical image, otherwise 0 */
    uint32_t reserved;  /* 0 */
} fv_volume_check;
FV_ASSERT_(sizeof(fv_volume_check) == 48 && offsetof(fv_volume_check, offset) == 0 &&
               offsetof(fv_volume_check, length) == 8 && offsetof(fv_volume_check, fault) == 16 &&
               offsetof(fv_volume_check, canonical) == 40 && offsetof(fv_volume_check, reserved) == 44,
           "the layout of fv_volume_check");

/* A row of a survey. */
typedef struct fv_survey_row {
    uint64_t offset;   /* where the row begins, from the first byte of the image */
    uint64_t length;   /* the number of its bytes */
    uint32_t kind;     /* FV_ROW_* */
    uint32_t depth;    /* the number of rows around it */
    uint32_t efi_type; /* Type of a file (FV_FILE_* or another) or of a section (FV_SECTION_* or another), or 0 */
    uint32_t found;    /* 1 for a volume that was found by its signature, as each volume of depth 0 is; otherwise 0 */
    uint32_t findings; /* bit N is set if the bytes break the rule of fault N, as in 1u << FV_FAULT_FILE_SUM */
    fv_guid name;      /* Name of a file, or the GUID of the file system of a volume; otherwise zeros */
    uint32_t reserved; /* 0 */
} fv_survey_row;
FV_ASSERT_(sizeof(fv_survey_row) == 56 && offsetof(fv_survey_row, offset) == 0 &&
               offsetof(fv_survey_row, length) == 8 && offsetof(fv_survey_row, kind) == 16 &&
               offsetof(fv_survey_row, depth) == 20 && offsetof(fv_survey_row, efi_type) == 24 &&
               offsetof(fv_survey_row, found) == 28 && offsetof(fv_survey_row, findings) == 32 &&
               offsetof(fv_survey_row, name) == 36 && offsetof(fv_survey_row, reserved) == 52,
           "the layout of fv_survey_row");

/* A row of variable stores or of signature lists. A field that the part of the row does not have is 0. */
typedef struct fv_variable_row {
    uint64_t offset;          /* where the row begins, from the first byte of the input */
    uint64_t length;          /* the number of its bytes */
    uint64_t monotonic_count; /* MonotonicCount of an authenticated variable */
    uint32_t part;            /* FV_PART_* */
    uint32_t finding;         /* FV_FINDING_*, or 0 if the row has none */
    uint32_t format;          /* FV_STORE_*, of a store */
    uint32_t size;            /* Size of a store, or SignatureListSize of a list */
    uint32_t state;           /* State of a variable or of a store */
    uint32_t status;          /* FV_VARIABLE_*, of a variable */
    uint32_t attributes;      /* Attributes of a variable */
    uint32_t header_length;   /* the number of bytes of the header of a variable, 32 or 60; the name follows it */
    uint32_t name_size;       /* NameSize of a variable; the data follow the name */
    uint32_t data_size;       /* DataSize of a variable, or SignatureSize of a list */
    uint32_t public_key;      /* PubKeyIndex of an authenticated variable */
    uint32_t formatted;       /* Format of a store */
    fv_guid guid;             /* VendorGuid of a variable, SignatureType of a list, or SignatureOwner of a signature */
    uint8_t time_stamp[16];   /* TimeStamp of an authenticated variable, an EFI_TIME */
} fv_variable_row;
FV_ASSERT_(sizeof(fv_variable_row) == 104 && offsetof(fv_variable_row, offset) == 0 &&
               offsetof(fv_variable_row, length) == 8 && offsetof(fv_variable_row, monotonic_count) == 16 &&
               offsetof(fv_variable_row, part) == 24 && offsetof(fv_variable_row, finding) == 28 &&
               offsetof(fv_variable_row, format) == 32 && offsetof(fv_variable_row, size) == 36 &&
               offsetof(fv_variable_row, state) == 40 && offsetof(fv_variable_row, status) == 44 &&
               offsetof(fv_variable_row, attributes) == 48 && offsetof(fv_variable_row, header_length) == 52 &&
               offsetof(fv_variable_row, name_size) == 56 && offsetof(fv_variable_row, data_size) == 60 &&
               offsetof(fv_variable_row, public_key) == 64 && offsetof(fv_variable_row, formatted) == 68 &&
               offsetof(fv_variable_row, guid) == 72 && offsetof(fv_variable_row, time_stamp) == 88,
           "the layout of fv_variable_row");

/* The findings of fv_volume_compare. */
typedef struct fv_comparison {
    uint64_t text_length; /* the number of bytes of the text, without the NUL that ends it */
    uint32_t same;        /* 1 if the two volumes have the same meaning, otherwise 0 */
    uint32_t reserved;    /* 0 */
} fv_comparison;
FV_ASSERT_(sizeof(fv_comparison) == 16 && offsetof(fv_comparison, text_length) == 0 &&
               offsetof(fv_comparison, same) == 8 && offsetof(fv_comparison, reserved) == 12,
           "the layout of fv_comparison");

/* A cell of a volume's body. The length of a valid file (FV_CELL_FILE) or a pad does not include the filler after it,
 * but the length of a deleted or unfinished file does. The fields from header_length on are 0 in any cell that is
 * neither a valid file nor a pad. */
typedef struct fv_cell {
    uint64_t offset;        /* from the first byte of the volume */
    uint64_t length;        /* the number of its bytes */
    uint32_t kind;          /* FV_CELL_* */
    uint32_t header_length; /* of a valid file or a pad, 24 or 32: its data begin at offset + header_length */
    uint32_t efi_type;      /* Type of a valid file or a pad: FV_FILE_* or another */
    uint32_t attributes;    /* Attributes of a valid file or a pad, as stored: with 0x01 if its header is large */
    fv_guid name;           /* Name of a valid file or a pad */
    uint64_t reserved;      /* 0 */
} fv_cell;
FV_ASSERT_(sizeof(fv_cell) == 56 && offsetof(fv_cell, offset) == 0 && offsetof(fv_cell, length) == 8 &&
               offsetof(fv_cell, kind) == 16 && offsetof(fv_cell, header_length) == 20 &&
               offsetof(fv_cell, efi_type) == 24 && offsetof(fv_cell, attributes) == 28 &&
               offsetof(fv_cell, name) == 32 && offsetof(fv_cell, reserved) == 48,
           "the layout of fv_cell");

/* A volume, a file or a section of the tree of a volume or of a stream. A field that it does not have is 0. */
typedef struct fv_node {
    uint64_t offset;        /* where in the input the volume, the file's data or the section's body is stored */
    uint64_t length;        /* the number of these bytes */
    uint64_t parent;        /* the number of the row that holds it; FV_NO_PARENT if no row does */
    uint64_t index;         /* its number among the parts that its parent holds, from 0 */
    uint32_t depth;         /* the number of rows around it */
    uint32_t kind;          /* FV_NODE_* */
    uint32_t content;       /* FV_CONTENT_* */
    uint32_t efi_type;      /* Type of a file (FV_FILE_* or another) or of a section (FV_SECTION_* or another) */
    uint32_t attributes;    /* Attributes of a volume; of a file, without bit 0x01 (it is set if header_length is 32) */
    uint32_t header_length; /* HeaderLength of a volume; file: 24 or 32, section: 4 or 8; their header ends at offset */
    fv_guid guid;           /* FvName of a volume, or zeros if it has none; Name of a file */
    uint32_t file_system;   /* for a volume 2: FFS2, 3: FFS3 */
    uint32_t reserved[3];   /* 0 */
} fv_node;
FV_ASSERT_(sizeof(fv_node) == 88 && offsetof(fv_node, offset) == 0 && offsetof(fv_node, length) == 8 &&
               offsetof(fv_node, parent) == 16 && offsetof(fv_node, index) == 24 && offsetof(fv_node, depth) == 32 &&
               offsetof(fv_node, kind) == 36 && offsetof(fv_node, content) == 40 && offsetof(fv_node, efi_type) == 44 &&
               offsetof(fv_node, attributes) == 48 && offsetof(fv_node, header_length) == 52 &&
               offsetof(fv_node, guid) == 56 && offsetof(fv_node, file_system) == 72 &&
               offsetof(fv_node, reserved) == 76,
           "the layout of fv_node");

/* A block of a hand-off list. */
typedef struct fv_hob {
    uint64_t volume_base;   /* the base address of the volume that an FV or FV2 block describes, otherwise 0 */
    uint64_t volume_length; /* the number of bytes of that volume, otherwise 0 */
    uint32_t hob_type;      /* HobType */
    uint32_t hob_length;    /* HobLength */
    uint64_t reserved;      /* 0 */
} fv_hob;
FV_ASSERT_(sizeof(fv_hob) == 32 && offsetof(fv_hob, volume_base) == 0 && offsetof(fv_hob, volume_length) == 8 &&
               offsetof(fv_hob, hob_type) == 16 && offsetof(fv_hob, hob_length) == 20 &&
               offsetof(fv_hob, reserved) == 24,
           "the layout of fv_hob");

/* What the header of a packed section says about its contents. */
typedef struct fv_way {
    uint64_t promised;    /* the length of the contents that a header promises; FV_NO_LENGTH if none does */
    uint64_t data_offset; /* where the data begin, from the first byte of the section */
    uint32_t way;         /* FV_WAY_* */
    uint32_t reserved;    /* 0 */
} fv_way;
FV_ASSERT_(sizeof(fv_way) == 24 && offsetof(fv_way, promised) == 0 && offsetof(fv_way, data_offset) == 8 &&
               offsetof(fv_way, way) == 16 && offsetof(fv_way, reserved) == 20,
           "the layout of fv_way");

/* The contents of a packed section. */
typedef struct fv_contents {
    uint64_t length;   /* the number of their bytes */
    uint32_t way;      /* FV_WAY_*, the way that gave them */
    uint32_t reserved; /* 0 */
} fv_contents;
FV_ASSERT_(sizeof(fv_contents) == 16 && offsetof(fv_contents, length) == 0 && offsetof(fv_contents, way) == 8 &&
               offsetof(fv_contents, reserved) == 12,
           "the layout of fv_contents");

/* A packed section of an image, at some level: a compression section or a GUID-defined section. */
typedef struct fv_packed {
    uint64_t source;          /* the number of the source that the section is in: 0 is the image */
    uint64_t offset;          /* where the section begins, from the first byte of that source */
    uint64_t length;          /* the number of its bytes, with its header */
    uint64_t contents_length; /* the number of bytes of its contents; 0 if it is not opened */
    fv_fault fault;           /* the fault, at its offset in the section, if reason is FV_REASON_FAULT; else zeros */
    uint32_t depth;           /* the number of opened sections around it, 0 to 8 */
    uint32_t way;             /* FV_WAY_*, the way that gave its contents; 0 if it is not opened */
    uint32_t reason;          /* FV_REASON_*, why it is not opened; 0 if it is opened */
    uint32_t reserved;        /* 0 */
} fv_packed;
FV_ASSERT_(sizeof(fv_packed) == 72 && offsetof(fv_packed, source) == 0 && offsetof(fv_packed, offset) == 8 &&
               offsetof(fv_packed, length) == 16 && offsetof(fv_packed, contents_length) == 24 &&
               offsetof(fv_packed, fault) == 32 && offsetof(fv_packed, depth) == 56 && offsetof(fv_packed, way) == 60 &&
               offsetof(fv_packed, reason) == 64 && offsetof(fv_packed, reserved) == 68,
           "the layout of fv_packed");

/* The place of a part of an image, at some level. All fields are 0 if there is no part. */
typedef struct fv_part_place {
    uint64_t source;    /* the number of the source that the part is in: 0 is the image */
    uint64_t offset;    /* where the part begins, from the first byte of that source */
    uint64_t length;    /* the number of its bytes */
    uint32_t has_place; /* 1 if there is a part, otherwise 0 */
    uint32_t reserved;  /* 0 */
} fv_part_place;
FV_ASSERT_(sizeof(fv_part_place) == 32 && offsetof(fv_part_place, source) == 0 && offsetof(fv_part_place, offset) == 8 &&
               offsetof(fv_part_place, length) == 16 && offsetof(fv_part_place, has_place) == 24 &&
               offsetof(fv_part_place, reserved) == 28,
           "the layout of fv_part_place");

/* The findings of fv_image_same. */
typedef struct fv_sameness {
    fv_part_place first;  /* where the images first differ: the place in the first image */
    fv_part_place second; /* the place in the second image */
    uint32_t is_same;     /* 1 if the two images mean the same, otherwise 0 */
    uint32_t reserved;    /* 0 */
} fv_sameness;
FV_ASSERT_(sizeof(fv_sameness) == 72 && offsetof(fv_sameness, first) == 0 && offsetof(fv_sameness, second) == 32 &&
               offsetof(fv_sameness, is_same) == 64 && offsetof(fv_sameness, reserved) == 68,
           "the layout of fv_sameness");

/* The handle of an image that is open at every level: fv_image_open. Its fields are hidden. */
typedef struct fv_image fv_image;

/* Returns the version of the library that is loaded, as FV_VERSION_NUMBER has it. If its first number, the result
 * shifted right by 16, is not FV_VERSION_MAJOR, nothing else of this header is true of that library. */
FV_API_ uint32_t fv_version_number(void);

/* Returns the version of the library that is loaded as a text, ended by a NUL, as FV_VERSION has it. */
FV_API_ const char *fv_version(void);

/* Returns a sentence, ended by a NUL, that explains a result. Each member of fv_result has its own sentence, and all
 * other numbers share a sentence. Never returns NULL. */
FV_API_ const char *fv_result_text(fv_result result);

/* Reads the header of the volume with which the bytes begin. Checks only this header, and no files: each of the
 * fv_volume_* calls may still reject the volume. Takes no memory.
 * Returns FV_OK, and sets *header, if the bytes begin with a header and all bytes of its volume. Otherwise returns the
 * first fault, 1 to 9, and leaves *header unchanged. */
FV_CHECKED_ fv_result fv_header_read(const void *bytes, size_t size, fv_header *header, fv_fault *fault);

/* Finds the volumes of a flash image. A volume begins at each multiple of 8 from which on fv_header_read finds no
 * fault, unless this offset is in a volume that was found before. Writes a row for each volume, in the order of the
 * offsets, and the number of volumes to *count. An image of any size is accepted.
 * Returns FV_OK, or FV_BUFFER_TOO_SMALL if *count > room. Returns FV_OUT_OF_MEMORY if memory runs out, and leaves
 * *count unchanged. Memory can run out only if a volume begins in the image. */
FV_CHECKED_ fv_result fv_image_scan(const void *image, size_t size, fv_header *rows, size_t room, size_t *count,
                                    fv_fault *fault);

/* Checks each volume that fv_image_scan finds in a flash image. Writes a row for each, in the order of the volumes, and
 * their number to *count. A volume that has no canonical image, since it does not fit, is not canonical.
 * Returns FV_OK even if a volume is rejected: its row has the fault, 1 to 21. Returns FV_BUFFER_TOO_SMALL if *count >
 * room. Returns FV_FAULT_LENGTH if size > FV_LENGTH_MAX, or FV_OUT_OF_MEMORY, and leaves *count unchanged then. Memory
 * can run out only if a volume begins in an image within the limit. */
FV_CHECKED_ fv_result fv_image_check(const void *image, size_t size, fv_volume_check *rows, size_t room, size_t *count,
                                     fv_fault *fault);

/* Writes the flash image with each volume that fv_image_scan finds replaced by its canonical image, and all other bytes
 * kept, to the first `size` bytes of the buffer.
 * Returns FV_OK. Otherwise returns the first fault, 1 to 24: FV_FAULT_LENGTH if size > FV_LENGTH_MAX; then the fault of
 * the first volume that has no canonical image, with its offset in the flash image. Memory can run out only if a volume
 * begins in an image within the limit. Without a fault, returns FV_BUFFER_TOO_SMALL if buffer_size < size. */
FV_CHECKED_ fv_result fv_image_normalise(const void *image, size_t size, void *buffer, size_t buffer_size,
                                         fv_fault *fault);

/* Surveys an image: accounts for every byte of it. Any bytes are accepted, however damaged, in any number. Volumes are
 * read as far as they can be read, and a row has a finding for each rule of the strict calls that its bytes break.
 * Writes the rows in preorder: each row is followed by the rows that lie in it, which are one deeper and lie one after
 * another from its first byte to its end. So every byte of the image is in exactly one leaf row, and the rows of depth
 * 0 cover the image. Packed sections are not opened. An image that fv_volume_tree accepts has one row of depth 0, a
 * volume, and no row of it has a finding, except volumes that were found in it, and the rows in superseded files. Sets
 * *count to the number of rows: at most twice the size. No row is kept in memory, however many there are.
 * Returns FV_OK; or FV_BUFFER_TOO_SMALL if *count > room, and the buffer is full of the first rows then. Returns
 * FV_OUT_OF_MEMORY if memory runs out, and leaves *count unchanged; some of the first rows may be at the start of the
 * buffer then. */
FV_CHECKED_ fv_result fv_image_survey(const void *image, size_t size, fv_survey_row *rows, size_t room, size_t *count,
                                      fv_fault *fault);

/* Opens an image at every level: the packed sections in it, the packed sections in their contents, and so on. Any bytes
 * are accepted. The image is source 0. Each further source is the contents of a packed section of an earlier source:
 * first come the contents of the sections of source 0, in the order of the rows of its survey, then the contents of the
 * sections of source 1, and so on. A packed section is a compression section or a GUID-defined section with a row in the
 * survey of its source. It is not opened if 8 opened sections are around it, if nothing is left of the limit, or if
 * fv_section_open finds a fault in it. If the contents of a section are stored as they are, a packed section that lies
 * in them is opened in the contents, and is not listed for the source around them.
 * `limit` is the most bytes of the contents of all sections together. FV_CONTENTS_MAX is used in place of a larger one,
 * as UINT64_MAX. An opened section counts for at least 65,536 bytes, and a section on which a decoder fails for
 * 16,777,216. The contents of one section have at most FV_LENGTH_MAX bytes.
 * Returns FV_OK, and sets *opened to a handle, which the calls after this one take. Returns FV_OUT_OF_MEMORY if memory
 * runs out, and sets *opened to NULL. (FV_BAD_ARGUMENT leaves *opened as it was.)
 * The image is not copied: until the handle is closed, it stays where it is, and nothing writes to it. The handle owns
 * everything that the next calls lend. */
FV_CHECKED_ fv_result fv_image_open(const void *image, size_t size, uint64_t limit, fv_image **opened, fv_fault *fault);

/* Closes an image: frees the handle, and everything that it has lent. Does nothing if the handle is NULL. */
FV_API_ void fv_image_close(fv_image *image);

/* Returns the number of the sources of an image that is open: at least 1. */
FV_API_ size_t fv_image_source_count(const fv_image *image);

/* Returns the bytes of a source, and sets *size to their number. The bytes of source 0 are the caller's, and all others
 * are lent: they must not be changed, and are there until the image is closed. Returns NULL, and sets *size to 0, if
 * there is no source with this number, or if the source is an image of 0 bytes that was passed as NULL. */
FV_API_ const void *fv_image_source_bytes(const fv_image *image, size_t source, size_t *size);

/* Lends the rows of the survey of a source, and sets *count to their number: for source 0 the rows of fv_image_survey,
 * for any other source the rows of fv_sections_survey. They are there until the image is closed. Returns NULL, and sets
 * *count to 0, if there is no source with this number. */
FV_API_ const fv_survey_row *fv_image_source_rows(const fv_image *image, size_t source, size_t *count);

/* Lends the rows of all packed sections of an image, and sets *count to their number. First come the sections that are
 * opened: the contents of the section of the first row are source 1, the contents of the next are source 2, and so on.
 * Then come the sections that are not opened, in the order of their sources and, in each source, of the rows of its
 * survey. The rows are there until the image is closed. */
FV_API_ const fv_packed *fv_image_packed(const fv_image *image, size_t *count);

/* Compares what two images mean at every level: their parts, in order. Opens both as fv_image_open does, each within the
 * limit. A part is a row of a survey that has a meaning: a header, data, a body of a section, or bytes outside of volumes.
 * Places, pads, checksums and states do not count, nor do deleted files, superseded files and free bytes, nor how a
 * section is packed that is opened. A packed section that is not opened counts with all its bytes. Any bytes are accepted.
 * Returns FV_OK, and sets *found. If the images mean the same, is_same is 1, and neither place is there. If not, the
 * places say where the first parts lie that differ; if only one image has a part there, the other has no place. The source
 * of a place is the source with this number of fv_image_open of the same image with the same limit. Returns
 * FV_OUT_OF_MEMORY if memory runs out, and leaves *found unchanged. */
FV_CHECKED_ fv_result fv_image_same(const void *first, size_t first_size, const void *second, size_t second_size,
                                    uint64_t limit, fv_sameness *found, fv_fault *fault);

/* Checks whether the volume is its own canonical image.
 * Returns FV_OK if the input is a volume, and sets *canonical to 1 if it is its own image, or to 0 if it is not or has
 * no image. Otherwise returns the first fault, 1 to 21, or 24, and leaves *canonical unchanged. */
FV_CHECKED_ fv_result fv_volume_is_canonical(const void *volume, size_t size, uint32_t *canonical, fv_fault *fault);

/* Writes the canonical image of the volume to the first `size` bytes of the buffer. The image is as long as the volume.
 * Returns FV_OK. Otherwise returns the first fault, 1 to 24, or, without a fault, FV_BUFFER_TOO_SMALL if buffer_size <
 * size. */
FV_CHECKED_ fv_result fv_volume_normalise(const void *volume, size_t size, void *buffer, size_t buffer_size,
                                          fv_fault *fault);

/* Writes the volume with none of its files marked as fixed to the first `size` bytes of the buffer. In the header of
 * each fixed file, bit 0x04 of the attributes is cleared, and 4 is added to the header checksum (modulo 256), so all
 * checksums stay right. Files that are marked for update are among these files. All other bytes are the same as in the
 * input, also in pads, in deleted files and in nested volumes. A volume without fixed files is written as it is. The
 * calls that read the files of a volume reject a volume with fixed files (15), so pass them the output of this call, or
 * make the call that has the flag FV_WITHOUT_MARKS.
 * The output is for reading, comparing and archiving, and must not be flashed. Takes no memory. To learn which files
 * were fixed, ask fv_volume_cells for the cells of the result: a file was fixed if bit 0x04 of byte 19 of its header is
 * set in the input.
 * Returns FV_OK. Otherwise returns the first fault of the header or of the cells, or 8 if bytes follow the volume: 1 to
 * 16, but never 15. Without a fault, returns FV_BUFFER_TOO_SMALL if buffer_size < size. */
FV_CHECKED_ fv_result fv_volume_unfix(const void *volume, size_t size, void *buffer, size_t buffer_size,
                                      fv_fault *fault);

/* Computes the SHA-256 digest of the canonical image of the volume.
 * Returns FV_OK. Otherwise returns the first fault, 1 to 24, and leaves *digest unchanged. */
FV_CHECKED_ fv_result fv_volume_digest(const void *volume, size_t size, fv_sha256 *digest, fv_fault *fault);

/* Compares the meanings of two volumes. Sets *found, and writes a text, ended by a NUL, to the start of `text`: `same`,
 * or `different at` with the steps down to the first difference and its kind.
 * Returns FV_OK, or FV_BUFFER_TOO_SMALL if text_size <= found->text_length; FV_DIFFERENCE_SIZE bytes are always enough.
 * Otherwise returns a fault, 1 to 21, or 24: the first fault of the first input or, if that input has no fault, the
 * first fault of the second input. Then *found is unchanged. fault->input is 1 for a fault of the second input. It is 0
 * if memory runs out while the two volumes are compared. */
FV_CHECKED_ fv_result fv_volume_compare(const void *first, size_t first_size, const void *second, size_t second_size,
                                        char *text, size_t text_size, fv_comparison *found, fv_fault *fault);

/* Writes a row for each cell of the body of the volume with which the bytes begin, in order, and their number to
 * *count. Bytes after the volume are not read. Does not check duplicate names, the volume top file or sections.
 * Returns FV_OK, or FV_BUFFER_TOO_SMALL if *count > room. Otherwise returns the first fault of the header or of the
 * cells, 1 to 16, or 24, and leaves *count unchanged. */
FV_CHECKED_ fv_result fv_volume_cells(const void *volume, size_t size, fv_cell *rows, size_t room, size_t *count,
                                      fv_fault *fault);

/* Writes the whole tree of the volume: a row for the volume, its files, their sections and, in the same way, each
 * volume that a section holds. Each row is followed by the rows of the parts that it holds. Row 0 is the volume itself.
 * Pads are not listed, nor is a file that is marked for update if its update is in the volume. Sets *count to the
 * number of rows. The bytes at an offset are as stored in the input, also in a nested volume, whereas fv_volume_extract
 * writes its canonical image. Data are read once. To find the places of the parts, headers are read again, except the
 * headers of the volume's own files.
 * Returns FV_OK, or FV_BUFFER_TOO_SMALL if *count > room. Otherwise returns the first fault, 1 to 21, or 24, and leaves
 * *count unchanged. */
FV_CHECKED_ fv_result fv_volume_tree(const void *volume, size_t size, fv_node *rows, size_t room, size_t *count,
                                     fv_fault *fault);

/* Does what fv_volume_tree does, as `flags` says: 0 or FV_WITHOUT_MARKS. */
FV_CHECKED_ fv_result fv_volume_tree_with(const void *volume, size_t size, uint32_t flags, fv_node *rows, size_t room,
                                          size_t *count, fv_fault *fault);

/* Writes the SHA-256 digests of the parts of the volume, one for each row of fv_volume_tree, in the same order. Each
 * digest covers the bytes that fv_volume_extract writes for its row; so a volume's digest covers its canonical image,
 * as for fv_volume_digest. A section whose content is FV_CONTENT_SECTIONS or FV_CONTENT_VOLUME, and no other row, has
 * 32 zero bytes instead of a digest. Sets *count to the number of digests. The input is read once, and no image is kept
 * in memory.
 * Returns FV_OK, or FV_BUFFER_TOO_SMALL if *count > room. Otherwise returns the first fault, 1 to 24, and leaves *count
 * unchanged. */
FV_CHECKED_ fv_result fv_volume_tree_digests(const void *volume, size_t size, fv_sha256 *rows, size_t room,
                                             size_t *count, fv_fault *fault);

/* Does what fv_volume_tree_digests does, as `flags` says: 0 or FV_WITHOUT_MARKS. */
FV_CHECKED_ fv_result fv_volume_tree_digests_with(const void *volume, size_t size, uint32_t flags, fv_sha256 *rows,
                                                  size_t room, size_t *count, fv_fault *fault);

/* Writes the part of the volume that is row number `row` of fv_volume_tree to the start of the buffer, and the number
 * of its bytes to *length. They are the bytes that the canonical image of the volume has: for a volume its own
 * canonical image, for a file its data, for a section its body. In these bytes, a volume in a file or a section is
 * replaced by its own canonical image, and the bytes between sections are 0. Row 0 is the canonical image of the whole
 * volume. Plain data, and the body of a section that holds bytes, are as they are in the input.
 * Returns FV_OK, or FV_BUFFER_TOO_SMALL if buffer_size < *length. Returns FV_NOT_FOUND if the tree has no row with this
 * number. Otherwise returns the first fault, 1 to 21; or 22 or 23, if the part is a volume, or holds one, that does not
 * fit in its canonical form; or 24. For 22 and 23, fault->depth counts only the groups and opened volumes within the
 * part: it is 0 for the volume that is the part itself, and for the volume that is the whole body of the section.
 * Leaves *length unchanged after a fault and after FV_NOT_FOUND. */
FV_CHECKED_ fv_result fv_volume_extract(const void *volume, size_t size, size_t row, void *buffer, size_t buffer_size,
                                        size_t *length, fv_fault *fault);

/* Does what fv_volume_extract does, as `flags` says: 0 or FV_WITHOUT_MARKS. */
FV_CHECKED_ fv_result fv_volume_extract_with(const void *volume, size_t size, uint32_t flags, size_t row, void *buffer,
                                             size_t buffer_size, size_t *length, fv_fault *fault);

/* Reads what the header of the packed section with which the bytes begin says about its contents. Decodes nothing, and
 * takes no memory. The promised length is UncompressedLength of a compression section; in a GUID-defined section it is
 * the length in the header of LZMA or of Tiano's compression, or the number of bytes from data_offset on if these are
 * the contents. Contents that are decoded may have another length, since some vendors store another UncompressedLength,
 * and a hostile header may promise any number.
 * Returns FV_OK, and sets *way. Otherwise returns the first fault, FV_FAULT_OPEN_SHORT or FV_FAULT_OPEN_WAY, and leaves
 * *way unchanged. */
FV_CHECKED_ fv_result fv_section_way(const void *section, size_t size, fv_way *way, fv_fault *fault);

/* Opens the packed section with which the bytes begin: writes its contents, of at most `limit` bytes, to the start of
 * the buffer, and sets *found to their length and the way that gave them. The contents of most packed sections are a
 * stream of sections, for fv_sections_tree. Decoding stops at the limit, which so bounds the memory and the time that a
 * hostile section takes. No signature is verified.
 * Returns FV_OK, or FV_BUFFER_TOO_SMALL if buffer_size < found->length. Otherwise returns the first fault, 0x401 to
 * 0x405 or 24, and leaves *found unchanged. If the contents have more than `limit` bytes, the fault is
 * FV_FAULT_OPEN_TOO_LONG; but if they are a stream after four other bytes (FV_WAY_CUSTOMIZED), it is the fault of the
 * data from these four bytes on. Memory can run out only if the contents have to be decoded. */
FV_CHECKED_ fv_result fv_section_open(const void *section, size_t size, size_t limit, void *buffer, size_t buffer_size,
                                      fv_contents *found, fv_fault *fault);

/* Surveys a stream of sections, such as the contents of a packed section: accounts for every byte of it. Any bytes are
 * accepted, however damaged. The rows of depth 0 are sections, the filler between them, and lost bytes. All else is as
 * for fv_image_survey. */
FV_CHECKED_ fv_result fv_sections_survey(const void *sections, size_t size, fv_survey_row *rows, size_t room,
                                         size_t *count, fv_fault *fault);

/* Writes the whole tree of a stream of sections, which is what a compressed or GUID-defined section holds when it is
 * opened: sections one after another, each at a multiple of 4 from the first byte. Writes a row for each section of the
 * stream and, in the same way, for what is in groups and volumes among them. Each row is followed by the rows of the
 * parts that it holds. The sections of the stream have depth 0 and the parent FV_NO_PARENT: the stream has no row.
 * Sets *count to the number of rows: 0 if the stream is empty. `flags` is 0 or FV_WITHOUT_MARKS. All else is as for
 * fv_volume_tree.
 * Returns FV_OK, or FV_BUFFER_TOO_SMALL if *count > room. Otherwise returns the first fault, 1 to 21, or 24, and leaves
 * *count unchanged. FV_FAULT_LENGTH comes first if size > FV_LENGTH_MAX. */
FV_CHECKED_ fv_result fv_sections_tree(const void *sections, size_t size, uint32_t flags, fv_node *rows, size_t room,
                                       size_t *count, fv_fault *fault);

/* Writes the SHA-256 digests of the parts of the stream, one for each row of fv_sections_tree, in the same order. Each
 * digest covers the bytes that fv_sections_extract writes for its row. A section whose content is FV_CONTENT_SECTIONS or
 * FV_CONTENT_VOLUME, and no other row, has 32 zero bytes instead of a digest. Sets *count to the number of digests.
 * `flags` is 0 or FV_WITHOUT_MARKS. No image is kept in memory.
 * Returns FV_OK, or FV_BUFFER_TOO_SMALL if *count > room. Otherwise returns the first fault, 1 to 24, and leaves *count
 * unchanged: 22 or 23 if a volume in the stream does not fit in its canonical form. */
FV_CHECKED_ fv_result fv_sections_tree_digests(const void *sections, size_t size, uint32_t flags, fv_sha256 *rows,
                                               size_t room, size_t *count, fv_fault *fault);

/* Writes the part of the stream that is row number `row` of fv_sections_tree to the start of the buffer, and the number
 * of its bytes to *length. The bytes are in canonical form: for a volume its own canonical image, for a file its data as
 * the canonical image of its volume has them, for a section its body. In these bytes, a volume in a file or a section is
 * replaced by its own canonical image, and the bytes between sections are 0. The body of a section that holds bytes is
 * as it is in the input. `flags` is 0 or FV_WITHOUT_MARKS.
 * Returns FV_OK, or FV_BUFFER_TOO_SMALL if buffer_size < *length. Returns FV_NOT_FOUND if the stream has no row with this
 * number. Otherwise returns the first fault, 1 to 21; or 22 or 23, if the part is a volume, or holds one, that does not
 * fit in its canonical form; or 24. For 22 and 23, fault->depth counts only the groups and opened volumes within the
 * part. Leaves *length unchanged after a fault and after FV_NOT_FOUND. */
FV_CHECKED_ fv_result fv_sections_extract(const void *sections, size_t size, uint32_t flags, size_t row, void *buffer,
                                          size_t buffer_size, size_t *length, fv_fault *fault);

/* Reads bytes that may contain variable stores of EDK II (VariableFormat.h), such as the body of a volume whose file
 * system is the variable store. Accounts for every byte: any bytes are accepted, and each byte is in exactly one row.
 * Stores and working blocks are looked for at each byte outside of stores. What cannot be read has a row with its
 * finding. Writes the rows in the order of their offsets, and sets *count to their number: at most the size.
 * Returns FV_OK; or FV_BUFFER_TOO_SMALL if *count > room, and the buffer is full of the first rows then. */
FV_CHECKED_ fv_result fv_variables_read(const void *bytes, size_t size, fv_variable_row *rows, size_t room,
                                        size_t *count, fv_fault *fault);

/* Reads bytes that should be signature lists (UEFI specification, section 32.4.1), such as the data of the variables PK,
 * KEK, db and dbx. Accounts for every byte, and writes rows, as fv_variables_read does.
 * Returns FV_OK; or FV_BUFFER_TOO_SMALL if *count > room, and the buffer is full of the first rows then. */
FV_CHECKED_ fv_result fv_signatures_read(const void *bytes, size_t size, fv_variable_row *rows, size_t room,
                                         size_t *count, fv_fault *fault);

/* Evaluates the dependency expression with which the bytes begin, as if exactly the GUIDs of `installed` were
 * installed, and sets *value to FV_DEPEX_*. `phase` is FV_PHASE_*. The value does not depend on bytes after the END op.
 * Returns FV_OK. Otherwise returns the first fault, 0x201 to 0x205 or 24, and leaves *value unchanged. Memory can run
 * out only if the bytes begin with an op that may be the first. */
FV_CHECKED_ fv_result fv_depex_evaluate(const void *expression, size_t size, uint32_t phase, const fv_guid *installed,
                                        size_t installed_count, uint32_t *value, fv_fault *fault);

/* Writes a row for each block of the hand-off list with which the bytes begin, in order, their number to *count, and
 * the number of bytes of the list to *list_length. Bytes after the list are not read.
 * Returns FV_OK, or FV_BUFFER_TOO_SMALL if *count > room. Otherwise returns the first fault, 0x301 to 0x305 or 24, and
 * leaves *count and *list_length unchanged. Memory can run out only if the bytes begin with a hand-off information
 * table. */
FV_CHECKED_ fv_result fv_hobs_read(const void *list, size_t size, fv_hob *rows, size_t room, size_t *count,
                                   size_t *list_length, fv_fault *fault);

/* Writes a GUID as text to the start of `text`: 36 characters in lower case, as in
 * 8c8ce578-8a3d-4f1c-9935-896185c32dd3, and a NUL.
 * Returns FV_OK, or FV_BUFFER_TOO_SMALL if text_size < FV_GUID_TEXT_SIZE. */
FV_CHECKED_ fv_result fv_guid_text(const fv_guid *guid, char *text, size_t text_size);

/* Reads a GUID from a text such as 8c8ce578-8a3d-4f1c-9935-896185c32dd3, with digits of either case. The text ends
 * before its first NUL, or after text_size bytes, so text_size may be its length or the size of its buffer. No byte
 * after a NUL is read.
 * Returns FV_OK. Returns FV_BAD_GUID if the text has another form, also with braces or spaces, and leaves *guid
 * unchanged. */
FV_CHECKED_ fv_result fv_guid_parse(const char *text, size_t text_size, fv_guid *guid);

#undef FV_ASSERT_
#undef FV_CHECKED_
#undef FV_API_
#undef FV_EXTERN_
#endif
