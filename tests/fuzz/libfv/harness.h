/* SPDX-License-Identifier: BSD-2-Clause-Patent */
/* The parts that all files of the harness share: the parameters of an input, the limits of calls, the function by which
 * a finding ends the process, the memory of calls, and the checks of their results. */
#ifndef HARNESS_H
#define HARNESS_H

#include <fv.h>
#include <stdbool.h>
#include <stddef.h>
#include <stdint.h>
#include <stdio.h>
#include <stdlib.h>
#include <string.h>

/* An input of the fuzzer consists of PARAMETERS bytes, and the data that the calls are tried on. */
enum {
    MODE, /* the kind of input as which the data are tried, and AT_START */
    PAIR, /* odd: a pair of volumes is divided after the first, and a volume is compared with its image
           * instead of itself; also the number of installed GUIDs */
    UNUSED,
    FILE_CHOICE, /* the extra room of a buffer, and FAULT_OR_NULL */
    ROW_CHOICE,  /* which rows of many are extracted, and whether there is room for an extra row */
    REFUSED,     /* the numbers of the allocations that are refused: three bytes */
    PARAMETERS = 8
};

/* The low bits of MODE. 0 to 2 are AS_VOLUME. */
enum {
    AS_VOLUME,
    AS_IMAGE = 3,
    AS_EXPRESSION,
    AS_HAND_OFF_LIST,
    AS_PAIR,
    AS_IMAGE_AND_VOLUME,
    AS_SECTIONS,
    AS_PACKED,
    MODES
};
/* This bit of MODE places the data and each buffer at the start of a page, and the page before it cannot be touched.
 * Otherwise they end at the end of a page. */
#define AT_START 0x80

/* The most bytes of an input, and of a buffer. */
#define MOST_INPUT (1u << 19)
#define MOST_BUFFER (1u << 20)

/* The value of each byte that a call must not change. */
#define UNTOUCHED 0xC3
#define UNTOUCHED_64 UINT64_C(0xC3C3C3C3C3C3C3C3)

/* The address for the fault of a call, or now and then NULL. */
#define FAULT_OR_NULL(parameters, fault) ((parameters)[FILE_CHOICE] & 2 ? NULL : (fault))

/* Reports a finding and ends the process, if the condition does not hold. libFuzzer then keeps the input. */
#define CHECK(condition, ...)                                                                                          \
    do {                                                                                                               \
        if (!(condition)) finding(__func__, __LINE__, __VA_ARGS__);                                                    \
    } while (0)

_Noreturn void finding(const char *function, int line, const char *text, ...) __attribute__((format(printf, 3, 4)));

/* Tries an input: all calls for its kind of input (main.c). The other functions try the calls for one kind. */
extern unsigned long runs;
int LLVMFuzzerTestOneInput(const uint8_t *data, size_t size);
void try_volume(const uint8_t *bytes, size_t len, const uint8_t *parameters);
void try_image(const uint8_t *bytes, size_t len, const uint8_t *parameters);
void try_survey(const uint8_t *bytes, size_t len, const uint8_t *parameters, const fv_header *headers, size_t volumes);
void try_sections_survey(const uint8_t *bytes, size_t len, const uint8_t *parameters);
void try_levels(const uint8_t *bytes, size_t len, const uint8_t *parameters);
void try_variables(const uint8_t *bytes, size_t len, const uint8_t *parameters);
void try_expression(const uint8_t *bytes, size_t len, const uint8_t *parameters);
void try_hand_off_list(const uint8_t *bytes, size_t len, const uint8_t *parameters);
void try_sections(const uint8_t *bytes, size_t len, const uint8_t *parameters);
void try_packed(const uint8_t *bytes, size_t len, const uint8_t *parameters);
void try_pair(const uint8_t *bytes, size_t len, const uint8_t *parameters);
void try_guid(const uint8_t *bytes, size_t len);

/* Tries the comparison of two inputs. Returns whether they are volumes of one meaning. */
struct input {
    const uint8_t *bytes;
    size_t len;
};
bool try_comparison(struct input a, struct input b, const uint8_t *parameters);

/* Tries whether two images mean the same at every level. They do if they are volumes of one meaning. */
void try_sameness(struct input a, struct input b, bool is_one_meaning, const uint8_t *parameters);

/* Counts these numbers, which a function has seen, as a further result that an input can reach (coverage.c). */
void saw(const char *function, uint32_t a, uint32_t b, uint64_t c);

/* Returns whether all of these bytes have this value. */
bool is_all(const void *bytes, size_t len, uint8_t value);

/* SHA-256 of the harness, which is compared with the library's SHA-256. */
void sha256(const uint8_t *bytes, size_t len, uint8_t *digest);

/* The arguments of calls, between pages that cannot be touched (rooms.c).
 *
 * open_rooms maps the rooms. place_input copies an input to the start or the end of its room, where it cannot be
 * written to, and returns its place. The buffers for this input are placed in the same way. */
void open_rooms(void);
const uint8_t *place_input(const uint8_t *data, size_t len, bool at_start);
/* Does the same with a stream of sections, in a room of its own and at the same side of it. */
const uint8_t *place_stream(const uint8_t *data, size_t len);

/* Returns a buffer of this many bytes. The bytes of the buffer, and the bytes before and after it, are UNTOUCHED. There
 * is only one buffer at a time. */
uint8_t *new_buffer(size_t len, size_t alignment);

/* Returns a buffer of no bytes. Every second time for an input, the buffer is NULL. */
void *no_buffer(void);

/* Reports a finding if a byte in the buffer or beside it was written. */
void check_untouched(const char *call);

/* Reports a finding if a byte before the buffer, or after its first `len` bytes, was written. */
void check_written(size_t len, const char *call);

/* The memory of the library (heap.c): functions in place of the functions of libfv/src/heap.c. Call open_heap first. */
void open_heap(void);

/* Refuses one allocation: the allocation with this number, where the next allocation has the number 0. After a call of
 * refuse_later, its number is this much higher. */
void refuse_allocation(unsigned number);
void refuse_later(int by);

/* Returns whether an allocation was refused since the last call of refuse_allocation. From now on, none is refused. */
bool end_refusal(void);

/* How many allocations were asked for, and how many were refused. */
extern unsigned long allocations, refusals;

/* Reports a finding if the library has kept a block. */
void check_no_block_is_kept(const char *call);

/* The value of a fault before a call. A call that does not write its fault leaves this value. */
extern const fv_fault unset_fault;

/* Returns whether a call with this result has written its counts. */
bool is_counted(fv_result result);
bool is_same_fault(const fv_fault *a, const fv_fault *b);

/* Checks that the result is 0 without a fault, or a number from 1 to `most` that is also in `fault`, with its place in
 * an input of `len` bytes. The result is not out of memory, because no allocation is refused. */
void check_result(const char *call, fv_result result, const fv_fault *fault, fv_result most, size_t len);

/* Checks that the result is the expected result, and that there is no fault. */
void check_plain(const char *call, fv_result result, fv_result wanted, const fv_fault *fault);

/* Ends a refusal that refuse_allocation began, and checks the result. A call has returned `result`, and without a
 * refusal it returns `otherwise`. `fault` may be NULL. */
void check_refusal(const char *call, fv_result result, fv_result otherwise, const fv_fault *fault);

#endif
