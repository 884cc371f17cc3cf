/* SPDX-License-Identifier: BSD-2-Clause-Patent */
/* The parts that the files of the mutator share: random choices, and changes of a volume. */
#ifndef MUTATE_H
#define MUTATE_H

#include "format.h"
#include "harness.h"

/* libFuzzer's own mutator. */
size_t LLVMFuzzerMutate(uint8_t *data, size_t size, size_t most);

uint32_t chance(void);      /* 31 bits */
uint32_t below(uint32_t n); /* from 0 */
bool one_in(uint32_t n);
uint8_t one_of(const uint8_t *choices, size_t count);
#define ONE_OF(...) one_of((const uint8_t[]){__VA_ARGS__}, sizeof((const uint8_t[]){__VA_ARGS__}))

/* Makes room for `count` bytes at an offset. Returns the new number of bytes, or the old number if the new number is
 * above `most`. */
size_t open_gap(uint8_t *bytes, size_t len, size_t most, size_t at, size_t count);

/* Computes the checksums and corrects the lengths of a volume and of the volumes in it. Now and then it leaves a
 * checksum or a length wrong. */
void repair_volume(uint8_t *volume, size_t len, int depth);

/* Changes one thing in a volume. Returns its new number of bytes. */
size_t change_volume(uint8_t *volume, size_t len, size_t most);

/* Changes one thing in a volume, or in a volume inside it. The number of bytes stays the same. */
void change_inside(uint8_t *volume, size_t len);

/* Returns a random place in some bytes that looks like a volume. Its length is 0 if there is no volume. Volumes in a
 * volume count only if `is_nested` is set. */
struct place {
    size_t at, len;
};
struct place any_volume(const uint8_t *bytes, size_t len, bool is_nested);

#endif
