/* SPDX-License-Identifier: BSD-2-Clause-Patent */
#define _DEFAULT_SOURCE
#include "mutate.h"

uint32_t chance(void)
{
    return (uint32_t)random();
}

uint32_t below(uint32_t n)
{
    return chance() % n;
}

bool one_in(uint32_t n)
{
    return below(n) == 0;
}

uint8_t one_of(const uint8_t *choices, size_t count)
{
    return choices[below((uint32_t)count)];
}

size_t open_gap(uint8_t *bytes, size_t len, size_t most, size_t at, size_t count)
{
    if (len + count > most || at > len) return len;
    memmove(bytes + at + count, bytes + at, len - at);
    return len + count;
}
