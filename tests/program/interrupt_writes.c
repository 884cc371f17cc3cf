/* SPDX-License-Identifier: BSD-2-Clause-Patent */
/* This object is loaded into the program. It interrupts each write to standard output. */
#define _GNU_SOURCE
#include <dlfcn.h>
#include <errno.h>
#include <unistd.h>

ssize_t write(int number, const void *bytes, size_t count)
{
    static ssize_t (*below)(int, const void *, size_t);
    if (number == 1) {
        errno = EINTR;
        return -1;
    }
    if (!below)
        below = (ssize_t (*)(int, const void *, size_t))dlsym(RTLD_NEXT, "write");
    return below(number, bytes, count);
}
