/* SPDX-License-Identifier: BSD-2-Clause-Patent */
/* The library is not instrumented, because its code is the code that users link. So a trap instruction is written over
 * the first byte of each of its instructions. When a trap is reached, the handler puts the old byte back and counts the
 * instruction for libFuzzer. Each instruction costs one signal in the life of the process, and nothing after that. */
#define _GNU_SOURCE
#include "harness.h"
#include <limits.h>
#include <signal.h>
#include <sys/mman.h>
#include <ucontext.h>
#include <unistd.h>

#define COUNTERS (1u << 17)
#define SEEN_COUNTERS 8192u
#define TRAP 0xCC

/* libFuzzer reads this section after each run: the instruction of a counter that is not 0 has been reached. */
__attribute__((section("__libfuzzer_extra_counters"))) static uint8_t counters[COUNTERS + SEEN_COUNTERS];

/* The library's code: the section that `build` puts all of it into, as it is, and as it was. */
extern uint8_t __start_library_code[], __stop_library_code[];
static uint8_t *code;
static uint32_t hit, watched;

int LLVMFuzzerInitialize(int *argc, char ***argv);

static size_t code_size(void)
{
    return (size_t)(__stop_library_code - __start_library_code);
}

static void on_trap(int number, siginfo_t *info, void *context)
{
    (void)number, (void)info;
    greg_t *place = &((ucontext_t *)context)->uc_mcontext.gregs[REG_RIP];
    size_t offset = (size_t)-- * place - (size_t)__start_library_code;
    if (offset >= code_size() || code[offset] == TRAP) {
        static const char text[] = "finding: the library has come to a trap of its own\n";
        (void)!write(STDERR_FILENO, text, sizeof text - 1);
        abort();
    }
    __start_library_code[offset] = code[offset];
    counters[offset % COUNTERS] = 1;
    hit++;
}

static void give_up(const char *path)
{
    perror(path);
    _exit(2);
}

/* Puts a trap at each address that the file lists, of which the first is the start of the code. */
static void watch(const char *path)
{
    size_t page = (size_t)sysconf(_SC_PAGESIZE), before = (size_t)__start_library_code % page, first = 0, at;
    struct sigaction action = {.sa_sigaction = on_trap, .sa_flags = SA_SIGINFO | SA_NODEFER};
    FILE *file = fopen(path, "r");
    code = malloc(code_size());
    if (!file || !code || sigaction(SIGTRAP, &action, NULL)) give_up(path);
    memcpy(code, __start_library_code, code_size());
    if (mprotect(__start_library_code - before, before + code_size(), PROT_READ | PROT_WRITE | PROT_EXEC))
        give_up("mprotect");
    for (; fscanf(file, "%zx", &at) == 1 && at - (first = watched ? first : at) < code_size(); watched++)
        __start_library_code[at - first] = TRAP;
    if (!watched || !feof(file)) give_up(path);
    fclose(file);
}

static void report(void)
{
    fprintf(stderr, "%lu runs, %u instructions of %u\n", runs, hit, watched);
}

/* The list of instructions is beside the program. Its name is the program's name with `.code` after it. */
int LLVMFuzzerInitialize(int *argc, char ***argv)
{
    (void)argc, (void)argv;
    char path[PATH_MAX + 6];
    ssize_t len = readlink("/proc/self/exe", path, PATH_MAX);
    if (len < 0) abort();
    memcpy(path + len, ".code", 6);
    open_rooms();
    open_heap();
    watch(path);
    atexit(report);
    return 0;
}

void saw(const char *function, uint32_t a, uint32_t b, uint64_t c)
{
    uint64_t hash = UINT64_C(0xcbf29ce484222325), numbers[] = {a, b, c};
    for (; *function; function++) hash = (hash ^ (uint8_t)*function) * UINT64_C(0x100000001b3);
    for (int i = 0; i < 3; i++) {
        hash = (hash ^ numbers[i]) * UINT64_C(0x9e3779b97f4a7c15);
        hash ^= hash >> 29;
    }
    counters[COUNTERS + hash % SEEN_COUNTERS] = 1;
}
