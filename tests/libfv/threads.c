/* SPDX-License-Identifier: BSD-2-Clause-Patent */
/* threads FILE TURNS: makes every call in several threads at once, over the same inputs, and checks that each thread
 * gets the same results as one thread. FILE is the input of the calls for volumes and images. Also built with
 * -fsanitize=thread. The sanitizer checks this file, and in the library only copies and blocks of memory. */
#include "calls.h"
#include <pthread.h>

enum { THREADS = 4, MOST_FILE = 1 << 20, OWN_ROOM = 1 << 12 };
static uint8_t file[MOST_FILE];
static size_t size;
static int turns;

/* The result of a call, and what it wrote to each of its arguments. */
struct outcome {
    fv_result result;
    uint8_t *written[MOST];
};
static struct outcome usual[CALLS];

static size_t bytes_of(const struct argument *it)
{
    return it->kind == BUFFER ? OWN_ROOM * it->size : it->count * it->size;
}

/* Makes a call with buffers and results of its own. */
static struct outcome outcome_of(const struct call *call)
{
    struct outcome it = {0, {NULL}};
    struct argument all[MOST];
    memcpy(all, call->all, sizeof all);
    for (EACH_ARGUMENT(i, call)) {
        if (all[i].at == volume || all[i].at == other) all[i].at = file, all[i].count = size;
        if (!is_result(all + i)) continue;
        it.written[i] = malloc(bytes_of(all + i));
        EXPECT(it.written[i]);
        memset(it.written[i], FILLED, bytes_of(all + i));
        all[i].at = it.written[i];
        if (all[i].kind == BUFFER) all[i].count = OWN_ROOM;
    }
    it.result = call->make(all);
    return it;
}

/* Compares two outcomes of a call, and frees the first. Returns whether they differ. */
static bool differs(const struct call *call, struct outcome it, const struct outcome *its_usual)
{
    bool is_wrong = it.result != its_usual->result;
    for (EACH_ARGUMENT(i, call)) {
        if (!it.written[i]) continue;
        is_wrong |= memcmp(it.written[i], its_usual->written[i], bytes_of(call->all + i)) != 0;
        free(it.written[i]);
    }
    return is_wrong;
}

static void *work(void *wrong)
{
    for (int i = 0; i < turns; i++)
        for (EACH_CALL(call)) *(long *)wrong += differs(call, outcome_of(call), usual + (call - calls));
    return NULL;
}

int main(int argc, char **argv)
{
    pthread_t threads[THREADS];
    long wrong[THREADS] = {0}, all_wrong = 0;
    FILE *input = argc == 3 ? fopen(argv[1], "rb") : NULL;
    if (!input) return 3;
    size = fread(file, 1, MOST_FILE, input);
    fclose(input);
    turns = atoi(argv[2]);
    for (EACH_CALL(call)) usual[call - calls] = outcome_of(call);
    for (int i = 0; i < THREADS; i++) pthread_create(&threads[i], NULL, work, &wrong[i]);
    for (int i = 0; i < THREADS; i++) {
        pthread_join(threads[i], NULL);
        all_wrong += wrong[i];
    }
    for (EACH_CALL(call)) all_wrong += differs(call, usual[call - calls], usual + (call - calls));
    printf("threads: %d of %d turns each, with %d calls, %ld wrong\n", THREADS, turns, CALLS, all_wrong);
    return all_wrong != 0;
}
