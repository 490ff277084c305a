/* Measures how much stack judge, choose, compare and fit use: each runs in a thread whose stack was painted before, and what
 * is no longer painted was written. An empty call's use is taken off. tools/bench/run builds and runs it.
 *
 *     stack JOB SHEET [JOB SHEET..] */
#include "bench.h"
#include <pthread.h>

enum { SIZE = 8 << 20, PAINT = 0xa5 };

static _Alignas(4096) uint8_t stack[SIZE];
static struct file job, sheet;
static uint8_t reply[LONGEST_FIT];
static uint32_t number, differs, input;

static void *nothing(void *x) { return x; }

static void *judge(void *x) {
    engine_judge(job.bytes, job.len, reply, sizeof reply, &number);
    return x;
}

static void *choose(void *x) {
    engine_choose(job.bytes, job.len, reply, sizeof reply, &number);
    return x;
}

static void *compare(void *x) {
    number = engine_compare(job.bytes, job.len, sheet.bytes, sheet.len, &differs, &input);
    return x;
}

static void *fit(void *x) {
    engine_fit(job.bytes, job.len, sheet.bytes, sheet.len, reply, sizeof reply, &number);
    return x;
}

/* The bytes of the stack that a call wrote to or lie above such a one. */
static size_t used(void *(*call)(void *)) {
    pthread_attr_t attributes;
    pthread_t thread;
    size_t at = 0;
    memset(stack, PAINT, SIZE);
    if (pthread_attr_init(&attributes) || pthread_attr_setstack(&attributes, stack, SIZE)) stop("no stack for", "a thread");
    if (pthread_create(&thread, &attributes, call, NULL) || pthread_join(thread, NULL)) stop("cannot run", "a thread");
    pthread_attr_destroy(&attributes);
    while (at < SIZE && stack[at] == PAINT) at++;
    return SIZE - at;
}

int main(int argc, char **argv) {
    enum { CALLS = 4 };
    static const char *names[] = {"judge", "choose", "compare", "fit"};
    static void *(*const calls[])(void *) = {judge, choose, compare, fit};
    size_t most[CALLS] = {0}, base = used(nothing);
    for (int i = 1; i + 1 < argc; i += 2) {
        read_file(argv[i], &job);
        read_file(argv[i + 1], &sheet);
        for (int k = 0; k < CALLS; k++) {
            size_t bytes = used(calls[k]) - base;
            if (number && !(calls[k] == fit && number == 9)) stop("refused", argv[i]);
            if (bytes > most[k]) most[k] = bytes;
        }
    }
    printf("stack: the most bytes that a call uses\n");
    for (int k = 0; k < CALLS; k++) printf("%-8s %9zu\n", names[k], most[k]);
    return 0;
}
