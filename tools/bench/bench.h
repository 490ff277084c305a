/* What the benchmark's programs share: files, times, and the engine's functions (crates/engine_c, linked as an archive). */
#ifndef BENCH_H
#define BENCH_H
#include "verdict.h"

enum { LONGEST_FIT = 4075 };

/* A slice is a pointer and a count. The length of the reply is returned, 0 on refusal, and the number is left in its place;
 * compare returns the number, and leaves whether the outputs differ and the smallest input at which they do. */
size_t engine_judge(const uint8_t *job, size_t, uint8_t *reply, size_t, uint32_t *number);
size_t engine_choose(const uint8_t *job, size_t, uint8_t *reply, size_t, uint32_t *number);
size_t engine_fit(const uint8_t *job, size_t, const uint8_t *sheet, size_t, uint8_t *reply, size_t, uint32_t *number);
uint8_t engine_compare(const uint8_t *job, size_t, const uint8_t *sheet, size_t, uint32_t *differs, uint32_t *input);

/* ---- files */

struct file {
    uint8_t bytes[65536];
    size_t len;
};

static inline void stop(const char *what, const char *name) {
    fprintf(stderr, "%s: %s\n", what, name);
    exit(1);
}

static inline void read_file(const char *path, struct file *to) {
    FILE *file = fopen(path, "rb");
    if (!file) stop("cannot read", path);
    to->len = fread(to->bytes, 1, sizeof to->bytes, file);
    fclose(file);
}

/* The name of a file without its folder and what follows the dot. */
static inline const char *base_name(const char *path) {
    static char name[64];
    const char *slash = strrchr(path, '/');
    snprintf(name, sizeof name, "%s", slash ? slash + 1 : path);
    if (strrchr(name, '.')) *strrchr(name, '.') = 0;
    return name;
}

/* How many old gates a target leads to. */
static inline size_t fanout_gates(const struct job *j) {
    uint8_t led[NETS] = {0};
    size_t base = j->inputs + j->targets, count = 0;
    for (size_t t = j->inputs; t < base; t++) led[t] = 1;
    for (size_t k = 0; k < j->old.gates; k++) {
        for (int s = 0; s < j->old.counts[k]; s++) led[base + k] |= led[j->old.slots[k][s]];
        count += led[base + k];
    }
    return count;
}

/* ---- times */

/* As many calls as take a few milliseconds, from the time of one. */
static inline long calls_for(double us) { return us > 3000 ? 1 : (long)(3000 / (us + 0.01)); }

/* Microseconds a call. The asm statement has the compiler assume that all is read and changed between two calls. */
static inline double timed(void (*call)(void), long calls) {
    double start = now();
    for (long i = 0; i < calls; i++) {
        call();
        __asm__ volatile("" : : : "memory");
    }
    return (now() - start) / calls;
}

/* Microseconds a call, the best of the turns. */
static inline double best_of(void (*call)(void), int turns) {
    double best = timed(call, 1);
    long calls = calls_for(best);
    for (int turn = 0; turn < turns; turn++) {
        double us = timed(call, calls);
        if (us < best) best = us;
    }
    return best;
}

/* A time with three digits or more and its unit. */
static inline const char *shown(double us) {
    static char texts[8][16];
    static int next;
    char *text = texts[next++ % 8];
    double x = us >= 1e6 ? us / 1e6 : us >= 1e3 ? us / 1e3 : us;
    const char *unit = us >= 1e6 ? "s" : us >= 1e3 ? "ms" : "us";
    snprintf(text, sizeof texts[0], "%.*f %s", x >= 100 ? 0 : x >= 10 ? 1 : 2, x, unit);
    return text;
}

#endif
