/* Times the record library's read and write (crates/records_c, linked as an archive) beside the plain C ones of
 * job_bench.c on one job, in one run. tools/bench/run builds and runs it. */
#define main job_bench_main
#include "job_bench.c"
#undef main

/* A slice is a pointer and a count; the counts are inputs, targets, old gates and outputs, golden gates and outputs,
 * candidates. */
uint8_t records_read(const uint8_t *job, size_t, uint8_t *old_kinds, size_t, uint8_t *old_counts, size_t,
    uint16_t *old_slots, size_t, uint16_t *old_outputs, size_t, uint8_t *golden_kinds, size_t, uint8_t *golden_counts,
    size_t, uint16_t *golden_slots, size_t, uint16_t *golden_outputs, size_t, uint16_t *nets, size_t, uint16_t *weights,
    size_t, size_t counts[7]);
size_t records_write(const size_t counts[7], const uint8_t *old_kinds, size_t, const uint8_t *old_counts, size_t,
    const uint16_t *old_slots, size_t, const uint16_t *old_outputs, size_t, const uint8_t *golden_kinds, size_t,
    const uint8_t *golden_counts, size_t, const uint16_t *golden_slots, size_t, const uint16_t *golden_outputs, size_t,
    const uint16_t *nets, size_t, const uint16_t *weights, size_t, uint8_t *buf, size_t, uint32_t *number);

static uint8_t data[65536], ours_back[LONGEST], plain_back[LONGEST];
static size_t data_len, ours_len, plain_len, counts[7];
static struct job ours, plain;

static int ours_read(void) {
    struct netlist *o = &ours.old, *g = &ours.golden;
    return records_read(data, data_len, o->kinds, GATES, o->counts, GATES, *o->slots, SLOTS * GATES, o->outs, OUTPUTS,
        g->kinds, GATES, g->counts, GATES, *g->slots, SLOTS * GATES, g->outs, OUTPUTS, ours.nets, CANDIDATES, ours.weights,
        CANDIDATES, counts);
}

static int ours_write(void) {
    struct netlist *o = &ours.old, *g = &ours.golden;
    uint32_t number;
    ours_len = records_write(counts, o->kinds, GATES, o->counts, GATES, *o->slots, SLOTS * GATES, o->outs, OUTPUTS, g->kinds,
        GATES, g->counts, GATES, *g->slots, SLOTS * GATES, g->outs, OUTPUTS, ours.nets, CANDIDATES, ours.weights, CANDIDATES,
        ours_back, LONGEST, &number);
    return (int)number;
}

static int plain_read(void) { return read_job(data, data_len, &plain); }

static int plain_write(void) { return write_job(&plain, plain_back, &plain_len); }

/* Both read the job into the same places and counts, and both wrote its bytes. */
static int agree(void) {
    ours.inputs = counts[0];
    ours.targets = counts[1];
    ours.old.gates = counts[2];
    ours.old.outputs = counts[3];
    ours.golden.gates = counts[4];
    ours.golden.outputs = counts[5];
    ours.candidates = counts[6];
    return memcmp(&ours, &plain, sizeof ours) == 0 && ours_len == data_len && plain_len == data_len
           && memcmp(ours_back, data, data_len) == 0 && memcmp(plain_back, data, data_len) == 0;
}

/* Every place is set to the same, so that a call that leaves one unfilled is seen. */
static void blank(void) {
    memset(&ours, 0xa5, sizeof ours);
    memset(&plain, 0xa5, sizeof plain);
    memset(ours_back, 0, sizeof ours_back);
    memset(plain_back, 0, sizeof plain_back);
    memset(counts, 0xa5, sizeof counts);
    ours_len = plain_len = 0;
}

enum { KINDS = 4, TURNS = 20 };
static int (*const calls[KINDS])(void) = {ours_read, plain_read, ours_write, plain_write};

/* Microseconds of so many calls; -1 where one was refused. The asm statement has the compiler assume that all of it is
 * read and changed between two calls, so that none is left out. */
static double timed(int (*call)(void), long rounds) {
    int refused = 0;
    double start = now();
    for (long i = 0; i < rounds; i++) {
        refused |= call();
        __asm__ volatile("" : : "r"(data), "r"(&plain), "r"(plain_back), "r"(&plain_len) : "memory");
    }
    double took = now() - start;
    return refused ? -1 : took;
}

static void row(const char *name, double ours_us, double plain_us, double ours_best, double plain_best) {
    printf("%-6s %10.2f %10.2f %8.2f %17.2f %10.2f %8.2f\n", name, ours_us, plain_us, ours_us / plain_us, ours_best,
        plain_best, ours_best / plain_best);
}

int main(int argc, char **argv) {
    long rounds = argc > 2 ? atol(argv[2]) : 20000;
    FILE *file = argc > 1 ? fopen(argv[1], "rb") : NULL;
    if (!file || rounds < TURNS) {
        fprintf(stderr, "usage: records_bench JOB [ROUNDS], of %d rounds or more\n", TURNS);
        return 1;
    }
    data_len = fread(data, 1, sizeof data, file);
    fclose(file);
    double sum[KINDS] = {0}, best[KINDS];
    blank();
    /* The calls take turns, so that what else the machine does falls on all four; turn 0 warms up and is not counted. */
    for (int turn = 0; turn <= TURNS; turn++) {
        for (int k = 0; k < KINDS; k++) {
            double us = timed(calls[k], rounds / TURNS);
            if (us < 0) {
                fprintf(stderr, "records_bench: call %d refused the job\n", k);
                return 1;
            }
            if (turn == 0) continue;
            sum[k] += us;
            if (turn == 1 || us < best[k]) best[k] = us;
        }
        if (!agree()) {
            fprintf(stderr, "records_bench: the two do not give the same counts, places or bytes\n");
            return 1;
        }
        if (turn < TURNS) blank();
    }
    long turns = rounds / TURNS;
    for (int k = 0; k < KINDS; k++) {
        sum[k] /= (double)turns * TURNS;
        best[k] /= turns;
    }
    printf("%zu bytes, %ld calls of each in %d turns; microseconds per call\n", data_len, turns * TURNS, TURNS);
    printf("%-6s %10s %10s %8s %17s %10s %8s\n", "", "ours", "plain C", "ratio", "best turn: ours", "plain C", "ratio");
    row("read", sum[0], sum[1], best[0], best[1]);
    row("write", sum[2], sum[3], best[2], best[3]);
    return 0;
}
