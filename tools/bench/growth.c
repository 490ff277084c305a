/* Times the engine's choose on jobs, and prints for each its name, inputs, targets, gates of both netlists, candidates, then
 * how many gates are evaluated, how many of them in the targets' fanout, and how many outputs are compared, once gates are
 * merged and outputs that are one net are left out; and microseconds of processor time a call, the best turn.
 * tools/bench/growth builds and runs it.
 *
 *     growth TURNS JOB.. */
#include "bench.h"
#include "blocks.h"

static struct file job;
static uint8_t sheet[LONGEST_CHOSEN];
static uint32_t number;

static void ours(void) { engine_choose(job.bytes, job.len, sheet, sizeof sheet, &number); }

int main(int argc, char **argv) {
    int turns = argc > 2 ? atoi(argv[1]) : 0;
    if (turns < 1) stop("usage", "growth TURNS JOB..");
    for (int i = 2; i < argc; i++) {
        struct job j;
        struct miter m;
        struct halves h;
        read_file(argv[i], &job);
        if (read_job(job.bytes, job.len, &j)) stop("not a job", argv[i]);
        double us = best_of(ours, turns);
        if (number) stop("refused", argv[i]);
        make_miter(&j, j.nets, j.candidates, MERGED, &m);
        make_halves(&j, &m, &h);
        printf("%s %zu %zu %zu %zu %zu %zu %zu %.3f\n", base_name(argv[i]), j.inputs, j.targets, j.old.gates + j.golden.gates,
            j.candidates, m.gates.count, h.behind.count, m.outputs, us);
    }
    return 0;
}
