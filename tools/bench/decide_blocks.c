/* Judge and choose in one walk over the inputs, as decide was before card 7 (walk_blocks.h, support.h): what the two
 * services together are measured by. All vectors of every block are evaluated, and no gates are merged. */
#include "support.h"
#include "walk_blocks.h"

/* The masks and the readings of a block: every live gate at vector 0, then those that each vector changes. */
INLINE void rows_of_block(const struct job *j, const struct plan *p, uint32_t block, uint64_t *values, uint64_t *masks,
    uint64_t *readings, unsigned W) {
    load_inputs(j->inputs, block, values, W);
    clear_targets(j, values, W);
    run(&p->miter.gates, values, W);
    read_rows(j->nets, j->candidates, values, readings, W);
    find_rows(j, p, 0, values, masks, W);
}

INLINE void walk_by(const struct job *j, const struct plan *p, struct list *l, uint32_t *sets, unsigned W) {
    _Alignas(64) uint64_t values[ALL_NETS * WIDEST], masks[ROWS * WIDEST], readings[ROWS * WIDEST];
    uint32_t blocks = (1u << j->inputs) / (64 * W);
    fill(values + ZERO * W, 0, W);
    for (uint32_t block = 0; block == 0 || block < blocks; block++) {
        rows_of_block(j, p, block, values, masks, readings, W);
        if (!list_vectors(j, l, masks, block, W)) return;
        note(masks, readings, sets, W);
    }
}

/* Few inputs need no wide blocks. */
static void walk_inputs(const struct job *j, const struct plan *p, struct list *l, struct sets *to) {
    uint32_t sets[READINGS];
    memset(sets, 0xff, sizeof *sets << j->candidates);
    if (j->inputs < 7) walk_by(j, p, l, sets, 1);
    else if (j->inputs < 9) walk_by(j, p, l, sets, 4);
    else walk_by(j, p, l, sets, WIDEST);
    take_sets(sets, j->candidates, to);
}

int blocks_decide(const uint8_t *job, size_t job_len, uint8_t judged[LONGEST_JUDGED], size_t *judged_len,
    uint8_t chosen[LONGEST_CHOSEN], size_t *chosen_len) {
    struct job j;
    struct plan p;
    struct list l;
    struct sets s;
    *judged_len = *chosen_len = 0;
    int number = read_job(job, job_len, &j);
    if (number) return number;
    start_list(&l);
    make_plan(&j, UNMERGED, &p);
    walk_inputs(&j, &p, &l, &s);
    *judged_len = put_judged(judged, &l) - judged;
    if (!l.unfixable) *chosen_len = put_choice(chosen, &j, &s) - chosen;
    return 0;
}
