/* Choose by hand-optimised C: 1,024 inputs at a time, all of them, gates merged (walk_blocks.h); then the support
 * (support.h). All vectors of a block are evaluated, unless a table shows at the cost of one that the block changes nothing:
 * at each reading of the priced nets it has the only vector left in the reading's set. Where the table fails too often, it
 * is no longer tried. */
#include "support.h"
#include "walk_blocks.h"

/* What the table has instead of a vector: bits above those of the vectors, so that each has a row of its own. With fewer
 * inputs than these, what the table spares is less than what it costs. */
enum { EMPTY = 16, UNSURE = 32, EMPTY_ROW = 4, UNSURE_ROW = 5, LEAST_INPUTS = 17 };

struct guess {
    uint32_t sets[READINGS]; /* for each reading the vectors that fix all inputs giving it, see note */
    uint8_t table[READINGS]; /* what sole says of each set */
    unsigned trust;
};

/* The only vector of a set; EMPTY where it has none, UNSURE where it has several, or no input gave its reading. */
static unsigned sole(uint32_t set) {
    if (!set) return EMPTY;
    return set & (set - 1) ? UNSURE : smallest(set);
}

static void make_table(struct guess *g, size_t candidates) {
    for (unsigned r = 0; r < 1u << candidates; r++) g->table[r] = sole(g->sets[r]);
}

/* Whether the table shows that a block changes no set: none of its readings is unsure, and each one's vector, where there is
 * one, fixes the inputs that give it. */
INLINE int changes_nothing(
    const struct job *j, const struct plan *p, const struct halves *h, const struct guess *g, uint64_t *values, unsigned W) {
    _Alignas(64) uint64_t rows[ROWS * WIDEST], differing[WIDEST];
    read_rows(j->nets, j->candidates, values, rows, W);
    look_up(g->table, rows, W);
    if (some(rows + UNSURE_ROW * W, W)) return 0;
    drive(j, &p->miter, h, rows, values, differing, W);
    for (unsigned w = 0; w < W; w++) differing[w] &= ~rows[EMPTY_ROW * W + w];
    return !some(differing, W);
}

/* Evaluates all vectors of a block, from one on whose gates before the targets have their values. */
INLINE void note_block(
    const struct job *j, const struct plan *p, const struct halves *h, struct guess *g, uint64_t *values, unsigned W) {
    _Alignas(64) uint64_t masks[ROWS * WIDEST], readings[ROWS * WIDEST];
    clear_targets(j, values, W);
    run(&h->behind, values, W);
    read_rows(j->nets, j->candidates, values, readings, W);
    find_rows(j, p, 0, values, masks, W);
    note(masks, readings, g->sets, W);
}

INLINE void walk_by(const struct job *j, const struct plan *p, const struct halves *h, struct guess *g, unsigned W) {
    _Alignas(64) uint64_t values[ALL_NETS * WIDEST];
    uint32_t blocks = (1u << j->inputs) / (64 * W);
    fill(values + ZERO * W, 0, W);
    for (uint32_t block = 0; block == 0 || block < blocks; block++) {
        load_inputs(j->inputs, block, values, W);
        run(&h->before, values, W);
        if (block && g->trust) {
            int spared = changes_nothing(j, p, h, g, values, W);
            g->trust = next_trust(g->trust, spared);
            if (spared) continue;
        }
        note_block(j, p, h, g, values, W);
        if (g->trust) make_table(g, j->candidates);
    }
}

/* Few inputs need no wide blocks. */
static void find_sets(const struct job *j, const struct plan *p, struct sets *to) {
    struct halves h;
    struct guess g;
    make_halves(j, &p->miter, &h);
    memset(g.sets, 0xff, sizeof *g.sets << j->candidates);
    g.trust = first_trust(j->inputs, LEAST_INPUTS);
    if (j->inputs < 7) walk_by(j, p, &h, &g, 1);
    else if (j->inputs < 9) walk_by(j, p, &h, &g, 4);
    else walk_by(j, p, &h, &g, WIDEST);
    take_sets(g.sets, j->candidates, to);
}

int blocks_choose(const uint8_t *job, size_t job_len, uint8_t *reply, size_t reply_len, size_t *len) {
    struct job j;
    struct plan p;
    struct sets s;
    *len = 0;
    if (reply_len < LONGEST_CHOSEN) return 1;
    int number = read_job(job, job_len, &j);
    if (number) return number;
    make_plan(&j, MERGED, &p);
    find_sets(&j, &p, &s);
    *len = put_choice(reply, &j, &s) - reply;
    return 0;
}
