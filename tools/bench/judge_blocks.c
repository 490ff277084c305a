/* Judge by hand-optimised C: 1,024 inputs at a time, gates merged (walk_blocks.h), up to the first unfixable one. As
 * long as vector 0 alone is listed, every live gate is evaluated at it, once. Then two tables of listed vectors are tried on
 * each block, the second only where the first leaves an input: at each reading of the priced nets the first has a vector
 * that fixed the inputs seen so far that give it, the second one that fixed those which the first did not. Where both leave
 * an input, all vectors are evaluated and the tables learn; where they do so too often, they are no longer tried, and the
 * listed vectors are evaluated one after the other, until they fix every input. */
#include "walk_blocks.h"

/* With fewer inputs than these, what the tables spare is less than what they cost. */
enum { LEAST_INPUTS = 14 };

struct guess {
    uint32_t sets[READINGS]; /* for each reading the first set of vectors and, above it, the second */
    uint8_t table[READINGS]; /* the smallest listed vector of the first set, or 0, and 16 times that of the second */
    unsigned trust;
};

/* An input narrows the first set of its reading where that leaves a vector, else the second. */
INLINE uint32_t narrowed(uint32_t both, uint32_t fixing) {
    return both & fixing ? both & (fixing | 0xffff0000) : both & (fixing << VECTORS | 0xffff);
}

/* .. each input of a block, whose masks are given */
INLINE void narrow(const struct job *j, const uint64_t *values, uint64_t *masks, struct guess *g, unsigned W) {
    _Alignas(64) uint64_t readings[ROWS * WIDEST];
    read_rows(j->nets, j->candidates, values, readings, W);
    transpose(masks, W);
    transpose(readings, W);
    for (unsigned i = 0; i < ROWS * W; i++)
        for (unsigned at = 0; at < 64; at += 16) {
            uint32_t *both = &g->sets[readings[i] >> at & (READINGS - 1)];
            *both = narrowed(*both, (uint16_t)(masks[i] >> at));
        }
}

static unsigned smallest_or_0(unsigned set) { return set ? smallest(set) : 0; }

static void make_tables(struct guess *g, const struct list *l, size_t candidates) {
    unsigned listed = 0;
    for (size_t i = 0; i < l->count; i++) listed |= 1u << l->vectors[i];
    for (unsigned r = 0; r < 1u << candidates; r++) {
        uint32_t both = g->sets[r];
        g->table[r] = smallest_or_0(both & listed) + 16 * smallest_or_0(both >> VECTORS & listed);
    }
}

/* Whether one of the tables fixes each input of a block. */
INLINE int try_tables(
    const struct job *j, const struct plan *p, const struct halves *h, const struct guess *g, uint64_t *values, unsigned W) {
    _Alignas(64) uint64_t rows[ROWS * WIDEST], first[WIDEST], second[WIDEST];
    read_rows(j->nets, j->candidates, values, rows, W);
    look_up(g->table, rows, W);
    drive(j, &p->miter, h, rows, values, first, W);
    if (!some(first, W)) return 1;
    drive(j, &p->miter, h, rows + TARGETS * W, values, second, W);
    for (unsigned w = 0; w < W; w++) second[w] &= first[w];
    return !some(second, W);
}

/* The targets from one vector to another. */
INLINE void set_targets(const struct job *j, const struct plan *p, const struct halves *h, unsigned from, unsigned to,
    uint64_t *values, unsigned W) {
    unsigned flipped = from ^ to;
    for (size_t t = 0; t < j->targets; t++) fill(values + (j->inputs + t) * W, to >> t & 1 ? ~(uint64_t)0 : 0, W);
    run(flipped & (flipped - 1) ? &h->behind : &p->led[smallest(flipped)], values, W);
}

/* The vector to try next: the one that differs in the fewest targets. */
static unsigned nearest(unsigned to_try, unsigned v) {
    unsigned found = smallest(to_try);
    for (unsigned u = found; u < VECTORS; u++)
        if (to_try >> u & 1 && __builtin_popcount(u ^ v) < __builtin_popcount(found ^ v)) found = u;
    return found;
}

/* Tries the listed vectors, at the first of which every net has its value: -1 where they fix every input of the block, else
 * the vector that came last. */
INLINE int try_listed(
    const struct job *j, const struct plan *p, const struct halves *h, const struct list *l, uint64_t *values, unsigned W) {
    uint64_t left[WIDEST];
    unsigned to_try = 0, v = 0;
    fill(left, ~(uint64_t)0, W);
    for (size_t i = 1; i < l->count; i++) to_try |= 1u << l->vectors[i];
    for (;;) {
        uint64_t differing[WIDEST];
        find_differing(&p->miter, values, differing, W);
        for (unsigned w = 0; w < W; w++) left[w] &= differing[w];
        if (!some(left, W)) return -1;
        if (!to_try) return v;
        unsigned next = nearest(to_try, v);
        set_targets(j, p, h, v, next, values, W);
        to_try &= ~(1u << next);
        v = next;
    }
}

/* Tries what may do for the block, whose gates before the targets have their values: -1 where it does, else a vector at
 * which every net has its value. */
INLINE int try_block(const struct job *j, const struct plan *p, const struct halves *h, const struct list *l,
    struct guess *g, uint64_t *values, unsigned W) {
    int by_tables = l->count > 1 && g->trust;
    if (by_tables) {
        int spared = try_tables(j, p, h, g, values, W);
        g->trust = next_trust(g->trust, spared);
        if (spared) return -1;
    }
    clear_targets(j, values, W);
    run(&h->behind, values, W);
    return by_tables ? 0 : try_listed(j, p, h, l, values, W);
}

INLINE void list_by(
    const struct job *j, const struct plan *p, const struct halves *h, struct list *l, struct guess *g, unsigned W) {
    _Alignas(64) uint64_t values[ALL_NETS * WIDEST], masks[ROWS * WIDEST];
    uint32_t blocks = (1u << j->inputs) / (64 * W);
    fill(values + ZERO * W, 0, W);
    for (uint32_t block = 0; block == 0 || block < blocks; block++) {
        load_inputs(j->inputs, block, values, W);
        run(&h->before, values, W);
        int v = try_block(j, p, h, l, g, values, W);
        if (v < 0) continue;
        find_rows(j, p, v, values, masks, W);
        if (!list_vectors(j, l, masks, block, W)) return;
        if (g->trust) {
            narrow(j, values, masks, g, W);
            make_tables(g, l, j->candidates);
        }
    }
}

int blocks_judge(const uint8_t *job, size_t job_len, uint8_t *reply, size_t reply_len, size_t *len) {
    struct job j;
    struct plan p;
    struct halves h;
    struct list l;
    struct guess g;
    *len = 0;
    if (reply_len < LONGEST_JUDGED) return 1;
    int number = read_job(job, job_len, &j);
    if (number) return number;
    start_list(&l);
    make_plan(&j, MERGED, &p);
    make_halves(&j, &p.miter, &h);
    memset(g.sets, 0xff, sizeof g.sets);
    g.trust = first_trust(j.inputs, LEAST_INPUTS);
    if (j.inputs < 7) list_by(&j, &p, &h, &l, &g, 1);
    else if (j.inputs < 9) list_by(&j, &p, &h, &l, &g, 4);
    else list_by(&j, &p, &h, &l, &g, WIDEST);
    *len = put_judged(reply, &l) - reply;
    return 0;
}
