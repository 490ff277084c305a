/* The walk over all inputs, 1,024 at a time (blocks.h): what judge_blocks.c, choose_blocks.c and decide_blocks.c have in
 * common. Every live gate is evaluated at vector 0. Then one target is flipped at a time, so that the next vector costs the
 * gates which that target leads to. The masks of the vectors and the readings are transposed, which brings what an input
 * needs into one place. Which readings occur is told by a bit beside the vectors of a reading's set. A test that may spare a
 * block all but one or two vectors is tried as long as it is trusted. */
#ifndef WALK_BLOCKS_H
#define WALK_BLOCKS_H
#include "blocks.h"

/* The targets in the order in which they flip: the first flips with every second vector, the next with every fourth, and so
 * on. Outputs are grouped by the first target in this order that leads to them; group m has those that none leads to. */
struct plan {
    unsigned order[TARGETS];
    struct gates led[TARGETS]; /* for each target the gates that it leads to */
    size_t ends[TARGETS + 2];  /* group g of outputs ends here, and the next starts; group m comes first */
    struct miter miter;
};

/* ---- made once a job */

/* Those that lead to the fewest gates come first. */
static void order_targets(struct plan *p, size_t targets) {
    for (unsigned t = 0; t < targets; t++) {
        unsigned i = t;
        for (; i > 0 && p->led[t].count < p->led[p->order[i - 1]].count; i--) p->order[i] = p->order[i - 1];
        p->order[i] = t;
    }
}

/* The group of an output net. */
static unsigned group_of(const struct plan *p, size_t targets, unsigned net) {
    unsigned g = 0;
    while (g < targets && !(p->miter.led[net] >> p->order[g] & 1)) g++;
    return g;
}

/* Puts the outputs into the order of their groups, the last group first. */
static void group_outputs(struct plan *p, size_t targets) {
    struct miter *m = &p->miter;
    uint16_t old[OUTPUTS], golden[OUTPUTS];
    size_t count = 0;
    for (unsigned g = targets + 1; g-- > 0;) {
        for (size_t i = 0; i < m->outputs; i++)
            if (group_of(p, targets, m->old[i]) == g) {
                old[count] = m->old[i];
                golden[count++] = m->golden[i];
            }
        p->ends[g] = count;
    }
    p->ends[targets + 1] = 0;
    memcpy(m->old, old, sizeof old);
    memcpy(m->golden, golden, sizeof golden);
}

static void make_plan(const struct job *j, int merging, struct plan *p) {
    make_miter(j, j->nets, j->candidates, merging, &p->miter);
    for (unsigned t = 0; t < j->targets; t++) pick_gates(&p->miter, 1u << t, &p->led[t]);
    order_targets(p, j->targets);
    group_outputs(p, j->targets);
}

/* ---- once a block */

/* to: where the outputs of group g differ, or those that from tells of. */
INLINE void differ(
    const struct plan *p, unsigned g, const uint64_t *values, const uint64_t *from, uint64_t *to, unsigned W) {
    uint64_t sum[WIDEST];
    for (unsigned w = 0; w < W; w++) sum[w] = from[w];
    for (size_t i = p->ends[g + 1]; i < p->ends[g]; i++) {
        const uint64_t *a = values + p->miter.old[i] * W, *b = values + p->miter.golden[i] * W;
        for (unsigned w = 0; w < W; w++) sum[w] |= a[w] ^ b[w];
    }
    for (unsigned w = 0; w < W; w++) to[w] = sum[w];
}

/* Row v of masks: the inputs that vector v fixes, from one on at which every net has its value. When target g of the order
 * flips, only the groups up to g change. */
INLINE void find_masks(
    const struct job *j, const struct plan *p, unsigned v, uint64_t *values, uint64_t *masks, unsigned W) {
    uint64_t differing[TARGETS + 2][WIDEST] = {{0}}; /* for each group: where it or a later one differs */
    unsigned top = j->targets;
    for (unsigned step = 1;; step++) {
        for (unsigned g = top + 1; g-- > 0;) differ(p, g, values, differing[g + 1], differing[g], W);
        for (unsigned w = 0; w < W; w++) masks[v * W + w] = ~differing[0][w];
        if (step == 1u << j->targets) return;
        top = smallest(step);
        unsigned t = p->order[top];
        v ^= 1u << t;
        fill(values + (j->inputs + t) * W, v >> t & 1 ? ~(uint64_t)0 : 0, W);
        run(&p->led[t], values, W);
    }
}

/* The same, and zero in the rows behind. */
INLINE void find_rows(const struct job *j, const struct plan *p, unsigned v, uint64_t *values, uint64_t *masks, unsigned W) {
    memset(masks + (W << j->targets), 0, 8 * W * (ROWS - (1u << j->targets)));
    find_masks(j, p, v, values, masks, W);
}

INLINE void clear_targets(const struct job *j, uint64_t *values, unsigned W) {
    for (size_t t = 0; t < j->targets; t++) fill(values + (j->inputs + t) * W, 0, W);
}

/* Takes the block's inputs that no listed vector fixes, smallest first; 0 where one of them is unfixable. */
INLINE int list_vectors(const struct job *j, struct list *l, const uint64_t *masks, uint32_t block, unsigned W) {
    uint64_t left[WIDEST];
    fill(left, ~(uint64_t)0, W);
    for (size_t i = 0; i < l->count; i++)
        for (unsigned k = 0; k < W; k++) left[k] &= ~masks[l->vectors[i] * W + k];
    for (unsigned k = 0; k < W; k++)
        while (left[k]) {
            unsigned bit = __builtin_ctzll(left[k]), v = 0;
            while (v < 1u << j->targets && !(masks[v * W + k] >> bit & 1)) v++;
            if (v == 1u << j->targets) {
                l->unfixable = 1;
                l->input = 64 * (block * W + k) + bit;
                return 0;
            }
            l->vectors[l->count++] = v;
            for (unsigned i = k; i < W; i++) left[i] &= ~masks[v * W + i];
        }
    return 1;
}

/* Each input narrows the set of its reading, of which the bits above the vectors' go with the first one that gives it; the
 * reading and the vectors stand in the same sixteen bits of two words. */
INLINE void note(uint64_t *masks, uint64_t *readings, uint32_t *sets, unsigned W) {
    transpose(masks, W);
    transpose(readings, W);
    for (unsigned i = 0; i < ROWS * W; i++)
        for (unsigned at = 0; at < 64; at += 16) {
            uint32_t *set = &sets[readings[i] >> at & (READINGS - 1)], fixing = (uint16_t)(masks[i] >> at);
            if (*set & ~fixing) *set &= fixing;
        }
}

/* What the sets of the readings say. */
static inline void take_sets(const uint32_t *sets, size_t candidates, struct sets *to) {
    for (unsigned r = 0; r < 1u << candidates; r++) {
        to->given[r] = !(sets[r] >> VECTORS);
        to->shared[r] = sets[r];
    }
}

/* ---- trust: how often a test that may spare a block may still fail */

enum { MOST_TRUST = 64 };

/* At first on one block of sixteen, with fewer inputs than least on none. */
static inline unsigned first_trust(size_t inputs, size_t least) { return inputs < least ? 0 : (1u << inputs) / 16384; }

/* After a try, before which there was some. */
static inline unsigned next_trust(unsigned trust, int spared) {
    if (!spared) return trust - 1;
    return trust < MOST_TRUST ? trust + 1 : MOST_TRUST;
}

#endif
