/* The support that wins, its table and its notes: what choose_blocks.c and decide_blocks.c have in common. Supports are
 * tried by leaving out one priced net after the other, and the gates of their trees are counted where two cost the same. */
#ifndef SUPPORT_H
#define SUPPORT_H
#include "verdict.h"

/* ---- gates of trees: a column over k nets has 2^k bits, in one word or, for more than six nets, in several */

enum { WORD_NETS = 6 };

static inline uint64_t ones(unsigned k) { return ~(uint64_t)0 >> (64 - (1u << k)); }

static inline int word_constant(uint64_t column, unsigned k) { return column == 0 ? 0 : column == ones(k) ? 1 : MIXED; }

/* Of a column in one word that is not constant. */
static inline unsigned word_gates(uint64_t column, unsigned k) {
    unsigned half = k - 1;
    uint64_t low = column & ones(half), high = column >> (1u << half);
    if (low == high) return word_gates(low, half);
    int low_constant = word_constant(low, half), high_constant = word_constant(high, half);
    unsigned gates = split_gates(low_constant, high_constant);
    if (low_constant == MIXED) gates += word_gates(low, half);
    if (high_constant == MIXED) gates += word_gates(high, half);
    return gates;
}

static inline int words_constant(const uint64_t *column, unsigned k) {
    if (k <= WORD_NETS) return word_constant(*column, k);
    for (unsigned i = 1; i < 1u << (k - WORD_NETS); i++)
        if (column[i] != column[0]) return MIXED;
    return word_constant(column[0], WORD_NETS);
}

/* Of any column that is not constant. */
static inline unsigned words_gates(const uint64_t *column, unsigned k) {
    if (k <= WORD_NETS) return word_gates(*column, k);
    unsigned half = k - 1, words = 1u << (half - WORD_NETS);
    const uint64_t *low = column, *high = column + words;
    if (!memcmp(low, high, 8 * words)) return words_gates(low, half);
    int low_constant = words_constant(low, half), high_constant = words_constant(high, half);
    unsigned gates = split_gates(low_constant, high_constant);
    if (low_constant == MIXED) gates += words_gates(low, half);
    if (high_constant == MIXED) gates += words_gates(high, half);
    return gates;
}

/* Of the trees of a table over k nets, whose entries are the smallest vectors of these sets, summed over all targets. */
static inline int gates_of_sets(const struct job *j, const uint16_t *shared, unsigned k) {
    uint64_t columns[4][READINGS / 64] = {{0}};
    unsigned gates = 0;
    for (unsigned r = 0; r < 1u << k; r++) {
        uint64_t entry = smallest(shared[r]);
        for (unsigned t = 0; t < 4; t++) columns[t][r / 64] |= (entry >> t & 1) << r % 64;
    }
    for (unsigned t = 0; t < j->targets; t++)
        gates += words_constant(columns[t], k) == MIXED ? words_gates(columns[t], k) : 1;
    return gates;
}

/* ---- the support */

struct choice {
    unsigned set;
    uint32_t cost;
    int gates;                 /* -1 as long as they are not counted */
    uint16_t shared[READINGS]; /* for each reading of the set the vectors that fix all inputs giving it */
};

/* Leaves out the i-th net of a set; 0 where a reading's inputs then share no vector. */
static inline int leave_out(const uint16_t *shared, unsigned size, unsigned i, uint16_t *left) {
    unsigned half = 1u << i;
    int stuck = 0;
    for (unsigned at = 0; at < size; at += 2 * half)
        for (unsigned r = 0; r < half; r++) {
            uint16_t both = shared[at + r] & shared[at + half + r];
            stuck |= !both;
            left[at / 2 + r] = both;
        }
    return !stuck;
}

/* Keeps this sound set, which costs no more than the best, if it wins: lower cost, then fewer gates, then fewer nets, then
 * the smaller net. */
static inline void keep_better(
    const struct job *j, struct choice *best, unsigned set, uint32_t cost, const uint16_t *shared) {
    unsigned count = __builtin_popcount(set);
    int gates = -1;
    if (set == best->set) return;
    if (cost == best->cost) {
        if (best->gates < 0) best->gates = gates_of_sets(j, best->shared, __builtin_popcount(best->set));
        gates = gates_of_sets(j, shared, count);
        if (gates > best->gates || (gates == best->gates && !fewer_nets(set, best->set))) return;
    }
    best->set = set;
    best->cost = cost;
    best->gates = gates;
    memcpy(best->shared, shared, sizeof(uint16_t) << count);
}

/* Tries the sound sets that leave out some of the nets below the i-th of this sound set, or none, and keeps the best; kept
 * is the cost of the nets from the i-th on. Where a set is not sound, no part of it is. */
static inline void choose(
    const struct job *j, struct choice *best, unsigned set, uint32_t kept, const uint16_t *shared, unsigned i) {
    uint16_t left[READINGS / 2];
    if (kept > best->cost) return;
    if (i == 0) {
        keep_better(j, best, set, kept, shared);
        return;
    }
    if (leave_out(shared, 1u << __builtin_popcount(set), i - 1, left))
        choose(j, best, set & ~(1u << (i - 1)), kept, left, i - 1);
    choose(j, best, set, kept + j->weights[i - 1], shared, i - 1);
}

/* ---- the sheet */

/* The readings of a set that no input gives: all ones, the others zero. */
static inline void find_unseen(const struct job *j, const struct sets *s, unsigned set, uint16_t *unseen) {
    unsigned size = 1u << j->candidates;
    for (unsigned r = 0; r < size; r++) unseen[r] = s->given[r] ? 0 : 0xffff;
    for (unsigned i = j->candidates; i-- > 0;)
        if (!(set >> i & 1)) {
            leave_out(unseen, size, i, unseen);
            size /= 2;
        }
}

/* Choose's sheet from what a walk over all inputs found; its end. */
static inline uint8_t *put_choice(uint8_t *p, const struct job *j, const struct sets *s) {
    int stuck = stuck_reading(s, j->candidates);
    if (stuck >= 0) return put_blind(p, stuck);
    unsigned all = (1u << j->candidates) - 1;
    struct choice best = {all, cost_of(j, all), -1, {0}};
    struct rows rows;
    uint16_t unseen[READINGS];
    memcpy(best.shared, s->shared, sizeof(uint16_t) << j->candidates);
    choose(j, &best, all, 0, s->shared, j->candidates);
    find_unseen(j, s, best.set, unseen);
    for (unsigned r = 0; r < 1u << __builtin_popcount(best.set); r++) {
        rows.table[r] = smallest(best.shared[r]);
        rows.notes[r] = unseen[r] ? 0 : note_of(best.shared[r]);
    }
    return put_patch(p, j, best.set, &rows);
}

#endif
