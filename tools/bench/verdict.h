/* Judge and choose in C, as document 01 ("Verdicts") and cards 1, 5 and 7 of document 02 word them: what the C programs have
 * in common. They differ in how they walk the inputs; what the walk finds is judged here, and written as a sheet. */
#ifndef VERDICT_H
#define VERDICT_H
#include "job.h"

enum { INPUTS = 20, VECTORS = 16, READINGS = 1024, LONGEST_JUDGED = 26, LONGEST_CHOSEN = 2084 };

/* The number that a service gives; an accepted job's sheet is written at the reply's start, and its length into len. */
typedef int service(const uint8_t *job, size_t job_len, uint8_t *reply, size_t reply_len, size_t *len);

service plain_judge, plain_choose, words_judge, words_choose, blocks_judge, blocks_choose;

/* Both in one walk, as decide was before card 7: judge's sheet into judged and, where every input is fixable, choose's into
 * chosen, whose length is 0 otherwise. */
int blocks_decide(const uint8_t *job, size_t job_len, uint8_t judged[LONGEST_JUDGED], size_t *judged_len,
    uint8_t chosen[LONGEST_CHOSEN], size_t *chosen_len);

/* The number that compare gives; whether the outputs of an accepted job and sheet differ, and the smallest input at which
 * they do. */
int blocks_compare(
    const uint8_t *job, size_t job_len, const uint8_t *sheet, size_t sheet_len, uint32_t *differs, uint32_t *input);

/* What judge's walk finds. */
struct list {
    uint8_t vectors[VECTORS];
    size_t count;
    int unfixable; /* whether the walk stopped at an unfixable input, and which */
    uint32_t input;
};

/* What choose's walk finds. A set of vectors has bit v for vector v. */
struct sets {
    uint8_t given[READINGS];   /* whether some input gives this reading of all priced nets */
    uint16_t shared[READINGS]; /* the vectors that fix every input that gives it */
};

static inline void start_list(struct list *l) {
    memset(l, 0, sizeof *l);
    l->count = 1;
}

static inline void start_sets(struct sets *s) {
    memset(s->given, 0, sizeof s->given);
    memset(s->shared, 0xff, sizeof s->shared);
}

/* The smallest vector of a set. */
static inline unsigned smallest(unsigned set) { return __builtin_ctz(set); }

static inline void give(struct sets *s, unsigned reading, unsigned fixing) {
    s->given[reading] = 1;
    s->shared[reading] &= fixing;
}

/* The smallest reading of all priced nets whose inputs share no vector, else -1. */
static inline int stuck_reading(const struct sets *s, size_t candidates) {
    for (unsigned r = 0; r < 1u << candidates; r++)
        if (s->given[r] && !s->shared[r]) return r;
    return -1;
}

/* ---- supports: a set of priced nets has bit i for the i-th */

static inline uint32_t cost_of(const struct job *j, unsigned set) {
    uint32_t sum = 0;
    for (size_t i = 0; i < j->candidates; i++)
        if (set >> i & 1) sum += j->weights[i];
    return sum;
}

/* The reading of a set within a reading of all priced nets. */
static inline unsigned part(unsigned reading, unsigned set) {
    unsigned own = 0;
    for (unsigned place = 0; set; set &= set - 1, place++) own |= (reading >> smallest(set) & 1) << place;
    return own;
}

/* Whether a set has fewer nets than another one, or as many and the smaller net at the first place where they differ. */
static inline int fewer_nets(unsigned a, unsigned b) {
    int count_a = __builtin_popcount(a), count_b = __builtin_popcount(b);
    if (count_a != count_b) return count_a < count_b;
    return a != b && (a >> smallest(a ^ b) & 1);
}

/* The rows of a support, one a reading: entries and notes. */
struct rows {
    uint8_t table[READINGS], notes[READINGS];
};

/* The note of a reading that occurs, from the vectors that fix all inputs giving it. */
static inline unsigned note_of(unsigned set) { return set & (set - 1) ? 2 : 1; }

/* Whether a set is a sound support; its rows if so. */
static inline int rows_of(const struct sets *s, size_t candidates, unsigned set, struct rows *rows) {
    uint16_t left[READINGS];
    memset(left, 0xff, sizeof left);
    memset(rows, 0, sizeof *rows);
    for (unsigned r = 0; r < 1u << candidates; r++) {
        if (!s->given[r]) continue;
        unsigned own = part(r, set);
        left[own] &= s->shared[r];
        if (!left[own]) return 0;
        rows->table[own] = smallest(left[own]);
        rows->notes[own] = note_of(left[own]);
    }
    return 1;
}

/* ---- the gates of a table's trees, by card 2 of document 02 */

/* What a column or half is: the constant 0 or 1, or mixed. */
enum { MIXED = -1 };

/* How many gates a split into halves that differ needs besides the trees of the mixed ones. */
static inline unsigned split_gates(int low, int high) {
    if (low == MIXED && high == MIXED) return 4; /* not, and, and, or */
    if (low == MIXED) return high ? 1 : 2;       /* or; not, and */
    if (high == MIXED) return low ? 2 : 1;       /* not, or; and */
    return 1;                                    /* buf or not */
}

/* Constant where every bit is the next one. */
static inline int constant(const uint8_t *column, unsigned size) {
    return memcmp(column, column + 1, size - 1) ? MIXED : column[0];
}

static inline unsigned tree_gates(const uint8_t *column, unsigned size) {
    if (constant(column, size) != MIXED) return 1;
    const uint8_t *low = column, *high = column + size / 2;
    if (!memcmp(low, high, size / 2)) return tree_gates(low, size / 2);
    int low_constant = constant(low, size / 2), high_constant = constant(high, size / 2);
    unsigned gates = split_gates(low_constant, high_constant);
    if (low_constant == MIXED) gates += tree_gates(low, size / 2);
    if (high_constant == MIXED) gates += tree_gates(high, size / 2);
    return gates;
}

/* Summed over all targets. */
static inline unsigned patch_gates(const struct job *j, const uint8_t *table, unsigned size) {
    uint8_t column[READINGS];
    unsigned gates = 0;
    for (size_t t = 0; t < j->targets; t++) {
        for (unsigned r = 0; r < size; r++) column[r] = table[r] >> t & 1;
        gates += tree_gates(column, size);
    }
    return gates;
}

/* ---- sheets: each function gives the end */

static inline uint8_t *put_bytes(uint8_t *p, int tag, const uint8_t *bytes, size_t len) {
    p = put_head(p, tag, len);
    memcpy(p, bytes, len);
    return p + len;
}

static inline uint8_t *put_four(uint8_t *p, int tag, uint32_t x) {
    p = put_head(p, tag, 4);
    return put_word(put_word(p, x >> 16), x & 0xffff);
}

static inline uint8_t *put_judged(uint8_t *p, const struct list *l) {
    if (l->unfixable) p = put_four(p, 20, l->input);
    return put_bytes(p, 19, l->vectors, l->count);
}

static inline uint8_t *put_blind(uint8_t *p, unsigned reading) { return put_word(put_head(p, 21, 2), reading); }

static inline uint8_t *put_patch(uint8_t *p, const struct job *j, unsigned set, const struct rows *rows) {
    unsigned count = __builtin_popcount(set);
    p = put_head(p, 16, 2 * count);
    for (size_t i = 0; i < j->candidates; i++)
        if (set >> i & 1) p = put_word(p, j->nets[i]);
    p = put_bytes(p, 17, rows->table, 1u << count);
    p = put_four(p, 18, cost_of(j, set));
    return put_bytes(p, 22, rows->notes, 1u << count);
}

/* A sound support. */
struct support {
    unsigned set;
    uint32_t cost;
    int gates; /* -1 as long as they are not counted */
    struct rows rows;
};

static inline int gates_of(const struct job *j, struct support *s) {
    if (s->gates < 0) s->gates = patch_gates(j, s->rows.table, 1u << __builtin_popcount(s->set));
    return s->gates;
}

/* Lower cost, then fewer gates, then fewer nets, then the smaller net. */
static inline int before(const struct job *j, struct support *a, struct support *b) {
    if (a->cost != b->cost) return a->cost < b->cost;
    if (gates_of(j, a) != gates_of(j, b)) return a->gates < b->gates;
    return fewer_nets(a->set, b->set);
}

/* Every set of priced nets is tried that costs no more than the best. */
static inline uint8_t *put_chosen(uint8_t *p, const struct job *j, const struct sets *s) {
    int stuck = stuck_reading(s, j->candidates);
    if (stuck >= 0) return put_blind(p, stuck);
    unsigned all = (1u << j->candidates) - 1;
    struct support best = {all, cost_of(j, all), -1, {{0}, {0}}}, other;
    rows_of(s, j->candidates, all, &best.rows);
    for (other.set = 0; other.set < all; other.set++) {
        other.cost = cost_of(j, other.set);
        other.gates = -1;
        if (other.cost > best.cost || !rows_of(s, j->candidates, other.set, &other.rows)) continue;
        if (before(j, &other, &best)) best = other;
    }
    return put_patch(p, j, best.set, &best.rows);
}

/* ---- the services, with one of the walks */

static inline int judge_by(void (*walk_inputs)(const struct job *, struct list *), const uint8_t *data, size_t n,
    uint8_t *reply, size_t room, size_t *len) {
    struct job j;
    struct list l;
    *len = 0;
    if (room < LONGEST_JUDGED) return 1;
    int number = read_job(data, n, &j);
    if (number) return number;
    start_list(&l);
    walk_inputs(&j, &l);
    *len = put_judged(reply, &l) - reply;
    return 0;
}

static inline int choose_by(void (*walk_inputs)(const struct job *, struct sets *), const uint8_t *data, size_t n,
    uint8_t *reply, size_t room, size_t *len) {
    struct job j;
    struct sets s;
    *len = 0;
    if (room < LONGEST_CHOSEN) return 1;
    int number = read_job(data, n, &j);
    if (number) return number;
    start_sets(&s);
    walk_inputs(&j, &s);
    *len = put_chosen(reply, &j, &s) - reply;
    return 0;
}

#endif
