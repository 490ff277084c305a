/* Many inputs at a time: what the block programs have in common. Old and golden netlist are one list of
 * gates, over inputs, targets, old gates' nets and golden gates' nets, without the gates that lead nowhere. Where that is
 * asked for, gates that do what earlier gates do are merged with them, and outputs that are then one net on both sides are
 * not compared. A net has W words: bit i of word w in block b is its value on input 64 (W b + w) + i. W is a
 * constant wherever these functions are inlined, so that the compiler makes vector instructions of their inner loops. Inputs
 * that do not fill a block repeat in it, which alters nothing: the smallest comes first. */
#ifndef BLOCKS_H
#define BLOCKS_H
#include "verdict.h"

#define INLINE static inline __attribute__((always_inline))

enum { WIDEST = 16, ROWS = 16, TARGETS = 4, ALL_GATES = 2 * GATES, ZERO = INPUTS + TARGETS + ALL_GATES, ALL_NETS };

/* A gate joins the words of two to four nets, and inverts them or not. A buffer joins a net with itself, a constant the net
 * ZERO. */
enum { AND, OR, XOR };

struct gate {
    uint16_t net, op, count, operands[SLOTS];
    uint64_t inverts; /* all ones or zero */
};

struct gates {
    size_t count;
    struct gate list[ALL_GATES];
};

struct miter {
    struct gates gates;
    size_t outputs;                         /* that are compared: all, or some, or none */
    uint16_t old[OUTPUTS], golden[OUTPUTS]; /* their nets */
    uint8_t led[ALL_NETS];                  /* for each net the targets that lead to it, bit t for target t */
};

/* The gates that no target leads to, and the others. */
struct halves {
    struct gates before, behind;
};

/* ---- made once a job */

/* A net of one netlist in the list of both. */
static inline unsigned moved(unsigned net, size_t inputs, size_t shift) { return net < inputs ? net : net + shift; }

static inline void add_gates(struct gates *to, const struct netlist *l, size_t base, size_t inputs, size_t shift) {
    for (size_t k = 0; k < l->gates; k++) {
        unsigned kind = l->kinds[k], count = l->counts[k];
        struct gate *g = &to->list[to->count++];
        g->net = moved(base + k, inputs, shift);
        for (unsigned i = 0; i < count; i++) g->operands[i] = moved(l->slots[k][i], inputs, shift);
        if (count == 0) g->operands[count++] = ZERO;
        if (count == 1) g->operands[count++] = g->operands[0];
        g->count = count;
        while (count < SLOTS) g->operands[count++] = ZERO;
        g->op = kind < 6 ? AND : kind < 8 ? OR : XOR;
        g->inverts = kind % 2 ? ~(uint64_t)0 : 0;
    }
}

/* ---- merging: the net of a gate that does what an earlier gate does is stood for by the earlier one's */

/* With fewer inputs than these, evaluating the gates costs less. */
enum { LEAST_TO_MERGE = 13, PLACES = 1024 };

/* What is asked for. */
enum { UNMERGED, MERGED };

/* For each place one more than the index of the last gate that has it, and for each gate one more than that of the one
 * before it with the same place; 0 where there is none. */
struct chains {
    uint16_t heads[PLACES], next[ALL_GATES];
};

static inline unsigned place_of(const struct gate *g) {
    uint64_t operands;
    memcpy(&operands, g->operands, sizeof operands);
    return (operands + g->op) * 0x9e3779b97f4a7c15 >> 54;
}

/* Operands tell how many there are: behind them stands ZERO. */
static inline int alike(const struct gate *a, const struct gate *b) {
    return a->op == b->op && a->inverts == b->inverts && !memcmp(a->operands, b->operands, sizeof a->operands);
}

static inline void enter(struct chains *c, const struct gates *g, size_t k) {
    unsigned place = place_of(&g->list[k]);
    c->next[k] = c->heads[place];
    c->heads[place] = k + 1;
}

/* An entered gate that does what this one does, or none. */
static inline const struct gate *find_alike(const struct chains *c, const struct gates *g, const struct gate *wanted) {
    for (size_t k = c->heads[place_of(wanted)]; k > 0; k = c->next[k - 1])
        if (alike(&g->list[k - 1], wanted)) return &g->list[k - 1];
    return NULL;
}

/* No gate and no output reads a net any more for which another one stands. */
static inline void merge_gates(struct miter *m) {
    struct gates *g = &m->gates;
    struct chains c = {.heads = {0}};
    uint16_t stands[ALL_NETS]; /* for each net the one that stands for it, mostly itself */
    for (unsigned net = 0; net < ALL_NETS; net++) stands[net] = net;
    for (size_t k = 0; k < g->count; k++) {
        struct gate *gate = &g->list[k];
        for (unsigned i = 0; i < SLOTS; i++) gate->operands[i] = stands[gate->operands[i]];
        const struct gate *earlier = find_alike(&c, g, gate);
        if (earlier) stands[gate->net] = earlier->net;
        else enter(&c, g, k);
    }
    for (size_t i = 0; i < m->outputs; i++) {
        m->old[i] = stands[m->old[i]];
        m->golden[i] = stands[m->golden[i]];
    }
}

/* Leaves the outputs whose two nets are not the same: the others never differ. */
static inline void drop_same(struct miter *m) {
    size_t kept = 0;
    for (size_t i = 0; i < m->outputs; i++)
        if (m->old[i] != m->golden[i]) {
            m->old[kept] = m->old[i];
            m->golden[kept++] = m->golden[i];
        }
    m->outputs = kept;
}

/* ---- the gates that are evaluated */

/* Leaves the gates that lead to an output that is compared or one of these nets. */
static inline void drop_dead(struct miter *m, const uint16_t *nets, size_t count) {
    uint8_t live[ALL_NETS] = {0};
    struct gates *g = &m->gates;
    size_t kept = 0;
    for (size_t i = 0; i < count; i++) live[nets[i]] = 1;
    for (size_t i = 0; i < m->outputs; i++) live[m->old[i]] = live[m->golden[i]] = 1;
    for (size_t k = g->count; k-- > 0;)
        if (live[g->list[k].net])
            for (unsigned i = 0; i < g->list[k].count; i++) live[g->list[k].operands[i]] = 1;
    for (size_t k = 0; k < g->count; k++)
        if (live[g->list[k].net]) g->list[kept++] = g->list[k];
    g->count = kept;
}

/* Of a job, with the gates that lead to an output that is compared or one of these nets, MERGED or UNMERGED. */
static inline void make_miter(const struct job *j, const uint16_t *nets, size_t count, int merging, struct miter *m) {
    size_t shift = j->targets + j->old.gates;
    m->gates.count = 0;
    add_gates(&m->gates, &j->old, j->inputs + j->targets, j->inputs, 0);
    add_gates(&m->gates, &j->golden, j->inputs, j->inputs, shift);
    m->outputs = j->old.outputs;
    for (size_t i = 0; i < m->outputs; i++) {
        m->old[i] = j->old.outs[i];
        m->golden[i] = moved(j->golden.outs[i], j->inputs, shift);
    }
    if (merging == MERGED && j->inputs >= LEAST_TO_MERGE) {
        merge_gates(m);
        drop_same(m);
    }
    drop_dead(m, nets, count);
    memset(m->led, 0, sizeof m->led);
    for (size_t t = 0; t < j->targets; t++) m->led[j->inputs + t] = 1u << t;
    for (size_t k = 0; k < m->gates.count; k++) {
        const struct gate *g = &m->gates.list[k];
        for (unsigned i = 0; i < g->count; i++) m->led[g->net] |= m->led[g->operands[i]];
    }
}

/* The gates that one of these targets leads to, or, for no targets, those that none leads to. */
static inline void pick_gates(const struct miter *m, unsigned targets, struct gates *to) {
    to->count = 0;
    for (size_t k = 0; k < m->gates.count; k++) {
        unsigned led = m->led[m->gates.list[k].net];
        if (targets ? led & targets : !led) to->list[to->count++] = m->gates.list[k];
    }
}

static inline void make_halves(const struct job *j, const struct miter *m, struct halves *h) {
    pick_gates(m, 0, &h->before);
    h->behind.count = 0;
    if (j->targets) pick_gates(m, (1u << j->targets) - 1, &h->behind);
}

/* ---- once a block */

INLINE void fill(uint64_t *row, uint64_t x, unsigned W) {
    for (unsigned w = 0; w < W; w++) row[w] = x;
}

/* Input i on a word of inputs: the first six change within it. */
static inline uint64_t input_word(size_t i, uint32_t word) {
    static const uint64_t within[6] = {0xaaaaaaaaaaaaaaaa, 0xcccccccccccccccc, 0xf0f0f0f0f0f0f0f0, 0xff00ff00ff00ff00,
        0xffff0000ffff0000, 0xffffffff00000000};
    return i < 6 ? within[i] : word >> (i - 6) & 1 ? ~(uint64_t)0 : 0;
}

INLINE void load_inputs(size_t inputs, uint32_t block, uint64_t *values, unsigned W) {
    for (size_t i = 0; i < inputs; i++)
        for (unsigned w = 0; w < W; w++) values[i * W + w] = input_word(i, block * W + w);
}

/* Two words, for one instruction. */
typedef uint64_t two_words __attribute__((vector_size(16), may_alias));

#define EACH(x)                                                                                                             \
    for (unsigned w = 0; w < count; w++) to[w] = (x) ^ inverts

/* The words of a gate from those of its operands, of which it uses as many as it has; TYPE is a word or two. */
#define JOIN(NAME, TYPE)                                                                                                    \
    INLINE void NAME(                                                                                                       \
        const struct gate *g, const TYPE *a, const TYPE *b, const TYPE *c, const TYPE *d, TYPE *to, unsigned count) {       \
        uint64_t inverts = g->inverts;                                                                                      \
        if (g->count == 2) {                                                                                                \
            if (g->op == AND) EACH(a[w] & b[w]);                                                                            \
            else if (g->op == OR) EACH(a[w] | b[w]);                                                                        \
            else EACH(a[w] ^ b[w]);                                                                                         \
        } else if (g->count == 3) {                                                                                         \
            if (g->op == AND) EACH(a[w] & b[w] & c[w]);                                                                     \
            else if (g->op == OR) EACH(a[w] | b[w] | c[w]);                                                                 \
            else EACH(a[w] ^ b[w] ^ c[w]);                                                                                  \
        } else {                                                                                                            \
            if (g->op == AND) EACH(a[w] & b[w] & c[w] & d[w]);                                                              \
            else if (g->op == OR) EACH(a[w] | b[w] | c[w] | d[w]);                                                          \
            else EACH(a[w] ^ b[w] ^ c[w] ^ d[w]);                                                                           \
        }                                                                                                                   \
    }

JOIN(join_words, uint64_t)
JOIN(join_twos, two_words)

INLINE void run(const struct gates *gates, uint64_t *values, unsigned W) {
    for (const struct gate *g = gates->list, *end = g + gates->count; g < end; g++) {
        uint64_t *a = values + g->operands[0] * W, *b = values + g->operands[1] * W, *to = values + g->net * W;
        uint64_t *c = values + g->operands[2] * W, *d = values + g->operands[3] * W;
        if (W % 2) join_words(g, a, b, c, d, to, W);
        else join_twos(g, (two_words *)a, (two_words *)b, (two_words *)c, (two_words *)d, (two_words *)to, W / 2);
    }
}

/* ---- sixteen rows of words: bit 16 k + j of row i becomes bit 16 k + i of row j */

INLINE void exchange(uint64_t *rows, unsigned by, uint64_t low, unsigned W) {
    for (unsigned i = 0; i < ROWS; i++) {
        if (i & by) continue;
        uint64_t *p = rows + i * W, *q = rows + (i + by) * W;
        for (unsigned w = 0; w < W; w++) {
            uint64_t x = (p[w] >> by ^ q[w]) & low;
            q[w] ^= x;
            p[w] ^= x << by;
        }
    }
}

INLINE void transpose(uint64_t *rows, unsigned W) {
    exchange(rows, 8, 0x00ff00ff00ff00ff, W);
    exchange(rows, 4, 0x0f0f0f0f0f0f0f0f, W);
    exchange(rows, 2, 0x3333333333333333, W);
    exchange(rows, 1, 0x5555555555555555, W);
}

/* ---- targets driven by a table */

/* The rows of these nets, the others zero. */
INLINE void read_rows(const uint16_t *nets, size_t count, const uint64_t *values, uint64_t *rows, unsigned W) {
    for (size_t i = 0; i < ROWS; i++)
        if (i < count) memcpy(rows + i * W, values + nets[i] * W, 8 * W);
        else fill(rows + i * W, 0, W);
}

/* Puts in the place of each input's reading the entry that a table has at it: row i becomes bit i of the entries. */
INLINE void look_up(const uint8_t *table, uint64_t *rows, unsigned W) {
    transpose(rows, W);
    for (unsigned i = 0; i < ROWS * W; i++) {
        uint64_t r = rows[i], entries = 0;
        for (unsigned at = 0; at < 64; at += 16) entries |= (uint64_t)table[r >> at & (READINGS - 1)] << at;
        rows[i] = entries;
    }
    transpose(rows, W);
}

/* Where outputs differ. */
INLINE void find_differing(const struct miter *m, const uint64_t *values, uint64_t *differing, unsigned W) {
    uint64_t sum[WIDEST] = {0};
    for (size_t i = 0; i < m->outputs; i++) {
        const uint64_t *a = values + m->old[i] * W, *b = values + m->golden[i] * W;
        for (unsigned w = 0; w < W; w++) sum[w] |= a[w] ^ b[w];
    }
    for (unsigned w = 0; w < W; w++) differing[w] = sum[w];
}

/* Gives the targets these rows, from a block on whose gates before them have their values: where outputs then differ. */
INLINE void drive(const struct job *j, const struct miter *m, const struct halves *h, const uint64_t *rows, uint64_t *values,
    uint64_t *differing, unsigned W) {
    memcpy(values + j->inputs * W, rows, 8 * W * j->targets);
    run(&h->behind, values, W);
    find_differing(m, values, differing, W);
}

/* Whether a row has a one. */
INLINE int some(const uint64_t *row, unsigned W) {
    uint64_t sum = 0;
    for (unsigned w = 0; w < W; w++) sum |= row[w];
    return sum != 0;
}

#endif
