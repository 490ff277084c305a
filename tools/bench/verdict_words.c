/* Judge and choose on 64 inputs at a time: a word a net, its bit i for input 64 b + i of block b. The golden netlist is
 * evaluated once a block, every old gate once a block and vector; judge takes the listed vectors first, and the others only
 * where these leave an input. The rest goes input by input. */
#include "verdict.h"

struct block {
    uint64_t old[NETS], golden[NETS], fixed[VECTORS]; /* the inputs that each vector fixes */
    uint64_t valid;                                   /* the inputs that there are */
    unsigned count;
    uint32_t blocks;
};

static void evaluate(const struct netlist *l, size_t base, uint64_t *values) {
    for (size_t k = 0; k < l->gates; k++) {
        const uint16_t *slots = l->slots[k];
        uint64_t v = l->counts[k] ? values[slots[0]] : 0;
        for (int s = 1; s < l->counts[k]; s++) {
            uint64_t x = values[slots[s]];
            v = l->kinds[k] < 6 ? v & x : l->kinds[k] < 8 ? v | x : v ^ x;
        }
        values[base + k] = l->kinds[k] % 2 ? ~v : v;
    }
}

/* Where all outputs are the golden ones. */
static uint64_t same_outputs(const struct job *j, const uint64_t *old, const uint64_t *golden) {
    uint64_t differing = 0;
    for (size_t i = 0; i < j->old.outputs; i++) differing |= old[j->old.outs[i]] ^ golden[j->golden.outs[i]];
    return ~differing;
}

/* Input i on the inputs of a block: the first six change within it. */
static uint64_t input_word(size_t i, uint32_t block) {
    static const uint64_t within[6] = {0xaaaaaaaaaaaaaaaa, 0xcccccccccccccccc, 0xf0f0f0f0f0f0f0f0, 0xff00ff00ff00ff00,
        0xffff0000ffff0000, 0xffffffff00000000};
    return i < 6 ? within[i] : block >> (i - 6) & 1 ? ~(uint64_t)0 : 0;
}

static void start_blocks(const struct job *j, struct block *b) {
    memset(b, 0, sizeof *b);
    b->count = j->inputs < 6 ? 1u << j->inputs : 64;
    b->valid = b->count < 64 ? ((uint64_t)1 << b->count) - 1 : ~(uint64_t)0;
    b->blocks = (1u << j->inputs) / b->count;
}

/* The golden netlist on the inputs of a block. */
static void start_block(const struct job *j, struct block *b, uint32_t block) {
    for (size_t i = 0; i < j->inputs; i++) b->old[i] = b->golden[i] = input_word(i, block);
    evaluate(&j->golden, j->inputs, b->golden);
}

/* The inputs that a vector fixes. */
static uint64_t fixed_by(const struct job *j, struct block *b, unsigned v) {
    for (size_t t = 0; t < j->targets; t++) b->old[j->inputs + t] = v >> t & 1 ? ~(uint64_t)0 : 0;
    evaluate(&j->old, j->inputs + j->targets, b->old);
    return same_outputs(j, b->old, b->golden);
}

static void fix_all(const struct job *j, struct block *b) {
    for (unsigned v = 0; v < 1u << j->targets; v++) b->fixed[v] = fixed_by(j, b, v);
}

/* Takes the inputs that no listed vector fixes, smallest first; 0 where one of them is unfixable. */
static int list_block(const struct job *j, struct list *l, const uint64_t *fixed, uint64_t left, uint32_t block) {
    while (left) {
        unsigned bit = __builtin_ctzll(left), v = 0;
        while (v < 1u << j->targets && !(fixed[v] >> bit & 1)) v++;
        if (v == 1u << j->targets) {
            l->unfixable = 1;
            l->input = 64 * block + bit;
            return 0;
        }
        l->vectors[l->count++] = v;
        left &= ~fixed[v];
    }
    return 1;
}

static void list_vectors(const struct job *j, struct list *l) {
    struct block b;
    start_blocks(j, &b);
    for (uint32_t block = 0; block < b.blocks; block++) {
        uint64_t left = b.valid;
        start_block(j, &b, block);
        for (size_t i = 0; left && i < l->count; i++) left &= ~fixed_by(j, &b, l->vectors[i]);
        if (!left) continue;
        fix_all(j, &b);
        if (!list_block(j, l, b.fixed, left, block)) return;
    }
}

static void give_readings(const struct job *j, struct sets *s, const struct block *b) {
    for (unsigned bit = 0; bit < b->count; bit++) {
        unsigned reading = 0, fixing = 0;
        for (size_t i = 0; i < j->candidates; i++) reading |= (unsigned)(b->old[j->nets[i]] >> bit & 1) << i;
        for (unsigned v = 0; v < 1u << j->targets; v++) fixing |= (unsigned)(b->fixed[v] >> bit & 1) << v;
        give(s, reading, fixing);
    }
}

static void find_sets(const struct job *j, struct sets *s) {
    struct block b;
    start_blocks(j, &b);
    for (uint32_t block = 0; block < b.blocks; block++) {
        start_block(j, &b, block);
        fix_all(j, &b);
        give_readings(j, s, &b);
    }
}

int words_judge(const uint8_t *job, size_t job_len, uint8_t *reply, size_t reply_len, size_t *len) {
    return judge_by(list_vectors, job, job_len, reply, reply_len, len);
}

int words_choose(const uint8_t *job, size_t job_len, uint8_t *reply, size_t reply_len, size_t *len) {
    return choose_by(find_sets, job, job_len, reply, reply_len, len);
}
