/* Judge and choose the plain way: one input and one vector at a time, every gate of both netlists, a byte a net. */
#include "verdict.h"

static void evaluate(const struct netlist *l, size_t base, uint8_t *values) {
    for (size_t k = 0; k < l->gates; k++) {
        const uint16_t *slots = l->slots[k];
        uint8_t v = l->counts[k] ? values[slots[0]] : 0;
        for (int s = 1; s < l->counts[k]; s++) {
            uint8_t x = values[slots[s]];
            v = l->kinds[k] < 6 ? v & x : l->kinds[k] < 8 ? v | x : v ^ x;
        }
        values[base + k] = l->kinds[k] % 2 ? !v : v;
    }
}

static int same_outputs(const struct job *j, const uint8_t *old, const uint8_t *golden) {
    for (size_t i = 0; i < j->old.outputs; i++)
        if (old[j->old.outs[i]] != golden[j->golden.outs[i]]) return 0;
    return 1;
}

/* The golden netlist on an input. */
static void start_input(const struct job *j, uint32_t x, uint8_t *old, uint8_t *golden) {
    for (size_t i = 0; i < j->inputs; i++) old[i] = golden[i] = x >> i & 1;
    evaluate(&j->golden, j->inputs, golden);
}

/* Whether a vector fixes the input. */
static int fixes(const struct job *j, unsigned v, uint8_t *old, const uint8_t *golden) {
    for (size_t t = 0; t < j->targets; t++) old[j->inputs + t] = v >> t & 1;
    evaluate(&j->old, j->inputs + j->targets, old);
    return same_outputs(j, old, golden);
}

/* A listed vector, or else the smallest that fixes the input; stops at the first input that none fixes. */
static void list_vectors(const struct job *j, struct list *l) {
    uint8_t old[NETS] = {0}, golden[NETS] = {0};
    for (uint32_t x = 0; x < 1u << j->inputs; x++) {
        size_t i = 0;
        unsigned v = 0;
        start_input(j, x, old, golden);
        while (i < l->count && !fixes(j, l->vectors[i], old, golden)) i++;
        if (i < l->count) continue;
        while (v < 1u << j->targets && !fixes(j, v, old, golden)) v++;
        if (v == 1u << j->targets) {
            l->unfixable = 1;
            l->input = x;
            return;
        }
        l->vectors[l->count++] = v;
    }
}

static void find_sets(const struct job *j, struct sets *s) {
    uint8_t old[NETS] = {0}, golden[NETS] = {0};
    for (uint32_t x = 0; x < 1u << j->inputs; x++) {
        unsigned fixing = 0, reading = 0;
        start_input(j, x, old, golden);
        for (unsigned v = 0; v < 1u << j->targets; v++)
            if (fixes(j, v, old, golden)) fixing |= 1u << v;
        for (size_t i = 0; i < j->candidates; i++) reading |= (unsigned)old[j->nets[i]] << i;
        give(s, reading, fixing);
    }
}

int plain_judge(const uint8_t *job, size_t job_len, uint8_t *reply, size_t reply_len, size_t *len) {
    return judge_by(list_vectors, job, job_len, reply, reply_len, len);
}

int plain_choose(const uint8_t *job, size_t job_len, uint8_t *reply, size_t reply_len, size_t *len) {
    return choose_by(find_sets, job, job_len, reply, reply_len, len);
}
