/* Jobs in C: what the benchmark's plain programs read and write them with. Document 01, "Bytes" and "Numbers given when
 * a call is declined", and card 6 of document 02. */
#ifndef JOB_H
#define JOB_H
#include <stdint.h>
#include <stdio.h>
#include <stdlib.h>
#include <string.h>
#include <time.h>

enum { GATES = 400, OUTPUTS = 32, CANDIDATES = 10, SLOTS = 4, GATE_BYTES = 10, LONGEST = 8188, NETS = 424 };

struct netlist {
    size_t gates, outputs;
    uint8_t kinds[GATES], counts[GATES];         /* a gate's kind, and how many operands it has */
    uint16_t slots[GATES][SLOTS], outs[OUTPUTS]; /* its operands, and 0 in the slots behind them */
};

struct job {
    size_t inputs, targets, candidates;
    struct netlist old, golden;
    uint16_t nets[CANDIDATES], weights[CANDIDATES];
};

static inline unsigned word(const uint8_t *p) { return 256u * p[0] + p[1]; }

/* Whether a kind may have so many operands. */
static inline int permits(unsigned kind, unsigned count) {
    if (kind < 4) return count == kind / 2;
    return kind < 10 && 2 <= count && count <= SLOTS;
}

/* ---- reading */

struct span {
    const uint8_t *start;
    size_t len;
};

static inline int walk(const uint8_t *s, size_t n, struct span fields[6]) {
    size_t at = 0;
    for (int k = 0; k < 6; k++) {
        if (n - at < 3 || s[at] != k + 1) return 0;
        size_t len = word(s + at + 1);
        if (n - at - 3 < len) return 0;
        fields[k].start = s + at + 3;
        fields[k].len = len;
        at += 3 + len;
    }
    return at == n;
}

static inline void take_netlist(struct netlist *l, struct span gates, struct span outputs) {
    l->gates = gates.len / GATE_BYTES;
    l->outputs = outputs.len / 2;
    for (size_t i = 0; i < l->gates; i++) {
        const uint8_t *p = gates.start + GATE_BYTES * i;
        l->kinds[i] = p[0];
        l->counts[i] = p[1];
        for (int s = 0; s < SLOTS; s++) l->slots[i][s] = word(p + 2 + 2 * s);
    }
    for (size_t i = 0; i < l->outputs; i++) l->outs[i] = word(outputs.start + 2 * i);
}

static inline int gates_good(const struct netlist *l, size_t base) {
    for (size_t i = 0; i < l->gates; i++) {
        if (!permits(l->kinds[i], l->counts[i])) return 0;
        for (int s = 0; s < SLOTS; s++)
            if (s < l->counts[i] ? l->slots[i][s] >= base + i : l->slots[i][s] != 0) return 0;
    }
    return 1;
}

static inline int outputs_good(const struct netlist *l, size_t nets) {
    for (size_t i = 0; i < l->outputs; i++)
        if (l->outs[i] >= nets) return 0;
    return 1;
}

static inline int candidates_good(const struct job *j) {
    uint8_t marks[NETS] = {0};
    size_t base = j->inputs + j->targets;
    for (size_t i = j->inputs; i < base; i++) marks[i] = 1;
    for (size_t i = 0; i < j->old.gates; i++)
        for (int s = 0; s < j->old.counts[i]; s++) marks[base + i] |= marks[j->old.slots[i][s]];
    for (size_t i = 0; i < j->candidates; i++) {
        if (i > 0 && j->nets[i] <= j->nets[i - 1]) return 0;
        if (j->nets[i] >= base + j->old.gates || marks[j->nets[i]]) return 0;
    }
    return 1;
}

static inline int parts_number(const struct job *j) {
    if (!gates_good(&j->old, j->inputs + j->targets) || !gates_good(&j->golden, j->inputs)) return 4;
    if (!outputs_good(&j->old, j->inputs + j->targets + j->old.gates)) return 5;
    if (!outputs_good(&j->golden, j->inputs + j->golden.gates)) return 5;
    if (j->old.outputs != j->golden.outputs) return 5;
    return candidates_good(j) ? 0 : 6;
}

static inline int read_job(const uint8_t *s, size_t n, struct job *j) {
    struct span f[6];
    if (!walk(s, n, f) || f[0].len != 2) return 2;
    if (f[1].len % GATE_BYTES || f[2].len % 2 || f[3].len % GATE_BYTES || f[4].len % 2 || f[5].len % 4) return 2;
    if (f[0].start[0] > 20 || f[0].start[1] > 4) return 3;
    if (f[1].len / GATE_BYTES > GATES || f[3].len / GATE_BYTES > GATES || f[5].len / 4 > CANDIDATES) return 3;
    if (f[2].len < 2 || f[2].len / 2 > OUTPUTS || f[4].len < 2 || f[4].len / 2 > OUTPUTS) return 3;
    j->inputs = f[0].start[0];
    j->targets = f[0].start[1];
    take_netlist(&j->old, f[1], f[2]);
    take_netlist(&j->golden, f[3], f[4]);
    j->candidates = f[5].len / 4;
    for (size_t i = 0; i < j->candidates; i++) {
        j->nets[i] = word(f[5].start + 4 * i);
        j->weights[i] = word(f[5].start + 4 * i + 2);
    }
    return parts_number(j);
}

/* ---- writing */

static inline uint8_t *put_word(uint8_t *p, unsigned x) {
    p[0] = x / 256;
    p[1] = x % 256;
    return p + 2;
}

static inline uint8_t *put_head(uint8_t *p, int tag, size_t len) {
    *p = tag;
    return put_word(p + 1, len);
}

static inline uint8_t *put_netlist(uint8_t *p, int tag, const struct netlist *l) {
    p = put_head(p, tag, GATE_BYTES * l->gates);
    for (size_t i = 0; i < l->gates; i++) {
        *p++ = l->kinds[i];
        *p++ = l->counts[i];
        for (int s = 0; s < SLOTS; s++) p = put_word(p, l->slots[i][s]);
    }
    p = put_head(p, tag + 1, 2 * l->outputs);
    for (size_t i = 0; i < l->outputs; i++) p = put_word(p, l->outs[i]);
    return p;
}

static inline int write_job(const struct job *j, uint8_t buf[LONGEST], size_t *len) {
    int number = parts_number(j);
    *len = 0;
    if (number) return number;
    uint8_t *p = put_head(buf, 1, 2);
    *p++ = j->inputs;
    *p++ = j->targets;
    p = put_netlist(p, 2, &j->old);
    p = put_netlist(p, 4, &j->golden);
    p = put_head(p, 6, 4 * j->candidates);
    for (size_t i = 0; i < j->candidates; i++) {
        p = put_word(p, j->nets[i]);
        p = put_word(p, j->weights[i]);
    }
    *len = p - buf;
    return 0;
}

/* ---- timing */

/* Microseconds of processor time of this thread: what others run meanwhile is not counted. */
static inline double now(void) {
    struct timespec t;
    clock_gettime(CLOCK_THREAD_CPUTIME_ID, &t);
    return t.tv_sec * 1e6 + t.tv_nsec / 1e3;
}

#endif
