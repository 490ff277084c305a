/* Patch sheets in C. Document 01, "Verdicts" and "Numbers given when a call is declined", and cards 1 and 7 of document 02.
 */
#ifndef SHEET_H
#define SHEET_H
#include "verdict.h"

struct sheet {
    size_t count; /* of support nets */
    uint16_t nets[CANDIDATES];
    const uint8_t *table;
};

/* How many fields there are with nothing behind: three, or four with the notes; 0 where neither. */
static inline int walk_sheet(const uint8_t *s, size_t n, struct span fields[4]) {
    static const uint8_t tags[4] = {16, 17, 18, 22};
    size_t at = 0;
    int k = 0;
    for (; k < 3 || (k < 4 && at < n); k++) {
        if (n - at < 3 || s[at] != tags[k]) return 0;
        size_t len = word(s + at + 1);
        if (n - at - 3 < len) return 0;
        fields[k] = (struct span){s + at + 3, len};
        at += 3 + len;
    }
    return at == n ? k : 0;
}

/* The support's nets are strictly ascending priced ones, and the cost is the sum of their weights. */
static inline int support_good(const struct job *j, const struct sheet *to, uint32_t cost) {
    uint32_t sum = 0;
    size_t at = 0;
    for (size_t i = 0; i < to->count; i++) {
        while (at < j->candidates && j->nets[at] != to->nets[i]) at++;
        if (at == j->candidates) return 0;
        sum += j->weights[at++];
    }
    return sum == cost;
}

static inline int below(const struct span *f, unsigned limit) {
    for (size_t i = 0; i < f->len; i++)
        if (f->start[i] >= limit) return 0;
    return 1;
}

static inline int read_sheet(const struct job *j, const uint8_t *s, size_t n, struct sheet *to) {
    struct span f[4];
    unsigned vectors = 1u << j->targets;
    int fields = walk_sheet(s, n, f);
    if (!fields || f[0].len % 2) return 7;
    size_t count = f[0].len / 2;
    if (count > 15 || f[1].len != (size_t)1 << count || f[2].len != 4) return 7;
    if (fields == 4 && (f[3].len != f[1].len || !below(&f[3], 3))) return 7;
    if (count > CANDIDATES || !below(&f[1], vectors)) return 8;
    to->count = count;
    to->table = f[1].start;
    for (size_t i = 0; i < count; i++) to->nets[i] = word(f[0].start + 2 * i);
    return support_good(j, to, (uint32_t)word(f[2].start) << 16 | word(f[2].start + 2)) ? 0 : 8;
}

#endif
