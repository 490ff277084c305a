/* Compare by hand-optimised C: 1,024 inputs at a time, gates merged (blocks.h). The gates that no target leads to are
 * evaluated first; the readings are transposed, so that each input's stands in one place, looked up in the table, and the
 * entries transposed back to the targets' words; the other gates follow. */
#include "blocks.h"
#include "sheet.h"

/* The place of the first one in a row that has one. */
INLINE unsigned first_one(const uint64_t *row) {
    unsigned w = 0;
    while (!row[w]) w++;
    return 64 * w + __builtin_ctzll(row[w]);
}

/* Whether outputs differ, and the smallest input at which they do. */
INLINE int compare_by(const struct job *j, const struct sheet *s, uint32_t *input, unsigned W) {
    _Alignas(64) uint64_t values[ALL_NETS * WIDEST], rows[ROWS * WIDEST], differing[WIDEST];
    struct miter m;
    struct halves h;
    uint32_t blocks = (1u << j->inputs) / (64 * W);
    make_miter(j, s->nets, s->count, MERGED, &m);
    make_halves(j, &m, &h);
    fill(values + ZERO * W, 0, W);
    for (uint32_t block = 0; block == 0 || block < blocks; block++) {
        load_inputs(j->inputs, block, values, W);
        run(&h.before, values, W);
        read_rows(s->nets, s->count, values, rows, W);
        look_up(s->table, rows, W);
        drive(j, &m, &h, rows, values, differing, W);
        if (some(differing, W)) {
            *input = 64 * W * block + first_one(differing);
            return 1;
        }
    }
    return 0;
}

int blocks_compare(
    const uint8_t *job, size_t job_len, const uint8_t *sheet, size_t sheet_len, uint32_t *differs, uint32_t *input) {
    struct job j;
    struct sheet s;
    *differs = *input = 0;
    int number = read_job(job, job_len, &j);
    if (number == 0) number = read_sheet(&j, sheet, sheet_len, &s);
    if (number) return number;
    if (j.inputs < 7) *differs = compare_by(&j, &s, input, 1);
    else if (j.inputs < 9) *differs = compare_by(&j, &s, input, 4);
    else *differs = compare_by(&j, &s, input, WIDEST);
    return 0;
}
