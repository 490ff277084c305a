/* Answers the judge and order calls of run_engine's standard input by one of the C programs plain, words, blocks and whole,
 * which is both services in one walk where every input is fixable, blocks the compare calls too, and prints their lines
 * (tools/reference/verdict_calls.py has the form), so that they can be laid beside the reference's:
 *
 *     gcc -O3 -o verdict_lines verdict_lines.c verdict_plain.c verdict_words.c *_blocks.c
 *     ./verdict_lines blocks < STDIN | diff - <(grep -E '^(judge|order|compare) ' STDOUT)
 */
#include "verdict.h"

enum { BUFFER = 2200 };

static uint8_t call[65536], judged[BUFFER], chosen[BUFFER];
static service *judge, *choose;

/* Judge's part of the whole, and choose's; an unfixable job is chosen for by blocks. */
static int whole_judge(const uint8_t *job, size_t n, uint8_t *reply, size_t room, size_t *len) {
    uint8_t other[LONGEST_CHOSEN];
    size_t other_len;
    *len = 0;
    return room < LONGEST_JUDGED ? 1 : blocks_decide(job, n, reply, len, other, &other_len);
}

static int whole_choose(const uint8_t *job, size_t n, uint8_t *reply, size_t room, size_t *len) {
    uint8_t other[LONGEST_JUDGED];
    size_t other_len;
    *len = 0;
    int number = room < LONGEST_CHOSEN ? 1 : blocks_decide(job, n, other, &other_len, reply, len);
    return number || *len ? number : blocks_choose(job, n, reply, room, len);
}

static uint32_t four(const uint8_t *p) { return (uint32_t)word(p) << 16 | word(p + 2); }

static void print_judged(size_t lent, const uint8_t *job, size_t job_len) {
    size_t len;
    int number = judge(job, job_len, judged, lent, &len);
    printf(" %d %zu", number, len);
    if (number) printf(" declined");
    else if (judged[0] == 20) printf(" unfixable %u", four(judged + 3));
    else printf(" fixable");
}

static void print_chosen(size_t lent, const uint8_t *job, size_t job_len) {
    size_t len;
    int number = choose(job, job_len, chosen, lent, &len);
    printf(" %d %zu", number, len);
    if (number) printf(" declined");
    else if (chosen[0] == 21) printf(" blind %u", word(chosen + 3));
    else {
        const uint8_t *cost = chosen;
        for (int k = 0; k < 2; k++) cost += 3 + word(cost + 1);
        printf(" patch %u", four(cost + 3));
    }
}

static void print_both(const uint8_t *job, size_t job_len) {
    print_judged(LONGEST_JUDGED, job, job_len);
    print_chosen(LONGEST_CHOSEN, job, job_len);
}

static void print_hash(const uint8_t *buffer) {
    uint32_t h = 0;
    for (size_t i = 0; i < BUFFER; i++) h = h * 16777619u + buffer[i] + 1;
    printf(" %u", h);
}

static void print_compared(const uint8_t *job, size_t job_len, const uint8_t *sheet, size_t sheet_len) {
    uint32_t differs, input;
    int number = blocks_compare(job, job_len, sheet, sheet_len, &differs, &input);
    printf("compare %d %s", number, number ? "declined" : differs ? "differs" : "equal");
    if (differs) printf(" %u", input);
    printf("\n");
}

static void print_call(int which, size_t n, int blocks) {
    for (size_t i = 0; i < BUFFER; i++) judged[i] = chosen[i] = i * 7 + 13 * 11;
    if (which == 1) {
        printf("judge");
        print_judged(word(call), call + 4, n - 4);
        print_hash(judged);
        printf(" choose");
        print_chosen(word(call + 2), call + 4, n - 4);
        print_hash(chosen);
        printf("\n");
    } else if (which == 2 && blocks) {
        print_compared(call + 2, word(call), call + 2 + word(call), n - 2 - word(call));
    } else if (which == 3) {
        size_t a = word(call), b = word(call + 2);
        printf("order");
        print_both(call + 4, a);
        print_both(call + 4 + a, b);
        print_both(call + 4 + a + b, n - 4 - a - b);
        print_hash(judged);
        print_hash(chosen);
        printf("\n");
    }
}

int main(int argc, char **argv) {
    static const char *const names[] = {"plain", "words", "blocks", "whole"};
    static service *const judges[] = {plain_judge, words_judge, blocks_judge, whole_judge};
    static service *const chooses[] = {plain_choose, words_choose, blocks_choose, whole_choose};
    uint8_t head[3];
    for (int k = 0; k < 4; k++)
        if (argc > 1 && !strcmp(argv[1], names[k])) {
            judge = judges[k];
            choose = chooses[k];
        }
    if (!judge) {
        fprintf(stderr, "usage: verdict_lines plain|words|blocks|whole\n");
        return 1;
    }
    while (fread(head, 1, 3, stdin) == 3) {
        size_t n = word(head + 1);
        if (fread(call, 1, n, stdin) != n) return 1;
        print_call(head[0], n, !strcmp(argv[1], "blocks"));
    }
    return 0;
}
