/* Times judge and choose by the plain C of verdict_plain.c, the word C of verdict_words.c, the block C of judge_blocks.c and
 * choose_blocks.c and the engine, in turn, with decide_blocks.c, which is both in one walk, and checks that all give the
 * same sheets. tools/bench/run builds and runs it.
 *
 *     verdict_bench TURNS INPUTS GROUP: JOB.. [GROUP: JOB..]    plain C only on jobs of up to so many inputs, and once
 *
 * Each job has three rows with the best turn of each: judge, choose, and both, which is what `rectify` calls: judge and,
 * where every input is fixable, choose, their times added. The last column is ours by the one walk. At the end stand the
 * median and the worst ratio of each group and service. In the group "pairs:" the second of each two jobs is also measured
 * by the first; at the end of the group "all weights 0:" so is choose, on each job with weights 0 by the same with distinct
 * ones. */
#include "bench.h"

enum { PLAIN, WORDS, BLOCKS, OURS, KINDS, GROUPS = 10, ROWS_A_GROUP = 64 };
enum { JUDGE, CHOOSE, BOTH, SERVICES };

static const char *const service_names[SERVICES] = {"judge", "choose", "both"};
static const size_t rooms[BOTH] = {LONGEST_JUDGED, LONGEST_CHOSEN};

static struct file job;
static uint8_t sheets[BOTH][KINDS + 1][LONGEST_CHOSEN]; /* the last are those of the one walk */
static size_t lens[BOTH][KINDS + 1];
static int numbers[BOTH][KINDS + 1];

static int ours_judge(const uint8_t *data, size_t n, uint8_t *reply, size_t room, size_t *len) {
    uint32_t number;
    *len = engine_judge(data, n, reply, room, &number);
    return (int)number;
}

static int ours_choose(const uint8_t *data, size_t n, uint8_t *reply, size_t room, size_t *len) {
    uint32_t number;
    *len = engine_choose(data, n, reply, room, &number);
    return (int)number;
}

static service *const programs[BOTH][KINDS] = {
    {plain_judge, words_judge, blocks_judge, ours_judge}, {plain_choose, words_choose, blocks_choose, ours_choose}};

/* The call that is timed. */
static int which, by;

static void call(void) {
    numbers[which][by] = programs[which][by](job.bytes, job.len, sheets[which][by], rooms[which], &lens[which][by]);
}

static void whole(void) {
    numbers[JUDGE][KINDS] = numbers[CHOOSE][KINDS] = blocks_decide(
        job.bytes, job.len, sheets[JUDGE][KINDS], &lens[JUDGE][KINDS], sheets[CHOOSE][KINDS], &lens[CHOOSE][KINDS]);
}

static int fixable(void) { return sheets[JUDGE][OURS][0] == 19; }

static const char *verdict(void) { return fixable() ? sheets[CHOOSE][OURS][0] == 21 ? "blind" : "patch" : "unfixable"; }

/* All that have run have accepted the job and written the same sheet, and not an empty one; the one walk does not choose
 * where an input is unfixable. */
static int agree(int first) {
    for (int s = 0; s < BOTH; s++)
        for (int k = first; k <= KINDS; k++) {
            if (k == KINDS && s == CHOOSE && !fixable()) continue;
            if (numbers[s][k] != 0 || lens[s][k] == 0 || lens[s][k] != lens[s][OURS]) return 0;
            if (memcmp(sheets[s][k], sheets[s][OURS], LONGEST_CHOSEN)) return 0;
        }
    return 1;
}

/* Microseconds: of each service by each program, and in the last place of each service those of the one walk. */
struct times {
    double us[SERVICES][KINDS + 1];
};

/* The best of the turns of each program, in which they take turns; plain C has one. */
static void time_job(int turns, int first, struct times *best) {
    long calls[BOTH][KINDS], whole_calls;
    memset(sheets, 0, sizeof sheets);
    for (which = 0; which < BOTH; which++)
        for (by = first; by < KINDS; by++) {
            best->us[which][by] = timed(call, 1);
            calls[which][by] = calls_for(best->us[which][by]);
        }
    double whole_us = timed(whole, 1);
    whole_calls = calls_for(whole_us);
    for (int turn = 0; turn < turns; turn++) {
        for (which = 0; which < BOTH; which++)
            for (by = first; by < KINDS; by++) {
                double *us = &best->us[which][by];
                if (by == PLAIN && *us > 3000) continue;
                double again = timed(call, calls[which][by]);
                if (again < *us) *us = again;
            }
        double again = timed(whole, whole_calls);
        if (again < whole_us) whole_us = again;
    }
    for (int k = first; k < KINDS; k++) best->us[BOTH][k] = best->us[JUDGE][k] + (fixable() ? best->us[CHOOSE][k] : 0);
    for (int s = 0; s < SERVICES; s++) best->us[s][KINDS] = whole_us;
}

/* Prints a job's rows. */
static void rows(const char *path, int turns, size_t inputs, struct times *best) {
    struct job j;
    read_file(path, &job);
    if (read_job(job.bytes, job.len, &j)) stop("not a job", path);
    int first = j.inputs <= inputs ? PLAIN : WORDS;
    time_job(turns, first, best);
    if (!agree(first)) stop("not the same reply", path);
    printf("%-22s %-9s %6zu %7zu %5zu+%-5zu %6zu %6u", base_name(path), verdict(), j.inputs, j.targets, j.old.gates,
        j.golden.gates, fanout_gates(&j), word(sheets[JUDGE][OURS] + (fixable() ? 1 : 8)));
    for (int s = 0; s < SERVICES; s++) {
        const double *us = best->us[s];
        if (s) printf("%73s", "");
        printf(" %-6s %9s %9s %9s %9s %9s %14.2f %15.2f\n", service_names[s], first == PLAIN ? shown(us[PLAIN]) : "-",
            shown(us[WORDS]), shown(us[BLOCKS]), shown(us[KINDS]), shown(us[OURS]), us[OURS] / us[BLOCKS],
            us[OURS] / us[KINDS]);
    }
    fflush(stdout);
}

/* ---- ratios */

struct group {
    const char *name;
    size_t count;
    const char *paths[ROWS_A_GROUP];
    double choose_us[ROWS_A_GROUP][KINDS];
    double by_blocks[SERVICES][ROWS_A_GROUP], by_whole[SERVICES][ROWS_A_GROUP];
};

static int ascending(const void *a, const void *b) {
    double x = *(const double *)a, y = *(const double *)b;
    return (x > y) - (x < y);
}

static void print_ratios(const char *what, double *ratios, size_t count) {
    qsort(ratios, count, sizeof *ratios, ascending);
    double median = (ratios[(count - 1) / 2] + ratios[count / 2]) / 2;
    printf("   %s: median %.2f, worst %.2f", what, median, ratios[count - 1]);
}

static void summary(struct group *g) {
    for (int s = 0; s < SERVICES && g->count; s++) {
        printf("%-16s %2zu jobs, %-6s", g->name, g->count, service_names[s]);
        print_ratios("ours / block C", g->by_blocks[s], g->count);
        print_ratios("ours / one walk", g->by_whole[s], g->count);
        printf("\n");
    }
}

static void add_row(struct group *g, const char *path, const struct times *best) {
    g->paths[g->count] = path;
    memcpy(g->choose_us[g->count], best->us[CHOOSE], sizeof g->choose_us[0]);
    for (int s = 0; s < SERVICES; s++) {
        g->by_blocks[s][g->count] = best->us[s][OURS] / best->us[s][BLOCKS];
        g->by_whole[s][g->count] = best->us[s][OURS] / best->us[s][KINDS];
    }
    g->count++;
}

/* Choose's time on each second job by that on the one before. */
static void print_ties(const struct group *g) {
    for (size_t k = 1; k < g->count; k += 2) {
        const double *distinct = g->choose_us[k - 1], *zero = g->choose_us[k];
        printf("    choose, %-18s by the one with distinct weights: block C %.2f, ours %.2f\n", base_name(g->paths[k]),
            zero[BLOCKS] / distinct[BLOCKS], zero[OURS] / distinct[OURS]);
    }
}

/* What stands at the end of a group's rows. */
static void end_group(const struct group *g) {
    if (g && !strcmp(g->name, "all weights 0:")) print_ties(g);
}

int main(int argc, char **argv) {
    static struct group groups[GROUPS];
    static struct times best, last;
    struct group *g = NULL;
    size_t count = 0;
    int turns = argc > 2 ? atoi(argv[1]) : 0;
    if (turns < 1) stop("usage", "verdict_bench TURNS INPUTS GROUP: JOB..");
    printf("judge and choose: processor time a call, the best of %d turns\n", turns);
    printf("%-22s %-9s %6s %7s %11s %6s %6s %-6s %9s %9s %9s %9s %9s %14s %15s\n", "", "verdict", "inputs", "targets",
        "gates", "fanout", "listed", "", "plain C", "word C", "block C", "one walk", "ours", "ours / block C",
        "ours / one walk");
    for (int i = 3; i < argc; i++) {
        if (argv[i][strlen(argv[i]) - 1] == ':') {
            if (count == GROUPS) stop("too many groups", argv[i]);
            end_group(g);
            g = &groups[count++];
            g->name = argv[i];
            printf("%s\n", argv[i]);
            continue;
        }
        if (!g || g->count == ROWS_A_GROUP) stop("no group, or too many jobs in it", argv[i]);
        rows(argv[i], turns, atoi(argv[2]), &best);
        if (g->count % 2 && !strcmp(g->name, "pairs:"))
            printf("    both to the one above: block C %.2f, ours %.2f\n", best.us[BOTH][BLOCKS] / last.us[BOTH][BLOCKS],
                best.us[BOTH][OURS] / last.us[BOTH][OURS]);
        add_row(g, argv[i], &best);
        last = best;
    }
    end_group(g);
    for (size_t k = 0; k < count; k++) summary(&groups[k]);
    return 0;
}
