/* Times compare by the block C of compare_blocks.c and the engine, and the engine's fit, and checks what they give.
 * tools/bench/run builds and runs it.
 *
 *     sheet_bench compare TURNS JOB..    each with the sheet that stands beside it; where none does, with the one that
 * choose gives, which is equal, and with the last entry of its table altered sheet_bench fit TURNS JOB..        each with
 * the sheet that stands beside it; the netlist beside it must come out
 *
 * Each row has the best turn. */
#include "bench.h"

static struct file job, sheet, netlist;
static uint8_t reply[LONGEST_FIT];
static size_t len;
static uint32_t number;

/* ---- compare */

struct comparison {
    uint32_t number, differs, input;
};

static struct comparison ours, theirs;

static void our_compare(void) {
    ours.number = engine_compare(job.bytes, job.len, sheet.bytes, sheet.len, &ours.differs, &ours.input);
}

static void their_compare(void) {
    theirs.number = blocks_compare(job.bytes, job.len, sheet.bytes, sheet.len, &theirs.differs, &theirs.input);
}

static void compare_row(const char *path, const char *sheet_name, int turns) {
    char result[32] = "equal";
    double c = best_of(their_compare, turns), us = best_of(our_compare, turns);
    if (ours.number || memcmp(&ours, &theirs, sizeof ours)) stop("not the same reply", path);
    if (ours.differs) snprintf(result, sizeof result, "differs at %u", ours.input);
    printf("%-22s %-16s %-20s %9s %9s %9.2f\n", base_name(path), sheet_name, result, shown(c), shown(us), us / c);
}

/* Reads the file beside the job whose name ends in this; 0 where there is none. */
static int read_beside(const char *path, const char *ending, struct file *to) {
    char other[4096];
    snprintf(other, sizeof other, "%.*s%s", (int)(strrchr(path, '.') - path), path, ending);
    FILE *file = fopen(other, "rb");
    if (!file) return 0;
    to->len = fread(to->bytes, 1, sizeof to->bytes, file);
    fclose(file);
    return 1;
}

static void compare_job(const char *path, int turns) {
    read_file(path, &job);
    if (read_beside(path, ".sheet", &sheet)) {
        compare_row(path, "beside it", turns);
        return;
    }
    sheet.len = engine_choose(job.bytes, job.len, sheet.bytes, sizeof sheet.bytes, &number);
    if (number || sheet.bytes[0] != 16) stop("no patch", path);
    compare_row(path, "choose's", turns);
    if (ours.differs) stop("its own sheet differs", path);
    size_t table = 3 + word(sheet.bytes + 1);
    sheet.bytes[table + 2 + word(sheet.bytes + table + 1)] ^= 1;
    compare_row(path, "an entry altered", turns);
}

/* ---- fit */

static void our_fit(void) { len = engine_fit(job.bytes, job.len, sheet.bytes, sheet.len, reply, sizeof reply, &number); }

/* Prints a row; the microseconds. */
static double fit_row(const char *path, int turns, double last_us, size_t last_len) {
    read_file(path, &job);
    if (!read_beside(path, ".sheet", &sheet) || !read_beside(path, ".netlist", &netlist)) stop("no sheet or netlist", path);
    double us = best_of(our_fit, turns);
    if (number || len != netlist.len || memcmp(reply, netlist.bytes, len)) stop("not the reference's netlist", path);
    printf("%-22s %5u %6zu %9s %10.2f", base_name(path), word(reply + 6) / GATE_BYTES, len, shown(us), 1000 * us / len);
    if (last_len) printf(" %12.2f", 1000 * (us - last_us) / (len - last_len));
    printf("\n");
    return us;
}

static void fit_jobs(char **paths, int count, int turns) {
    double us = 0;
    printf("fit: processor time a call, the best of %d turns, on growing patches of one small job\n", turns);
    printf("%-22s %5s %6s %9s %10s %12s\n", "", "gates", "bytes", "ours", "ns a byte", "a byte more");
    for (int i = 0; i < count; i++) us = fit_row(paths[i], turns, us, i ? len : 0);
}

int main(int argc, char **argv) {
    int turns = argc > 3 ? atoi(argv[2]) : 0;
    if (turns < 1) stop("usage", "sheet_bench compare|fit TURNS JOB..");
    if (!strcmp(argv[1], "fit")) {
        fit_jobs(argv + 3, argc - 3, turns);
        return 0;
    }
    printf("compare: processor time a call, the best of %d turns\n", turns);
    printf("%-22s %-16s %-20s %9s %9s %9s\n", "", "sheet", "result", "block C", "ours", "ours / block C");
    for (int i = 3; i < argc; i++) compare_job(argv[i], turns);
    return 0;
}
