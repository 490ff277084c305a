/* Reads and writes one job the straightforward way in C, many times, and prints microseconds per call: what the record
 * library's read and write are measured against.
 *
 *     cc -O3 -o job_bench job_bench.c && ./job_bench longest.job [rounds]
 *
 * longest.job is made by tools/reference/make_samples.py: 20 inputs, 4 targets, 400 gates a side, 32 outputs and
 * 10 priced nets, 8,188 bytes. */
#include "job.h"

int main(int argc, char **argv) {
    static uint8_t data[65536], back[LONGEST];
    static struct job j;
    long rounds = argc > 2 ? atol(argv[2]) : 20000;
    FILE *file = argc > 1 ? fopen(argv[1], "rb") : NULL;
    if (!file || rounds < 1) {
        fprintf(stderr, "usage: job_bench JOB [ROUNDS]\n");
        return 1;
    }
    size_t n = fread(data, 1, sizeof data, file), len = 0;
    fclose(file);
    int number = read_job(data, n, &j);
    if (number || write_job(&j, back, &len) || len != n || memcmp(data, back, n)) {
        fprintf(stderr, "not an accepted job, or not written as it was read (%d)\n", number);
        return 1;
    }
    volatile int kept = 0;
    double start = now();
    for (long i = 0; i < rounds; i++) {
        kept += read_job(data, n, &j);
        __asm__ volatile("" : : "g"(&j), "g"(data) : "memory");
    }
    double middle = now();
    for (long i = 0; i < rounds; i++) {
        kept += write_job(&j, back, &len);
        __asm__ volatile("" : : "g"(&j), "g"(back) : "memory");
    }
    double end = now();
    printf("%zu bytes, %ld rounds: read %.2f us, write %.2f us\n", n, rounds, (middle - start) / rounds,
        (end - middle) / rounds);
    return kept;
}
