/* How long the calls take, over a small file in memory: each line is nanoseconds a round, the least of five runs. */
#include "recfile.h"

#include <inttypes.h>
#include <stdio.h>
#include <stdlib.h>
#include <time.h>

#define ROUNDS 200000
#define RUNS 5

static double now(void) {
    struct timespec at;
    clock_gettime(CLOCK_MONOTONIC, &at);
    return (double)at.tv_sec * 1e9 + (double)at.tv_nsec;
}

static void check(int32_t status, int32_t expected) {
    if (status != expected) {
        fprintf(stderr, "status %" PRId32 "\n", status);
        exit(1);
    }
}

/* The same keys and records in every round: k0 to k7, eight bytes each. */
static const char *const keys[8] = {"k0", "k1", "k2", "k3", "k4", "k5", "k6", "k7"};
static const char *const values[8] = {"record 0", "record 1", "record 2", "record 3",
                                      "record 4", "record 5", "record 6", "record 7"};

static recfile *opened(void) {
    recfile *file;
    check(recfile_new(&file), RECFILE_OK);
    check(recfile_memory(file, 1000, 4000000, 1000000), RECFILE_OK);
    return file;
}

static double transactions(void) {
    recfile *file = opened();
    recfile_record record;
    recfile_detail detail;
    uint32_t tx;
    double start = now();
    for (int i = 0; i < ROUNDS; i++) {
        const uint8_t *key = (const uint8_t *)keys[i % 8];
        check(recfile_begin(file, &tx), RECFILE_OK);
        check(recfile_put(file, tx, key, 2, (const uint8_t *)values[i % 8], 8, &record, &detail), RECFILE_OK);
        check(recfile_get(file, tx, key, 2, &record, &detail), RECFILE_OK);
        check(recfile_commit(file, tx), RECFILE_OK);
    }
    double end = now();
    recfile_free(file);
    return (end - start) / ROUNDS;
}

static double gets(void) {
    recfile *file = opened();
    recfile_record record;
    recfile_detail detail;
    uint32_t tx;
    check(recfile_begin(file, &tx), RECFILE_OK);
    for (int i = 0; i < 8; i++)
        check(recfile_put(file, tx, (const uint8_t *)keys[i], 2, (const uint8_t *)values[i], 8, &record, &detail),
              RECFILE_OK);
    double start = now();
    for (int i = 0; i < ROUNDS; i++)
        check(recfile_get(file, tx, (const uint8_t *)keys[i % 8], 2, &record, &detail), RECFILE_OK);
    double end = now();
    recfile_free(file);
    return (end - start) / ROUNDS;
}

/* A call that looks at one number: what the handle itself costs. */
static double looks(void) {
    recfile *file = opened();
    uint32_t n;
    double start = now();
    for (int i = 0; i < ROUNDS; i++)
        check(recfile_log_len(file, &n), RECFILE_OK);
    double end = now();
    recfile_free(file);
    return (end - start) / ROUNDS;
}

static double least(double (*measure)(void)) {
    double best = measure();
    for (int i = 1; i < RUNS; i++) {
        double again = measure();
        if (again < best)
            best = again;
    }
    return best;
}

int main(void) {
    printf("begin, put, get, commit: %.1f\n", least(transactions));
    printf("get: %.1f\n", least(gets));
    printf("a look at one number: %.1f\n", least(looks));
    return 0;
}
