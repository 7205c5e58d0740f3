/* Lends a large graph to `check`, and says how long it takes: the time is to grow with the rows, and no faster. */
#include "sulandiro.h"

#include <inttypes.h>
#include <stdio.h>
#include <stdlib.h>
#include <string.h>
#include <time.h>

enum { MAX_ROWS = SULANDIRO_MAX_ROWS, LEAVES_EVERY = 16, RUNS = 7, TOLD = SULANDIRO_SECOND + 1 };

static uint32_t *rows, *marks, *inputs, *bads;
static uint64_t told[TOLD];

static uint64_t seed = 1;
static uint32_t below(uint32_t n) {
    seed = seed * 6364136223846793005u + 1442695040888963407u;
    return (uint32_t)((seed >> 33) % n);
}

/* Row 0, then a leaf in each 16 rows and gates over any rows below. */
static void fill(size_t n) {
    rows[0] = 4294967294u;
    rows[1] = 0;
    for (size_t i = 1; i < n; i++) {
        int leaf = i % LEAVES_EVERY == 1;
        rows[2 * i] = leaf ? 4294967295u : below((uint32_t)(2 * i));
        rows[2 * i + 1] = leaf ? 0 : below((uint32_t)(2 * i));
    }
}

/* Every leaf an input, as far as a list goes, and as many bads. */
static size_t listed(size_t n) {
    size_t k = 0;
    for (size_t i = 1; i < n && k < 65536; i += LEAVES_EVERY) {
        inputs[k] = (uint32_t)i;
        bads[k] = (uint32_t)(2 * (n - 1));
        k++;
    }
    return k;
}

static void check(size_t lent, size_t used, size_t k) {
    const uint64_t counts[SULANDIRO_COUNTS] = {[SULANDIRO_ROWS] = used, [SULANDIRO_INPUTS] = k, [SULANDIRO_BADS] = k};
    sulandiro_check(rows, 2 * lent, inputs, k, NULL, 0, NULL, 0, bads, k, NULL, 0, NULL, 0, NULL, 0, NULL, 0, counts, SULANDIRO_COUNTS, marks, used,
                    told, TOLD);
}

static double seconds(void) {
    struct timespec t;
    clock_gettime(CLOCK_MONOTONIC, &t);
    return (double)t.tv_sec + (double)t.tv_nsec / 1e9;
}

/* The least of some runs, in nanoseconds a row. */
static double timed(size_t n, size_t k) {
    double least = 1e9;
    for (int r = 0; r < RUNS; r++) {
        double from = seconds();
        check(n, n, k);
        double took = seconds() - from;
        if (told[SULANDIRO_NUMBER] != SULANDIRO_DONE) {
            printf("check of %zu rows: answer %" PRIu64 "\n", n, told[SULANDIRO_NUMBER]);
            exit(1);
        }
        least = took < least ? took : least;
    }
    printf("%8zu rows, %5zu inputs and bads: %8.3f ms, %.2f ns a row\n", n, k, least * 1e3, least * 1e9 / (double)n);
    return least * 1e9 / (double)n;
}

static void expect(const char *what, uint64_t number, uint64_t place, uint64_t index) {
    const uint64_t wanted[TOLD] = {number, place, index, 0};
    printf("%s: answer %" PRIu64 ", place %" PRIu64 " %" PRIu64 " %" PRIu64 "\n", what, told[SULANDIRO_NUMBER], told[SULANDIRO_PLACE],
           told[SULANDIRO_INDEX], told[SULANDIRO_SECOND]);
    if (memcmp(told, wanted, sizeof told) != 0) exit(1);
}

int main(void) {
    rows = malloc((2 * (size_t)MAX_ROWS + 2) * sizeof *rows);
    marks = malloc((MAX_ROWS + 1) * sizeof *marks);
    inputs = malloc(65536 * sizeof *inputs);
    bads = malloc(65536 * sizeof *bads);
    if (!rows || !marks || !inputs || !bads) return 2;
    memset(marks, 255, (MAX_ROWS + 1) * sizeof *marks);

    double small = 0, large = 0;
    for (size_t n = MAX_ROWS / 8; n <= MAX_ROWS; n *= 2) {
        fill(n);
        large = timed(n, listed(n));
        if (small == 0) small = large;
    }
    size_t k = listed(MAX_ROWS);
    for (size_t i = 0; i < MAX_ROWS; i++)
        if (marks[i] != 0) return 1;
    check(MAX_ROWS + 1, MAX_ROWS, k);
    expect("one lent row too many", SULANDIRO_BAD_SIZES, 0, 0);
    uint32_t kept = rows[2 * MAX_ROWS - 1];
    rows[2 * MAX_ROWS - 1] = 2 * MAX_ROWS - 2;
    check(MAX_ROWS, MAX_ROWS, k);
    expect("the last row reads itself", SULANDIRO_BAD_ROW, MAX_ROWS - 1, 0);
    rows[2 * MAX_ROWS - 1] = kept;
    bads[k - 1] = 2 * MAX_ROWS;
    check(MAX_ROWS, MAX_ROWS, k);
    expect("the last bad is not used", SULANDIRO_BAD_ENTRY, 4, k - 1);
    if (4 * small < large) {
        printf("a row takes %.1f times as long in the largest graph as in the smallest\n", large / small);
        return 1;
    }
    return 0;
}
