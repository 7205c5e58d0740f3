/* A balance and its host can each correct for air buoyancy. The graph has a latch that remembers a correction; its bad is a second one. */
#include "sulandiro.h"
#include <inttypes.h>
#include <stdio.h>
#include <stdlib.h>
#include <string.h>

#define S(a) a, sizeof(a) / sizeof *(a)

static uint32_t rows[32], inputs[2], latches[3], bads[1], clauses[128], marks[16];
static uint64_t counts[SULANDIRO_COUNTS], told[SULANDIRO_TOLD];

/* After a constructor: its counts are the graph's, and what it made is answered. */
static uint32_t made(void) {
    if (told[SULANDIRO_NUMBER] != SULANDIRO_DONE) {
        printf("refused with %" PRIu64 "\n", told[SULANDIRO_NUMBER]);
        exit(1);
    }
    memcpy(counts, told + SULANDIRO_RESULT, sizeof counts);
    return (uint32_t)told[SULANDIRO_MADE];
}

static uint32_t new_input(void) {
    sulandiro_new_input(S(rows), S(inputs), S(counts), S(told));
    return 2 * made();
}

static uint32_t either(uint32_t a, uint32_t b) {
    sulandiro_new_or_node(S(rows), S(counts), a, b, S(told));
    return made();
}

static uint32_t both(uint32_t a, uint32_t b) {
    sulandiro_new_and_node(S(rows), S(counts), a, b, S(told));
    return made();
}

/* Another correction while one is remembered, or both at once. */
static void build(void) {
    sulandiro_new(S(rows), S(told));
    made();
    uint32_t instrument = new_input(), host = new_input();
    sulandiro_new_leaf_node(S(rows), S(counts), S(told));
    uint32_t leaf = made(), corrected = 2 * leaf;
    uint32_t now = either(instrument, host);
    uint32_t next = either(corrected, now);
    sulandiro_add_latch(S(rows), S(latches), S(counts), leaf, next, sulandiro_edge_constant(false), S(told));
    made();
    uint32_t twice = either(both(corrected, now), both(instrument, host));
    bads[counts[SULANDIRO_BADS]++] = twice;
}

static void check(void) {
    sulandiro_check(S(rows), S(inputs), S(latches), NULL, 0, S(bads), NULL, 0, NULL, 0, NULL, 0, NULL, 0, S(counts), S(marks), S(told));
}

int main(void) {
    build();
    check();
    printf("%" PRIu64 " rows, %" PRIu64 " inputs, %" PRIu64 " latch, %" PRIu64 " bad: the check answers %" PRIu64 "\n", counts[SULANDIRO_ROWS],
           counts[SULANDIRO_INPUTS], counts[SULANDIRO_LATCHES], counts[SULANDIRO_BADS], told[SULANDIRO_NUMBER]);
    sulandiro_cnf(S(rows), S(inputs), S(latches), NULL, 0, S(bads), NULL, 0, NULL, 0, NULL, 0, NULL, 0, S(counts), true, S(clauses), S(marks), S(told));
    printf("its clauses are %" PRIu64 " words\n", told[SULANDIRO_RESULT]);
    bads[0] = 2 * (uint32_t)counts[SULANDIRO_ROWS];
    check();
    printf("with a bad that goes to no used row the check answers %" PRIu64 ", list %" PRIu64 ", index %" PRIu64 "\n", told[SULANDIRO_NUMBER],
           told[SULANDIRO_PLACE], told[SULANDIRO_INDEX]);
    return 0;
}
