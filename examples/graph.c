#include "graph.h"

#include <inttypes.h>
#include <stdio.h>
#include <stdlib.h>
#include <string.h>

static uint64_t told[SULANDIRO_TOLD];
static uint32_t marks[MOST_ROWS];

/* A lent slice is a pointer and a length. */
#define SLICE(array) (array), sizeof(array) / sizeof(array)[0]
#define LISTS(g)                                                                                                      \
    SLICE((g)->rows), SLICE((g)->inputs), SLICE((g)->latches), SLICE((g)->constraints), SLICE((g)->bads),             \
        SLICE((g)->outputs), SLICE((g)->ends), SLICE((g)->edges), SLICE((g)->fairness)

void fail(const char *message) {
    fprintf(stderr, "flags: %s\n", message);
    exit(1);
}

static void expect_done(const char *call) {
    if (told[SULANDIRO_NUMBER] == SULANDIRO_DONE) return;
    fprintf(stderr, "flags: %s answers %" PRIu64 ", place %" PRIu64 " %" PRIu64 " %" PRIu64 "\n", call, told[SULANDIRO_NUMBER], told[SULANDIRO_PLACE],
            told[SULANDIRO_INDEX], told[SULANDIRO_SECOND]);
    exit(1);
}

static void take_counts(Graph *g, const char *call) {
    expect_done(call);
    memcpy(g->counts, told + SULANDIRO_RESULT, sizeof g->counts);
}

/* The edge or id that a constructor made. */
static uint32_t take_made(Graph *g, const char *call) {
    take_counts(g, call);
    return (uint32_t)told[SULANDIRO_MADE];
}

void graph_start(Graph *g) {
    memset(g, 0, sizeof *g);
    sulandiro_new(SLICE(g->rows), SLICE(told));
    take_counts(g, "new");
}

uint32_t graph_input(Graph *g) {
    sulandiro_new_input(SLICE(g->rows), SLICE(g->inputs), SLICE(g->counts), SLICE(told));
    return 2 * take_made(g, "new_input");
}

uint32_t graph_leaf(Graph *g) {
    sulandiro_new_leaf_node(SLICE(g->rows), SLICE(g->counts), SLICE(told));
    return 2 * take_made(g, "new_leaf_node");
}

void graph_latch(Graph *g, uint32_t leaf, uint32_t next, uint32_t init) {
    sulandiro_add_latch(SLICE(g->rows), SLICE(g->latches), SLICE(g->counts), leaf / 2, next, init, SLICE(told));
    take_counts(g, "add_latch");
}

uint32_t graph_and(Graph *g, uint32_t a, uint32_t b) {
    sulandiro_new_and_node(SLICE(g->rows), SLICE(g->counts), a, b, SLICE(told));
    return take_made(g, "new_and_node");
}

uint32_t graph_or(Graph *g, uint32_t a, uint32_t b) {
    sulandiro_new_or_node(SLICE(g->rows), SLICE(g->counts), a, b, SLICE(told));
    return take_made(g, "new_or_node");
}

uint32_t graph_ands(Graph *g, const uint32_t *edges, size_t n) {
    sulandiro_new_ands_node(SLICE(g->rows), SLICE(g->counts), edges, n, SLICE(told));
    return take_made(g, "new_ands_node");
}

/* Root lists are the caller's own words: they have no constructor. */
static void list_root(uint32_t *list, uint64_t *count, uint32_t edge) {
    if (*count == MOST_ENTRIES) fail("a list is full");
    list[(*count)++] = edge;
}

void graph_output(Graph *g, uint32_t edge) { list_root(g->outputs, &g->counts[SULANDIRO_OUTPUTS], edge); }

void graph_bad(Graph *g, uint32_t edge) { list_root(g->bads, &g->counts[SULANDIRO_BADS], edge); }

void graph_check(const Graph *g) {
    sulandiro_check(LISTS(g), SLICE(g->counts), SLICE(marks), SLICE(told));
    expect_done("check");
}

void graph_unroll(const Graph *from, size_t frames, Graph *to) {
    memset(to, 0, sizeof *to);
    sulandiro_unroll_to(LISTS(from), SLICE(from->counts), frames, LISTS(to), SLICE(marks), SLICE(told));
    take_counts(to, "unroll_to");
}

size_t graph_clauses(const Graph *g, uint32_t *words, size_t room) {
    sulandiro_cnf(LISTS(g), SLICE(g->counts), true, words, room, SLICE(marks), SLICE(told));
    expect_done("cnf");
    return told[SULANDIRO_RESULT];
}

uint8_t latch_start(const Graph *g, size_t latch) {
    uint32_t init = g->latches[LATCH_WORDS * latch + 2];
    if (init > 1) fail("a latch does not start with a constant");
    return (uint8_t)init;
}

void graph_step(const Graph *g, const uint8_t *inputs, uint8_t *state, uint8_t *values) {
    const uint64_t *n = g->counts;
    sulandiro_simulate(LISTS(g), SLICE(g->counts), inputs, n[SULANDIRO_INPUTS], state, n[SULANDIRO_LATCHES], values, n[SULANDIRO_ROWS], SLICE(marks),
                       SLICE(told));
    expect_done("simulate");
}

uint8_t edge_value(const Graph *g, const uint8_t *values, uint32_t edge) {
    sulandiro_value(values, g->counts[SULANDIRO_ROWS], g->counts[SULANDIRO_ROWS], edge, SLICE(told));
    expect_done("value");
    return (uint8_t)told[SULANDIRO_RESULT];
}
