/* Graphs like real ones: leaves first, then gates over mostly near fanins, an eighth of the steps an xor and an eighth an if-then-else of three rows each,
   and roots in every list. Lists grow with the rows, so that work per row can be compared between sizes. */
#include "graphs.h"

enum { NEAR = 64, LATCH_EVERY = 32, INPUT_EVERY = 32, ROOT_EVERY = 64, SET_EVERY = 256 };

static uint64_t seed;

static uint32_t below(size_t n) {
    seed = seed * 6364136223846793005u + 1442695040888963407u;
    return (uint32_t)((seed >> 33) % n);
}

/* An edge to a row below `rows`, not row 0: three of four near the end. */
static uint32_t edge_below(size_t rows) {
    size_t span = below(4) && rows > NEAR ? NEAR : rows - 1;
    return 2 * (uint32_t)(rows - 1 - below(span)) + below(2);
}

static size_t put_gate(uint32_t *rows, size_t at, uint32_t a, uint32_t b) {
    rows[2 * at] = a;
    rows[2 * at + 1] = b;
    return at + 1;
}

/* A gate over the complements of two gates: of (a, b) and their complements it is an xor, of (c, ¬t) and (¬c, ¬e) an if-then-else. */
static size_t put_three(uint32_t *rows, size_t at, uint32_t a, uint32_t b, uint32_t d) {
    uint32_t first = 2 * (uint32_t)at + 1;
    at = put_gate(rows, at, a, b);
    at = put_gate(rows, at, a ^ 1, d);
    return put_gate(rows, at, first, first + 2);
}

static void fill_rows(uint32_t *rows, size_t n, size_t leaves) {
    size_t at = put_gate(rows, 0, FALSE_ROW, 0);
    while (at <= leaves) at = put_gate(rows, at, NONE, 0);
    while (at < n) {
        uint32_t kind = below(8), a = edge_below(at), b = edge_below(at), c = edge_below(at);
        if (kind == 0 && at + 3 <= n)
            at = put_three(rows, at, a, b, b ^ 1);
        else if (kind == 1 && at + 3 <= n)
            at = put_three(rows, at, a, b, c);
        else
            at = put_gate(rows, at, a, b);
    }
}

/* Half of the latches have no init, a quarter a constant one, and a quarter an edge. */
static uint32_t any_init(size_t rows) {
    uint32_t kind = below(4);
    if (kind < 2) return NONE;
    return kind == 2 ? below(2) : edge_below(rows);
}

/* One next in 16 is a constant, so that gates fold where the graph is unrolled. */
static uint32_t any_next(size_t rows) { return below(16) ? 2 * (1 + below(rows - 1)) + below(2) : below(2); }

/* Leaves are listed in turn, as input and as latch. */
static void fill_leaves(Graph *g) {
    for (size_t i = 0; i < g->n.inputs; i++) g->inputs.at[i] = (uint32_t)(1 + 2 * i);
    for (size_t i = 0; i < g->n.latches; i++) {
        uint32_t *l = &g->latches.at[LATCH_WORDS * i];
        l[0] = (uint32_t)(2 + 2 * i);
        l[1] = any_next(g->n.rows);
        l[2] = any_init(g->n.rows);
    }
}

void fill_edges(uint32_t *edges, size_t n, size_t rows) {
    for (size_t i = 0; i < n; i++) edges[i] = 2 * (1 + below(rows - 1)) + below(2);
}

/* Sets of one to seven edges, and the last takes what is left. */
static void fill_ends(uint32_t *ends, size_t sets, size_t edges) {
    size_t end = 0;
    for (size_t s = 0; s < sets; s++) {
        end += 1 + below(7);
        if (end > edges || s + 1 == sets) end = edges;
        ends[s] = (uint32_t)end;
    }
}

void fill_graph(Graph *g, size_t rows) {
    size_t roots = rows / ROOT_EVERY;
    seed = rows;
    g->n = (Counts){rows, rows / INPUT_EVERY, rows / LATCH_EVERY, roots, roots, roots, rows / SET_EVERY, roots, roots};
    fill_rows(g->rows.at, rows, g->n.inputs + g->n.latches);
    fill_leaves(g);
    fill_edges(g->constraints.at, roots, rows);
    fill_edges(g->bads.at, roots, rows);
    fill_edges(g->outputs.at, roots, rows);
    fill_ends(g->ends.at, g->n.sets, roots);
    fill_edges(g->edges.at, roots, rows);
    fill_edges(g->fairness.at, roots, rows);
}
