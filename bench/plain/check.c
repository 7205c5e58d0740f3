/* Answers 1, 2 and 3: is a lent graph well-formed, and if not, where is its first fault? */
#include <string.h>

#include "plain.h"

static int fits(size_t count, size_t room, size_t limit) { return count <= room && room <= limit; }

static int sizes_right(const Graph *g, size_t marks) {
    const Counts *n = &g->n;
    return n->rows > 0 && fits(n->rows, g->rows.len / 2, MAX_ROWS) && n->rows <= marks && fits(n->inputs, g->inputs.len, MAX_ENTRIES) &&
           fits(n->latches, g->latches.len / LATCH_WORDS, MAX_ENTRIES) && fits(n->constraints, g->constraints.len, MAX_ENTRIES) &&
           fits(n->bads, g->bads.len, MAX_ENTRIES) && fits(n->outputs, g->outputs.len, MAX_ENTRIES) && fits(n->sets, g->ends.len, MAX_ENTRIES) &&
           fits(n->edges, g->edges.len, MAX_ENTRIES) && fits(n->fairness, g->fairness.len, MAX_ENTRIES);
}

static Answer bad_entry(size_t list, size_t index) { return (Answer){3, list, index, 0}; }

/* The first row that is none of the three kinds at its place, or `used`. */
static size_t first_bad_row(const uint32_t *rows, size_t used, size_t *leaves) {
    size_t n = 0;
    if (rows[0] != FALSE_ROW || rows[1] != 0) return 0;
    for (size_t i = 1; i < used; i++) {
        uint32_t a = rows[2 * i], b = rows[2 * i + 1], end = 2 * (uint32_t)i;
        if (a < end && b < end) continue;
        if (a != NONE || b != 0) return i;
        n++;
    }
    *leaves = n;
    return used;
}

/* Lists leaf x, unless it is no used leaf or listed already. */
static int claim(const uint32_t *rows, size_t used, uint32_t x, uint32_t *marks) {
    if (x >= used || rows[2 * (size_t)x] != NONE || marks[x]) return 0;
    marks[x] = 1;
    return 1;
}

static Answer check_leaves(const Graph *g, uint32_t *marks) {
    const uint32_t *rows = g->rows.at;
    size_t used = g->n.rows;
    for (size_t i = 0; i < g->n.inputs; i++)
        if (!claim(rows, used, g->inputs.at[i], marks)) return bad_entry(1, i);
    for (size_t i = 0; i < g->n.latches; i++) {
        const uint32_t *l = &g->latches.at[LATCH_WORDS * i];
        if (!claim(rows, used, l[0], marks) || l[1] / 2 >= used || (l[2] != NONE && l[2] / 2 >= used)) return bad_entry(2, i);
    }
    return done();
}

/* The first of n edges whose row is not used, or n. */
static size_t first_bad_edge(const uint32_t *edges, size_t n, size_t used) {
    for (size_t i = 0; i < n; i++)
        if (edges[i] / 2 >= used) return i;
    return n;
}

int edges_used(const uint32_t *edges, size_t n, size_t used) { return first_bad_edge(edges, n, used) == n; }

static Answer check_justice(const Graph *g) {
    const uint32_t *ends = g->ends.at;
    size_t sets = g->n.sets, n = g->n.edges, before = 0;
    if (sets == 0) return n == 0 ? done() : bad_entry(6, 0);
    for (size_t s = 0; s < sets; s++) {
        if (ends[s] < before || ends[s] > n || (s + 1 == sets && ends[s] != n)) return bad_entry(6, s);
        before = ends[s];
    }
    size_t k = first_bad_edge(g->edges.at, n, g->n.rows), s = 0;
    if (k == n) return done();
    while (ends[s] <= k) s++;
    return (Answer){3, 6, s, 1 + k - (s ? ends[s - 1] : 0)};
}

static Answer check_lists(const Graph *g) {
    size_t used = g->n.rows, i;
    if ((i = first_bad_edge(g->constraints.at, g->n.constraints, used)) < g->n.constraints) return bad_entry(3, i);
    if ((i = first_bad_edge(g->bads.at, g->n.bads, used)) < g->n.bads) return bad_entry(4, i);
    if ((i = first_bad_edge(g->outputs.at, g->n.outputs, used)) < g->n.outputs) return bad_entry(5, i);
    Answer justice = check_justice(g);
    if (justice.number) return justice;
    if ((i = first_bad_edge(g->fairness.at, g->n.fairness, used)) < g->n.fairness) return bad_entry(7, i);
    return done();
}

/* Answers 2 and 3, by marks that are zero over the used rows before and after. */
static Answer check_contents(const Graph *g, uint32_t *marks, size_t *leaves) {
    size_t used = g->n.rows, row = first_bad_row(g->rows.at, used, leaves);
    if (row < used) return (Answer){2, row, 0, 0};
    Answer listed = check_leaves(g, marks);
    memset(marks, 0, used * sizeof *marks);
    return listed.number ? listed : check_lists(g);
}

Answer check_graph(const Graph *g, Words marks, size_t *leaves) {
    if (!sizes_right(g, marks.len)) return refused(1);
    memset(marks.at, 0, g->n.rows * sizeof *marks.at);
    return check_contents(g, marks.at, leaves);
}

Answer check_two(const Graph *g, const Graph *h, Words marks, size_t *leaves_of_h) {
    size_t leaves, larger = g->n.rows < h->n.rows ? h->n.rows : g->n.rows;
    if (!sizes_right(g, marks.len) || !sizes_right(h, marks.len)) return refused(1);
    memset(marks.at, 0, larger * sizeof *marks.at);
    Answer first = check_contents(g, marks.at, &leaves);
    return first.number ? first : check_contents(h, marks.at, leaves_of_h);
}

Answer plain_check(const Graph *g, Words marks) {
    size_t leaves;
    return check_graph(g, marks, &leaves);
}
