/* A graph written anew: inputs first, then latches, then gates in row order. */
#include <string.h>

#include "gates.h"
#include "renumber.h"

static void write_leaves(uint32_t *rows, size_t leaves) {
    rows[0] = FALSE_ROW;
    rows[1] = 0;
    for (size_t i = 1; i <= leaves; i++) {
        rows[2 * i] = NONE;
        rows[2 * i + 1] = 0;
    }
}

/* Inputs, then latches, take the numbers from 1 on. */
static void number_leaves(const Graph *g, uint32_t *map) {
    uint32_t next = 2;
    for (size_t i = 0; i < g->n.inputs; i++, next += 2) map[g->inputs.at[i]] = next;
    for (size_t i = 0; i < g->n.latches; i++, next += 2) map[g->latches.at[LATCH_WORDS * i]] = next;
}

/* A gate's fanins stand below it, so they are mapped by then. */
static void write_gates(const Graph *g, uint32_t *out, size_t at, uint32_t *map) {
    const uint32_t *rows = g->rows.at;
    for (size_t i = 1; i < g->n.rows; i++) {
        if (rows[2 * i] == NONE) continue;
        uint32_t a = mapped(map, rows[2 * i]), b = mapped(map, rows[2 * i + 1]);
        sort_edges(&a, &b);
        out[2 * at] = a;
        out[2 * at + 1] = b;
        map[i] = 2 * (uint32_t)at++;
    }
}

Answer plain_reencode(const Graph *g, Graph *out, Words marks) {
    size_t leaves, listed = g->n.inputs + g->n.latches;
    if (!within_limits(out)) return refused(1);
    Answer answer = check_graph(g, marks, &leaves);
    if (answer.number) return answer;
    if (leaves != listed) return refused(4);
    if (!has_room(out, &g->n)) return refused(5);

    uint32_t *map = marks.at;
    number_leaves(g, map);
    write_leaves(out->rows.at, listed);
    write_gates(g, out->rows.at, 1 + listed, map);
    for (size_t i = 0; i < g->n.inputs; i++) out->inputs.at[i] = (uint32_t)i + 1;
    map_lists(out, g, map);
    memset(map, 0, g->n.rows * sizeof *map);
    out->n = g->n;
    return answer;
}
