/* An output graph's room, the graph's own roots, and a copy. */
#include <string.h>

#include "plain.h"

int within_limits(const Graph *out) {
    return out->rows.len / 2 <= MAX_ROWS && out->inputs.len <= MAX_ENTRIES && out->latches.len / LATCH_WORDS <= MAX_ENTRIES &&
           out->constraints.len <= MAX_ENTRIES && out->bads.len <= MAX_ENTRIES && out->outputs.len <= MAX_ENTRIES && out->ends.len <= MAX_ENTRIES &&
           out->edges.len <= MAX_ENTRIES && out->fairness.len <= MAX_ENTRIES;
}

int has_room(const Graph *out, const Counts *need) {
    return need->rows <= out->rows.len / 2 && need->inputs <= out->inputs.len && need->latches <= out->latches.len / LATCH_WORDS &&
           need->constraints <= out->constraints.len && need->bads <= out->bads.len && need->outputs <= out->outputs.len &&
           need->sets <= out->ends.len && need->edges <= out->edges.len && need->fairness <= out->fairness.len;
}

void mark_edges(const uint32_t *edges, size_t n, uint32_t *marks) {
    for (size_t i = 0; i < n; i++) marks[edges[i] / 2] = 1;
}

void mark_roots(const Graph *g, uint32_t *marks) {
    for (size_t i = 0; i < g->n.latches; i++) {
        const uint32_t *l = &g->latches.at[LATCH_WORDS * i];
        marks[l[1] / 2] = 1;
        if (l[2] != NONE) marks[l[2] / 2] = 1;
    }
    mark_edges(g->constraints.at, g->n.constraints, marks);
    mark_edges(g->bads.at, g->n.bads, marks);
    mark_edges(g->outputs.at, g->n.outputs, marks);
    mark_edges(g->edges.at, g->n.edges, marks);
    mark_edges(g->fairness.at, g->n.fairness, marks);
}

static void copy_words(Words out, Words list, size_t n) {
    if (n) memcpy(out.at, list.at, n * sizeof *out.at);
}

void copy_graph(Graph *out, const Graph *g) {
    copy_words(out->rows, g->rows, 2 * g->n.rows);
    copy_words(out->inputs, g->inputs, g->n.inputs);
    copy_words(out->latches, g->latches, LATCH_WORDS * g->n.latches);
    copy_words(out->constraints, g->constraints, g->n.constraints);
    copy_words(out->bads, g->bads, g->n.bads);
    copy_words(out->outputs, g->outputs, g->n.outputs);
    copy_words(out->ends, g->ends, g->n.sets);
    copy_words(out->edges, g->edges, g->n.edges);
    copy_words(out->fairness, g->fairness, g->n.fairness);
    out->n = g->n;
}
