/* Another graph behind a graph: its ids other than 0 grow by the first's used rows less one. */
#include "plain.h"

/* An edge, or the none word, which stays. */
static inline uint32_t shifted(uint32_t e, uint32_t by) { return e < 2 || e == NONE ? e : e + by; }

static void add_edges(uint32_t *out, const uint32_t *edges, size_t n, uint32_t by) {
    for (size_t i = 0; i < n; i++) out[i] = shifted(edges[i], by);
}

static void add_latches(uint32_t *out, const uint32_t *latches, size_t n, uint32_t by) {
    for (size_t i = 0; i < LATCH_WORDS * n; i += LATCH_WORDS) {
        out[i] = latches[i] + by / 2;
        out[i + 1] = shifted(latches[i + 1], by);
        out[i + 2] = shifted(latches[i + 2], by);
    }
}

static void add_plain(uint32_t *out, const uint32_t *list, size_t n, uint32_t by) {
    for (size_t i = 0; i < n; i++) out[i] = list[i] + by;
}

static Counts summed(const Counts *n, const Counts *m) {
    return (Counts){n->rows + m->rows - 1,  n->inputs + m->inputs, n->latches + m->latches, n->constraints + m->constraints, n->bads + m->bads,
                    n->outputs + m->outputs, n->sets + m->sets,     n->edges + m->edges,     n->fairness + m->fairness};
}

Answer plain_merge(Graph *g, const Graph *h, Words marks) {
    size_t leaves;
    Answer answer = check_two(g, h, marks, &leaves);
    if (answer.number) return answer;
    Counts at = g->n, sum = summed(&g->n, &h->n);
    if (!has_room(g, &sum)) return refused(5);

    uint32_t by = 2 * ((uint32_t)at.rows - 1);
    add_edges(g->rows.at + 2 * at.rows, h->rows.at + 2, 2 * (h->n.rows - 1), by);
    add_plain(g->inputs.at + at.inputs, h->inputs.at, h->n.inputs, by / 2);
    add_latches(g->latches.at + LATCH_WORDS * at.latches, h->latches.at, h->n.latches, by);
    add_edges(g->constraints.at + at.constraints, h->constraints.at, h->n.constraints, by);
    add_edges(g->bads.at + at.bads, h->bads.at, h->n.bads, by);
    add_edges(g->outputs.at + at.outputs, h->outputs.at, h->n.outputs, by);
    add_plain(g->ends.at + at.sets, h->ends.at, h->n.sets, (uint32_t)at.edges);
    add_edges(g->edges.at + at.edges, h->edges.at, h->n.edges, by);
    add_edges(g->fairness.at + at.fairness, h->fairness.at, h->n.fairness, by);
    g->n = sum;
    return answer;
}
