#include "renumber.h"

#include <string.h>

static void map_latches(uint32_t *out, const uint32_t *latches, size_t n, const uint32_t *map) {
    for (size_t i = 0; i < LATCH_WORDS * n; i += LATCH_WORDS) {
        out[i] = map[latches[i]] / 2;
        out[i + 1] = mapped(map, latches[i + 1]);
        out[i + 2] = latches[i + 2] == NONE ? NONE : mapped(map, latches[i + 2]);
    }
}

void map_lists(Graph *out, const Graph *g, const uint32_t *map) {
    map_latches(out->latches.at, g->latches.at, g->n.latches, map);
    map_edges(out->constraints.at, g->constraints.at, g->n.constraints, map);
    map_edges(out->bads.at, g->bads.at, g->n.bads, map);
    map_edges(out->outputs.at, g->outputs.at, g->n.outputs, map);
    if (g->n.sets) memcpy(out->ends.at, g->ends.at, g->n.sets * sizeof *out->ends.at);
    map_edges(out->edges.at, g->edges.at, g->n.edges, map);
    map_edges(out->fairness.at, g->fairness.at, g->n.fairness, map);
}
