/* Lists written anew by a map from rows to edges of the new graph. */
#ifndef RENUMBER_H
#define RENUMBER_H

#include "plain.h"

static inline uint32_t mapped(const uint32_t *map, uint32_t e) { return map[e / 2] ^ (e & 1); }

static inline void map_edges(uint32_t *out, const uint32_t *edges, size_t n, const uint32_t *map) {
    for (size_t i = 0; i < n; i++) out[i] = mapped(map, edges[i]);
}

/* Every list but the inputs, by a map to uncomplemented edges. */
void map_lists(Graph *out, const Graph *g, const uint32_t *map);

#endif
