/* Graphs to measure on. */
#ifndef GRAPHS_H
#define GRAPHS_H

#include "plain/plain.h"

/* Fills a graph of so many rows, at least 1,024, into the room that it is given. The same number gives the same words. No leaf is an orphan. */
void fill_graph(Graph *g, size_t rows);

/* Fills a list with edges to any of the rows. */
void fill_edges(uint32_t *edges, size_t n, size_t rows);

#endif
