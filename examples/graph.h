/* A graph with room of its own, and the library's calls on it. A call that is refused ends the program: here every refusal is an error. */
#ifndef GRAPH_H
#define GRAPH_H

#include "sulandiro.h"

enum { MOST_ROWS = 4096, MOST_ENTRIES = 128, LATCH_WORDS = 3, MOST_CLAUSE_WORDS = 2 + 16 * MOST_ROWS };

typedef struct {
    uint32_t rows[2 * MOST_ROWS];
    uint32_t inputs[MOST_ENTRIES];
    uint32_t latches[LATCH_WORDS * MOST_ENTRIES];
    uint32_t constraints[MOST_ENTRIES];
    uint32_t bads[MOST_ENTRIES];
    uint32_t outputs[MOST_ENTRIES];
    uint32_t ends[MOST_ENTRIES];
    uint32_t edges[MOST_ENTRIES];
    uint32_t fairness[MOST_ENTRIES];
    uint64_t counts[SULANDIRO_COUNTS];
} Graph;

void fail(const char *message);

/* Building. An edge is 2·id, and 1 more if it is complemented. */
void graph_start(Graph *g);
uint32_t graph_input(Graph *g);
uint32_t graph_leaf(Graph *g);
void graph_latch(Graph *g, uint32_t leaf, uint32_t next, uint32_t init);
uint32_t graph_and(Graph *g, uint32_t a, uint32_t b);
uint32_t graph_or(Graph *g, uint32_t a, uint32_t b);
uint32_t graph_ands(Graph *g, const uint32_t *edges, size_t n);
void graph_output(Graph *g, uint32_t edge);
void graph_bad(Graph *g, uint32_t edge);

static inline uint32_t opposite(uint32_t edge) { return edge ^ 1; }

/* Ends the program where the graph is not well-formed. */
void graph_check(const Graph *g);

/* So many frames of `from` behind a copy of it. */
void graph_unroll(const Graph *from, size_t frames, Graph *to);

/* The clauses, each a length word and literals; answers how many words they are. */
size_t graph_clauses(const Graph *g, uint32_t *words, size_t room);

/* The code that a latch starts with. Every latch here starts with a constant. */
uint8_t latch_start(const Graph *g, size_t latch);

/* One step: the code of every row, then each latch takes its next's. */
void graph_step(const Graph *g, const uint8_t *inputs, uint8_t *state, uint8_t *values);

/* The code of an edge after such a step. */
uint8_t edge_value(const Graph *g, const uint8_t *values, uint32_t edge);

#endif
