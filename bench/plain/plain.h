/* The calls on a whole graph in plain C, checks included: what the library is measured against. Document 01 says what each answers and writes. */
#ifndef PLAIN_H
#define PLAIN_H

#include <stddef.h>
#include <stdint.h>

#define NONE 4294967295u
#define FALSE_ROW 4294967294u
enum { MAX_ROWS = 1048576, MAX_ENTRIES = 65536, MAX_FRAMES = 4096, LATCH_WORDS = 3 };

/* A lent slice, of words or of bytes. */
typedef struct {
    uint32_t *at;
    size_t len;
} Words;

typedef struct {
    uint8_t *at;
    size_t len;
} Bytes;

typedef struct {
    size_t rows, inputs, latches, constraints, bads, outputs, sets, edges, fairness;
} Counts;

typedef struct {
    Words rows, inputs, latches, constraints, bads, outputs, ends, edges, fairness;
    Counts n;
} Graph;

/* Document 01's number, and its place: a row, or a list, an index and a second index. */
typedef struct {
    unsigned number;
    size_t place, index, second;
} Answer;

static inline Answer refused(unsigned number) { return (Answer){number, 0, 0, 0}; }
static inline Answer done(void) { return refused(0); }

/* What calls share. The check also says how many leaves it met; the marks are zero over the used rows after anything but 1. */
Answer check_graph(const Graph *g, Words marks, size_t *leaves);
Answer check_two(const Graph *g, const Graph *h, Words marks, size_t *leaves_of_h);
int within_limits(const Graph *out);
int has_room(const Graph *out, const Counts *need);
int edges_used(const uint32_t *edges, size_t n, size_t used);
void mark_edges(const uint32_t *edges, size_t n, uint32_t *marks);
void mark_roots(const Graph *g, uint32_t *marks);
void copy_graph(Graph *out, const Graph *g);

/* The calls. A call that writes a graph sets its counts; a refusal leaves them. */
Answer plain_check(const Graph *g, Words marks);
Answer plain_merge(Graph *g, const Graph *h, Words marks);
Answer plain_reencode(const Graph *g, Graph *out, Words marks);
Answer plain_coi_refine(const Graph *g, Graph *out, Words old, Words marks);
Answer plain_unroll(Graph *g, const Graph *from, Words marks);
Answer plain_unroll_to(const Graph *g, size_t frames, Graph *out, Words marks, size_t *finished);
Answer plain_aig_move(const Graph *g, Graph *out, Words marks);
Answer plain_compress_property(Graph *g, Words old, Words marks);
Answer plain_gate_init_to_constraint(Graph *g, Words marks);
Answer plain_fanin_logic_cone(const Graph *g, Words roots, Words flags, Words marks);
Answer plain_coi(const Graph *g, Words ids, Words flags, Words marks, Words stack);
Answer plain_ternary_simulate(const Graph *g, Bytes input, Bytes state, Bytes values, Words marks);
Answer plain_simulate(const Graph *g, Bytes input, Bytes state, Bytes values, Words marks);
Answer plain_cnf(const Graph *g, int shortcuts, Words clauses, Words marks, size_t *words);

#endif
