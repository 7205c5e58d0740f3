/* Sulandiro for C and C++: and-inverter graphs whose handling is proved.
 *
 * SLICES. All memory is the caller's. A slice is a pointer and a length in elements, not bytes. Of a slice of length 0 the pointer is never read, so
 * it may be null. A slice that a call writes must not overlap any other slice of that call: the proofs rest on it. The library keeps no pointer and
 * has no state of its own. The archives are ELF for x86-64, called by the System V convention.
 *
 * EDGES AND ROWS. An edge is one word: 2*id, or 2*id + 1 if complemented. So 0 is false and 1 is true. A row is two words, and the row's number is
 * its id; an odd last word is no row. Row 0 is (4294967294, 0). A leaf, at any later row, is (4294967295, 0). A gate at row i is two edges, each
 * below 2*i.
 *
 * A GRAPH is nine slices, in this order:
 *   rows         two words a row
 *   inputs       ids of leaves
 *   latches      three words a latch: input (a leaf's id), next (an edge), init (an edge, or 4294967295 for none)
 *   constraints, bads, outputs   edges
 *   ends, edges  justice: the edges of all sets in one list, and for each set where it ends in that list
 *   fairness     edges
 * Constraints, bads, outputs, justice and fairness are the root lists. A graph is well-formed where every used row is one of the three kinds at its place;
 * each input id and latch input is a used leaf, and none is listed twice over both lists together; every edge goes to a used row; ends never fall,
 * and the last is the number of justice edges.
 *
 * COUNTS are nine words in the order of `enum sulandiro_count`: how much of each slice is in use. What is lent beyond is room. A word that is not
 * there counts as 0. At most 1,048,576 rows may be lent, and 65,536 entries a list: of a graph, of room for one, or of edges or ids that are an
 * argument. Marks, stack, flags, values, clauses, the map of sulandiro_edge_map and old of sulandiro_coi_refine have no limit.
 *
 * TOLD. A call that can refuse writes what it answers into the slice `told`, as far as there is room: first the number and the place, then the
 * results, which each call names. The numbers, with the place (words 1, 2 and 3, else 0):
 *   0  done
 *   1  sizes: no row used, more used rows than lent, a limit passed, a count above its room, or marks, flags or values shorter than the used rows
 *   2  a used row is none of the three kinds; word 1 is the smallest such row
 *   3  a list entry breaks well-formedness; word 1 is the list (1 inputs, 2 latches, 3 constraints, 4 bads, 5 outputs, 6 justice, 7 fairness), word 2
 *      the index, word 3 is 0, or of an edge in a justice set 1 + its position in the set, whose index word 2 then is
 *   4  an argument is wrong for the call
 *   5  too little room for what the call would add; needs are counted before anything is written
 * They are tried in this order, and of two graphs first 1 of both, then 2 and 3 of the first, then of the second.
 *
 * A REFUSAL (any number but 0) changes no row, list, output or state; one exception stands at sulandiro_unroll_to. Words beyond those that a call
 * says it writes stay as they were.
 *
 * MARKS are work words, one a used row (of two graphs, of the larger). They may hold anything before; after the call they are zero over the rows that
 * were used before it. After number 1 they are untouched. */
#ifndef SULANDIRO_H
#define SULANDIRO_H

#include <stdbool.h>
#include <stddef.h>
#include <stdint.h>

#ifdef __cplusplus
extern "C" {
#endif

#define SULANDIRO_NONE 4294967295u      /* no init; also the first word of a leaf */
#define SULANDIRO_FALSE_ROW 4294967294u /* the first word of row 0 */
#define SULANDIRO_MAX_ROWS 1048576u
#define SULANDIRO_MAX_ENTRIES 65536u
#define SULANDIRO_MAX_FRAMES 4096u

enum sulandiro_number {
    SULANDIRO_DONE,
    SULANDIRO_BAD_SIZES,
    SULANDIRO_BAD_ROW,
    SULANDIRO_BAD_ENTRY,
    SULANDIRO_BAD_ARGUMENT,
    SULANDIRO_NO_ROOM
};

enum sulandiro_count {
    SULANDIRO_ROWS,
    SULANDIRO_INPUTS,
    SULANDIRO_LATCHES,
    SULANDIRO_CONSTRAINTS,
    SULANDIRO_BADS,
    SULANDIRO_OUTPUTS,
    SULANDIRO_SETS,
    SULANDIRO_EDGES,
    SULANDIRO_FAIRNESS,
    SULANDIRO_COUNTS /* how many there are */
};

/* Where what is told stands. Behind the place come the results: of most calls from word 4 on. Calls that change a graph tell its nine counts there,
 * and what they made behind them. */
enum sulandiro_told {
    SULANDIRO_NUMBER,
    SULANDIRO_PLACE,
    SULANDIRO_INDEX,
    SULANDIRO_SECOND,
    SULANDIRO_RESULT,
    SULANDIRO_MADE = SULANDIRO_RESULT + SULANDIRO_COUNTS,
    SULANDIRO_TOLD /* words that are enough for every call */
};

/* A three-valued code, one byte. */
enum sulandiro_code { SULANDIRO_FALSE, SULANDIRO_TRUE, SULANDIRO_UNKNOWN };

/* Parameters: a slice of words that is read or written, a graph, a second graph. */
#define SULANDIRO_IN(list) const uint32_t *list, size_t list##_len
#define SULANDIRO_OUT(list) uint32_t *list, size_t list##_len
#define SULANDIRO_COUNTED(list) const uint64_t *list, size_t list##_len
#define SULANDIRO_TELLS uint64_t *told, size_t told_len
#define SULANDIRO_GRAPH_IN                                                                                                                           \
    SULANDIRO_IN(rows), SULANDIRO_IN(inputs), SULANDIRO_IN(latches), SULANDIRO_IN(constraints), SULANDIRO_IN(bads), SULANDIRO_IN(outputs),           \
        SULANDIRO_IN(ends), SULANDIRO_IN(edges), SULANDIRO_IN(fairness)
#define SULANDIRO_GRAPH_OUT                                                                                                                          \
    SULANDIRO_OUT(rows), SULANDIRO_OUT(inputs), SULANDIRO_OUT(latches), SULANDIRO_OUT(constraints), SULANDIRO_OUT(bads), SULANDIRO_OUT(outputs),     \
        SULANDIRO_OUT(ends), SULANDIRO_OUT(edges), SULANDIRO_OUT(fairness)
#define SULANDIRO_GRAPH2_IN                                                                                                                          \
    SULANDIRO_IN(rows2), SULANDIRO_IN(inputs2), SULANDIRO_IN(latches2), SULANDIRO_IN(constraints2), SULANDIRO_IN(bads2), SULANDIRO_IN(outputs2),     \
        SULANDIRO_IN(ends2), SULANDIRO_IN(edges2), SULANDIRO_IN(fairness2)
#define SULANDIRO_GRAPH2_OUT                                                                                                                         \
    SULANDIRO_OUT(rows2), SULANDIRO_OUT(inputs2), SULANDIRO_OUT(latches2), SULANDIRO_OUT(constraints2), SULANDIRO_OUT(bads2),                        \
        SULANDIRO_OUT(outputs2), SULANDIRO_OUT(ends2), SULANDIRO_OUT(edges2), SULANDIRO_OUT(fairness2)

/* ---- Edges: they see no graph. Archive libsulandiro_edge.a ---- */

/* The edge to row id. 4 for an id above 2147483647. Word 4: the edge, 0 where refused. */
void sulandiro_edge_new(uint32_t id, bool complement, SULANDIRO_TELLS);

/* The row of an edge. */
uint32_t sulandiro_edge_node_id(uint32_t e);

/* Is the edge complemented? */
bool sulandiro_edge_compl(uint32_t e);

/* The same row with the other sign. */
uint32_t sulandiro_edge_not(uint32_t e);

/* The same edge, complemented once more where flip says so. */
uint32_t sulandiro_edge_not_if(uint32_t e, bool flip);

/* 0 for false, 1 for true. */
uint32_t sulandiro_edge_constant(bool polarity);

/* Is it an edge to row 0? */
bool sulandiro_edge_is_const(uint32_t e);

/* Is it that constant? */
bool sulandiro_edge_is_constant(uint32_t e, bool polarity);

/* Which constant it is: 0 false, 1 true, 2 neither. */
uint8_t sulandiro_edge_try_to_constant(uint32_t e);

/* The value of a constant. 4 for another edge. Word 4: 0 or 1, 0 where refused. */
void sulandiro_edge_to_constant(uint32_t e, SULANDIRO_TELLS);

/* The edge to the row that map[id] names, with the sign of e. 4 for an id outside the map, or mapped above 2147483647. Word 4: the edge, 0 where
 * refused. */
void sulandiro_edge_map(uint32_t e, SULANDIRO_IN(map), SULANDIRO_TELLS);

/* ---- One row. The others are not looked at, so there is no 2 or 3. Archive libsulandiro_edge.a ---- */

/* Is row id a gate? 1 for the rows and their number `used`, then 4 for an id that is not used. Word 4: 0 or 1, 0 where refused. */
void sulandiro_is_and(SULANDIRO_IN(rows), size_t used, uint32_t id, SULANDIRO_TELLS);

/* Is row id a leaf? Refused and told as sulandiro_is_and. */
void sulandiro_is_leaf(SULANDIRO_IN(rows), size_t used, uint32_t id, SULANDIRO_TELLS);

/* Both fanins of row id. Refused as sulandiro_is_and, then 4 for a row that is no gate. Words 4 and 5: the edges in the row's order, 0 where refused. */
void sulandiro_fanin(SULANDIRO_IN(rows), size_t used, uint32_t id, SULANDIRO_TELLS);

/* The first of them, in word 4. Refused as sulandiro_fanin. */
void sulandiro_fanin0(SULANDIRO_IN(rows), size_t used, uint32_t id, SULANDIRO_TELLS);

/* The second of them, in word 4. Refused as sulandiro_fanin. */
void sulandiro_fanin1(SULANDIRO_IN(rows), size_t used, uint32_t id, SULANDIRO_TELLS);

/* ---- Constructors. Archive libsulandiro_build.a ----
 * They look at the counts and at the edges or ids given, and don't scan rows: 1 for the slices that are lent, 4 for an edge or id that is not used, 5
 * for a row or an entry that does not fit. New rows follow the used ones. Words 4 to 12: the counts afterwards (refused: as given); word 13: the edge
 * or id made, 0 where refused. The counts are read and never written: for the next call copy them out of `told` first, since the two must not
 * overlap. */

/* Row 0 alone: 1 where too many rows are lent, 5 where none is. Refused, all counts are 0. */
void sulandiro_new(SULANDIRO_OUT(rows), SULANDIRO_TELLS);

/* A leaf in no list. Word 13: its id. */
void sulandiro_new_leaf_node(SULANDIRO_OUT(rows), SULANDIRO_COUNTED(counts), SULANDIRO_TELLS);

/* A new leaf that is the next input. Word 13: its id. */
void sulandiro_new_input(SULANDIRO_OUT(rows), SULANDIRO_OUT(inputs), SULANDIRO_COUNTED(counts), SULANDIRO_TELLS);

/* A used row, listed as the next input. The row is not looked at: one that is no leaf, or listed already, shows as 3 later. Word 13: its id. */
void sulandiro_add_input(SULANDIRO_IN(rows), SULANDIRO_OUT(inputs), SULANDIRO_COUNTED(counts), uint32_t input, SULANDIRO_TELLS);

/* A new leaf that is the input of the next latch. next and init go to rows used before; init may be SULANDIRO_NONE. Word 13: the leaf's id. */
void sulandiro_new_latch(SULANDIRO_OUT(rows), SULANDIRO_OUT(latches), SULANDIRO_COUNTED(counts), uint32_t next, uint32_t init, SULANDIRO_TELLS);

/* A used row, listed as the input of the next latch. It is not looked at, as with sulandiro_add_input. Word 13: its id. */
void sulandiro_add_latch(SULANDIRO_IN(rows), SULANDIRO_OUT(latches), SULANDIRO_COUNTED(counts), uint32_t input, uint32_t next, uint32_t init,
                         SULANDIRO_TELLS);

/* a AND b, always a row: the smaller id first, the given order for equal ids. */
void sulandiro_trivial_new_and_node(SULANDIRO_OUT(rows), SULANDIRO_COUNTED(counts), uint32_t a, uint32_t b, SULANDIRO_TELLS);

/* a AND b. No row, and no room needed, where it is a constant or one of the two; else as above. */
void sulandiro_new_and_node(SULANDIRO_OUT(rows), SULANDIRO_COUNTED(counts), uint32_t a, uint32_t b, SULANDIRO_TELLS);

/* a OR b, always a row: the complement of the AND of the complements. */
void sulandiro_trivial_new_or_node(SULANDIRO_OUT(rows), SULANDIRO_COUNTED(counts), uint32_t a, uint32_t b, SULANDIRO_TELLS);

/* a OR b, folded as sulandiro_new_and_node. */
void sulandiro_new_or_node(SULANDIRO_OUT(rows), SULANDIRO_COUNTED(counts), uint32_t a, uint32_t b, SULANDIRO_TELLS);

/* a implies b: (not a) OR b, folded. */
void sulandiro_new_imply_node(SULANDIRO_OUT(rows), SULANDIRO_COUNTED(counts), uint32_t a, uint32_t b, SULANDIRO_TELLS);

/* The AND of a list from the left, a row for each edge after the first. Of no edge it is true, of one that edge. Refused whole or done whole. */
void sulandiro_trivial_new_ands_node(SULANDIRO_OUT(rows), SULANDIRO_COUNTED(counts), SULANDIRO_IN(edges), SULANDIRO_TELLS);

/* The same, each step folded. */
void sulandiro_new_ands_node(SULANDIRO_OUT(rows), SULANDIRO_COUNTED(counts), SULANDIRO_IN(edges), SULANDIRO_TELLS);

/* The OR of a list from the left, a row for each edge after the first. Of no edge it is false, of one that edge. Refused whole or done whole. */
void sulandiro_trivial_new_ors_node(SULANDIRO_OUT(rows), SULANDIRO_COUNTED(counts), SULANDIRO_IN(edges), SULANDIRO_TELLS);

/* The same, each step folded. */
void sulandiro_new_ors_node(SULANDIRO_OUT(rows), SULANDIRO_COUNTED(counts), SULANDIRO_IN(edges), SULANDIRO_TELLS);

/* Are a and b equal? Up to three rows, folded; refused whole or done whole. */
void sulandiro_new_eq_node(SULANDIRO_OUT(rows), SULANDIRO_COUNTED(counts), uint32_t a, uint32_t b, SULANDIRO_TELLS);

/* ---- The check. Archive libsulandiro_read.a ---- */

/* 0 for a well-formed graph, else 1, 2 or 3 with the place of the first fault. Nothing is told but number and place. */
void sulandiro_check(SULANDIRO_GRAPH_IN, SULANDIRO_COUNTED(counts), SULANDIRO_OUT(marks), SULANDIRO_TELLS);

/* ---- Reading a whole graph: 1, 2 and 3 of the graph first. Archive libsulandiro_read.a ---- */

/* flags[i] becomes 1 for the rows of the edges `roots` and all fanins below, else 0, for each used row. Latches are not crossed, and row 0 is flagged
 * only when reached. 4 for a root that is not used. Nothing is told but number and place. */
void sulandiro_fanin_logic_cone(SULANDIRO_GRAPH_IN, SULANDIRO_COUNTED(counts), SULANDIRO_IN(roots), SULANDIRO_OUT(flags), SULANDIRO_OUT(marks),
                                SULANDIRO_TELLS);

/* The same from the row ids `ids`, with row 0 always, and across latches: from a latch's input to its next, not to its init. 4 for an id that is not
 * used. stack is a second slice of marks, under the same rules. */
void sulandiro_coi(SULANDIRO_GRAPH_IN, SULANDIRO_COUNTED(counts), SULANDIRO_IN(ids), SULANDIRO_OUT(flags), SULANDIRO_OUT(marks), SULANDIRO_OUT(stack),
                   SULANDIRO_TELLS);

/* The three-valued code of every used row, in values. input has one code an input, state one a latch, in list order; a leaf in no list is unknown. 4
 * where their lengths are not those counts, or a code is above 2. Nothing is told but number and place. */
void sulandiro_ternary_simulate(SULANDIRO_GRAPH_IN, SULANDIRO_COUNTED(counts), const uint8_t *input, size_t input_len, const uint8_t *state,
                                size_t state_len, uint8_t *values, size_t values_len, SULANDIRO_OUT(marks), SULANDIRO_TELLS);

/* The same, then each latch's state becomes the code of its next. */
void sulandiro_simulate(SULANDIRO_GRAPH_IN, SULANDIRO_COUNTED(counts), const uint8_t *input, size_t input_len, uint8_t *state, size_t state_len,
                        uint8_t *values, size_t values_len, SULANDIRO_OUT(marks), SULANDIRO_TELLS);

/* The code of edge e, by the values of a run over `used` rows. It sees no graph: 1 where used is 0 or values is shorter, then 4 for an edge that is
 * not used or a byte above 2 at its row. Word 4: the code, 0 where refused. */
void sulandiro_value(const uint8_t *values, size_t values_len, size_t used, uint32_t e, SULANDIRO_TELLS);

/* The clauses of the graph, for a SAT solver: each is its length and then its literals, which are edges. First comes [1, 1], so that row 0 is false;
 * then the gates that a root needs, from the last row down. Roots are every latch's next and init, constraints, bads, outputs, justice and fairness.
 * With shortcuts, exclusive ors and if-then-elses take four clauses of three literals. 5 where clauses is too short; 2 + 16 * gates words are always
 * enough. Word 4: how many words were written, 0 where refused. */
void sulandiro_cnf(SULANDIRO_GRAPH_IN, SULANDIRO_COUNTED(counts), bool shortcuts, SULANDIRO_OUT(clauses), SULANDIRO_OUT(marks), SULANDIRO_TELLS);

/* ---- Rebuilding. Archive libsulandiro_rebuild.a ----
 * Words 4 to 12 tell the counts of the graph that is written; refused, the counts of the first graph as given. Where a call writes into a second
 * graph, that is room alone: it has no counts, what it holds is not looked at, and it must be long enough for the result, else 5. */

/* The second graph behind the first: ids other than 0 move by the first's used rows - 1, in rows, latches (init too) and every list, justice by whole
 * sets. */
void sulandiro_merge(SULANDIRO_GRAPH_OUT, SULANDIRO_COUNTED(counts), SULANDIRO_GRAPH2_IN, SULANDIRO_COUNTED(counts2), SULANDIRO_OUT(marks),
                     SULANDIRO_TELLS);

/* The graph numbered anew into the second: row 0, inputs, latches, then gates in row order, each gate's smaller id first. 4 for a leaf in no list. */
void sulandiro_reencode(SULANDIRO_GRAPH_IN, SULANDIRO_COUNTED(counts), SULANDIRO_GRAPH2_OUT, SULANDIRO_OUT(marks), SULANDIRO_TELLS);

/* The rows that row 0, the root lists, every latch (its next too) and every init that is no constant need, in their order, into the second graph. All
 * latches and entries stay, but for inputs that are not needed. old[i] becomes the row that new row i was; 5 where it is too short. */
void sulandiro_coi_refine(SULANDIRO_GRAPH_IN, SULANDIRO_COUNTED(counts), SULANDIRO_GRAPH2_OUT, SULANDIRO_OUT(old), SULANDIRO_OUT(marks),
                          SULANDIRO_TELLS);

/* ---- Unrolling. Archive libsulandiro_unroll.a ---- */

/* A frame of the second graph behind the first: latch inputs stand for the first's nexts, every other leaf gets a new input, gates are built anew
 * with folding; then the first's nexts are the frame's, and each root list grows by the frame's entries, justice by whole sets. Init stays. 4 where
 * the first's first rows are not the second's used rows, or the latch inputs differ. Told as sulandiro_merge. */
void sulandiro_unroll(SULANDIRO_GRAPH_OUT, SULANDIRO_COUNTED(counts), SULANDIRO_GRAPH2_IN, SULANDIRO_COUNTED(counts2), SULANDIRO_OUT(marks),
                      SULANDIRO_TELLS);

/* So many frames on a copy, in the second graph, which is room alone. 4 above 4,096 frames. Words 4 to 12: the copy's counts; word 13: the finished
 * frames. At 5 the copy and the finished frames stand; where the copy itself does not fit nothing is written, and words 4 to 13 are 0. Refused by 1
 * to 4 the counts are those given, and word 13 is 0. Marks are needed for the given graph's rows alone. */
void sulandiro_unroll_to(SULANDIRO_GRAPH_IN, SULANDIRO_COUNTED(counts), size_t frames, SULANDIRO_GRAPH2_OUT, SULANDIRO_OUT(marks), SULANDIRO_TELLS);

/* ---- Properties: told as sulandiro_merge. Archive libsulandiro_property.a ---- */

/* The graph without constraints, in the second graph, which is room alone: a latch more, init true, whose next is the AND of it and all constraints;
 * the first bad and the first output become their AND with that next. No room is needed for constraints. */
void sulandiro_aig_move(SULANDIRO_GRAPH_IN, SULANDIRO_COUNTED(counts), SULANDIRO_GRAPH2_OUT, SULANDIRO_OUT(marks), SULANDIRO_TELLS);

/* One bad, the OR of all, false if there were none; rows and bads are written. The old bads go to the front of old, as many as the count of bads
 * given. old is a list: 1 where more than 65,536 entries are lent. 5 also where no bad is lent or old is too short. */
void sulandiro_compress_property(SULANDIRO_OUT(rows), SULANDIRO_IN(inputs), SULANDIRO_IN(latches), SULANDIRO_IN(constraints), SULANDIRO_OUT(bads),
                                 SULANDIRO_IN(outputs), SULANDIRO_IN(ends), SULANDIRO_IN(edges), SULANDIRO_IN(fairness), SULANDIRO_COUNTED(counts),
                                 SULANDIRO_OUT(old), SULANDIRO_OUT(marks), SULANDIRO_TELLS);

/* Each latch whose init is an edge to another row than 0 loses it. One new latch, next false and init true, is true at the start alone; for each such
 * latch a constraint says that the new latch implies latch = init. No such latch: nothing changes and no room is needed. Rows, latches and
 * constraints are written. */
void sulandiro_gate_init_to_constraint(SULANDIRO_OUT(rows), SULANDIRO_IN(inputs), SULANDIRO_OUT(latches), SULANDIRO_OUT(constraints),
                                       SULANDIRO_IN(bads), SULANDIRO_IN(outputs), SULANDIRO_IN(ends), SULANDIRO_IN(edges), SULANDIRO_IN(fairness),
                                       SULANDIRO_COUNTED(counts), SULANDIRO_OUT(marks), SULANDIRO_TELLS);

#undef SULANDIRO_IN
#undef SULANDIRO_OUT
#undef SULANDIRO_COUNTED
#undef SULANDIRO_TELLS
#undef SULANDIRO_GRAPH_IN
#undef SULANDIRO_GRAPH_OUT
#undef SULANDIRO_GRAPH2_IN
#undef SULANDIRO_GRAPH2_OUT

#ifdef __cplusplus
}
#endif

#endif
