/* Calls every exported function and holds all that it leaves to literal words. No compiler checks a declaration against the source, so the arguments
 * are such that any two of them exchanged give another result: the lists of a graph have all different lengths, each with exactly its count, and
 * different words. Where document 01 makes two arguments alike (the edges of a folded AND, OR or equality, the two work slices of sulandiro_coi)
 * nothing can show. Before a call all that it may write holds a word that occurs nowhere else, so that what is not written shows. */
#include "sulandiro.h"
#include <signal.h>
#include <stdio.h>
#include <stdlib.h>
#include <string.h>

#define U 77 /* untouched */
#define N SULANDIRO_NONE
#define F SULANDIRO_FALSE_ROW
#define S(a) a, sizeof(a) / sizeof *(a)
#define G(g) S(g##_rows), S(g##_inputs), S(g##_latches), S(g##_constraints), S(g##_bads), S(g##_outputs), S(g##_ends), S(g##_edges), S(g##_fairness)

/* Three inputs, two latches, four gates. */
#define ROWS F, 0, N, 0, N, 0, N, 0, N, 0, N, 0, 2, 8, 13, 4, 3, 11, 14, 17
#define INPUTS 5, 1, 2
#define LATCHES 3, 14, N, 4, 7, 12
#define CONSTRAINTS 19
#define BADS 12, 15, 16, 3
#define OUTPUTS 18, 2, 9, 13, 6
#define ENDS 0, 1, 1, 3, 4, 6, 8
#define EDGES 2, 5, 6, 9, 11, 12, 15, 17
#define FAIRNESS 4, 7, 8, 10, 13, 14, 16, 18, 19
static const uint32_t g_rows[] = {ROWS}, g_inputs[] = {INPUTS}, g_latches[] = {LATCHES}, g_constraints[] = {CONSTRAINTS}, g_bads[] = {BADS},
                      g_outputs[] = {OUTPUTS}, g_ends[] = {ENDS}, g_edges[] = {EDGES}, g_fairness[] = {FAIRNESS};
static const uint64_t g_counts[] = {10, 3, 2, 1, 4, 5, 7, 8, 9};

/* What calls write: a graph that changes or is made, with room to spare in every list, and words of their own. */
static uint32_t out_rows[36], out_inputs[7], out_latches[10], out_constraints[3], out_bads[9], out_outputs[11], out_ends[15], out_edges[17],
    out_fairness[19], marks[12], flags[13], stack[14], clauses[43], old[16];
static uint64_t told[14];

static const char *function;
static int failures;

static void untouched(uint32_t *words, size_t n) {
    for (size_t i = 0; i < n; i++) words[i] = U;
}

static void begin(const char *name) {
    function = name;
    for (size_t i = 0; i < 14; i++) told[i] = U;
    untouched(S(out_rows)), untouched(S(out_inputs)), untouched(S(out_latches)), untouched(S(out_constraints)), untouched(S(out_bads));
    untouched(S(out_outputs)), untouched(S(out_ends)), untouched(S(out_edges)), untouched(S(out_fairness));
    untouched(S(marks)), untouched(S(flags)), untouched(S(stack)), untouched(S(clauses)), untouched(S(old));
}

static void fail(const char *what, size_t at, uint64_t found, uint64_t wanted) {
    printf("%s: word %zu of %s is %llu, not %llu\n", function, at, what, (unsigned long long)found, (unsigned long long)wanted);
    failures++;
}

/* A declaration that is wrong may end here, before anything is compared. */
static void broken(int signal_number) {
    printf("%s: ended by signal %d\n", function, signal_number);
    fflush(stdout);
    _Exit(1);
}

static void same_word(const char *what, uint64_t found, uint64_t wanted) {
    if (found != wanted) fail(what, 0, found, wanted);
}

/* The wanted words, and in all that follow the word that was there. */
static void same_words(const char *what, const uint32_t *found, size_t n, const uint32_t *wanted, size_t m) {
    same_word("the test's own lengths", m > n, false);
    for (size_t i = 0; i < n; i++) {
        uint32_t word = i < m ? wanted[i] : U;
        if (found[i] != word) fail(what, i, found[i], word);
    }
}

static void same_bytes(const char *what, const uint8_t *found, const uint8_t *wanted, size_t n) {
    for (size_t i = 0; i < n; i++)
        if (found[i] != wanted[i]) fail(what, i, found[i], wanted[i]);
}

static void same_told(const uint64_t *wanted, size_t n) {
    for (size_t i = 0; i < 14; i++) {
        uint64_t word = i < n ? wanted[i] : U;
        if (told[i] != word) fail("told", i, told[i], word);
    }
}

#define HOLDS(list, ...)                                                                                                                             \
    do {                                                                                                                                             \
        const uint32_t wanted_words[] = {__VA_ARGS__};                                                                                               \
        same_words(#list, S(list), S(wanted_words));                                                                                                 \
    } while (0)
#define TELLS(...)                                                                                                                                   \
    do {                                                                                                                                             \
        const uint64_t wanted_words[] = {__VA_ARGS__};                                                                                               \
        same_told(S(wanted_words));                                                                                                                  \
    } while (0)
#define MARKS_CLEARED HOLDS(marks, 0, 0, 0, 0, 0, 0, 0, 0, 0, 0)

static void edges(void) {
    static const uint32_t map[] = {9, 8, 6};
    begin("sulandiro_edge_new");
    sulandiro_edge_new(5, true, S(told));
    TELLS(0, 0, 0, 0, 11);
    begin("sulandiro_edge_node_id");
    same_word("the result", sulandiro_edge_node_id(7), 3);
    begin("sulandiro_edge_compl");
    same_word("the result", sulandiro_edge_compl(7), true);
    same_word("the result", sulandiro_edge_compl(6), false);
    begin("sulandiro_edge_not");
    same_word("the result", sulandiro_edge_not(7), 6);
    begin("sulandiro_edge_not_if");
    same_word("the result", sulandiro_edge_not_if(6, true), 7);
    same_word("the result", sulandiro_edge_not_if(6, false), 6);
    begin("sulandiro_edge_constant");
    same_word("the result", sulandiro_edge_constant(true), 1);
    same_word("the result", sulandiro_edge_constant(false), 0);
    begin("sulandiro_edge_is_const");
    same_word("the result", sulandiro_edge_is_const(1), true);
    same_word("the result", sulandiro_edge_is_const(2), false);
    begin("sulandiro_edge_is_constant");
    same_word("the result", sulandiro_edge_is_constant(0, false), true);
    same_word("the result", sulandiro_edge_is_constant(0, true), false);
    same_word("the result", sulandiro_edge_is_constant(2, true), false);
    begin("sulandiro_edge_try_to_constant");
    same_word("the result", sulandiro_edge_try_to_constant(0), 0);
    same_word("the result", sulandiro_edge_try_to_constant(1), 1);
    same_word("the result", sulandiro_edge_try_to_constant(3), 2);
    begin("sulandiro_edge_to_constant");
    sulandiro_edge_to_constant(1, S(told));
    TELLS(0, 0, 0, 0, 1);
    begin("sulandiro_edge_map");
    sulandiro_edge_map(5, S(map), S(told));
    TELLS(0, 0, 0, 0, 13);
}

/* Of rows 0 to 7 the fanins of 6 are asked; with the two numbers exchanged row 8 would be. */
static void one_row(void) {
    begin("sulandiro_is_and");
    sulandiro_is_and(S(g_rows), 8, 6, S(told));
    TELLS(0, 0, 0, 0, 1);
    begin("sulandiro_is_leaf");
    sulandiro_is_leaf(S(g_rows), 8, 5, S(told));
    TELLS(0, 0, 0, 0, 1);
    begin("sulandiro_fanin");
    sulandiro_fanin(S(g_rows), 8, 6, S(told));
    TELLS(0, 0, 0, 0, 2, 8);
    begin("sulandiro_fanin0");
    sulandiro_fanin0(S(g_rows), 8, 6, S(told));
    TELLS(0, 0, 0, 0, 2);
    begin("sulandiro_fanin1");
    sulandiro_fanin1(S(g_rows), 8, 6, S(told));
    TELLS(0, 0, 0, 0, 8);
}

/* Constructors leave the counts of lists that they are not lent as given. */
#define OTHERS 15, 16, 17, 18, 19, 20
static const uint64_t two_rows[] = {2, 1, 1, OTHERS};

static void leaves(void) {
    begin("sulandiro_new");
    uint32_t room[] = {U, U, U};
    sulandiro_new(S(room), S(told));
    HOLDS(room, F, 0);
    TELLS(0, 0, 0, 0, 1, 0, 0, 0, 0, 0, 0, 0, 0, 0);
    begin("sulandiro_new_leaf_node");
    uint32_t leaf[] = {F, 0, N, 0, U, U, U, U};
    sulandiro_new_leaf_node(S(leaf), S(two_rows), S(told));
    HOLDS(leaf, F, 0, N, 0, N, 0);
    TELLS(0, 0, 0, 0, 3, 1, 1, OTHERS, 2);
    begin("sulandiro_new_input");
    uint32_t table[] = {F, 0, N, 0, U, U, U, U}, inputs[] = {1, U, U};
    sulandiro_new_input(S(table), S(inputs), S(two_rows), S(told));
    HOLDS(table, F, 0, N, 0, N, 0);
    HOLDS(inputs, 1, 2);
    TELLS(0, 0, 0, 0, 3, 2, 1, OTHERS, 2);
    begin("sulandiro_add_input");
    uint32_t listed[] = {1, U, U};
    sulandiro_add_input(S(table), S(listed), S(two_rows), 0, S(told));
    HOLDS(listed, 1, 0);
    TELLS(0, 0, 0, 0, 2, 2, 1, OTHERS, 0);
}

static void latches(void) {
    begin("sulandiro_new_latch");
    uint32_t table[] = {F, 0, N, 0, U, U, U, U}, latches[] = {1, 3, 0, U, U, U, U};
    sulandiro_new_latch(S(table), S(latches), S(two_rows), 3, 2, S(told));
    HOLDS(table, F, 0, N, 0, N, 0);
    HOLDS(latches, 1, 3, 0, 2, 3, 2);
    TELLS(0, 0, 0, 0, 3, 1, 2, OTHERS, 2);
    begin("sulandiro_add_latch");
    uint32_t listed[] = {1, 3, 0, U, U, U, U};
    sulandiro_add_latch(S(table), S(listed), S(two_rows), 1, 3, 2, S(told));
    HOLDS(listed, 1, 3, 0, 1, 3, 2);
    TELLS(0, 0, 0, 0, 2, 1, 2, OTHERS, 1);
}

/* Three rows are used, leaves 1 and 2 among them. */
#define THREE F, 0, N, 0, N, 0
static const uint64_t three_rows[] = {3, 13, 14, OTHERS};

/* The smaller id goes first, so the order of two edges shows where the ids are equal, and there only in a call that does not fold. */
static void nodes_of_two(void) {
    begin("sulandiro_trivial_new_and_node");
    uint32_t and0[] = {THREE, U, U, U};
    sulandiro_trivial_new_and_node(S(and0), S(three_rows), 5, 4, S(told));
    HOLDS(and0, THREE, 5, 4);
    TELLS(0, 0, 0, 0, 4, 13, 14, OTHERS, 6);
    begin("sulandiro_new_and_node");
    uint32_t and1[] = {THREE, U, U, U};
    sulandiro_new_and_node(S(and1), S(three_rows), 4, 3, S(told));
    HOLDS(and1, THREE, 3, 4);
    TELLS(0, 0, 0, 0, 4, 13, 14, OTHERS, 6);
    begin("sulandiro_trivial_new_or_node");
    uint32_t or0[] = {THREE, U, U, U};
    sulandiro_trivial_new_or_node(S(or0), S(three_rows), 5, 4, S(told));
    HOLDS(or0, THREE, 4, 5);
    TELLS(0, 0, 0, 0, 4, 13, 14, OTHERS, 7);
    begin("sulandiro_new_or_node");
    uint32_t or1[] = {THREE, U, U, U};
    sulandiro_new_or_node(S(or1), S(three_rows), 4, 3, S(told));
    HOLDS(or1, THREE, 2, 5);
    TELLS(0, 0, 0, 0, 4, 13, 14, OTHERS, 7);
    begin("sulandiro_new_imply_node");
    uint32_t imply[] = {THREE, U, U, U};
    sulandiro_new_imply_node(S(imply), S(three_rows), 4, 2, S(told));
    HOLDS(imply, THREE, 3, 4);
    TELLS(0, 0, 0, 0, 4, 13, 14, OTHERS, 7);
    begin("sulandiro_new_eq_node");
    uint32_t eq[] = {THREE, U, U, U, U, U, U, U};
    sulandiro_new_eq_node(S(eq), S(three_rows), 2, 4, S(told));
    HOLDS(eq, THREE, 2, 4, 3, 5, 7, 9);
    TELLS(0, 0, 0, 0, 6, 13, 14, OTHERS, 11);
}

/* The last edge folds, where the call folds. */
static void nodes_of_a_list(void) {
    static const uint32_t list[] = {5, 2, 1}, ors[] = {5, 2, 0};
    begin("sulandiro_trivial_new_ands_node");
    uint32_t and0[] = {THREE, U, U, U, U, U, U, U};
    sulandiro_trivial_new_ands_node(S(and0), S(three_rows), S(list), S(told));
    HOLDS(and0, THREE, 2, 5, 1, 6);
    TELLS(0, 0, 0, 0, 5, 13, 14, OTHERS, 8);
    begin("sulandiro_new_ands_node");
    uint32_t and1[] = {THREE, U, U, U, U, U, U, U};
    sulandiro_new_ands_node(S(and1), S(three_rows), S(list), S(told));
    HOLDS(and1, THREE, 2, 5);
    TELLS(0, 0, 0, 0, 4, 13, 14, OTHERS, 6);
    begin("sulandiro_trivial_new_ors_node");
    uint32_t or0[] = {THREE, U, U, U, U, U, U, U};
    sulandiro_trivial_new_ors_node(S(or0), S(three_rows), S(ors), S(told));
    HOLDS(or0, THREE, 3, 4, 1, 6);
    TELLS(0, 0, 0, 0, 5, 13, 14, OTHERS, 9);
    begin("sulandiro_new_ors_node");
    uint32_t or1[] = {THREE, U, U, U, U, U, U, U};
    sulandiro_new_ors_node(S(or1), S(three_rows), S(ors), S(told));
    HOLDS(or1, THREE, 3, 4);
    TELLS(0, 0, 0, 0, 4, 13, 14, OTHERS, 7);
}

static void check(void) {
    static const uint32_t unused_edge[] = {2, 5, 6, 9, 11, 20, 15, 17};
    begin("sulandiro_check");
    sulandiro_check(G(g), S(g_counts), S(marks), S(told));
    MARKS_CLEARED;
    TELLS(0, 0, 0, 0);
    begin("sulandiro_check");
    sulandiro_check(S(g_rows), S(g_inputs), S(g_latches), S(g_constraints), S(g_bads), S(g_outputs), S(g_ends), S(unused_edge), S(g_fairness),
                    S(g_counts), S(marks), S(told));
    MARKS_CLEARED;
    TELLS(3, 6, 5, 2);
}

static void cones(void) {
    static const uint32_t roots[] = {13, 10}, ids[] = {4, 2};
    begin("sulandiro_fanin_logic_cone");
    sulandiro_fanin_logic_cone(G(g), S(g_counts), S(roots), S(flags), S(marks), S(told));
    HOLDS(flags, 0, 1, 0, 0, 1, 1, 1, 0, 0, 0);
    MARKS_CLEARED;
    TELLS(0, 0, 0, 0);
    begin("sulandiro_coi");
    sulandiro_coi(G(g), S(g_counts), S(ids), S(flags), S(marks), S(stack), S(told));
    HOLDS(flags, 1, 1, 1, 1, 1, 0, 1, 1, 0, 0);
    MARKS_CLEARED;
    HOLDS(stack, 0, 0, 0, 0, 0, 0, 0, 0, 0, 0);
    TELLS(0, 0, 0, 0);
}

static void ternary(void) {
    static const uint8_t input[] = {0, 0, 1}, codes[] = {0, 0, 1, 2, 1, 0, 0, 1, 1, 0, U, U}, stepped[] = {1, 2}, some[] = {0, 2, 0, 1, 1, 1};
    begin("sulandiro_ternary_simulate");
    uint8_t state[] = {2, 1}, values[] = {U, U, U, U, U, U, U, U, U, U, U, U};
    sulandiro_ternary_simulate(G(g), S(g_counts), S(input), S(state), S(values), S(marks), S(told));
    same_bytes("values", values, codes, sizeof codes);
    MARKS_CLEARED;
    TELLS(0, 0, 0, 0);
    begin("sulandiro_simulate");
    memset(values, U, sizeof values);
    sulandiro_simulate(G(g), S(g_counts), S(input), S(state), S(values), S(marks), S(told));
    same_bytes("values", values, codes, sizeof codes);
    same_bytes("state", state, stepped, sizeof stepped);
    MARKS_CLEARED;
    TELLS(0, 0, 0, 0);
    begin("sulandiro_value");
    sulandiro_value(S(some), 3, 5, S(told));
    TELLS(0, 0, 0, 0, 1);
}

/* Document 01's table X with shortcuts (M8), and the graph above, where none applies. */
static void solver_clauses(void) {
    static const uint32_t x_rows[] = {F, 0, N, 0, N, 0, 2, 4, 3, 5, 7, 9}, x_inputs[] = {1, 2}, x_outputs[] = {10};
    static const uint64_t x_counts[] = {6, 2, 0, 0, 0, 1};
    begin("sulandiro_cnf");
    sulandiro_cnf(S(x_rows), S(x_inputs), NULL, 0, NULL, 0, NULL, 0, S(x_outputs), NULL, 0, NULL, 0, NULL, 0, S(x_counts), true, S(clauses), S(marks),
                  S(told));
    HOLDS(clauses, 1, 1, 3, 11, 2, 4, 3, 11, 3, 5, 3, 10, 3, 4, 3, 10, 2, 5);
    HOLDS(marks, 0, 0, 0, 0, 0, 0);
    TELLS(0, 0, 0, 0, 18);
    begin("sulandiro_cnf");
    sulandiro_cnf(G(g), S(g_counts), false, S(clauses), S(marks), S(told));
    HOLDS(clauses, 1, 1, 2, 19, 14, 2, 19, 17, 3, 18, 15, 16, 2, 17, 3, 2, 17, 11, 3, 16, 2, 10, 2, 15, 13, 2, 15, 4, 3, 14, 12, 5, 2, 13, 2, 2, 13, 8, 3,
          12, 3, 9);
    MARKS_CLEARED;
    TELLS(0, 0, 0, 0, 42);
}

/* Puts words at the front of a list that is to change. */
#define PUT(list, ...)                                                                                                                               \
    do {                                                                                                                                             \
        const uint32_t put_words[] = {__VA_ARGS__};                                                                                                  \
        memcpy(list, put_words, sizeof put_words);                                                                                                   \
    } while (0)

static void put_graph(void) {
    PUT(out_rows, ROWS);
    PUT(out_inputs, INPUTS);
    PUT(out_latches, LATCHES);
    PUT(out_constraints, CONSTRAINTS);
    PUT(out_bads, BADS);
    PUT(out_outputs, OUTPUTS);
    PUT(out_ends, ENDS);
    PUT(out_edges, EDGES);
    PUT(out_fairness, FAIRNESS);
}

/* Ids other than 0 move by 2, so edges by 4. */
static void merge(void) {
    static const uint64_t counts[] = {3, 1, 1, 0, 1, 2, 1, 1, 2};
    begin("sulandiro_merge");
    PUT(out_rows, THREE);
    PUT(out_inputs, 2);
    PUT(out_latches, 1, 5, 0);
    PUT(out_bads, 4);
    PUT(out_outputs, 3, 2);
    PUT(out_ends, 1);
    PUT(out_edges, 2);
    PUT(out_fairness, 5, 3);
    sulandiro_merge(G(out), S(counts), G(g), S(g_counts), S(marks), S(told));
    HOLDS(out_rows, THREE, N, 0, N, 0, N, 0, N, 0, N, 0, 6, 12, 17, 8, 7, 15, 18, 21);
    HOLDS(out_inputs, 2, 7, 3, 4);
    HOLDS(out_latches, 1, 5, 0, 5, 18, N, 6, 11, 16);
    HOLDS(out_constraints, 23);
    HOLDS(out_bads, 4, 16, 19, 20, 7);
    HOLDS(out_outputs, 3, 2, 22, 6, 13, 17, 10);
    HOLDS(out_ends, 1, 1, 2, 2, 4, 5, 7, 9);
    HOLDS(out_edges, 2, 6, 9, 10, 13, 15, 16, 19, 21);
    HOLDS(out_fairness, 5, 3, 8, 11, 12, 14, 17, 18, 20, 22, 23);
    MARKS_CLEARED;
    TELLS(0, 0, 0, 0, 12, 4, 3, 1, 5, 7, 8, 9, 11);
}

/* In the order of its inputs 5, 1, 2 and its latches 3, 4, which become 1 to 5. */
static void reencode(void) {
    begin("sulandiro_reencode");
    sulandiro_reencode(G(g), S(g_counts), G(out), S(marks), S(told));
    HOLDS(out_rows, F, 0, N, 0, N, 0, N, 0, N, 0, N, 0, 4, 10, 6, 13, 3, 5, 14, 17);
    HOLDS(out_inputs, 1, 2, 3);
    HOLDS(out_latches, 4, 14, N, 5, 9, 12);
    HOLDS(out_constraints, 19);
    HOLDS(out_bads, 12, 15, 16, 5);
    HOLDS(out_outputs, 18, 4, 11, 13, 8);
    HOLDS(out_ends, ENDS);
    HOLDS(out_edges, 4, 7, 8, 11, 3, 12, 15, 17);
    HOLDS(out_fairness, 6, 9, 10, 2, 13, 14, 16, 18, 19);
    MARKS_CLEARED;
    TELLS(0, 0, 0, 0, 10, 3, 2, 1, 4, 5, 7, 8, 9);
}

/* The graph with an input 10 and a gate 11 that nothing needs. */
static void coi_refine(void) {
    static const uint32_t more_rows[] = {ROWS, N, 0, 2, 20}, more_inputs[] = {5, 10, 1, 2};
    static const uint64_t counts[] = {12, 4, 2, 1, 4, 5, 7, 8, 9};
    begin("sulandiro_coi_refine");
    sulandiro_coi_refine(S(more_rows), S(more_inputs), S(g_latches), S(g_constraints), S(g_bads), S(g_outputs), S(g_ends), S(g_edges), S(g_fairness),
                         S(counts), G(out), S(old), S(marks), S(told));
    HOLDS(out_rows, ROWS);
    HOLDS(out_inputs, INPUTS);
    HOLDS(out_latches, LATCHES);
    HOLDS(out_constraints, CONSTRAINTS);
    HOLDS(out_bads, BADS);
    HOLDS(out_outputs, OUTPUTS);
    HOLDS(out_ends, ENDS);
    HOLDS(out_edges, EDGES);
    HOLDS(out_fairness, FAIRNESS);
    HOLDS(old, 0, 1, 2, 3, 4, 5, 6, 7, 8, 9);
    HOLDS(marks, 0, 0, 0, 0, 0, 0, 0, 0, 0, 0, 0, 0);
    TELLS(0, 0, 0, 0, 10, 3, 2, 1, 4, 5, 7, 8, 9);
}

/* The graph and a frame of it, its constraints apart: inputs 1, 2 and 5 become 10, 11 and 12, latches 3 and 4 the edges 14 and 7, gates 13 to 16. */
static void one_frame(void) {
    HOLDS(out_rows, ROWS, N, 0, N, 0, N, 0, 7, 20, 22, 27, 21, 25, 28, 31);
    HOLDS(out_inputs, INPUTS, 10, 11, 12);
    HOLDS(out_latches, 3, 28, N, 4, 15, 12);
    HOLDS(out_bads, BADS, 26, 29, 30, 21);
    HOLDS(out_outputs, OUTPUTS, 32, 20, 6, 27, 14);
    HOLDS(out_ends, ENDS, 8, 9, 9, 11, 12, 14, 16);
    HOLDS(out_edges, EDGES, 20, 23, 14, 6, 25, 26, 29, 31);
    HOLDS(out_fairness, FAIRNESS, 22, 15, 7, 24, 27, 28, 30, 32, 33);
    MARKS_CLEARED;
}

/* The target has no constraint, so that its counts are not those of the other graph. */
static void unroll(void) {
    static const uint64_t counts[] = {10, 3, 2, 0, 4, 5, 7, 8, 9};
    begin("sulandiro_unroll");
    put_graph();
    sulandiro_unroll(G(out), S(counts), G(g), S(g_counts), S(marks), S(told));
    one_frame();
    HOLDS(out_constraints, 33);
    TELLS(0, 0, 0, 0, 17, 6, 2, 1, 8, 10, 14, 16, 18);
    begin("sulandiro_unroll_to");
    sulandiro_unroll_to(G(g), S(g_counts), 1, G(out), S(marks), S(told));
    one_frame();
    HOLDS(out_constraints, CONSTRAINTS, 33);
    TELLS(0, 0, 0, 0, 17, 6, 2, 2, 8, 10, 14, 16, 18, 1);
}

/* Latch 10 and the constraint make gate 11; the first bad becomes gate 12, the first output gate 13. */
static void aig_move(void) {
    begin("sulandiro_aig_move");
    sulandiro_aig_move(G(g), S(g_counts), G(out), S(marks), S(told));
    HOLDS(out_rows, ROWS, N, 0, 19, 20, 12, 22, 18, 22);
    HOLDS(out_inputs, INPUTS);
    HOLDS(out_latches, LATCHES, 10, 22, 1);
    HOLDS(out_constraints, U);
    HOLDS(out_bads, 24, 15, 16, 3);
    HOLDS(out_outputs, 26, 2, 9, 13, 6);
    HOLDS(out_ends, ENDS);
    HOLDS(out_edges, EDGES);
    HOLDS(out_fairness, FAIRNESS);
    MARKS_CLEARED;
    TELLS(0, 0, 0, 0, 14, 3, 3, 0, 4, 5, 7, 8, 9);
}

static void properties(void) {
    begin("sulandiro_compress_property");
    put_graph();
    sulandiro_compress_property(S(out_rows), S(g_inputs), S(g_latches), S(g_constraints), S(out_bads), S(g_outputs), S(g_ends), S(g_edges), S(g_fairness),
                                S(g_counts), S(old), S(marks), S(told));
    HOLDS(out_rows, ROWS, 13, 14, 17, 20, 2, 22);
    HOLDS(out_bads, 25, 15, 16, 3);
    HOLDS(old, BADS);
    MARKS_CLEARED;
    TELLS(0, 0, 0, 0, 13, 3, 2, 1, 1, 5, 7, 8, 9);
    begin("sulandiro_gate_init_to_constraint");
    put_graph();
    sulandiro_gate_init_to_constraint(S(out_rows), S(g_inputs), S(out_latches), S(out_constraints), S(g_bads), S(g_outputs), S(g_ends), S(g_edges),
                                      S(g_fairness), S(g_counts), S(marks), S(told));
    HOLDS(out_rows, ROWS, N, 0, 8, 12, 9, 13, 23, 25, 20, 26);
    HOLDS(out_latches, 3, 14, N, 4, 7, N, 10, 0, 1);
    HOLDS(out_constraints, CONSTRAINTS, 29);
    MARKS_CLEARED;
    TELLS(0, 0, 0, 0, 15, 3, 3, 2, 4, 5, 7, 8, 9);
}

int main(void) {
    signal(SIGSEGV, broken);
    signal(SIGBUS, broken);
    edges();
    one_row();
    leaves();
    latches();
    nodes_of_two();
    nodes_of_a_list();
    check();
    cones();
    ternary();
    solver_clauses();
    merge();
    reencode();
    coi_refine();
    unroll();
    aig_move();
    properties();
    if (failures) printf("%d words are not as expected\n", failures);
    return failures != 0;
}
