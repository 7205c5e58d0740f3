/* Every call on a whole graph, by the library and in plain C. `told` has the answer's number and place, then the counts or what else is answered. */
#include <string.h>

#include "cases.h"
#include "sulandiro.h"

#define S(s) (s).at, (s).len
#define G(g) S((g).rows), S((g).inputs), S((g).latches), S((g).constraints), S((g).bads), S((g).outputs), S((g).ends), S((g).edges), S((g).fairness)
#define COUNTS(name, graph)                                                                                                                     \
    const uint64_t name[] = {(graph).n.rows, (graph).n.inputs, (graph).n.latches, (graph).n.constraints, (graph).n.bads, (graph).n.outputs,      \
                             (graph).n.sets, (graph).n.edges,  (graph).n.fairness}

static void tell(Case *c, Answer a) {
    c->told[0] = a.number;
    c->told[1] = a.place;
    c->told[2] = a.index;
    c->told[3] = a.second;
}

static void tell_counts(Case *c, Answer a, const Counts *n) {
    const uint64_t counts[] = {n->rows, n->inputs, n->latches, n->constraints, n->bads, n->outputs, n->sets, n->edges, n->fairness};
    tell(c, a);
    memcpy(&c->told[4], counts, sizeof counts);
}

/* The counts of an output where it was written, else those of the graph. */
static void tell_output(Case *c, Answer a) { tell_counts(c, a, a.number ? &c->g.n : &c->h.n); }

static void check_library(Case *c) {
    COUNTS(n, c->g);
    sulandiro_check(G(c->g), n, 9, S(c->marks), c->told, TOLD);
}
static void check_plain(Case *c) { tell(c, plain_check(&c->g, c->marks)); }

static void merge_library(Case *c) {
    COUNTS(n, c->g);
    COUNTS(m, c->h);
    sulandiro_merge(G(c->g), n, 9, G(c->h), m, 9, S(c->marks), c->told, TOLD);
}
static void merge_plain(Case *c) { tell_counts(c, plain_merge(&c->g, &c->h, c->marks), &c->g.n); }

static void reencode_library(Case *c) {
    COUNTS(n, c->g);
    sulandiro_reencode(G(c->g), n, 9, G(c->h), S(c->marks), c->told, TOLD);
}
static void reencode_plain(Case *c) { tell_output(c, plain_reencode(&c->g, &c->h, c->marks)); }

static void refine_library(Case *c) {
    COUNTS(n, c->g);
    sulandiro_coi_refine(G(c->g), n, 9, G(c->h), S(c->old), S(c->marks), c->told, TOLD);
}
static void refine_plain(Case *c) { tell_output(c, plain_coi_refine(&c->g, &c->h, c->old, c->marks)); }

static void unroll_library(Case *c) {
    COUNTS(n, c->g);
    COUNTS(m, c->h);
    sulandiro_unroll(G(c->g), n, 9, G(c->h), m, 9, S(c->marks), c->told, TOLD);
}
static void unroll_plain(Case *c) { tell_counts(c, plain_unroll(&c->g, &c->h, c->marks), &c->g.n); }

static void unroll_to_library(Case *c) {
    COUNTS(n, c->g);
    sulandiro_unroll_to(G(c->g), n, 9, c->frames, G(c->h), S(c->marks), c->told, TOLD);
}
/* After 5 the counts are those of the output as far as it was written. */
static void unroll_to_plain(Case *c) {
    size_t finished;
    Answer a = plain_unroll_to(&c->g, c->frames, &c->h, c->marks, &finished);
    tell_counts(c, a, a.number == 0 || a.number == 5 ? &c->h.n : &c->g.n);
    c->told[13] = finished;
}

static void move_library(Case *c) {
    COUNTS(n, c->g);
    sulandiro_aig_move(G(c->g), n, 9, G(c->h), S(c->marks), c->told, TOLD);
}
static void move_plain(Case *c) { tell_output(c, plain_aig_move(&c->g, &c->h, c->marks)); }

static void compress_library(Case *c) {
    COUNTS(n, c->g);
    sulandiro_compress_property(G(c->g), n, 9, S(c->old), S(c->marks), c->told, TOLD);
}
static void compress_plain(Case *c) { tell_counts(c, plain_compress_property(&c->g, c->old, c->marks), &c->g.n); }

static void gate_init_library(Case *c) {
    COUNTS(n, c->g);
    sulandiro_gate_init_to_constraint(G(c->g), n, 9, S(c->marks), c->told, TOLD);
}
static void gate_init_plain(Case *c) { tell_counts(c, plain_gate_init_to_constraint(&c->g, c->marks), &c->g.n); }

static void cone_library(Case *c) {
    COUNTS(n, c->g);
    sulandiro_fanin_logic_cone(G(c->g), n, 9, S(c->roots), S(c->flags), S(c->marks), c->told, TOLD);
}
static void cone_plain(Case *c) { tell(c, plain_fanin_logic_cone(&c->g, c->roots, c->flags, c->marks)); }

static void coi_library(Case *c) {
    COUNTS(n, c->g);
    sulandiro_coi(G(c->g), n, 9, S(c->ids), S(c->flags), S(c->marks), S(c->stack), c->told, TOLD);
}
static void coi_plain(Case *c) { tell(c, plain_coi(&c->g, c->ids, c->flags, c->marks, c->stack)); }

static void run_library(Case *c) {
    COUNTS(n, c->g);
    sulandiro_ternary_simulate(G(c->g), n, 9, S(c->input), S(c->state), S(c->values), S(c->marks), c->told, TOLD);
}
static void run_plain(Case *c) { tell(c, plain_ternary_simulate(&c->g, c->input, c->state, c->values, c->marks)); }

static void step_library(Case *c) {
    COUNTS(n, c->g);
    sulandiro_simulate(G(c->g), n, 9, S(c->input), S(c->state), S(c->values), S(c->marks), c->told, TOLD);
}
static void step_plain(Case *c) { tell(c, plain_simulate(&c->g, c->input, c->state, c->values, c->marks)); }

static void cnf_library(Case *c) {
    COUNTS(n, c->g);
    sulandiro_cnf(G(c->g), n, 9, true, S(c->clauses), S(c->marks), c->told, TOLD);
}
static void cnf_plain(Case *c) {
    size_t words;
    tell(c, plain_cnf(&c->g, 1, c->clauses, c->marks, &words));
    c->told[4] = words;
}

const Call CALLS[] = {
    {"check", make_read, check_library, check_plain},
    {"merge", make_two, merge_library, merge_plain},
    {"reencode", make_output, reencode_library, reencode_plain},
    {"coi_refine", make_output, refine_library, refine_plain},
    {"unroll", make_two, unroll_library, unroll_plain},
    {"unroll_to", make_frames, unroll_to_library, unroll_to_plain},
    {"aig_move", make_grown, move_library, move_plain},
    {"compress_property", make_grown, compress_library, compress_plain},
    {"gate_init_to_constraint", make_grown, gate_init_library, gate_init_plain},
    {"fanin_logic_cone", make_read, cone_library, cone_plain},
    {"coi", make_read, coi_library, coi_plain},
    {"ternary_simulate", make_read, run_library, run_plain},
    {"simulate", make_read, step_library, step_plain},
    {"cnf", make_read, cnf_library, cnf_plain},
};
const size_t N_CALLS = sizeof CALLS / sizeof *CALLS;
