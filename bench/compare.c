/* Do the library and the plain C the same job? Both get equal words, and everything that is lent and told has to be equal afterwards. */
#include <stdio.h>
#include <string.h>

#include "cases.h"

/* Makes something wrong with what a call is lent, so that calls refuse it: the C is seen to check what DAMAGES names, and one row of a second graph. Not compared are the
   limits on what is lent (rows, entries of a list, roots, ids, `old`), a short `stack`, and the other checks of a second graph. */
typedef struct {
    const char *name;
    void (*make)(Case *);
} Damage;

static uint32_t unused_edge(const Case *c) { return 2 * (uint32_t)c->g.n.rows; }

static void nothing(Case *c) { (void)c; }
static void no_rows(Case *c) { c->g.n.rows = 0; }
static void few_marks(Case *c) { c->marks.len = c->g.n.rows - 1; }
static void many_bads(Case *c) { c->g.n.bads = c->g.bads.len + 1; }
static void many_latches(Case *c) { c->g.latches.len = LATCH_WORDS * c->g.n.latches - 1; }
static void few_flags(Case *c) { c->flags.len = c->values.len = c->g.n.rows - 1; }
static void row_0(Case *c) { c->g.rows.at[1] = 1; }
static void last_row(Case *c) { c->g.rows.at[2 * c->g.n.rows - 1] = unused_edge(c) - 2; }
static void second_graph(Case *c) { c->h.rows.at[2 * 1000] = 2000; }
static void leaf_row(Case *c) { c->g.rows.at[3] = 1; }
static void input_twice(Case *c) { c->g.inputs.at[7] = c->g.inputs.at[3]; }
static void input_and_latch(Case *c) { c->g.latches.at[LATCH_WORDS * 5] = c->g.inputs.at[3]; }
static void input_is_gate(Case *c) { c->g.inputs.at[2] = (uint32_t)c->g.n.rows - 1; }
static void next_unused(Case *c) { c->g.latches.at[LATCH_WORDS * 4 + 1] = unused_edge(c); }
static void init_unused(Case *c) { c->g.latches.at[LATCH_WORDS * 4 + 2] = unused_edge(c) + 1; }
static void constraint_unused(Case *c) { c->g.constraints.at[1] = unused_edge(c); }
static void bad_unused(Case *c) { c->g.bads.at[c->g.n.bads - 1] = unused_edge(c); }
static void output_unused(Case *c) { c->g.outputs.at[0] = unused_edge(c); }
static void end_falls(Case *c) { c->g.ends.at[1] = 0; }
static void last_end(Case *c) { c->g.ends.at[c->g.n.sets - 1]++; }
static void no_sets(Case *c) { c->g.n.sets = 0; }
static void justice_unused(Case *c) { c->g.edges.at[5] = unused_edge(c); }
static void fairness_unused(Case *c) { c->g.fairness.at[3] = unused_edge(c); }
static void orphan(Case *c) { c->g.n.inputs--; }
static void latches_swapped(Case *c) {
    uint32_t kept = c->g.latches.at[0];
    c->g.latches.at[0] = c->g.latches.at[LATCH_WORDS];
    c->g.latches.at[LATCH_WORDS] = kept;
}
static void many_frames(Case *c) { c->frames = MAX_FRAMES + 1; }
static void code_3(Case *c) {
    if (c->input.len) c->input.at[1] = 3;
}
static void argument_unused(Case *c) {
    if (c->roots.len) c->roots.at[2] = c->ids.at[2] = unused_edge(c);
}
/* No row is free, or an output has room for a part: of unroll_to's frames one and a half. */
static void few_rows(Case *c) {
    if (c->h.n.rows == 0) c->h.rows.len = c->h.rows.len * 5 / 8;
    c->g.rows.len = 2 * c->g.n.rows;
    c->clauses.len = 1000;
}
/* Less than the most that a call can need, but, where gates fold, what it does need. */
static void tight_rows(Case *c) {
    if (c->h.n.rows == 0)
        c->h.rows.len = 2 * (c->g.n.rows * (1 + c->frames) - c->frames) - 2;
    else
        c->g.rows.len = 2 * (c->g.n.rows + c->h.n.rows - 1) - 2;
    c->clauses.len = 14 * c->g.n.rows;
}
static void few_entries(Case *c) {
    c->g.constraints.len = c->g.n.constraints;
    c->h.fairness.len = c->g.n.fairness;
    c->old.len = c->old.len < 10 ? 0 : 10;
}

static const Damage DAMAGES[] = {
    {"no rows", no_rows},
    {"few marks", few_marks},
    {"many bads", many_bads},
    {"many latches", many_latches},
    {"few flags", few_flags},
    {"row 0", row_0},
    {"last row", last_row},
    {"leaf row", leaf_row},
    {"input twice", input_twice},
    {"input and latch", input_and_latch},
    {"input is gate", input_is_gate},
    {"next unused", next_unused},
    {"init unused", init_unused},
    {"constraint unused", constraint_unused},
    {"bad unused", bad_unused},
    {"output unused", output_unused},
    {"end falls", end_falls},
    {"last end", last_end},
    {"no sets", no_sets},
    {"justice unused", justice_unused},
    {"fairness unused", fairness_unused},
    {"orphan", orphan},
    {"latches swapped", latches_swapped},
    {"many frames", many_frames},
    {"code 3", code_3},
    {"argument unused", argument_unused},
    {"few rows", few_rows},
    {"tight rows", tight_rows},
    {"few entries", few_entries},
};
enum { N_DAMAGES = sizeof DAMAGES / sizeof *DAMAGES, NUMBERS = 6 };

static void show(const Call *call, size_t rows, const char *damage, const Case *a, const Case *b, size_t at) {
    printf("%s at %zu rows, %s: different\n", call->name, rows, damage);
    for (int i = 0; i < TOLD; i++)
        if (a->told[i] != b->told[i]) printf("  told %d: %llu by the library, %llu in C\n", i, (unsigned long long)a->told[i], (unsigned long long)b->told[i]);
    if (at < a->taken) printf("  first byte that differs: %zu of %zu\n", at, a->taken);
}

/* The number that both answer, or NUMBERS where they differ in anything. */
static unsigned both_answer(const Call *call, size_t rows, const Damage *damage) {
    Case a, b;
    size_t at = 0;
    case_new(&a);
    case_new(&b);
    call->make(&a, rows);
    call->make(&b, rows);
    damage->make(&a);
    damage->make(&b);
    call->library(&a);
    call->plain(&b);
    while (at < a.taken && a.block[at] == b.block[at]) at++;
    int equal = at == a.taken && memcmp(a.told, b.told, sizeof a.told) == 0;
    if (!equal) show(call, rows, damage->name, &a, &b, at);
    case_free(&a);
    case_free(&b);
    return equal && a.told[0] < NUMBERS ? (unsigned)a.told[0] : NUMBERS;
}

/* What is measured is calls that are done. */
int compare_done(size_t rows) {
    const Damage none = {"as it is measured", nothing};
    for (size_t i = 0; i < N_CALLS; i++) {
        unsigned number = both_answer(&CALLS[i], rows, &none);
        if (number == 0) continue;
        printf("%s at %zu rows: answer %u\n", CALLS[i].name, rows, number);
        return 1;
    }
    printf("%zu calls at %zu rows: all words equal\n", N_CALLS, rows);
    return 0;
}

/* Every number has to be answered: else this compares less than it says. */
int compare_refused(size_t rows) {
    size_t answered[NUMBERS + 1] = {0};
    for (size_t i = 0; i < N_CALLS; i++)
        for (size_t d = 0; d < N_DAMAGES; d++) answered[both_answer(&CALLS[i], rows, &DAMAGES[d])]++;
    for (size_t i = 0; i < N_CALLS; i++)
        if (CALLS[i].make == make_two) answered[both_answer(&CALLS[i], rows, &(Damage){"second graph", second_graph})]++;
    printf("damaged graphs of %zu rows: %s;", rows, answered[NUMBERS] ? "not all words equal" : "all words equal");
    for (unsigned number = 0; number < NUMBERS; number++) printf(" answer %u: %zu%s", number, answered[number], number + 1 < NUMBERS ? "," : "\n");
    for (unsigned number = 0; number < NUMBERS; number++)
        if (answered[number] == 0) return 1;
    return answered[NUMBERS] != 0;
}
