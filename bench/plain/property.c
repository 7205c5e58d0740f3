/* The calls on a graph's property: constraints moved into a latch, one bad, inits as constraints. */
#include <string.h>

#include "gates.h"

/* What aig_move adds: the new latch's next, and the first bad and output guarded by it. */
typedef struct {
    uint32_t next, bad, output;
} Moved;

static Moved make_moved(Table *t, const Graph *g) {
    Moved m = {0, 0, 0};
    uint32_t latch = add_row(t, NONE, 0), all = add_list(t, g->constraints.at, g->n.constraints, 0);
    m.next = add_and(t, latch, all);
    if (g->n.bads) m.bad = add_and(t, m.next, g->bads.at[0]);
    if (g->n.outputs) m.output = add_and(t, m.next, g->outputs.at[0]);
    return m;
}

static void write_moved(const Graph *g, Graph *out) {
    Table t = {out->rows.at, out->rows.len / 2, g->n.rows};
    Graph without = *g;
    without.n.constraints = 0;
    copy_graph(out, &without);
    Moved m = make_moved(&t, g);
    uint32_t *l = &out->latches.at[LATCH_WORDS * g->n.latches];
    l[0] = (uint32_t)g->n.rows;
    l[1] = m.next;
    l[2] = 1;
    if (g->n.bads) out->bads.at[0] = m.bad;
    if (g->n.outputs) out->outputs.at[0] = m.output;
}

Answer plain_aig_move(const Graph *g, Graph *out, Words marks) {
    size_t leaves;
    if (!within_limits(out)) return refused(1);
    Answer answer = check_graph(g, marks, &leaves);
    if (answer.number) return answer;
    Table counted = {NULL, 0, g->n.rows};
    make_moved(&counted, g);
    Counts need = g->n;
    need.rows = counted.used;
    need.latches++;
    need.constraints = 0;
    if (!has_room(out, &need)) return refused(5);
    write_moved(g, out);
    out->n = need;
    return answer;
}

Answer plain_compress_property(Graph *g, Words old, Words marks) {
    size_t leaves, n = g->n.bads;
    if (old.len > MAX_ENTRIES) return refused(1);
    Answer answer = check_graph(g, marks, &leaves);
    if (answer.number) return answer;
    Table counted = {NULL, 0, g->n.rows}, t = {g->rows.at, g->rows.len / 2, g->n.rows};
    add_list(&counted, g->bads.at, n, 1);
    if (counted.used > t.room || g->bads.len == 0 || n > old.len) return refused(5);
    if (n) memcpy(old.at, g->bads.at, n * sizeof *old.at);
    g->bads.at[0] = add_list(&t, g->bads.at, n, 1);
    g->n.bads = 1;
    g->n.rows = t.used;
    return answer;
}

static int has_gate_init(const uint32_t *latch) { return latch[2] != NONE && latch[2] > 1; }

static size_t count_gate_inits(const Graph *g) {
    size_t n = 0;
    for (size_t i = 0; i < g->n.latches; i++) n += has_gate_init(&g->latches.at[LATCH_WORDS * i]);
    return n;
}

/* The new latch implies that the latch equals its init. */
static uint32_t add_constraint(Table *t, uint32_t new_latch, const uint32_t *latch) {
    uint32_t e = 2 * latch[0], init = latch[2];
    uint32_t both = add_and(t, e, init), neither = add_and(t, e ^ 1, init ^ 1);
    return add_or(t, new_latch ^ 1, add_or(t, both, neither));
}

/* The rows that are used with all constraints: at most four for each, and with folding as many as a run without room counts. */
static size_t rows_with_constraints(const Graph *g, size_t inits) {
    size_t most = g->n.rows + 1 + 4 * inits;
    if (most <= g->rows.len / 2) return most;
    Table counted = {NULL, 0, g->n.rows};
    uint32_t latch = add_row(&counted, NONE, 0);
    for (size_t i = 0; i < g->n.latches; i++)
        if (has_gate_init(&g->latches.at[LATCH_WORDS * i])) add_constraint(&counted, latch, &g->latches.at[LATCH_WORDS * i]);
    return counted.used;
}

static void write_constraints(Graph *g) {
    Table t = {g->rows.at, g->rows.len / 2, g->n.rows};
    uint32_t latch = add_row(&t, NONE, 0), *l = g->latches.at;
    for (size_t i = 0; i < g->n.latches; i++, l += LATCH_WORDS) {
        if (!has_gate_init(l)) continue;
        g->constraints.at[g->n.constraints++] = add_constraint(&t, latch, l);
        l[2] = NONE;
    }
    l[0] = latch / 2;
    l[1] = 0;
    l[2] = 1;
    g->n.latches++;
    g->n.rows = t.used;
}

Answer plain_gate_init_to_constraint(Graph *g, Words marks) {
    size_t leaves;
    Answer answer = check_graph(g, marks, &leaves);
    if (answer.number) return answer;
    size_t inits = count_gate_inits(g);
    if (inits == 0) return answer;
    if (rows_with_constraints(g, inits) > g->rows.len / 2 || g->n.latches >= g->latches.len / LATCH_WORDS ||
        g->n.constraints + inits > g->constraints.len)
        return refused(5);
    write_constraints(g);
    return answer;
}
