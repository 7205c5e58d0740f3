/* A graph without the rows that its roots do not reach. Every latch input is a root, so one run from the last row down finds all that is kept. */
#include <string.h>

#include "renumber.h"

/* Marks all that is kept, in marks that are 0, and counts it. */
static size_t mark_kept(const Graph *g, uint32_t *marks) {
    const uint32_t *rows = g->rows.at;
    size_t kept = 1;
    mark_roots(g, marks);
    for (size_t i = 0; i < g->n.latches; i++) marks[g->latches.at[LATCH_WORDS * i]] = 1;
    for (size_t i = g->n.rows - 1; i > 0; i--) {
        if (!marks[i]) continue;
        kept++;
        if (rows[2 * i] == NONE) continue;
        marks[rows[2 * i] / 2] = 1;
        marks[rows[2 * i + 1] / 2] = 1;
    }
    marks[0] = 1;
    return kept;
}

static size_t kept_inputs(const Graph *g, const uint32_t *marks) {
    size_t kept = 0;
    for (size_t i = 0; i < g->n.inputs; i++) kept += marks[g->inputs.at[i]];
    return kept;
}

/* Each mark becomes the row's new edge as the row is written: 0 for row 0, and at least 2 for another that is kept. */
static void write_kept(const Graph *g, uint32_t *out, uint32_t *old, uint32_t *map) {
    const uint32_t *rows = g->rows.at;
    size_t at = 1;
    out[0] = FALSE_ROW;
    out[1] = old[0] = map[0] = 0;
    for (size_t i = 1; i < g->n.rows; i++) {
        if (!map[i]) continue;
        uint32_t a = rows[2 * i], b = rows[2 * i + 1];
        out[2 * at] = a == NONE ? a : mapped(map, a);
        out[2 * at + 1] = a == NONE ? b : mapped(map, b);
        old[at] = (uint32_t)i;
        map[i] = 2 * (uint32_t)at++;
    }
}

static void write_inputs(const Graph *g, uint32_t *out, const uint32_t *map) {
    for (size_t i = 0; i < g->n.inputs; i++)
        if (map[g->inputs.at[i]]) *out++ = map[g->inputs.at[i]] / 2;
}

Answer plain_coi_refine(const Graph *g, Graph *out, Words old, Words marks) {
    size_t leaves, used = g->n.rows;
    if (!within_limits(out)) return refused(1);
    Answer answer = check_graph(g, marks, &leaves);
    if (answer.number) return answer;
    Counts need = g->n;
    need.rows = mark_kept(g, marks.at);
    need.inputs = kept_inputs(g, marks.at);
    if (has_room(out, &need) && need.rows <= old.len) {
        write_kept(g, out->rows.at, old.at, marks.at);
        write_inputs(g, out->inputs.at, marks.at);
        map_lists(out, g, marks.at);
        out->n = need;
    } else {
        answer = refused(5);
    }
    memset(marks.at, 0, used * sizeof *marks.at);
    return answer;
}
