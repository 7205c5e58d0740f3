/* One frame more, or a number of frames on a copy: the rows of a graph behind the target's, with the target's nexts in place of the latch inputs. */
#include <string.h>

#include "gates.h"
#include "renumber.h"

/* The map at the start: row 0 is false, a latch input is the latch's next, and no other row is mapped. */
static void start_map(const Graph *g, size_t rows, uint32_t *map) {
    memset(map, 255, rows * sizeof *map);
    map[0] = 0;
    for (size_t i = 0; i < g->n.latches; i++) map[g->latches.at[LATCH_WORDS * i]] = g->latches.at[LATCH_WORDS * i + 1];
}

/* Adds the rows of `from`; a leaf that is no latch's is a new input. Without `write` it only counts. Returns how many rows are used then. */
static inline size_t frame_rows(Graph *g, const Graph *from, uint32_t *map, int write) {
    const uint32_t *rows = from->rows.at;
    uint32_t *out = g->rows.at, *inputs = g->inputs.at + g->n.inputs;
    size_t used = g->n.rows;
    for (size_t i = 1; i < from->n.rows; i++) {
        uint32_t a = rows[2 * i], b = rows[2 * i + 1];
        if (a == NONE) {
            if (map[i] != NONE) continue;
            if (write) *inputs++ = (uint32_t)used;
        } else {
            a = mapped(map, a);
            b = mapped(map, b);
            if (folds(&a, &b, &map[i])) continue;
        }
        if (write) {
            out[2 * used] = a;
            out[2 * used + 1] = b;
        }
        map[i] = 2 * (uint32_t)used++;
    }
    return used;
}

static void frame_lists(Graph *g, const Graph *from, const uint32_t *map) {
    const Counts *at = &g->n;
    for (size_t i = 0; i < LATCH_WORDS * from->n.latches; i += LATCH_WORDS) g->latches.at[i + 1] = mapped(map, from->latches.at[i + 1]);
    map_edges(g->constraints.at + at->constraints, from->constraints.at, from->n.constraints, map);
    map_edges(g->bads.at + at->bads, from->bads.at, from->n.bads, map);
    map_edges(g->outputs.at + at->outputs, from->outputs.at, from->n.outputs, map);
    for (size_t i = 0; i < from->n.sets; i++) g->ends.at[at->sets + i] = from->ends.at[i] + (uint32_t)at->edges;
    map_edges(g->edges.at + at->edges, from->edges.at, from->n.edges, map);
    map_edges(g->fairness.at + at->fairness, from->fairness.at, from->n.fairness, map);
}

static Counts with_frame(const Counts *at, const Counts *n, size_t rows, size_t new_inputs) {
    return (Counts){rows,
                    at->inputs + new_inputs,
                    at->latches,
                    at->constraints + n->constraints,
                    at->bads + n->bads,
                    at->outputs + n->outputs,
                    at->sets + n->sets,
                    at->edges + n->edges,
                    at->fairness + n->fairness};
}

/* Adds a frame, if there is room. Folding can only save rows, so they are counted beforehand only where the most that a frame can take does not fit. */
static int add_frame(Graph *g, const Graph *from, size_t leaves, uint32_t *map) {
    Counts need = with_frame(&g->n, &from->n, g->n.rows + from->n.rows - 1, leaves - from->n.latches);
    if (!has_room(g, &need)) {
        start_map(g, from->n.rows, map);
        need.rows = frame_rows(g, from, map, 0);
        if (!has_room(g, &need)) return 0;
    }
    start_map(g, from->n.rows, map);
    need.rows = frame_rows(g, from, map, 1);
    frame_lists(g, from, map);
    g->n = need;
    return 1;
}

static int same_start(const Graph *g, const Graph *from) {
    size_t rows = from->n.rows, latches = from->n.latches;
    if (g->n.rows < rows || g->n.latches != latches) return 0;
    if (memcmp(g->rows.at, from->rows.at, 2 * rows * sizeof(uint32_t)) != 0) return 0;
    for (size_t i = 0; i < LATCH_WORDS * latches; i += LATCH_WORDS)
        if (g->latches.at[i] != from->latches.at[i]) return 0;
    return 1;
}

Answer plain_unroll(Graph *g, const Graph *from, Words marks) {
    size_t leaves;
    Answer answer = check_two(g, from, marks, &leaves);
    if (answer.number) return answer;
    if (!same_start(g, from)) return refused(4);
    if (!add_frame(g, from, leaves, marks.at)) answer = refused(5);
    memset(marks.at, 0, from->n.rows * sizeof *marks.at);
    return answer;
}

Answer plain_unroll_to(const Graph *g, size_t frames, Graph *out, Words marks, size_t *finished) {
    size_t leaves;
    *finished = 0;
    if (!within_limits(out)) return refused(1);
    Answer answer = check_graph(g, marks, &leaves);
    if (answer.number) return answer;
    if (frames > MAX_FRAMES) return refused(4);
    if (!has_room(out, &g->n)) return refused(5);
    copy_graph(out, g);
    while (*finished < frames && add_frame(out, g, leaves, marks.at)) ++*finished;
    memset(marks.at, 0, g->n.rows * sizeof *marks.at);
    return *finished < frames ? refused(5) : answer;
}
