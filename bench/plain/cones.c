/* The cone of edges, and the cone of influence of rows. */
#include <string.h>

#include "plain.h"

Answer plain_fanin_logic_cone(const Graph *g, Words roots, Words flags, Words marks) {
    size_t leaves, used = g->n.rows;
    if (used > flags.len || roots.len > MAX_ENTRIES) return refused(1);
    Answer answer = check_graph(g, marks, &leaves);
    if (answer.number) return answer;
    if (!edges_used(roots.at, roots.len, used)) return refused(4);
    memset(flags.at, 0, used * sizeof *flags.at);
    mark_edges(roots.at, roots.len, flags.at);
    for (size_t i = used - 1; i > 0; i--) {
        const uint32_t *row = &g->rows.at[2 * i];
        if (!flags.at[i] || row[0] == NONE) continue;
        flags.at[row[0] / 2] = 1;
        flags.at[row[1] / 2] = 1;
    }
    return answer;
}

static int ids_used(Words ids, size_t used) {
    for (size_t i = 0; i < ids.len; i++)
        if (ids.at[i] >= used) return 0;
    return 1;
}

/* Flags row i and puts it on the stack, unless it is flagged already. Returns how many rows wait. */
static inline size_t visit(size_t i, uint32_t *flags, uint32_t *stack, size_t waiting) {
    if (flags[i]) return waiting;
    flags[i] = 1;
    stack[waiting] = (uint32_t)i;
    return waiting + 1;
}

/* From a latch's input the walk goes on at its next: the link of such a row is 1 + the latch. */
static void walk(const Graph *g, const uint32_t *links, uint32_t *flags, uint32_t *stack, size_t waiting) {
    while (waiting > 0) {
        size_t i = stack[--waiting];
        uint32_t a = g->rows.at[2 * i], b = g->rows.at[2 * i + 1];
        if (a < FALSE_ROW) {
            waiting = visit(a / 2, flags, stack, waiting);
            waiting = visit(b / 2, flags, stack, waiting);
        } else if (links[i]) {
            waiting = visit(g->latches.at[LATCH_WORDS * (links[i] - 1) + 1] / 2, flags, stack, waiting);
        }
    }
}

Answer plain_coi(const Graph *g, Words ids, Words flags, Words marks, Words stack) {
    size_t leaves, used = g->n.rows, waiting;
    if (used > flags.len || used > stack.len || ids.len > MAX_ENTRIES) return refused(1);
    Answer answer = check_graph(g, marks, &leaves);
    if (answer.number == 1) return answer;
    if (answer.number == 0 && !ids_used(ids, used)) answer = refused(4);
    if (answer.number == 0) {
        memset(flags.at, 0, used * sizeof *flags.at);
        for (size_t i = 0; i < g->n.latches; i++) marks.at[g->latches.at[LATCH_WORDS * i]] = (uint32_t)i + 1;
        waiting = visit(0, flags.at, stack.at, 0);
        for (size_t i = 0; i < ids.len; i++) waiting = visit(ids.at[i], flags.at, stack.at, waiting);
        walk(g, marks.at, flags.at, stack.at, waiting);
        memset(marks.at, 0, used * sizeof *marks.at);
    }
    memset(stack.at, 0, used * sizeof *stack.at);
    return answer;
}
