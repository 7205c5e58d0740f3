/* Three-valued simulation: 0 false, 1 true, 2 unknown. */
#include <string.h>

#include "plain.h"

/* An edge's code by its sign and its row's code; and the AND of two edges by both. */
static const uint8_t SIGNED[2][3] = {{0, 1, 2}, {1, 0, 2}};
static const uint8_t AND3[3][3] = {{0, 0, 0}, {0, 1, 2}, {0, 2, 2}};

static int all_codes(Bytes list) {
    for (size_t i = 0; i < list.len; i++)
        if (list.at[i] > 2) return 0;
    return 1;
}

static inline uint8_t edge_code(const uint8_t *values, uint32_t e) { return SIGNED[e & 1][values[e / 2]]; }

static void write_values(const Graph *g, Bytes input, Bytes state, uint8_t *values) {
    const uint32_t *rows = g->rows.at;
    memset(values, 2, g->n.rows);
    values[0] = 0;
    for (size_t i = 0; i < g->n.inputs; i++) values[g->inputs.at[i]] = input.at[i];
    for (size_t i = 0; i < g->n.latches; i++) values[g->latches.at[LATCH_WORDS * i]] = state.at[i];
    for (size_t i = 1; i < g->n.rows; i++) {
        uint32_t a = rows[2 * i], b = rows[2 * i + 1];
        if (a != NONE) values[i] = AND3[edge_code(values, a)][edge_code(values, b)];
    }
}

Answer plain_ternary_simulate(const Graph *g, Bytes input, Bytes state, Bytes values, Words marks) {
    size_t leaves;
    if (values.len < g->n.rows) return refused(1);
    Answer answer = check_graph(g, marks, &leaves);
    if (answer.number) return answer;
    if (input.len != g->n.inputs || state.len != g->n.latches || !all_codes(input) || !all_codes(state)) return refused(4);
    write_values(g, input, state, values.at);
    return answer;
}

Answer plain_simulate(const Graph *g, Bytes input, Bytes state, Bytes values, Words marks) {
    Answer answer = plain_ternary_simulate(g, input, state, values, marks);
    if (answer.number) return answer;
    for (size_t i = 0; i < g->n.latches; i++) state.at[i] = edge_code(values.at, g->latches.at[LATCH_WORDS * i + 1]);
    return answer;
}
