/* The clauses of a graph: from the last row down each referenced gate is written, and its operands become referenced. */
#include <string.h>

#include "plain.h"

/* What a gate is written as, with its operands. */
typedef struct {
    enum { PLAIN, XOR, ITE } kind;
    uint32_t a, b, c;
} Shape;

/* Each clause is a length word and literals. They return the place behind it. */
static inline uint32_t *put_two(uint32_t *at, uint32_t x, uint32_t y) {
    at[0] = 2;
    at[1] = x;
    at[2] = y;
    return at + 3;
}

static inline uint32_t *put_three(uint32_t *at, uint32_t x, uint32_t y, uint32_t z) {
    at[0] = 3;
    at[1] = x;
    at[2] = y;
    at[3] = z;
    return at + 4;
}

static uint32_t *put_shape(uint32_t *at, uint32_t g, const Shape *s) {
    uint32_t a = s->a, b = s->b, c = s->c;
    switch (s->kind) {
    case XOR:
        at = put_three(at, g ^ 1, a, b);
        at = put_three(at, g ^ 1, a ^ 1, b ^ 1);
        at = put_three(at, g, a ^ 1, b);
        return put_three(at, g, a, b ^ 1);
    case ITE:
        at = put_three(at, g ^ 1, a ^ 1, b);
        at = put_three(at, g ^ 1, a, c);
        at = put_three(at, g, a ^ 1, b ^ 1);
        return put_three(at, g, a, c ^ 1);
    default:
        at = put_two(at, g ^ 1, a);
        at = put_two(at, g ^ 1, b);
        return put_three(at, g, a ^ 1, b ^ 1);
    }
}

/* If i then t else e, unless two of the three ids are equal. */
static inline int is_ite(uint32_t i, uint32_t t, uint32_t e, Shape *s) {
    if (i / 2 == t / 2 || i / 2 == e / 2 || t / 2 == e / 2) return 0;
    *s = (Shape){ITE, i, t, e};
    return 1;
}

/* Is the gate (f, h) over the complements of the gates (a, b) and (c, d) an xor, or by the first pairing that fits an if-then-else? */
static int is_short(const uint32_t *rows, uint32_t f, uint32_t h, Shape *s) {
    if (!(f & h & 1)) return 0;
    const uint32_t *x = &rows[2 * (size_t)(f / 2)], *y = &rows[2 * (size_t)(h / 2)];
    uint32_t a = x[0], b = x[1], c = y[0], d = y[1];
    if (a >= FALSE_ROW || c >= FALSE_ROW) return 0;
    if (a == (c ^ 1) && b == (d ^ 1) && a / 2 != b / 2) {
        *s = (Shape){XOR, a, b, a};
        return 1;
    }
    if (a == (c ^ 1)) return is_ite(a, b ^ 1, d ^ 1, s);
    if (a == (d ^ 1)) return is_ite(a, b ^ 1, c ^ 1, s);
    if (b == (c ^ 1)) return is_ite(b, a ^ 1, d ^ 1, s);
    if (b == (d ^ 1)) return is_ite(b, a ^ 1, c ^ 1, s);
    return 0;
}

/* The clauses of all referenced gates, written from `at` on where there is a place, else only counted. Returns how many words they are. */
static inline size_t walk(const Graph *g, int shortcuts, uint32_t *at, uint32_t *marks) {
    const uint32_t *rows = g->rows.at;
    size_t words = 0;
    mark_roots(g, marks);
    for (size_t i = g->n.rows - 1; i > 0; i--) {
        uint32_t f = rows[2 * i], h = rows[2 * i + 1];
        if (!marks[i] || f == NONE) continue;
        Shape s = {PLAIN, f, h, f};
        if (shortcuts) is_short(rows, f, h, &s);
        marks[s.a / 2] = marks[s.b / 2] = marks[s.c / 2] = 1;
        if (at) at = put_shape(at, 2 * (uint32_t)i, &s);
        words += s.kind == PLAIN ? 10 : 16;
    }
    memset(marks, 0, g->n.rows * sizeof *marks);
    return words;
}

/* At most 2 + 16·gates words, so they are counted beforehand only where that does not fit. */
Answer plain_cnf(const Graph *g, int shortcuts, Words clauses, Words marks, size_t *words) {
    size_t leaves;
    *words = 0;
    Answer answer = check_graph(g, marks, &leaves);
    if (answer.number) return answer;
    size_t gates = g->n.rows - 1 - leaves;
    if (clauses.len < 2 + 16 * gates && clauses.len < 2 + walk(g, shortcuts, NULL, marks.at)) return refused(5);
    clauses.at[0] = clauses.at[1] = 1;
    *words = 2 + walk(g, shortcuts, clauses.at + 2, marks.at);
    return answer;
}
