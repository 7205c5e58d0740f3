/* Gates: the order of their edges, folding, and adding them to a table of rows. */
#ifndef GATES_H
#define GATES_H

#include "plain.h"

/* Puts the smaller id first, and keeps the given order for equal ids. */
static inline void sort_edges(uint32_t *a, uint32_t *b) {
    if (*b / 2 < *a / 2) {
        uint32_t kept = *a;
        *a = *b;
        *b = kept;
    }
}

/* Does the AND of two edges come to an edge that is there already? If not, it is the gate (*a, *b). Sorted, the second is a constant only where the first is. */
static inline int folds(uint32_t *a, uint32_t *b, uint32_t *to) {
    sort_edges(a, b);
    if (*a < 2) {
        *to = *a ? *b : 0;
        return 1;
    }
    if (*a / 2 == *b / 2) {
        *to = *a == *b ? *a : 0;
        return 1;
    }
    return 0;
}

/* Rows that grow. Beyond the room nothing is written, so a table without room counts the need. */
typedef struct {
    uint32_t *rows;
    size_t room, used;
} Table;

static inline uint32_t add_row(Table *t, uint32_t a, uint32_t b) {
    if (t->used < t->room) {
        t->rows[2 * t->used] = a;
        t->rows[2 * t->used + 1] = b;
    }
    return 2 * (uint32_t)t->used++;
}

static inline uint32_t add_and(Table *t, uint32_t a, uint32_t b) {
    uint32_t to;
    return folds(&a, &b, &to) ? to : add_row(t, a, b);
}

static inline uint32_t add_or(Table *t, uint32_t a, uint32_t b) { return add_and(t, a ^ 1, b ^ 1) ^ 1; }

/* The AND of a list, or, with flip 1, its OR: the complement of the AND of the complements. */
static inline uint32_t add_list(Table *t, const uint32_t *edges, size_t n, uint32_t flip) {
    if (n == 0) return 1 ^ flip;
    uint32_t all = edges[0] ^ flip;
    for (size_t i = 1; i < n; i++) all = add_and(t, all, edges[i] ^ flip);
    return all ^ flip;
}

#endif
