#include "cases.h"

#include <stdio.h>
#include <stdlib.h>
#include <string.h>

#include "graphs.h"

/* Enough for the largest case: a graph of 2^20 rows, its work slices, and clauses of 16 words a gate. */
enum { BLOCK = 160 << 20, GUARD = 64, FRAMES = 3 };

void case_new(Case *c) {
    memset(c, 0, sizeof *c);
    c->size = BLOCK;
    c->block = malloc(c->size);
    if (!c->block) {
        fputs("no memory\n", stderr);
        exit(2);
    }
}

void case_free(Case *c) { free(c->block); }

/* Takes room from the block. What is not written shows by the pattern, and behind each slice there is some that belongs to none. */
static void *taken(Case *c, size_t bytes) {
    uint8_t *at = c->block + c->taken;
    size_t whole = (bytes + GUARD + 15) / 16 * 16;
    if (c->taken + whole > c->size) {
        fputs("the block is too small\n", stderr);
        exit(2);
    }
    memset(at, 0xa5, whole);
    c->taken += whole;
    return at;
}

static Words words(Case *c, size_t n) { return (Words){taken(c, n * sizeof(uint32_t)), n}; }
static Bytes bytes(Case *c, size_t n) { return (Bytes){taken(c, n), n}; }

/* A graph's room: so many rows, and a sixteenth of that for each list, which at 2^20 rows is the most that may be lent. */
static Graph graph_room(Case *c, size_t rows) {
    size_t n = rows / 16;
    Graph g = {words(c, 2 * rows), words(c, n), words(c, LATCH_WORDS * n), words(c, n), words(c, n), words(c, n), words(c, n), words(c, n), words(c, n),
               {0, 0, 0, 0, 0, 0, 0, 0, 0}};
    return g;
}

static void make_codes(Bytes list) {
    for (size_t i = 0; i < list.len; i++) list.at[i] = (uint8_t)(i % 3);
}

void make_read(Case *c, size_t rows) {
    c->g = graph_room(c, rows);
    fill_graph(&c->g, rows);
    c->marks = words(c, rows);
    c->flags = words(c, rows);
    c->stack = words(c, rows);
    c->roots = words(c, rows / 64);
    c->ids = words(c, rows / 64);
    fill_edges(c->roots.at, c->roots.len, rows);
    for (size_t i = 0; i < c->ids.len; i++) c->ids.at[i] = c->roots.at[i] / 2;
    c->input = bytes(c, c->g.n.inputs);
    c->state = bytes(c, c->g.n.latches);
    c->values = bytes(c, rows);
    make_codes(c->input);
    make_codes(c->state);
    /* what is always enough; all leaves are listed, so the other rows but row 0 are gates */
    size_t gates = rows - 1 - c->g.n.inputs - c->g.n.latches;
    c->clauses = words(c, 2 + 16 * gates);
}

/* A graph of so many rows in a room, with the marks of a call that rebuilds one. */
static void make_rebuilt(Case *c, size_t rows, size_t room) {
    c->g = graph_room(c, room);
    fill_graph(&c->g, rows);
    c->marks = words(c, room);
}

void make_output(Case *c, size_t rows) {
    make_rebuilt(c, rows, rows);
    c->old = words(c, rows);
    c->h = graph_room(c, rows);
}

/* A sixteenth of the rows is free for what the call adds. */
void make_grown(Case *c, size_t rows) {
    make_rebuilt(c, rows - rows / 16, rows);
    c->old = words(c, rows < MAX_ENTRIES ? rows : MAX_ENTRIES);
    c->h = graph_room(c, rows);
}

void make_two(Case *c, size_t rows) {
    make_rebuilt(c, rows / 2, rows);
    c->h = graph_room(c, rows / 2);
    fill_graph(&c->h, rows / 2);
}

void make_frames(Case *c, size_t rows) {
    c->frames = FRAMES;
    make_rebuilt(c, rows / (1 + FRAMES), rows / (1 + FRAMES));
    c->h = graph_room(c, rows);
}
