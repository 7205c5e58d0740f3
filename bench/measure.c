/* Makes a call, by the library or in plain C, so that its work can be counted or timed; and compares what the two answer and write.

   measure calls                          the names of the calls
   measure compare ROWS                   every call by both: each word that is lent, and what is told
   measure refuse ROWS                    the same on damaged graphs
   measure count CALL SIDE ROWS TIMES     makes a call 0, 1 or 2 times. All else is done the same number of times, so two such runs differ by the call
   measure time CALL SIDE ROWS            the least of several runs, in nanoseconds
   measure graph CALL ROWS                the call's graph, for the crate: words, first how many frames, the nine counts and how many roots, then all lists, then the roots */
#include <stdio.h>
#include <stdlib.h>
#include <string.h>
#include <time.h>

#include "cases.h"

enum { RUNS = 9, ROUNDS = 2 };

static const Call *call_named(const char *name) {
    for (size_t i = 0; i < N_CALLS; i++)
        if (strcmp(CALLS[i].name, name) == 0) return &CALLS[i];
    fprintf(stderr, "there is no call %s\n", name);
    exit(2);
}

static void (*side_named(const Call *call, const char *side))(Case *) {
    if (strcmp(side, "library") == 0) return call->library;
    if (strcmp(side, "plain") == 0) return call->plain;
    fprintf(stderr, "the side is library or plain, not %s\n", side);
    exit(2);
}

static size_t rows_named(const char *rows) {
    size_t n = strtoul(rows, NULL, 10);
    if (n >= 4096 && n <= MAX_ROWS) return n;
    fprintf(stderr, "rows are 4096 to %d, not %s\n", MAX_ROWS, rows);
    exit(2);
}

/* A call changes what it is lent: this puts everything back. */
static void put_back(Case *c, const Case *kept) {
    uint8_t *block = c->block;
    memcpy(block, kept->block, kept->taken);
    *c = *kept;
    c->block = block;
}

/* A case is told by its slices, which lie in its own block: the copy's lie in the block of the one that is used. */
static void keep(Case *kept, const Case *c) {
    *kept = *c;
    kept->block = malloc(c->taken);
    if (!kept->block) exit(2);
    memcpy(kept->block, c->block, c->taken);
}

static int count(const Call *call, void (*side)(Case *), size_t rows, int times) {
    Case c, kept;
    case_new(&c);
    call->make(&c, rows);
    keep(&kept, &c);
    for (int round = 0; round < ROUNDS; round++) {
        put_back(&c, &kept);
        if (round < times) side(&c);
    }
    case_free(&c);
    case_free(&kept);
    return times == ROUNDS && c.told[0] != 0;
}

static double nanoseconds(void) {
    struct timespec t;
    clock_gettime(CLOCK_MONOTONIC, &t);
    return (double)t.tv_sec * 1e9 + (double)t.tv_nsec;
}

static int timed(const Call *call, void (*side)(Case *), size_t rows) {
    Case c, kept;
    double least = 1e18;
    case_new(&c);
    call->make(&c, rows);
    keep(&kept, &c);
    for (int run = 0; run < RUNS; run++) {
        put_back(&c, &kept);
        double from = nanoseconds();
        side(&c);
        double took = nanoseconds() - from;
        least = took < least ? took : least;
    }
    printf("%.0f\n", least);
    case_free(&c);
    case_free(&kept);
    return c.told[0] != 0;
}

static void put_words(const uint32_t *words, size_t n) {
    if (n && fwrite(words, sizeof *words, n, stdout) != n) exit(2);
}

static int write_graph(const Call *call, size_t rows) {
    Case c;
    case_new(&c);
    call->make(&c, rows);
    const Graph *g = &c.g;
    const Counts *n = &g->n;
    const uint32_t head[] = {c.frames,   n->rows, n->inputs, n->latches,  n->constraints, n->bads,
                             n->outputs, n->sets, n->edges,  n->fairness, c.roots.len};
    put_words(head, sizeof head / sizeof *head);
    put_words(g->rows.at, 2 * n->rows);
    put_words(g->inputs.at, n->inputs);
    put_words(g->latches.at, LATCH_WORDS * n->latches);
    put_words(g->constraints.at, n->constraints);
    put_words(g->bads.at, n->bads);
    put_words(g->outputs.at, n->outputs);
    put_words(g->ends.at, n->sets);
    put_words(g->edges.at, n->edges);
    put_words(g->fairness.at, n->fairness);
    put_words(c.roots.at, c.roots.len);
    case_free(&c);
    return 0;
}

int main(int argc, char **argv) {
    if (argc == 2 && strcmp(argv[1], "calls") == 0) {
        for (size_t i = 0; i < N_CALLS; i++) puts(CALLS[i].name);
        return 0;
    }
    if (argc == 3 && strcmp(argv[1], "compare") == 0) return compare_done(rows_named(argv[2]));
    if (argc == 3 && strcmp(argv[1], "refuse") == 0) return compare_refused(rows_named(argv[2]));
    if (argc == 4 && strcmp(argv[1], "graph") == 0) return write_graph(call_named(argv[2]), rows_named(argv[3]));
    if (argc >= 5) {
        const Call *call = call_named(argv[2]);
        void (*side)(Case *) = side_named(call, argv[3]);
        size_t rows = rows_named(argv[4]);
        if (argc == 6 && strcmp(argv[1], "count") == 0) return count(call, side, rows, atoi(argv[5]));
        if (argc == 5 && strcmp(argv[1], "time") == 0) return timed(call, side, rows);
    }
    fputs("usage: measure calls | compare ROWS | refuse ROWS | count CALL SIDE ROWS TIMES | time CALL SIDE ROWS | graph CALL ROWS\n", stderr);
    return 2;
}
