/* What one call is lent, all in one block of memory, so that it can be put back and compared as a whole. */
#ifndef CASES_H
#define CASES_H

#include "plain/plain.h"

enum { TOLD = 14 };

typedef struct {
    uint8_t *block;
    size_t taken, size;
    Graph g, h; /* the graph, and a second one or the room for an output */
    Words marks, old, flags, stack, clauses, roots, ids;
    Bytes input, state, values;
    size_t frames;
    uint64_t told[TOLD];
} Case;

typedef struct {
    const char *name;
    void (*make)(Case *, size_t rows);
    void (*library)(Case *);
    void (*plain)(Case *);
} Call;

extern const Call CALLS[];
extern const size_t N_CALLS;

void case_new(Case *c);
void case_free(Case *c);

/* What each kind of call is lent at so many rows: those of the graph that is read, or, where rows are added, those that are lent for the result. */
void make_read(Case *c, size_t rows);
void make_output(Case *c, size_t rows);
void make_grown(Case *c, size_t rows);
void make_two(Case *c, size_t rows);
void make_frames(Case *c, size_t rows);

/* 0 where the library and the plain C are equal in every word, on what is measured and on damaged graphs. */
int compare_done(size_t rows);
int compare_refused(size_t rows);

#endif
