/* Is air buoyancy corrected twice? The flags of a microbalance as a graph, asked of a SAT solver.
 *
 *   flags ask LOGIC STEPS QUESTION   writes the question "do both sides correct in some step?" as DIMACS, and says how large it is
 *   flags show LOGIC STEPS MODEL     replays the run that a solver found, and shows it as a table
 *   flags mend LOGIC STEPS MODEL     shows what the mended logic does in that run: one side must have corrected at its end
 *
 * LOGIC is first or mended. A filter's buoyancy is to be corrected once, by the instrument or by the host. A side that asks corrects unless it
 * has done so or sees the handshake; where both ask in one step the instrument goes first. A new filter clears both flags and the handshake.
 */
#include <inttypes.h>
#include <stdbool.h>
#include <stdio.h>
#include <stdlib.h>
#include <string.h>

#include "graph.h"

enum { NEW_FILTER, INSTRUMENT_ASKS, HOST_ASKS, ASKED };
enum { INSTRUMENT_FLAG, HOST_FLAG, HANDSHAKE, HELD };
enum { INSTRUMENT_CORRECTS, HOST_CORRECTS, DONE };
enum { NO = SULANDIRO_FALSE, YES = SULANDIRO_TRUE, UNKNOWN = SULANDIRO_UNKNOWN };
enum { MOST_STEPS = 32 };

/* What is asked of the logic in a step, and what it then holds and does. */
typedef struct {
    uint8_t asked[ASKED];
    uint8_t held[HELD];
    uint8_t done[DONE];
    uint8_t both;
} Step;

typedef struct {
    size_t length;
    Step steps[MOST_STEPS];
} Run;

/* The next value of a latch that something raises and a new filter clears. */
static void raised_until_new_filter(Graph *g, uint32_t leaf, uint32_t raise, uint32_t new_filter) {
    uint32_t next = graph_and(g, graph_or(g, leaf, raise), opposite(new_filter));
    graph_latch(g, leaf, next, 0);
}

static void build(Graph *g, bool mended) {
    graph_start(g);
    uint32_t new_filter = graph_input(g), instrument_asks = graph_input(g), host_asks = graph_input(g);
    uint32_t instrument_flag = graph_leaf(g), host_flag = graph_leaf(g), handshake = graph_leaf(g);

    uint32_t instrument[] = {instrument_asks, opposite(instrument_flag), opposite(handshake)};
    uint32_t instrument_corrects = graph_ands(g, instrument, 3);
    uint32_t host[] = {host_asks, opposite(host_flag), opposite(handshake), opposite(instrument_corrects)};
    uint32_t host_corrects = graph_ands(g, host, 4);

    /* the one difference: a flag rises only in the step after the correction, so a handshake raised by the flags is seen a step too late */
    uint32_t raise = mended ? graph_or(g, instrument_corrects, host_corrects) : graph_or(g, instrument_flag, host_flag);
    raised_until_new_filter(g, instrument_flag, instrument_corrects, new_filter);
    raised_until_new_filter(g, host_flag, host_corrects, new_filter);
    raised_until_new_filter(g, handshake, raise, new_filter);

    graph_output(g, instrument_corrects);
    graph_output(g, host_corrects);
    graph_bad(g, graph_and(g, instrument_flag, host_flag));
    /* the constructors look only at counts and edges */
    graph_check(g);
}

/* The copy is the first step, each frame behind it one more. */
static void unroll(const Graph *g, size_t steps, Graph *all) {
    graph_unroll(g, steps - 1, all);
    const uint64_t *n = all->counts;
    if (n[SULANDIRO_INPUTS] != steps * ASKED || n[SULANDIRO_OUTPUTS] != steps * DONE || n[SULANDIRO_BADS] != steps)
        fail("a step has other lists than the first");
}

/* Row i is variable i + 1: DIMACS counts from 1, and row 0, the constant, is a variable too (the unit clause makes it false). */
static long literal(uint32_t edge) {
    long variable = (long)(edge / 2) + 1;
    return edge % 2 == 1 ? -variable : variable;
}

/* The clauses say what the gates are and no more, so what is asked stands behind them: every latch has its initial value (the unrolled graph
 * keeps the first step's latches, and their leaves are the values there), and some step's bad is true. */
static void write_conditions(const Graph *all, FILE *file) {
    for (size_t i = 0; i < all->counts[SULANDIRO_LATCHES]; i++) {
        uint32_t leaf = 2 * all->latches[LATCH_WORDS * i];
        fprintf(file, "%ld 0\n", literal(latch_start(all, i) == YES ? leaf : opposite(leaf)));
    }
    for (size_t i = 0; i < all->counts[SULANDIRO_BADS]; i++) fprintf(file, "%ld ", literal(all->bads[i]));
    fputs("0\n", file);
}

/* Writes the question and answers how many clauses it has. */
static size_t write_question(const Graph *all, FILE *file) {
    static uint32_t words[MOST_CLAUSE_WORDS];
    size_t length = graph_clauses(all, words, MOST_CLAUSE_WORDS), clauses = all->counts[SULANDIRO_LATCHES] + 1;
    for (size_t at = 0; at < length; at += 1 + words[at]) clauses++;
    fprintf(file, "p cnf %" PRIu64 " %zu\n", all->counts[SULANDIRO_ROWS], clauses);
    for (size_t at = 0; at < length; at += 1 + words[at]) {
        for (uint32_t i = 1; i <= words[at]; i++) fprintf(file, "%ld ", literal(words[at + i]));
        fputs("0\n", file);
    }
    write_conditions(all, file);
    return clauses;
}

static void ask(const Graph *g, const Graph *all, size_t steps, const char *path) {
    FILE *file = fopen(path, "w");
    if (!file) fail("the question cannot be written");
    size_t clauses = write_question(all, file);
    bool failed = ferror(file) != 0;
    if (fclose(file) != 0 || failed) fail("the question cannot be written");
    const uint64_t *one = g->counts, *n = all->counts;
    printf("The graph has %" PRIu64 " rows, %" PRIu64 " inputs and %" PRIu64 " latches; ", one[SULANDIRO_ROWS], one[SULANDIRO_INPUTS], one[SULANDIRO_LATCHES]);
    printf("over %zu steps %" PRIu64 " rows and %" PRIu64 " inputs.\n", steps, n[SULANDIRO_ROWS], n[SULANDIRO_INPUTS]);
    printf("The question for the solver has %" PRIu64 " variables and %zu clauses.\n", n[SULANDIRO_ROWS], clauses);
}

/* The code of every row that the model names, by the numbers behind the solver's words; a row that it does not name stays unknown. */
static void read_model(const char *path, uint8_t *model, size_t rows) {
    char word[32];
    FILE *file = fopen(path, "r");
    if (!file) fail("the model cannot be read");
    memset(model, UNKNOWN, rows);
    while (fscanf(file, "%31s", word) == 1) {
        char *end;
        long number = strtol(word, &end, 10);
        if (*end != '\0' || number == 0) continue;
        unsigned long variable = number < 0 ? 0 - (unsigned long)number : (unsigned long)number;
        if (variable > rows) fail("the model names a variable that the question does not have");
        model[variable - 1] = number > 0 ? YES : NO;
    }
    fclose(file);
}

/* Replays a run by the ternary step, from the initial values. */
static void replay(const Graph *g, Run *run) {
    static uint8_t values[MOST_ROWS];
    uint8_t state[HELD];
    for (size_t i = 0; i < HELD; i++) state[i] = latch_start(g, i);
    for (size_t i = 0; i < run->length; i++) {
        Step *step = &run->steps[i];
        memcpy(step->held, state, sizeof state);
        graph_step(g, step->asked, state, values);
        for (size_t k = 0; k < DONE; k++) step->done[k] = edge_value(g, values, g->outputs[k]);
        step->both = edge_value(g, values, g->bads[0]);
    }
}

/* The run that a model tells of, replayed: the clauses and the ternary step must agree in every step. Of the model only inputs and roots are read:
 * that "each root has the circuit's value" is proved, while a gate inside a shortcut has no clauses and may have any. */
static void replay_model(const Graph *g, const Graph *all, const uint8_t *model, Run *run) {
    /* a frame's new inputs stand in the order of the first step's */
    for (size_t i = 0; i < run->length; i++)
        for (size_t k = 0; k < ASKED; k++) run->steps[i].asked[k] = model[all->inputs[i * ASKED + k]];
    replay(g, run);
    for (size_t i = 0; i < run->length; i++) {
        bool agree = edge_value(all, model, all->bads[i]) == run->steps[i].both;
        for (size_t k = 0; k < DONE; k++) agree &= edge_value(all, model, all->outputs[i * DONE + k]) == run->steps[i].done[k];
        if (!agree) fail("the model and the replayed run differ: this is no run of the logic");
    }
}

/* Cuts the run behind the first step in which both have corrected. */
static void cut(Run *run) {
    size_t i = 0;
    while (i < run->length && run->steps[i].both != YES) i++;
    if (i == run->length) fail("in this run the two sides do not both correct");
    run->length = i + 1;
}

/* Makes unknown whatever does not matter: where an input is unknown and both have still corrected at the end, they have whatever it is. */
static void forget_what_does_not_matter(const Graph *g, Run *run) {
    Step *last = &run->steps[run->length - 1];
    for (size_t i = 0; i < run->length; i++) {
        for (size_t k = 0; k < ASKED; k++) {
            uint8_t was = run->steps[i].asked[k];
            run->steps[i].asked[k] = UNKNOWN;
            replay(g, run);
            if (last->both != YES) run->steps[i].asked[k] = was;
        }
    }
    replay(g, run);
    if (last->both != YES) fail("in this run the two sides do not both correct");
}

static const char *remark(const Step *s) {
    const uint8_t *has = s->held;
    if (s->both == YES) return "corrected twice";
    if (s->done[HOST_CORRECTS] == YES) return has[INSTRUMENT_FLAG] == YES ? "the host corrects as well" : "the host corrects";
    if (s->done[INSTRUMENT_CORRECTS] == YES) return has[HOST_FLAG] == YES ? "the instrument corrects as well" : "the instrument corrects";
    if (has[HANDSHAKE] == YES && s->asked[HOST_ASKS] == YES && has[HOST_FLAG] == NO) return "the handshake stops the host";
    if (has[HANDSHAKE] == YES && s->asked[INSTRUMENT_ASKS] == YES && has[INSTRUMENT_FLAG] == NO) return "the handshake stops the instrument";
    return has[INSTRUMENT_FLAG] == YES || has[HOST_FLAG] == YES ? "corrected once" : "";
}

static void show_table(const Run *run) {
    static const char *const said[] = {[NO] = "no", [YES] = "yes", [UNKNOWN] = "-"};
    puts("  step | new    | asks to correct   | handshake | has corrected     |");
    puts("       | filter | instrument   host | is up     | instrument   host |");
    puts("  -----+--------+-------------------+-----------+-------------------+");
    for (size_t i = 0; i < run->length; i++) {
        const Step *s = &run->steps[i];
        printf("  %4zu | %-6s | %-10s   %-4s | ", i + 1, said[s->asked[NEW_FILTER]], said[s->asked[INSTRUMENT_ASKS]], said[s->asked[HOST_ASKS]]);
        printf("%-9s | %-10s   %-4s | %s\n", said[s->held[HANDSHAKE]], said[s->held[INSTRUMENT_FLAG]], said[s->held[HOST_FLAG]], remark(s));
    }
}

/* The run that the solver found, as short and with as little in it as shows the fault. */
static void find_run(const Graph *g, const Graph *all, const char *path, Run *run) {
    static uint8_t model[MOST_ROWS];
    read_model(path, model, all->counts[SULANDIRO_ROWS]);
    replay_model(g, all, model, run);
    cut(run);
    forget_what_does_not_matter(g, run);
}

/* That the two sides never both correct would be true of a logic in which nobody corrects, too. */
static void mend(Run *run) {
    static Graph mended;
    build(&mended, true);
    replay(&mended, run);
    const uint8_t *has = run->steps[run->length - 1].held;
    bool once = (has[INSTRUMENT_FLAG] == YES && has[HOST_FLAG] == NO) || (has[INSTRUMENT_FLAG] == NO && has[HOST_FLAG] == YES);
    if (!once) fail("in the mended logic this run does not end with one correction");
}

static bool is(const char *word, const char *other) { return strcmp(word, other) == 0; }

int main(int count, char **words) {
    static Graph graph, unrolled;
    static Run run;
    if (count != 5) fail("usage: flags ask|show|mend first|mended STEPS FILE");
    const char *what = words[1], *logic = words[2], *path = words[4];
    long steps = strtol(words[3], NULL, 10);
    if (!is(what, "ask") && !is(what, "show") && !is(what, "mend")) fail("what is to be done is ask, show or mend");
    if (!is(logic, "first") && !is(logic, "mended")) fail("the logic is first or mended");
    if (steps < 1 || steps > MOST_STEPS) fail("there are too few steps or too many");

    build(&graph, is(logic, "mended"));
    unroll(&graph, (size_t)steps, &unrolled);
    if (is(what, "ask")) {
        ask(&graph, &unrolled, (size_t)steps, path);
        return 0;
    }
    run.length = (size_t)steps;
    find_run(&graph, &unrolled, path, &run);
    if (is(what, "mend")) mend(&run);
    show_table(&run);
    return 0;
}
