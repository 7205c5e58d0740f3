/* Replays a script of cases (FORMAT.md) of the calls that rebuild a graph, through the library for C, and writes what each call answers and leaves. */
#include "sulandiro.h"

#include <ctype.h>
#include <stdint.h>
#include <stdio.h>
#include <stdlib.h>
#include <string.h>

enum { SLOTS = 32, SCALARS = 32, LISTS = 9, BADS = 4, COUNTS = 4, TOLD = 16 };

/* A lent slice: as many words as were given, so that one word too far is seen by a checker of memory. */
typedef struct {
    int given;
    size_t len;
    uint32_t *words;
} Slot;

static Slot slots[SLOTS];
static int order[SLOTS];
static uint64_t scalars[SCALARS];
static uint64_t told[TOLD];
static uint64_t results[TOLD];
static int taken;

#define S(i) slots[i].words, slots[i].len
#define G(i) S(i), S(i + 1), S(i + 2), S(i + 3), S(i + 4), S(i + 5), S(i + 6), S(i + 7), S(i + 8)

/* Takes what was told behind the answer, in the order of FORMAT.md: so many words from word `from` on. */
static void take(int from, int n) {
    for (int i = 0; i < n; i++) results[taken++] = told[from + i];
}

/* Makes the call and takes its results: 0 where there is no such call. */
static int made(uint64_t call) {
    const uint64_t *first = scalars, *second = scalars + LISTS;
    switch (call) {
    case 70:
        sulandiro_merge(G(0), first, LISTS, G(9), second, LISTS, S(19), told, TOLD);
        break;
    case 71:
        sulandiro_reencode(G(0), first, LISTS, G(9), S(19), told, TOLD);
        break;
    case 72:
        sulandiro_coi_refine(G(0), first, LISTS, G(9), S(21), S(19), told, TOLD);
        break;
    case 80:
        sulandiro_unroll(G(0), first, LISTS, G(9), second, LISTS, S(19), told, TOLD);
        break;
    case 81:
        sulandiro_unroll_to(G(9), first, LISTS, scalars[LISTS], G(0), S(19), told, TOLD);
        take(COUNTS + LISTS, 1); /* the finished frames come before the counts */
        break;
    case 82:
        sulandiro_aig_move(G(0), first, LISTS, G(9), S(19), told, TOLD);
        break;
    case 83:
        sulandiro_compress_property(G(0), first, LISTS, S(21), S(19), told, TOLD);
        break;
    case 84:
        sulandiro_gate_init_to_constraint(G(0), first, LISTS, S(19), told, TOLD);
        break;
    default:
        return 0;
    }
    take(COUNTS, LISTS);
    if (call == 83) results[taken++] = told[0] == 0 ? first[BADS] : 0; /* the old bads that were handed back */
    return 1;
}

/* The next number: 0 at the end. A word that begins with anything but a digit is passed over. */
static int number(uint64_t *to) {
    for (;;) {
        int c = getchar();
        while (c != EOF && c <= 32) c = getchar();
        if (c == EOF) return 0;
        if (!isdigit(c)) {
            while (c != EOF && c > 32) c = getchar();
            continue;
        }
        uint64_t n = 0;
        for (; isdigit(c); c = getchar()) n = 10 * n + (uint64_t)(c - '0');
        *to = n;
        return 1;
    }
}

static int unreadable(void) {
    puts("unreadable");
    return 0;
}

static int slot_read(int *count) {
    uint64_t slot, len, word;
    if (!number(&slot) || slot >= SLOTS || slots[slot].given || !number(&len)) return 0;
    slots[slot].given = 1;
    slots[slot].len = len;
    slots[slot].words = malloc(len ? len * sizeof(uint32_t) : 1);
    if (!slots[slot].words) return 0;
    order[(*count)++] = (int)slot;
    for (uint64_t i = 0; i < len; i++) {
        if (!number(&word) || word > UINT32_MAX) return 0;
        slots[slot].words[i] = (uint32_t)word;
    }
    return 1;
}

static void written(uint64_t call, int count) {
    printf("%llu", (unsigned long long)call);
    for (int i = 0; i < 4; i++) printf(" %llu", (unsigned long long)told[i]);
    printf(" %d", taken);
    for (int i = 0; i < taken; i++) printf(" %llu", (unsigned long long)results[i]);
    putchar('\n');
    for (int k = 0; k < count; k++) {
        Slot s = slots[order[k]];
        printf("%d %zu", order[k], s.len);
        for (size_t i = 0; i < s.len; i++) printf(" %u", s.words[i]);
        putchar('\n');
    }
}

int main(void) {
    uint64_t call;
    while (number(&call) && call != 0) {
        uint64_t n, m;
        int count = 0;
        memset(scalars, 0, sizeof scalars);
        if (!number(&n) || n > SCALARS) return unreadable();
        for (uint64_t i = 0; i < n; i++)
            if (!number(&scalars[i])) return unreadable();
        if (!number(&m)) return unreadable();
        for (uint64_t i = 0; i < m; i++)
            if (!slot_read(&count)) return unreadable();
        taken = 0;
        if (!made(call)) return unreadable();
        written(call, count);
        for (int i = 0; i < SLOTS; i++) {
            free(slots[i].words);
            memset(&slots[i], 0, sizeof slots[i]);
        }
    }
    return 0;
}
