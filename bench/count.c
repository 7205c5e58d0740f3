/* A plug-in for the system's qemu-user: counts the instructions that a program runs, and with the argument `functions` says in which functions.

   qemu-x86_64 -plugin count.so[,functions=on] -d plugin PROGRAM

   Only what is used here of the plug-in interface is declared: the header does not come with the emulator. */
#include <inttypes.h>
#include <stddef.h>
#include <stdint.h>
#include <stdio.h>
#include <stdlib.h>
#include <string.h>

typedef uint64_t plugin_id;
struct qemu_plugin_tb;
struct qemu_plugin_insn;
struct qemu_info;

extern void qemu_plugin_register_vcpu_tb_trans_cb(plugin_id, void (*)(plugin_id, struct qemu_plugin_tb *));
extern void qemu_plugin_register_vcpu_insn_exec_inline(struct qemu_plugin_insn *, int op, void *counter, uint64_t by);
extern void qemu_plugin_register_atexit_cb(plugin_id, void (*)(plugin_id, void *), void *);
extern size_t qemu_plugin_tb_n_insns(const struct qemu_plugin_tb *);
extern struct qemu_plugin_insn *qemu_plugin_tb_get_insn(const struct qemu_plugin_tb *, size_t);
extern const char *qemu_plugin_insn_symbol(const struct qemu_plugin_insn *);

__attribute__((visibility("default"))) int qemu_plugin_version = 1;

enum { ADD = 0, MOST_FUNCTIONS = 4096 };

typedef struct {
    char *name;
    uint64_t count;
} Function;

static uint64_t all;
static int by_function;
static Function functions[MOST_FUNCTIONS];
static size_t n_functions;

/* The counter of a function; what has no name, as a C library without symbols, shares one. */
static uint64_t *counter_of(const char *name) {
    if (!name) name = "(no name)";
    for (size_t i = 0; i < n_functions; i++)
        if (strcmp(functions[i].name, name) == 0) return &functions[i].count;
    if (n_functions == MOST_FUNCTIONS) return &functions[0].count;
    functions[n_functions].name = strdup(name);
    return &functions[n_functions++].count;
}

/* Each instruction counts by itself: a block's own number of instructions is one too large where its last one crosses a page and is left to the next block. */
static void translated(plugin_id id, struct qemu_plugin_tb *tb) {
    (void)id;
    for (size_t i = 0; i < qemu_plugin_tb_n_insns(tb); i++) {
        struct qemu_plugin_insn *insn = qemu_plugin_tb_get_insn(tb, i);
        uint64_t *counter = by_function ? counter_of(qemu_plugin_insn_symbol(insn)) : &all;
        qemu_plugin_register_vcpu_insn_exec_inline(insn, ADD, counter, 1);
    }
}

static void ended(plugin_id id, void *unused) {
    (void)id;
    (void)unused;
    for (size_t i = 0; i < n_functions; i++) {
        fprintf(stderr, "function: %s %" PRIu64 "\n", functions[i].name, functions[i].count);
        all += functions[i].count;
    }
    fprintf(stderr, "instructions: %" PRIu64 "\n", all);
}

__attribute__((visibility("default"))) int qemu_plugin_install(plugin_id id, const struct qemu_info *info, int argc, char **argv) {
    (void)info;
    for (int i = 0; i < argc; i++) by_function |= strcmp(argv[i], "functions=on") == 0;
    qemu_plugin_register_vcpu_tb_trans_cb(id, translated);
    qemu_plugin_register_atexit_cb(id, ended, NULL);
    return 0;
}
