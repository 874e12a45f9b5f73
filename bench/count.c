/* Counts the instructions that a program executes, as a plugin of Debian's qemu-user: written to the file named by out= when the program ends.
 * The emulator runs blocks of instructions, each from its first to its last. A `rep` instruction is a block that leads to itself; a processor
 * counts it once, and so does this. */
#include <inttypes.h>
#include <stddef.h>
#include <stdio.h>
#include <stdlib.h>
#include <string.h>

/* the part of qemu-plugin.h that is used */
typedef uint64_t qemu_plugin_id_t;
typedef struct qemu_info_t qemu_info_t;
struct qemu_plugin_tb;
struct qemu_plugin_insn;
typedef void (*translated_fn)(qemu_plugin_id_t, struct qemu_plugin_tb *);
typedef void (*executed_fn)(unsigned int, void *);
typedef void (*exit_fn)(qemu_plugin_id_t, void *);
void qemu_plugin_register_vcpu_tb_trans_cb(qemu_plugin_id_t, translated_fn);
void qemu_plugin_register_vcpu_tb_exec_cb(struct qemu_plugin_tb *, executed_fn, int flags, void *);
void qemu_plugin_register_atexit_cb(qemu_plugin_id_t, exit_fn, void *);
size_t qemu_plugin_tb_n_insns(const struct qemu_plugin_tb *);
struct qemu_plugin_insn *qemu_plugin_tb_get_insn(const struct qemu_plugin_tb *, size_t);
uint64_t qemu_plugin_insn_vaddr(const struct qemu_plugin_insn *);

#define EXPORTED __attribute__((visibility("default")))
EXPORTED int qemu_plugin_version = 1;

typedef struct { uint64_t size, first, last; } Block;

static uint64_t total, last_executed;
static const char *out;

static void executed(unsigned int cpu, void *data) {
    const Block *block = data;
    (void)cpu;
    total += block->size - (block->first == last_executed);
    last_executed = block->last;
}

static void translated(qemu_plugin_id_t id, struct qemu_plugin_tb *tb) {
    Block *block = malloc(sizeof *block);
    (void)id;
    if (!block) abort();
    block->size = qemu_plugin_tb_n_insns(tb);
    block->first = qemu_plugin_insn_vaddr(qemu_plugin_tb_get_insn(tb, 0));
    block->last = qemu_plugin_insn_vaddr(qemu_plugin_tb_get_insn(tb, block->size - 1));
    qemu_plugin_register_vcpu_tb_exec_cb(tb, executed, 0, block);
}

static void ended(qemu_plugin_id_t id, void *data) {
    FILE *f = fopen(out, "w");
    (void)id, (void)data;
    if (!f) return;
    fprintf(f, "%" PRIu64 "\n", total);
    fclose(f);
}

EXPORTED int qemu_plugin_install(qemu_plugin_id_t id, const qemu_info_t *info, int argc, char **argv) {
    (void)info;
    for (int i = 0; i < argc; i++)
        if (!strncmp(argv[i], "out=", 4)) out = strdup(argv[i] + 4);
    if (!out) return 1;
    qemu_plugin_register_vcpu_tb_trans_cb(id, translated);
    qemu_plugin_register_atexit_cb(id, ended, NULL);
    return 0;
}
