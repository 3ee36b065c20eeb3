/* A plugin of QEMU that counts the instructions an emulated program executes, and prints the count on standard error at its end.
 * Debian has no header for QEMU's plugins, so what is used of it (version 1 of the interface) is declared here. */
#include <inttypes.h>
#include <stdint.h>
#include <stdio.h>

typedef uint64_t plugin_id;
typedef struct qemu_plugin_tb block;
typedef struct qemu_plugin_insn instruction;

enum { ADD_U64 = 0 };

void qemu_plugin_register_vcpu_tb_trans_cb(plugin_id id, void (*translated)(plugin_id id, block *block));
size_t qemu_plugin_tb_n_insns(const block *block);
instruction *qemu_plugin_tb_get_insn(const block *block, size_t index);
void qemu_plugin_register_vcpu_insn_exec_inline(instruction *instruction, int operation, void *number, uint64_t value);
void qemu_plugin_register_atexit_cb(plugin_id id, void (*ended)(plugin_id id, void *data), void *data);

int qemu_plugin_version = 1;

static uint64_t executed;

/* Each instruction counts itself: a block that ends where one lies across two pages would count that one too, and the
 * next block again, so that the place of the code would change the count. */
static void translated(plugin_id id, block *block)
{
    (void)id;
    for (size_t i = 0; i < qemu_plugin_tb_n_insns(block); i++)
        qemu_plugin_register_vcpu_insn_exec_inline(qemu_plugin_tb_get_insn(block, i), ADD_U64, &executed, 1);
}

static void ended(plugin_id id, void *data)
{
    (void)id;
    (void)data;
    fprintf(stderr, "%" PRIu64 "\n", executed);
}

int qemu_plugin_install(plugin_id id, const void *info, int argc, char **argv);

int qemu_plugin_install(plugin_id id, const void *info, int argc, char **argv)
{
    (void)info;
    (void)argc;
    (void)argv;
    qemu_plugin_register_vcpu_tb_trans_cb(id, translated);
    qemu_plugin_register_atexit_cb(id, ended, NULL);
    return 0;
}
