/* A plugin for qemu 7: counts the instructions of the program that qemu runs, and says at its end how many there were, in callgrind's
 * words. Debian has no header of qemu's interface for plugins; what is used of it is declared here. */
#include <inttypes.h>
#include <stddef.h>
#include <stdio.h>

typedef uint64_t Plugin;
/* A stretch of code that is run from its first instruction to its last. */
typedef struct qemu_plugin_tb Stretch;
typedef struct qemu_plugin_insn Instruction;
enum { ADD = 0 };

size_t qemu_plugin_tb_n_insns(const Stretch *stretch);
Instruction *qemu_plugin_tb_get_insn(const Stretch *stretch, size_t index);
void qemu_plugin_register_vcpu_tb_trans_cb(Plugin plugin, void (*call)(Plugin plugin, Stretch *stretch));
void qemu_plugin_register_vcpu_tb_exec_inline(Stretch *stretch, int operation, void *place, uint64_t number);
void qemu_plugin_register_vcpu_insn_exec_inline(Instruction *instruction, int operation, void *place, uint64_t number);
void qemu_plugin_register_atexit_cb(Plugin plugin, void (*call)(Plugin plugin, void *data), void *data);

int qemu_plugin_version = 1;
static uint64_t instructions;

/* A new stretch: whenever it is run, as many instructions more. The last one counts by itself: one that lies on two pages is named by the
 * stretch before it too, which does not run it. */
static void take_in(Plugin plugin, Stretch *stretch)
{
    size_t before_last = qemu_plugin_tb_n_insns(stretch) - 1;

    (void)plugin;
    qemu_plugin_register_vcpu_tb_exec_inline(stretch, ADD, &instructions, before_last);
    qemu_plugin_register_vcpu_insn_exec_inline(qemu_plugin_tb_get_insn(stretch, before_last), ADD, &instructions, 1);
}

static void say(Plugin plugin, void *data)
{
    (void)plugin;
    (void)data;
    fprintf(stderr, "Collected : %" PRIu64 "\n", instructions);
}

int qemu_plugin_install(Plugin plugin, const void *info, int count, char **words)
{
    (void)info;
    (void)count;
    (void)words;
    qemu_plugin_register_vcpu_tb_trans_cb(plugin, take_in);
    qemu_plugin_register_atexit_cb(plugin, say, NULL);
    return 0;
}
