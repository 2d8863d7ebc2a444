/* A plugin of qemu-x86_64 that counts the instructions which the program executes:

       cc -O2 -shared -fPIC -o counter.so counter.c
       qemu-x86_64 -plugin ./counter.so,out=FILE PROGRAM ..

   At the end FILE has one line of two numbers. The first is how many instructions were executed; one that copies, clears or
   compares memory and repeats itself counts once. The second is how often such instructions were repeated: the emulator makes
   each repetition alone, where a processor moves many bytes at a time, so they are counted by themselves.

   The header qemu-plugin.h is not in every package. What is used of version 1 of that interface is declared here. */

#include <stdbool.h>
#include <stddef.h>
#include <stdint.h>
#include <stdio.h>
#include <string.h>

#define SHOWN __attribute__((visibility("default")))

typedef uint64_t plugin_id;
struct qemu_plugin_tb;
struct qemu_plugin_insn;
enum qemu_plugin_op { QEMU_PLUGIN_INLINE_ADD_U64 };

void qemu_plugin_register_vcpu_tb_trans_cb(plugin_id id, void (*translated)(plugin_id, struct qemu_plugin_tb *));
void qemu_plugin_register_vcpu_tb_exec_inline(struct qemu_plugin_tb *block, enum qemu_plugin_op op, void *to, uint64_t number);
void qemu_plugin_register_vcpu_insn_exec_inline(struct qemu_plugin_insn *insn, enum qemu_plugin_op op, void *to, uint64_t number);
void qemu_plugin_register_atexit_cb(plugin_id id, void (*ended)(plugin_id, void *), void *with);
size_t qemu_plugin_tb_n_insns(const struct qemu_plugin_tb *block);
struct qemu_plugin_insn *qemu_plugin_tb_get_insn(const struct qemu_plugin_tb *block, size_t number);
const void *qemu_plugin_insn_data(const struct qemu_plugin_insn *insn);
size_t qemu_plugin_insn_size(const struct qemu_plugin_insn *insn);

SHOWN int qemu_plugin_version = 1;

static uint64_t executed;
static uint64_t repeated;
static char out[4096];

/* Whether an instruction is one on strings with a prefix that repeats it: F2 or F3 among the prefixes, then A4 to A7 or AA to AF. */
static bool repeats_itself(const struct qemu_plugin_insn *insn)
{
    const unsigned char *byte = qemu_plugin_insn_data(insn);
    size_t size = qemu_plugin_insn_size(insn);
    bool prefixed = false;
    size_t at = 0;
    for (; at + 1 < size; at++) {
        bool repeat = byte[at] == 0xF2 || byte[at] == 0xF3;
        bool other = byte[at] == 0x66 || byte[at] == 0x67 || (byte[at] & 0xF0) == 0x40;
        if (!repeat && !other)
            return false;
        prefixed = prefixed || repeat;
    }
    return prefixed && ((byte[at] >= 0xA4 && byte[at] <= 0xA7) || (byte[at] >= 0xAA && byte[at] <= 0xAF));
}

/* A block of instructions runs from its first to its last. To repeat an instruction the emulator begins a block with it. */
static void translated(plugin_id id, struct qemu_plugin_tb *block)
{
    (void)id;
    struct qemu_plugin_insn *first = qemu_plugin_tb_get_insn(block, 0);
    qemu_plugin_register_vcpu_tb_exec_inline(block, QEMU_PLUGIN_INLINE_ADD_U64, &executed, qemu_plugin_tb_n_insns(block));
    if (repeats_itself(first))
        qemu_plugin_register_vcpu_insn_exec_inline(first, QEMU_PLUGIN_INLINE_ADD_U64, &repeated, 1);
}

static void ended(plugin_id id, void *with)
{
    (void)id;
    (void)with;
    FILE *file = fopen(out, "w");
    if (!file)
        return;
    fprintf(file, "%llu %llu\n", (unsigned long long)(executed - repeated), (unsigned long long)repeated);
    fclose(file);
}

SHOWN int qemu_plugin_install(plugin_id id, const void *info, int count, char **words)
{
    (void)info;
    if (count != 1 || strncmp(words[0], "out=", 4) != 0 || strlen(words[0] + 4) >= sizeof out)
        return 1;
    strcpy(out, words[0] + 4);
    qemu_plugin_register_vcpu_tb_trans_cb(id, translated);
    qemu_plugin_register_atexit_cb(id, ended, NULL);
    return 0;
}
