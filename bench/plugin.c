// For the kit's emulator: counts the instructions of the emulated program from each odd mark to the next and prints them.
// A mark is a write to descriptor 1023. The few functions of the emulator that are used are declared here, by hand.
#include <inttypes.h>
#include <stddef.h>
#include <stdio.h>

typedef struct qemu_info_t qemu_info_t;
struct qemu_plugin_tb;
struct qemu_plugin_insn;
enum qemu_plugin_op { QEMU_PLUGIN_INLINE_ADD_U64 };
extern void qemu_plugin_register_vcpu_tb_trans_cb(uint64_t, void (*)(uint64_t, struct qemu_plugin_tb *));
extern size_t qemu_plugin_tb_n_insns(const struct qemu_plugin_tb *);
extern struct qemu_plugin_insn *qemu_plugin_tb_get_insn(const struct qemu_plugin_tb *, size_t);
extern void qemu_plugin_register_vcpu_insn_exec_inline(struct qemu_plugin_insn *, enum qemu_plugin_op, void *, uint64_t);
extern void qemu_plugin_register_vcpu_syscall_cb(uint64_t, void *);
#define SEEN __attribute__((visibility("default")))

enum { WRITE = 1, MARK = 1023 };
static uint64_t executed, at_mark;
static int marks;

// Each instruction is counted by itself. A block may name one more than it executes, where it ends before an instruction
// that lies on two pages: its number would depend on where the program is placed.
static void on_block(uint64_t id, struct qemu_plugin_tb *block) {
    (void)id;
    for (size_t i = 0; i < qemu_plugin_tb_n_insns(block); i++) {
        struct qemu_plugin_insn *instruction = qemu_plugin_tb_get_insn(block, i);
        qemu_plugin_register_vcpu_insn_exec_inline(instruction, QEMU_PLUGIN_INLINE_ADD_U64, &executed, 1);
    }
}

static void on_call(uint64_t id, unsigned cpu, int64_t number, uint64_t first, uint64_t a, uint64_t b, uint64_t c,
                    uint64_t d, uint64_t e, uint64_t f, uint64_t g) {
    (void)id, (void)cpu, (void)a, (void)b, (void)c, (void)d, (void)e, (void)f, (void)g;
    if (number != WRITE || first != MARK) return;
    if (++marks % 2 == 0) fprintf(stderr, "%" PRIu64 "\n", executed - at_mark);
    at_mark = executed;
}

SEEN int qemu_plugin_version = 1;
SEEN int qemu_plugin_install(uint64_t id, const qemu_info_t *info, int count, char **words) {
    (void)info, (void)count, (void)words;
    qemu_plugin_register_vcpu_tb_trans_cb(id, on_block);
    qemu_plugin_register_vcpu_syscall_cb(id, (void *)on_call);
    return 0;
}
