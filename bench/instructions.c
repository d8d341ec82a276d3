/*
 * A plugin for QEMU's user emulator that counts instructions of the program it runs: the same number on every machine. A program
 * asks for the count by the system call getpriority(MARK, label), which prints `MARK label count` with the instructions since
 * the last such call. Each instruction is counted by itself: a block that QEMU translates may also number the instruction behind
 * it, where that goes over the end of a page, so a count of blocks would depend on where the linker puts code. QEMU's own header for
 * plugins is not always installed, so what is used of it is declared here.
 */
#include <inttypes.h>
#include <stdint.h>
#include <stdio.h>

typedef uint64_t qemu_plugin_id_t;
struct qemu_plugin_tb;
struct qemu_plugin_insn;
struct qemu_info;
enum { INLINE_ADD = 0, GETPRIORITY = 140, MARK = 77 };

typedef void block_callback(qemu_plugin_id_t, struct qemu_plugin_tb *);
typedef void call_callback(qemu_plugin_id_t, unsigned, int64_t, uint64_t, uint64_t, uint64_t, uint64_t, uint64_t, uint64_t, uint64_t,
                           uint64_t);

void qemu_plugin_register_vcpu_tb_trans_cb(qemu_plugin_id_t, block_callback *);
struct qemu_plugin_insn *qemu_plugin_tb_get_insn(const struct qemu_plugin_tb *, size_t);
void qemu_plugin_register_vcpu_insn_exec_inline(struct qemu_plugin_insn *, int, void *, uint64_t);
size_t qemu_plugin_tb_n_insns(const struct qemu_plugin_tb *);
void qemu_plugin_register_vcpu_syscall_cb(qemu_plugin_id_t, call_callback *);

__attribute__((visibility("default"))) int qemu_plugin_version = 1;
static uint64_t count, last;

static void translated(qemu_plugin_id_t id, struct qemu_plugin_tb *block)
{
    (void)id;
    for (size_t k = 0; k < qemu_plugin_tb_n_insns(block); k++)
        qemu_plugin_register_vcpu_insn_exec_inline(qemu_plugin_tb_get_insn(block, k), INLINE_ADD, &count, 1);
}

static void called(qemu_plugin_id_t id, unsigned processor, int64_t number, uint64_t a, uint64_t b, uint64_t c, uint64_t d, uint64_t e,
                   uint64_t f, uint64_t g, uint64_t h)
{
    (void)id, (void)processor, (void)c, (void)d, (void)e, (void)f, (void)g, (void)h;
    if (number == GETPRIORITY && a == MARK) {
        fprintf(stderr, "MARK %" PRIu64 " %" PRIu64 "\n", b, count - last);
        last = count;
    }
}

__attribute__((visibility("default"))) int qemu_plugin_install(qemu_plugin_id_t id, const struct qemu_info *info, int argc, char **argv)
{
    (void)info, (void)argc, (void)argv;
    qemu_plugin_register_vcpu_tb_trans_cb(id, translated);
    qemu_plugin_register_vcpu_syscall_cb(id, called);
    return 0;
}
