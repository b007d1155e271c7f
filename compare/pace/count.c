/* A plugin of the emulator qemu-x86_64: counts the instructions that a program runs, and writes to standard error how many
 * there were since the last mark, at each mark and at the end. A mark is the system call getppid.
 *
 *     gcc -shared -fPIC count.c -o count.so
 *     qemu-x86_64 -plugin ./count.so PROGRAM */
#include <inttypes.h>
#include <stddef.h>
#include <stdio.h>

/* ---- the emulator's interface, as far as it is used here */

struct qemu_plugin_tb; /* a block of instructions that are run one after the other */
struct qemu_plugin_insn;

size_t qemu_plugin_tb_n_insns(const struct qemu_plugin_tb *block);
struct qemu_plugin_insn *qemu_plugin_tb_get_insn(const struct qemu_plugin_tb *block, size_t place);
void qemu_plugin_register_vcpu_tb_trans_cb(uint64_t id, void (*made)(uint64_t id, struct qemu_plugin_tb *block));
void qemu_plugin_register_vcpu_insn_exec_cb(struct qemu_plugin_insn *instruction, void (*ran)(unsigned cpu, void *with),
    int flags, void *with);
void qemu_plugin_register_vcpu_syscall_cb(uint64_t id, void (*called)(uint64_t id, unsigned cpu, int64_t call, uint64_t a,
    uint64_t b, uint64_t c, uint64_t d, uint64_t e, uint64_t f, uint64_t g, uint64_t h));
void qemu_plugin_register_atexit_cb(uint64_t id, void (*ended)(uint64_t id, void *with), void *with);

int qemu_plugin_version = 1;

/* ---- the count */

#define GETPPID 110

static uint64_t count;

static void ran(unsigned cpu, void *with)
{
    (void)cpu, (void)with;
    count++;
}

/* one by one, since a block may end before its last instruction where a page ends in that */
static void made(uint64_t id, struct qemu_plugin_tb *block)
{
    (void)id;
    for (size_t i = 0; i < qemu_plugin_tb_n_insns(block); i++) {
        qemu_plugin_register_vcpu_insn_exec_cb(qemu_plugin_tb_get_insn(block, i), ran, 0, NULL);
    }
}

static void tell(void)
{
    dprintf(2, " %" PRIu64, count);
    count = 0;
}

static void called(uint64_t id, unsigned cpu, int64_t call, uint64_t a, uint64_t b, uint64_t c, uint64_t d, uint64_t e,
    uint64_t f, uint64_t g, uint64_t h)
{
    (void)id, (void)cpu, (void)a, (void)b, (void)c, (void)d, (void)e, (void)f, (void)g, (void)h;
    if (call == GETPPID) {
        tell();
    }
}

static void ended(uint64_t id, void *with)
{
    (void)id, (void)with;
    tell();
}

int qemu_plugin_install(uint64_t id, const void *info, int words, char **word)
{
    (void)info, (void)words, (void)word;
    qemu_plugin_register_vcpu_tb_trans_cb(id, made);
    qemu_plugin_register_vcpu_syscall_cb(id, called);
    qemu_plugin_register_atexit_cb(id, ended, NULL);
    return 0;
}
