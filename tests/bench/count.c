/* A plugin for qemu's user emulator: it counts the instructions that the program executes. The program asks for the count by a
   system call that no kernel has, with a file descriptor; the count goes there as eight bytes. Debian has no header of the
   emulator's plugins, so what is used of it is declared here. */
#include <stddef.h>
#include <stdint.h>
#include <unistd.h>

struct qemu_plugin_tb; /* a block: instructions that are executed one after another, up to a jump or a system call */

typedef void on_block_made(uint64_t plugin, struct qemu_plugin_tb *block);
typedef void on_block_run(unsigned cpu, void *data);
typedef void on_system_call(uint64_t plugin, unsigned cpu, int64_t number, uint64_t a1, uint64_t a2, uint64_t a3, uint64_t a4,
                            uint64_t a5, uint64_t a6, uint64_t a7, uint64_t a8);

void qemu_plugin_register_vcpu_tb_trans_cb(uint64_t plugin, on_block_made *call);
void qemu_plugin_register_vcpu_tb_exec_cb(struct qemu_plugin_tb *block, on_block_run *call, int flags, void *data);
void qemu_plugin_register_vcpu_syscall_cb(uint64_t plugin, on_system_call *call);
size_t qemu_plugin_tb_n_insns(const struct qemu_plugin_tb *block);

enum { ASK = 100000 /* the same number is in meter.rs */, READS_NO_REGISTERS = 0 };

int qemu_plugin_version = 1;

static uint64_t executed;

static void run(unsigned cpu, void *instructions) {
    (void)cpu;
    executed += (uintptr_t)instructions;
}

static void made(uint64_t plugin, struct qemu_plugin_tb *block) {
    (void)plugin;
    qemu_plugin_register_vcpu_tb_exec_cb(block, run, READS_NO_REGISTERS, (void *)(uintptr_t)qemu_plugin_tb_n_insns(block));
}

static void asked(uint64_t plugin, unsigned cpu, int64_t number, uint64_t a1, uint64_t a2, uint64_t a3, uint64_t a4, uint64_t a5,
                  uint64_t a6, uint64_t a7, uint64_t a8) {
    (void)plugin, (void)cpu, (void)a2, (void)a3, (void)a4, (void)a5, (void)a6, (void)a7, (void)a8;
    /* a count that does not go out whole is missed by the program */
    if (number == ASK && write((int)a1, &executed, sizeof executed) < 0) return;
}

int qemu_plugin_install(uint64_t plugin, const void *about, int argc, char **argv) {
    (void)about, (void)argc, (void)argv;
    qemu_plugin_register_vcpu_tb_trans_cb(plugin, made);
    qemu_plugin_register_vcpu_syscall_cb(plugin, asked);
    return 0;
}
