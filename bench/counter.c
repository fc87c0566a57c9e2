// A plug-in for the emulator that counts the program's instructions and says the total at its end.
// The few declarations that it needs of the emulator's header are written out: the header is not in the emulator's package.
#include <inttypes.h>
#include <stddef.h>
#include <stdint.h>
#include <stdio.h>

struct block;
enum registers_used { NO_REGISTERS };

extern void qemu_plugin_register_vcpu_tb_trans_cb(uint64_t id, void (*translated)(uint64_t id, struct block *block));
extern void qemu_plugin_register_vcpu_tb_exec_cb(struct block *block, void (*executed)(unsigned processor, void *data), enum registers_used used, void *data);
extern size_t qemu_plugin_tb_n_insns(const struct block *block);
extern void qemu_plugin_register_atexit_cb(uint64_t id, void (*ended)(uint64_t id, void *data), void *data);
extern void qemu_plugin_outs(const char *text);

int qemu_plugin_version = PLUGIN_VERSION;

static uint64_t total;

static void executed(unsigned processor, void *data) {
    (void)processor;
    total += (uintptr_t)data;
}

static void translated(uint64_t id, struct block *block) {
    (void)id;
    qemu_plugin_register_vcpu_tb_exec_cb(block, executed, NO_REGISTERS, (void *)(uintptr_t)qemu_plugin_tb_n_insns(block));
}

static void ended(uint64_t id, void *data) {
    (void)id;
    (void)data;
    char text[64];
    snprintf(text, sizeof text, "instructions=%" PRIu64 "\n", total);
    qemu_plugin_outs(text);
}

int qemu_plugin_install(uint64_t id, const void *information, int count, char **words) {
    (void)information;
    (void)count;
    (void)words;
    qemu_plugin_register_vcpu_tb_trans_cb(id, translated);
    qemu_plugin_register_atexit_cb(id, ended, NULL);
    return 0;
}
