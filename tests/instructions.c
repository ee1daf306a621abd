// A plugin of qemu-user that counts the instructions of the program it runs, and writes their number to a file at its end:
//
//     cc -shared -fPIC -o instructions.so instructions.c
//     qemu-x86_64 -plugin ./instructions.so,out=FILE PROGRAM
//
// The few functions of the emulator that it needs are declared here, as its header is not in the emulator's package.
#include <inttypes.h>
#include <stddef.h>
#include <stdio.h>
#include <string.h>

struct block;
typedef uint64_t plugin_id;
enum { NO_REGISTERS = 0 };

size_t qemu_plugin_tb_n_insns(const struct block *);
void qemu_plugin_register_vcpu_tb_trans_cb(plugin_id, void (*translated)(plugin_id, struct block *));
void qemu_plugin_register_vcpu_tb_exec_cb(struct block *, void (*executed)(unsigned cpu, void *), int registers, void *);
void qemu_plugin_register_atexit_cb(plugin_id, void (*ended)(plugin_id, void *), void *);

// Of the interface; an emulator says if it does not take this one.
int qemu_plugin_version = 1;

static const char *out;
static uint64_t total;

// The number of a block's instructions stands in place of a pointer.
static void executed(unsigned cpu, void *instructions)
{
    (void)cpu;
    total += (uintptr_t)instructions;
}

static void translated(plugin_id id, struct block *block)
{
    (void)id;
    qemu_plugin_register_vcpu_tb_exec_cb(block, executed, NO_REGISTERS, (void *)(uintptr_t)qemu_plugin_tb_n_insns(block));
}

static void ended(plugin_id id, void *data)
{
    (void)id, (void)data;
    FILE *file = fopen(out, "w");
    if (!file || fprintf(file, "%" PRIu64 "\n", total) < 0 || fclose(file) != 0)
        perror(out);
}

int qemu_plugin_install(plugin_id id, const void *info, int count, char **words)
{
    (void)info;
    if (count != 1 || strncmp(words[0], "out=", 4) != 0)
        return 1;
    // The words go when this function returns.
    out = strdup(words[0] + 4);
    if (!out)
        return 1;
    qemu_plugin_register_vcpu_tb_trans_cb(id, translated);
    qemu_plugin_register_atexit_cb(id, ended, NULL);
    return 0;
}
