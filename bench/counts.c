// A plugin for qemu-user that counts the instructions, loads and stores that a program executes and the bytes that it
// stores, and says how many at its end. With the argument where=on it also says of each byte how many times it was
// stored. qemu 7.2 reports a move of 16 bytes as two accesses of 8, so that it counts as two. The few declarations it
// needs of qemu's are its own, so that no header of qemu's has to be installed.
#include <inttypes.h>
#include <stdbool.h>
#include <stdio.h>
#include <string.h>
#include <unistd.h>

struct qemu_plugin_tb;
struct qemu_plugin_insn;
void qemu_plugin_register_vcpu_tb_trans_cb(uint64_t id, void (*translated)(uint64_t id, struct qemu_plugin_tb *block));
void qemu_plugin_register_vcpu_tb_exec_inline(struct qemu_plugin_tb *block, int op, void *counter, uint64_t add);
void qemu_plugin_register_vcpu_mem_cb(struct qemu_plugin_insn *insn,
                                      void (*accessed)(unsigned cpu, uint32_t access, uint64_t address, void *unused),
                                      int registers, int accesses, void *unused);
void qemu_plugin_register_atexit_cb(uint64_t id, void (*ended)(uint64_t id, void *unused), void *unused);
size_t qemu_plugin_tb_n_insns(const struct qemu_plugin_tb *block);
struct qemu_plugin_insn *qemu_plugin_tb_get_insn(const struct qemu_plugin_tb *block, size_t at);
unsigned qemu_plugin_mem_size_shift(uint32_t access);
bool qemu_plugin_mem_is_store(uint32_t access);

enum { ADD = 0, NO_REGISTERS = 0, LOADS_AND_STORES = 3 };

__attribute__((visibility("default"))) int qemu_plugin_version = 1;

static uint64_t executed, loads, stores, bytes;

// How many times each byte was stored: a table with open addressing, in which a place with no times is free.
enum { BITS = 20, PLACES = 1 << BITS };
static bool where;
static struct { uint64_t address, times; } table[PLACES];
static size_t used;

// The product scatters the addresses over the table. At most half of it is taken, so that each search ends.
static void byte_stored(uint64_t address) {
    size_t at = address * UINT64_C(0x9E3779B97F4A7C15) >> (64 - BITS);
    while (table[at].times > 0 && table[at].address != address)
        at = (at + 1) % PLACES;
    if (table[at].times == 0) {
        if (used == PLACES / 2) {
            fprintf(stderr, "counts: the table is full, more than %zu bytes of memory are stored to\n", used);
            _exit(1);
        }
        used++;
        table[at].address = address;
    }
    table[at].times++;
}

static void accessed(unsigned cpu, uint32_t access, uint64_t address, void *unused) {
    (void)cpu, (void)unused;
    if (!qemu_plugin_mem_is_store(access)) {
        loads++;
        return;
    }
    uint64_t size = UINT64_C(1) << qemu_plugin_mem_size_shift(access);
    stores++;
    bytes += size;
    for (uint64_t k = 0; where && k < size; k++)
        byte_stored(address + k);
}

// Every time a block is run, as many instructions are added as it has. An access is reported when it is made.
static void translated(uint64_t id, struct qemu_plugin_tb *block) {
    (void)id;
    size_t count = qemu_plugin_tb_n_insns(block);
    qemu_plugin_register_vcpu_tb_exec_inline(block, ADD, &executed, count);
    for (size_t k = 0; k < count; k++)
        qemu_plugin_register_vcpu_mem_cb(qemu_plugin_tb_get_insn(block, k), accessed, NO_REGISTERS, LOADS_AND_STORES,
                                         NULL);
}

static void ended(uint64_t id, void *unused) {
    (void)id, (void)unused;
    fprintf(stderr, "instructions %" PRIu64 " loads %" PRIu64 " stores %" PRIu64 " bytes %" PRIu64 "\n", executed,
            loads, stores, bytes);
    for (size_t at = 0; where && at < PLACES; at++)
        if (table[at].times > 0)
            fprintf(stderr, "stored %" PRIu64 " %" PRIu64 "\n", table[at].address, table[at].times);
}

__attribute__((visibility("default"))) int qemu_plugin_install(uint64_t id, const void *info, int argc, char **argv) {
    (void)info;
    where = argc == 1 && strcmp(argv[0], "where=on") == 0;
    if (argc > 0 && !where) {
        fprintf(stderr, "counts: the only argument is where=on\n");
        return 1;
    }
    qemu_plugin_register_vcpu_tb_trans_cb(id, translated);
    qemu_plugin_register_atexit_cb(id, ended, NULL);
    return 0;
}
