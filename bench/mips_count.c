/* A plugin of qemu-mips that counts the instructions that a program executes, and is the console and the input of programs
 * that are linked as bench/c.py links them: the console is the word at byte address 1020, and the word at 1016 gives the next
 * byte of the input. It needs qemu's option -B with the address GUEST, so that it finds the program's memory:
 *     qemu-mips -B 0x100000000 -plugin libcount.so,counts=FILE[,input=FILE] PROGRAM
 * The console goes to standard output. FILE gets two numbers: the instructions that are no no-ops, and the no-ops. The
 * interface is version 1 of qemu's plugins, whose header Debian does not have: what is used of it is declared here. */
#include <stdbool.h>
#include <stdint.h>
#include <stdio.h>
#include <string.h>

#define GUEST ((volatile uint8_t *) 0x100000000)

enum { INPUT = 1016, CONSOLE = 1020 };
enum { NO_REGISTERS = 0, WRITES = 2, ADD = 0 };

/* `sw` and `lw` with base $0, and the register that they name. */
#define STORE (0xac000000 | CONSOLE)
#define LOAD (0x8c000000 | INPUT)
#define REGISTER (31u << 16)

typedef uint64_t plugin;
typedef struct qemu_plugin_tb block;
typedef struct qemu_plugin_insn instruction;
typedef void (*at_block)(plugin id, block *translated);
typedef void (*at_instruction)(unsigned processor, void *data);
typedef void (*at_memory)(unsigned processor, uint32_t how, uint64_t address, void *data);
typedef void (*at_end)(plugin id, void *data);

void qemu_plugin_register_vcpu_tb_trans_cb(plugin id, at_block call);
void qemu_plugin_register_vcpu_insn_exec_inline(instruction *one, int operation, void *to, uint64_t number);
void qemu_plugin_register_vcpu_insn_exec_cb(instruction *one, at_instruction call, int registers, void *data);
void qemu_plugin_register_vcpu_mem_cb(instruction *one, at_memory call, int registers, int which, void *data);
void qemu_plugin_register_atexit_cb(plugin id, at_end call, void *data);
size_t qemu_plugin_tb_n_insns(const block *translated);
instruction *qemu_plugin_tb_get_insn(const block *translated, size_t number);
const void *qemu_plugin_insn_data(const instruction *one);

__attribute__((visibility("default"))) int qemu_plugin_version = 1;

static uint64_t done, noops;
static FILE *input, *counts;

/* Before a load of the input: its word gets the next byte, or -1 behind the end. */
static void input_wanted(unsigned processor, void *data) {
    (void) processor, (void) data;
    int byte = input ? getc(input) : EOF;
    for (int i = 0; i < 4; i++)
        GUEST[INPUT + i] = byte == EOF ? 255 : i == 3 ? byte : 0;
}

static void console_stored(unsigned processor, uint32_t how, uint64_t address, void *data) {
    (void) processor, (void) how, (void) address, (void) data;
    putchar(GUEST[CONSOLE + 3]);
}

static void translated(plugin id, block *one) {
    (void) id;
    for (size_t i = 0; i < qemu_plugin_tb_n_insns(one); i++) {
        instruction *at = qemu_plugin_tb_get_insn(one, i);
        const uint8_t *bytes = qemu_plugin_insn_data(at);
        uint32_t word = (uint32_t) bytes[0] << 24 | bytes[1] << 16 | bytes[2] << 8 | bytes[3];
        qemu_plugin_register_vcpu_insn_exec_inline(at, ADD, word ? &done : &noops, 1);
        if ((word & ~REGISTER) == STORE)
            qemu_plugin_register_vcpu_mem_cb(at, console_stored, NO_REGISTERS, WRITES, NULL);
        if ((word & ~REGISTER) == LOAD)
            qemu_plugin_register_vcpu_insn_exec_cb(at, input_wanted, NO_REGISTERS, NULL);
    }
}

static void ended(plugin id, void *data) {
    (void) id, (void) data;
    fprintf(counts, "%llu %llu\n", (unsigned long long) done, (unsigned long long) noops);
    fclose(counts);
    fflush(stdout);
}

__attribute__((visibility("default"))) int qemu_plugin_install(plugin id, const void *information, int count, char **words) {
    (void) information;
    for (int i = 0; i < count; i++) {
        if (!strncmp(words[i], "input=", 6))
            input = fopen(words[i] + 6, "rb");
        if (!strncmp(words[i], "counts=", 7))
            counts = fopen(words[i] + 7, "w");
    }
    if (!counts)
        return 1;
    qemu_plugin_register_vcpu_tb_trans_cb(id, translated);
    qemu_plugin_register_atexit_cb(id, ended, NULL);
    return 0;
}
