/* A plugin of QEMU 7.2 that counts from each call of a function to its return: instructions, and the cycles that the table of instructions of the Cortex-M4's
 * manual gives them, without wait states. Built with cc -shared -fPIC; the few lines of QEMU's plugin interface (version 1) that it needs are declared here.
 *
 * Cycles: 1 an instruction; a load or store 2, but 1 where one stands right before it; ldrd and strd 3; ldm, stm, push, pop 1 and 1 more for each register;
 * a branch that is taken 2 more. Of single-precision numbers: a load or store 2, one that adds to a product 3, a quotient or a root 14. Arguments: entry and leave, the addresses of the function and of what comes after its call. Prints `run INSTRUCTIONS CYCLES`. */
#include <inttypes.h>
#include <stdio.h>
#include <stdlib.h>
#include <string.h>

typedef uint64_t qemu_plugin_id_t;
struct qemu_plugin_tb;
struct qemu_plugin_insn;
__attribute__((visibility("default"))) int qemu_plugin_version = 1;
void qemu_plugin_register_vcpu_tb_trans_cb(qemu_plugin_id_t, void (*)(qemu_plugin_id_t, struct qemu_plugin_tb *));
void qemu_plugin_register_vcpu_tb_exec_cb(struct qemu_plugin_tb *, void (*)(unsigned, void *), int, void *);
size_t qemu_plugin_tb_n_insns(const struct qemu_plugin_tb *);
uint64_t qemu_plugin_tb_vaddr(const struct qemu_plugin_tb *);
struct qemu_plugin_insn *qemu_plugin_tb_get_insn(const struct qemu_plugin_tb *, size_t);
size_t qemu_plugin_insn_size(const struct qemu_plugin_insn *);
uint64_t qemu_plugin_insn_vaddr(const struct qemu_plugin_insn *);
char *qemu_plugin_insn_disas(const struct qemu_plugin_insn *);

/* Instructions one after the other, without a branch but at the end. */
typedef struct {
    uint64_t start, end;
    unsigned instructions, cycles;
} block;

static uint64_t instructions, cycles, begin_instructions, begin_cycles, entry, leave;
static int is_inside;
static const block *before;

static void executed(unsigned processor, void *data)
{
    const block *b = data;
    (void)processor;
    if (before && before->end != b->start) cycles += 2;
    before = b;
    if (b->start == entry) {
        begin_instructions = instructions;
        begin_cycles = cycles;
        is_inside = 1;
    }
    if (b->start == leave && is_inside) {
        fprintf(stderr, "run %" PRIu64 " %" PRIu64 "\n", instructions - begin_instructions, cycles - begin_cycles);
        is_inside = 0;
    }
    instructions += b->instructions;
    cycles += b->cycles;
}

static int begins(const char *text, const char *with)
{
    return strncmp(text, with, strlen(with)) == 0;
}

static unsigned registers(const char *text)
{
    unsigned count = 1;
    text = strchr(text, '{');
    for (; text && *text && *text != '}'; text++) count += *text == ',';
    return count;
}

static unsigned cycles_of(const char *text, int *is_access)
{
    const int was_access = *is_access;
    *is_access = 0;
    if (begins(text, "ldrd") || begins(text, "strd")) return 3;
    if (begins(text, "ldr") || begins(text, "str")) {
        *is_access = 1;
        return was_access ? 1 : 2;
    }
    if (begins(text, "vldr") || begins(text, "vstr")) return 2;
    if (begins(text, "vldm") || begins(text, "vstm") || begins(text, "vpush") || begins(text, "vpop")) return 1 + registers(text);
    if (begins(text, "vmla") || begins(text, "vmls") || begins(text, "vnmla") || begins(text, "vnmls") || begins(text, "vfm") || begins(text, "vfnm")) return 3;
    if (begins(text, "vdiv") || begins(text, "vsqrt")) return 14;
    if (begins(text, "ldm") || begins(text, "stm") || begins(text, "push") || begins(text, "pop")) return 1 + registers(text);
    return 1;
}

static void translated(qemu_plugin_id_t id, struct qemu_plugin_tb *tb)
{
    const size_t count = qemu_plugin_tb_n_insns(tb);
    block *b = calloc(1, sizeof *b);
    int is_access = 0;
    (void)id;
    b->start = qemu_plugin_tb_vaddr(tb);
    for (size_t i = 0; i < count; i++) {
        struct qemu_plugin_insn *instruction = qemu_plugin_tb_get_insn(tb, i);
        char *text = qemu_plugin_insn_disas(instruction);
        b->end = qemu_plugin_insn_vaddr(instruction) + qemu_plugin_insn_size(instruction);
        b->instructions++;
        b->cycles += text ? cycles_of(text, &is_access) : 1;
        free(text);
    }
    qemu_plugin_register_vcpu_tb_exec_cb(tb, executed, 0, b);
}

__attribute__((visibility("default"))) int qemu_plugin_install(qemu_plugin_id_t id, const void *info, int count, char **words)
{
    (void)info;
    for (int i = 0; i < count; i++) {
        if (begins(words[i], "entry=")) entry = strtoull(words[i] + 6, 0, 0);
        if (begins(words[i], "leave=")) leave = strtoull(words[i] + 6, 0, 0);
    }
    qemu_plugin_register_vcpu_tb_trans_cb(id, translated);
    return 0;
}
