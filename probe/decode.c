// What an x86-64 instruction writes (registers, flags, memory), and its text.
#include "trace.h"
#include <capstone/capstone.h>
#include <stdio.h>
#include <stdlib.h>
#include <string.h>

static csh disassembler;

static const char *const names[4][GENERAL] = {
    { "rax", "rcx", "rdx", "rbx", "rsp", "rbp", "rsi", "rdi", "r8", "r9", "r10", "r11", "r12", "r13", "r14", "r15" },
    { "eax", "ecx", "edx", "ebx", "esp", "ebp", "esi", "edi", "r8d", "r9d", "r10d", "r11d", "r12d", "r13d", "r14d", "r15d" },
    { "ax", "cx", "dx", "bx", "sp", "bp", "si", "di", "r8w", "r9w", "r10w", "r11w", "r12w", "r13w", "r14w", "r15w" },
    { "al", "cl", "dl", "bl", "spl", "bpl", "sil", "dil", "r8b", "r9b", "r10b", "r11b", "r12b", "r13b", "r14b", "r15b" },
};

int decoder_open(void) {
    return cs_open(CS_ARCH_X86, CS_MODE_64, &disassembler) || cs_option(disassembler, CS_OPT_DETAIL, CS_OPT_ON);
}

// The register of the disassembler's number, 1; or 0 where it is none of the 32.
static int register_of(unsigned id, Register *found) {
    const char *name = id ? cs_reg_name(disassembler, id) : NULL;
    if (!name)
        return 0;
    for (int size = 0; size < 4; size++)
        for (int number = 0; number < GENERAL; number++)
            if (!strcmp(name, names[size][number])) {
                *found = (Register){ .number = number, .bytes = 8 >> size };
                return 1;
            }
    const char *order = "acdb", *letter = strchr(order, name[0]);
    if (letter && !strcmp(name + 1, "h")) {
        *found = (Register){ .number = letter - order, .bytes = 1, .high = 1 };
        return 1;
    }
    if (strncmp(name, "xmm", 3))
        return 0;
    *found = (Register){ .number = GENERAL + atoi(name + 3), .bytes = 16 };
    return 1;
}

static int8_t general_of(unsigned id) {
    Register found;
    return register_of(id, &found) && found.number < GENERAL ? found.number : -1;
}

static void add_written(Instruction *into, unsigned id) {
    Register found;
    if (!register_of(id, &found))
        return;
    for (int i = 0; i < into->count; i++)
        if (into->written[i].number == found.number && into->written[i].high == found.high)
            return;
    if (into->count < 6)
        into->written[into->count++] = found;
}

static int only_reads(unsigned id) {
    return id == X86_INS_CMP || id == X86_INS_TEST || id == X86_INS_PUSH || id == X86_INS_CALL || id == X86_INS_JMP;
}

// The disassembler misses some vector registers, so that a register which comes first counts as written.
static void find_written(const cs_insn *from, Instruction *into) {
    cs_regs read, written;
    uint8_t reads, writes;
    cs_regs_access(disassembler, from, read, &reads, written, &writes);
    for (int i = 0; i < writes; i++) {
        if (written[i] == X86_REG_EFLAGS)
            into->flags = 1;
        else
            add_written(into, written[i]);
    }
    const cs_x86 *x = &from->detail->x86;
    if (x->op_count && x->operands[0].type == X86_OP_REG && !only_reads(from->id))
        add_written(into, x->operands[0].reg);
}

// Of two places in memory the one that is written.
static void find_touched(const cs_insn *from, Instruction *into) {
    const cs_x86 *x = &from->detail->x86;
    into->base = into->index = -1;
    if (from->id == X86_INS_PUSH) {
        into->touches = into->stores = 1;
        into->base = 4;
        into->displacement = -8;
        into->bytes = 8;
    }
    for (int i = 0; i < x->op_count && from->id != X86_INS_LEA && from->id != X86_INS_NOP; i++) {
        const cs_x86_op *operand = x->operands + i;
        if (operand->type != X86_OP_MEM)
            continue;
        int writes = operand->access & CS_AC_WRITE || (i == 0 && !only_reads(from->id));
        if (into->touches && !writes)
            continue;
        into->touches = 1;
        into->stores = writes;
        into->bytes = operand->size;
        into->scale = operand->mem.scale;
        into->base = general_of(operand->mem.base);
        into->index = general_of(operand->mem.index);
        into->displacement = operand->mem.disp + (operand->mem.base == X86_REG_RIP ? from->address + from->size : 0);
    }
}

void decode(const uint8_t *bytes, uint64_t length, uint64_t address, Instruction *found) {
    cs_insn *instruction;
    found->known = 1;
    if (!cs_disasm(disassembler, bytes, length, address, 1, &instruction))
        return;
    found->length = instruction->size;
    find_written(instruction, found);
    find_touched(instruction, found);
    cs_free(instruction, 1);
}

void probe_text(const uint8_t *bytes, uint64_t length, uint64_t address, char *text, uint64_t room) {
    cs_insn *instruction;
    snprintf(text, room, "?");
    if (decoder_open() || !cs_disasm(disassembler, bytes, length, address, 1, &instruction))
        return;
    snprintf(text, room, "%s %s", instruction->mnemonic, instruction->op_str);
    cs_free(instruction, 1);
}
