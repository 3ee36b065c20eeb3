// What the parts of the tracer share: an instruction, a value that it leaves, and how the values are counted.
#ifndef TRACE_H
#define TRACE_H

#include <stdint.h>

enum { GENERAL = 16, REGISTERS = 32 };       // registers 0 to 15 are rax to r15, 16 to 31 are xmm0 to xmm15
enum { BATCH = 64 };                         // runs whose values are held before they are counted
enum { WORD, WEIGHT, FLAGS };                // kinds of value: 32 bits; the number of ones of a wider value; the flags

enum { REGISTER, MEMORY };                   // where a value is

typedef struct { uint8_t number, bytes, high; } Register;

// What an instruction writes, and the memory that it touches: base + index * scale + displacement.
typedef struct {
    uint8_t known, length, count, flags, touches, stores, bytes, scale;
    int8_t base, index;
    int64_t displacement;
    Register written[6];
} Instruction;

// One value of a run: of a register (or 32 bits of it), of memory or of the flags, after one step.
typedef struct {
    uint64_t step, address;
    uint32_t first;                          // what it was in the first run
    uint32_t same_as[4];                     // for each of its bytes: the bytes handed back that it has always been; the top bit: 0
    uint16_t *counts;                        // by column, secret and byte, once it varies
    uint8_t kind, where, lane;
    int8_t number;                           // the register's
} Value;

// The strongest deviation of a value. test: 0 to 31 a bit, 32 to 39 a nibble, 40 to 43 a byte, 44 the weight, 45 all
// flags, 46 the parity.
typedef struct {
    uint64_t step, address;
    double deviate;
    uint32_t ones[8];
    int32_t kind, where, lane, number, test, handed_back;
} Finding;

int decoder_open(void);
void decode(const uint8_t *bytes, uint64_t length, uint64_t address, Instruction *found);

void counts_open(int secrets, int handed_back);
int counts_first_run(void);
void counts_first_value(Value value);
int counts_value(uint64_t address, uint32_t value);
int counts_end_run(int secret, const uint8_t *handed_back);

#endif
