// Runs a function of an x86-64 image under Unicorn, and hands each value that its instructions leave to count.c.
//
// The first run takes down the path and which steps are kept. In later runs the engine `watched` stops at every instruction of the
// kept steps; between them `fast` runs, which only compares the path at every jump; `plain` runs a call for what it
// leaves, and looks at nothing but the stack pointer at every jump. All work on the same memory.
#include "trace.h"
#include <stdlib.h>
#include <string.h>
#include <unicorn/unicorn.h>

#define STACK 0x70000000ull
#define STACK_LENGTH 0x40000ull
#define TOP (STACK + STACK_LENGTH - PAGE - 8)   // where the stack stands when a call begins: at the place to return to
#define RETURN 0x6ffff000ull
enum { PAGE = 4096, SAMPLE = 512 };
enum { GAP = 256 };                          // so many steps that are not kept are worth a change of engine
enum { SAME, OTHER_PATH, LOST, EMULATOR };   // how a run ends; EMULATOR + e: Unicorn's error e

typedef struct { uint64_t at, length; uint8_t *bytes; } Region;
typedef struct { uint64_t from, to; } Window;
typedef struct { uint32_t size, steps; } Block;

static uc_engine *watched, *fast, *plain;
static Region image, data, stack;
static uint8_t *image_as_linked;
static Instruction *instructions;            // by offset in the image
static Block *blocks;                        // the same
static uint32_t *visits, visits_kept;        // visits of each place; how many are kept, 0: all
static uint64_t sample_every, sample_from;   // besides, SAMPLE steps are kept of so many, from a place on; 0: none
static uint64_t copy_from, copy_to;          // where the archive's own copy stands: all its steps are kept

// A call that splits a secret: where that stands in the clear, and the words that it is split with.
static uint64_t clear_from, clear_to, supply_from, supply_to;
static uint64_t furthest;                    // the furthest of those words that was read so far
static uint64_t split_end;                   // the step with which the splitting is over; 0: not yet

static uint32_t *path;
static uint8_t *kept;
static uint64_t path_length, path_room;
static Window *windows;
static uint64_t window_count;

static int first_run, ending, settling;
static uint64_t step, goal, current;         // the next step, where to stop, and the instruction that is being run
static uint64_t touched, *touched_first, touched_count, touched_next;
static uint64_t registers_before[REGISTERS][2];
static uint64_t missed, missed_at, moved, moved_at;
static uint64_t handed_at, handed_length;
static uint64_t lowest;                      // where the stack pointer of `plain` was seen lowest

static int unicorn_number(int number) {
    static const int general[GENERAL] = {
        UC_X86_REG_RAX, UC_X86_REG_RCX, UC_X86_REG_RDX, UC_X86_REG_RBX, UC_X86_REG_RSP, UC_X86_REG_RBP, UC_X86_REG_RSI, UC_X86_REG_RDI,
        UC_X86_REG_R8, UC_X86_REG_R9, UC_X86_REG_R10, UC_X86_REG_R11, UC_X86_REG_R12, UC_X86_REG_R13, UC_X86_REG_R14, UC_X86_REG_R15,
    };
    return number < GENERAL ? general[number] : UC_X86_REG_XMM0 + number - GENERAL;
}

static void read_register(uc_engine *engine, int number, uint64_t value[2]) {
    value[0] = value[1] = 0;
    uc_reg_read(engine, unicorn_number(number), value);
}

static const Instruction *instruction_at(uint64_t address) {
    Instruction *found = instructions + (address - image.at);
    if (!found->known)
        decode(image.bytes + (address - image.at), image.at + image.length - address, address, found);
    return found;
}

static int in_image(uint64_t address) {
    return address >= image.at && address < image.at + image.length;
}

static const uint8_t *memory_at(uint64_t address, uint64_t length) {
    const Region *regions[] = { &image, &data, &stack };
    for (int i = 0; i < 3; i++)
        if (address >= regions[i]->at && address + length <= regions[i]->at + regions[i]->length)
            return regions[i]->bytes + (address - regions[i]->at);
    return NULL;
}

static uint64_t address_of(const Instruction *instruction) {
    uint64_t sum = instruction->displacement, value[2];
    if (instruction->base >= 0) {
        read_register(watched, instruction->base, value);
        sum += value[0];
    }
    if (instruction->index >= 0) {
        read_register(watched, instruction->index, value);
        sum += value[0] * instruction->scale;
    }
    return sum;
}

static void put(uint32_t seen, int kind, int where, int number, int lane) {
    if (first_run)
        counts_first_value((Value){ .step = step - 1, .address = current, .first = seen,
                                    .kind = kind, .where = where, .number = number, .lane = lane });
    else if (counts_value(current, seen))
        ending = OTHER_PATH;
}

// A value by its words of 32 bits; a wider one by the weight of each run of words in it as well, since the shares of a
// word may fill it or only a part.
static void put_words(const uint64_t value[2], int bytes, int where, int number) {
    int words = bytes <= 4 ? 1 : bytes / 4;
    uint32_t mask = bytes >= 4 ? ~0u : (1u << 8 * bytes) - 1;
    for (int first = 0; first < words; first++)
        for (int last = first, weight = 0; last < words; last++) {
            uint32_t word = (uint32_t)(value[last / 2] >> 32 * (last % 2)) & mask;
            weight += __builtin_popcount(word);
            if (last == first)
                put(word, WORD, where, number, first);
            else
                put(weight, WEIGHT, where, number, first);
        }
}

static void put_flags(void) {
    uint64_t flags = 0;
    uc_reg_read(watched, UC_X86_REG_EFLAGS, &flags);
    put((flags & 1) | (flags >> 1 & 2) | (flags >> 4 & 4) | (flags >> 4 & 8) | (flags >> 7 & 16), FLAGS, REGISTER, -1, 0);    // CF PF ZF SF OF
}

// On the first run: registers that have changed and that the decoder does not name would go untested.
static void find_missed(const Instruction *instruction) {
    for (int number = 0; number < REGISTERS; number++) {
        uint64_t value[2];
        int named = 0;
        read_register(watched, number, value);
        for (int i = 0; i < instruction->count; i++)
            named |= instruction->written[i].number == number;
        if (!named && memcmp(value, registers_before[number], sizeof value)) {
            missed++;
            missed_at = current;
        }
    }
}

// What the instruction that was being run has left.
static void settle(void) {
    const Instruction *instruction = instruction_at(current);
    uint64_t value[2];
    settling = 0;
    for (int i = 0; i < instruction->count; i++) {
        Register written = instruction->written[i];
        read_register(watched, written.number, value);
        if (written.high)
            value[0] >>= 8;
        put_words(value, written.bytes, REGISTER, written.number);
    }
    const uint8_t *stored = instruction->stores && instruction->bytes <= 16 ? memory_at(touched, instruction->bytes) : NULL;
    if (stored) {
        value[0] = value[1] = 0;
        memcpy(value, stored, instruction->bytes);
        put_words(value, instruction->bytes, MEMORY, -1);
    }
    if (instruction->flags)
        put_flags();
    if (first_run)
        find_missed(instruction);
}

// On the first run: the splitting is over where, the secret read for the last time, a word that was drawn is read
// again.
static void follow_splitting(uint64_t address) {
    const Instruction *instruction = instruction_at(address);
    uint64_t from = instruction->touches && !instruction->stores ? address_of(instruction) : 0;
    if (from >= clear_from && from < clear_to)
        split_end = 0;
    if (from < supply_from || from >= supply_to)
        return;
    if (from <= furthest && !split_end)
        split_end = path_length;
    if (from > furthest)
        furthest = from;
}

static void lengthen_path(uint64_t address) {
    if (path_length == path_room) {
        path_room = path_room ? path_room * 2 : 4096;
        path = realloc(path, path_room * sizeof *path);
        kept = realloc(kept, path_room);
        touched_first = realloc(touched_first, path_room * sizeof *touched_first);
    }
    int sampled = sample_every && (path_length + sample_from) % sample_every < SAMPLE;
    int copies = address >= copy_from && address < copy_to;
    int splits = clear_to && !split_end;
    kept[path_length] = !visits_kept || visits[address - image.at]++ < visits_kept || sampled || copies || splits;
    path[path_length++] = address;
}

// Before a kept step: the address that it uses, which must be that of the first run, and on that run the registers.
static void begin_kept(uint64_t address) {
    const Instruction *instruction = instruction_at(address);
    touched = instruction->touches ? address_of(instruction) : 0;
    if (!first_run) {
        if (touched_first[touched_next++] != touched) {
            moved++;
            moved_at = address;
        }
        return;
    }
    touched_first[touched_count++] = touched;
    for (int number = 0; number < REGISTERS; number++)
        read_register(watched, number, registers_before[number]);
}

static void leave_path(uc_engine *engine, uint64_t address) {
    ending = OTHER_PATH;
    current = address;
    uc_emu_stop(engine);
}

static void on_instruction(uc_engine *engine, uint64_t address, uint32_t size, void *unused) {
    (void)size, (void)unused;
    if (settling)
        settle();
    if (ending || step == goal) {
        uc_emu_stop(engine);
        return;
    }
    if (first_run && in_image(address)) {
        if (clear_to)
            follow_splitting(address);
        lengthen_path(address);
    }
    if (step >= path_length || path[step] != address) {
        leave_path(engine, address);
        return;
    }
    current = address;
    settling = kept[step++];
    if (settling)
        begin_kept(address);
}

static uint64_t steps_in(uint64_t address, uint32_t size) {
    Block *block = blocks + (address - image.at);
    if (block->size == size)
        return block->steps;
    *block = (Block){ .size = size };
    for (uint64_t at = address; at < address + size; at += instruction_at(at)->length)
        block->steps++;
    return block->steps;
}

// The fast engine is told of whole blocks: it stops before the block that has the goal in it.
static void on_block(uc_engine *engine, uint64_t address, uint32_t size, void *unused) {
    (void)unused;
    if (step >= path_length || path[step] != address) {
        leave_path(engine, address);
        return;
    }
    uint64_t steps = steps_in(address, size);
    if (steps == 0)
        ending = LOST;
    if (ending || step + steps > goal)
        uc_emu_stop(engine);
    else
        step += steps;
}

static void on_plain_block(uc_engine *engine, uint64_t address, uint32_t size, void *unused) {
    uint64_t pointer;
    (void)address, (void)size, (void)unused;
    uc_reg_read(engine, UC_X86_REG_RSP, &pointer);
    if (pointer < lowest)
        lowest = pointer;
}

static void carry_over(uc_engine *from, uc_engine *to) {
    uint64_t value[2];
    for (int number = 0; number < REGISTERS; number++) {
        read_register(from, number, value);
        uc_reg_write(to, unicorn_number(number), value);
    }
    uc_reg_read(from, UC_X86_REG_EFLAGS, value);
    uc_reg_write(to, UC_X86_REG_EFLAGS, value);
}

// Runs an engine to the goal; where it then stands.
static uint64_t run_to(uc_engine *engine, uint64_t address, uint64_t until) {
    goal = until;
    uc_err error = uc_emu_start(engine, address, RETURN, 0, 0);
    if (!error && !ending && settling)
        settle();
    settling = 0;
    uc_reg_read(engine, UC_X86_REG_RIP, &address);
    if (error)
        ending = EMULATOR + error;
    else if (!ending && address != (step < path_length ? path[step] : RETURN))
        ending = LOST;
    return address;
}

static void find_windows(void) {
    uint64_t last = 0;
    for (uint64_t i = 0; i < path_length; i++) {
        if (!kept[i])
            continue;
        if (!window_count || i - last > GAP) {
            windows = realloc(windows, (window_count + 1) * sizeof *windows);
            windows[window_count++].from = i;
        }
        windows[window_count - 1].to = i + 1;
        last = i;
    }
}

static void run_windows(uint64_t address) {
    for (uint64_t i = 0; i <= window_count && !ending; i++) {
        uint64_t from = i < window_count ? windows[i].from : path_length;
        if (step < from) {
            carry_over(watched, fast);
            address = run_to(fast, address, from);
            carry_over(fast, watched);
        }
        if (i < window_count && !ending)
            address = run_to(watched, address, windows[i].to);
    }
}

static uc_err open_engine(uc_engine **engine, int hook_type, void *hook) {
    uc_hook handle;
    uc_err error = uc_open(UC_ARCH_X86, UC_MODE_64, engine);
    return error ? error : uc_mem_map_ptr(*engine, image.at, image.length, UC_PROT_ALL, image.bytes)
        | uc_mem_map_ptr(*engine, data.at, data.length, UC_PROT_READ | UC_PROT_WRITE, data.bytes)
        | uc_mem_map_ptr(*engine, stack.at, stack.length, UC_PROT_READ | UC_PROT_WRITE, stack.bytes)
        | uc_mem_map(*engine, RETURN, PAGE, UC_PROT_ALL)
        | uc_hook_add(*engine, &handle, hook_type, hook, NULL, 1, 0);
}

static Region region(uint64_t at, uint64_t length) {
    return (Region){ at, length, aligned_alloc(PAGE, length) };
}

// A call that splits a secret, from one span of the data with the words of another: of its registers only those after
// the splitting count.
void probe_splits(uint64_t clear, uint64_t clear_bytes, uint64_t supply, uint64_t supply_bytes) {
    clear_from = clear;
    clear_to = clear + clear_bytes;
    supply_from = supply;
    supply_to = supply + supply_bytes;
}

// Once in a process. `handed` are the bytes of the data that the call hands back openly.
int probe_open(uint64_t image_at, const uint8_t *linked, uint64_t image_length, uint64_t data_at, uint64_t data_length, int secrets,
               uint32_t visits_to_keep, uint64_t every, uint64_t from, uint64_t copy, uint64_t copy_end,
               uint64_t handed, uint64_t handed_bytes) {
    image = region(image_at, image_length);
    data = region(data_at, data_length);
    stack = region(STACK, STACK_LENGTH);
    image_as_linked = malloc(image_length);
    memcpy(image_as_linked, linked, image_length);
    memcpy(image.bytes, linked, image_length);
    instructions = calloc(image_length, sizeof *instructions);
    blocks = calloc(image_length, sizeof *blocks);
    visits = calloc(image_length, sizeof *visits);
    visits_kept = visits_to_keep;
    sample_every = every;
    sample_from = from;
    copy_from = copy;
    copy_to = copy_end;
    handed_at = handed;
    handed_length = handed_bytes;
    counts_open(secrets, handed_bytes);
    return decoder_open() || open_engine(&watched, UC_HOOK_CODE, on_instruction)
        || open_engine(&fast, UC_HOOK_BLOCK, on_block) || open_engine(&plain, UC_HOOK_BLOCK, on_plain_block);
}

// Fresh memory and registers: up to six arguments in registers, others on the stack behind the place of the return.
static void prepare(const uint64_t *arguments, int count, const uint8_t *on_stack, uint64_t on_stack_length, const uint8_t *bytes) {
    static const int order[6] = { 7, 6, 2, 1, 8, 9 };
    static const uint64_t zero[2];
    uint64_t top = TOP, back = RETURN;
    memcpy(image.bytes, image_as_linked, image.length);
    memcpy(data.bytes, bytes, data.length);
    memset(stack.bytes, 0, stack.length);
    memcpy(stack.bytes + (TOP - STACK), &back, 8);
    memcpy(stack.bytes + (TOP - STACK) + 8, on_stack, on_stack_length);
    for (int number = 0; number < REGISTERS; number++)
        uc_reg_write(watched, unicorn_number(number), zero);
    for (int i = 0; i < count; i++)
        uc_reg_write(watched, unicorn_number(order[i]), arguments + i);
    uc_reg_write(watched, unicorn_number(4), &top);
}

// One call with one of the secrets; how it ended. `result` is given the answer, the place where it ended, and what the data then are.
int probe_run(int secret, uint64_t entry, const uint64_t *arguments, int count, const uint8_t *on_stack, uint64_t on_stack_length,
              const uint8_t *bytes, uint64_t result[2], const uint8_t **data_after) {
    prepare(arguments, count, on_stack, on_stack_length, bytes);
    first_run = counts_first_run();
    ending = settling = 0;
    step = touched_next = 0;
    if (first_run) {
        run_to(watched, entry, UINT64_MAX);
        find_windows();
    } else {
        run_windows(entry);
    }
    uc_reg_read(watched, UC_X86_REG_RAX, result);
    result[1] = current;
    *data_after = data.bytes;
    if (!ending && (step != path_length || counts_end_run(secret, data.bytes + handed_at)))
        ending = OTHER_PATH;
    return ending;
}

// One call over a stack full of `paint`, then `clear` with a number from the same place (0: nothing); not 0 where the
// emulator stops. `left` is given the stack below the caller, `length` its length, `reached` how far down the stack
// pointer of the call was seen, and the others what is in them then.
int probe_left(uint64_t entry, uint64_t clear, uint64_t clear_bytes, const uint64_t *arguments, int count,
               const uint8_t *on_stack, uint64_t on_stack_length, const uint8_t *bytes, uint8_t paint,
               const uint8_t **left, uint64_t *length, uint64_t *reached, uint64_t registers[REGISTERS][2],
               const uint8_t **data_after) {
    const uint64_t top = TOP, back = RETURN;
    prepare(arguments, count, on_stack, on_stack_length, bytes);
    memset(stack.bytes, paint, TOP - STACK);
    carry_over(watched, plain);
    lowest = TOP;
    uc_err error = uc_emu_start(plain, entry, RETURN, 0, 0);
    *reached = TOP - lowest;
    if (clear && !error) {
        uc_reg_write(plain, UC_X86_REG_RSP, &top);
        uc_reg_write(plain, UC_X86_REG_RDI, &clear_bytes);
        memcpy(stack.bytes + (TOP - STACK), &back, 8);
        error = uc_emu_start(plain, clear, RETURN, 0, 0);
    }
    for (int number = 0; number < REGISTERS; number++)
        read_register(plain, number, registers[number]);
    *left = stack.bytes;
    *length = TOP - STACK;
    *data_after = data.bytes;
    return error;
}

// Steps of the path; values that the decoder missed and addresses that differed from run to run, and where; the step
// with which a splitting is over, 0: none.
void probe_state(uint64_t state[6]) {
    memcpy(state, (uint64_t[6]){ path_length, missed, missed_at, moved, moved_at, split_end }, 6 * sizeof *state);
}
