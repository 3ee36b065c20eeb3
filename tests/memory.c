/* The archive's own copy and fill (archive/), which no proof speaks of: every length to beyond that of a state, 1,120
 * bytes, and every alignment, with guards on both sides. And its clearing of the stack: so many bytes below the caller,
 * and no other. */
#include <stdint.h>
#include <stdio.h>
#include <stdlib.h>
#include <string.h>

void *private_copy(void *to, const void *from, size_t bytes);
void *private_fill(void *to, int value, size_t bytes);
typedef void clearing(size_t bytes);
clearing flamivorse_clear_stack_of;
void flamivorse_clear_stack(void);

enum { LENGTHS = 1200, ALIGNMENTS = 8, GUARD = 64, ROOM = GUARD + ALIGNMENTS + LENGTHS + GUARD };
static uint8_t from[ROOM], to[ROOM];
static size_t cases;

/* A stack to clear, with room below and above. */
enum { MOST_CLEARED = 16384, TOP = GUARD + MOST_CLEARED + GUARD, STACK = TOP + GUARD, PAINT = 0xa5 };
static _Alignas(16) uint8_t stack[STACK];

/* Both rooms as they are before a case; no two neighbours are alike. */
static void prepare(void)
{
    for (size_t i = 0; i < ROOM; i++) {
        from[i] = (uint8_t)(i * 7 + 1);
        to[i] = (uint8_t)(i * 5 + 128);
    }
}

/* Ends the program where a byte is not as it must be: `made` from `at` on, and all else as prepared. */
static void compare(const void *answer, size_t at, const uint8_t *made, size_t length)
{
    for (size_t i = 0; i < ROOM; i++) {
        uint8_t wanted = i >= at && i < at + length ? made[i - at] : (uint8_t)(i * 5 + 128);
        if (to[i] != wanted || from[i] != (uint8_t)(i * 7 + 1) || answer != to + at) {
            fprintf(stderr, "memory: %zu bytes at %zu: byte %zu is wrong, or the answer\n", length, at, i);
            exit(1);
        }
    }
    cases++;
}

static void copies(size_t length)
{
    for (size_t source = GUARD; source < GUARD + ALIGNMENTS; source++)
        for (size_t at = GUARD; at < GUARD + ALIGNMENTS; at++) {
            prepare();
            const void *answer = private_copy(to + at, from + source, length);
            compare(answer, at, from + source, length);
        }
}

/* Of the value only the lowest byte counts. */
static void fills(size_t length)
{
    static const int values[] = { 0, 1, 0x80, 0xff, 0x1234, -2 };
    static uint8_t made[LENGTHS];
    for (size_t v = 0; v < sizeof values / sizeof *values; v++)
        for (size_t at = GUARD; at < GUARD + ALIGNMENTS; at++) {
            for (size_t i = 0; i < length; i++)
                made[i] = (uint8_t)values[v];
            prepare();
            const void *answer = private_fill(to + at, values[v], length);
            compare(answer, at, made, length);
        }
}

/* Calls a clearing with its stack pointer at TOP; the place to return to goes below that. */
static void call_at_top(clearing *function, size_t bytes)
{
    __asm__ volatile("mov %%rsp, %%rbx\n\tmov %1, %%rsp\n\tcall *%2\n\tmov %%rbx, %%rsp"
                     : "+D"(bytes)
                     : "r"(stack + TOP), "r"(function)
                     : "rax", "rbx", "rcx", "rdx", "rsi", "r8", "r9", "r10", "r11", "cc", "memory", "xmm0", "xmm1",
                       "xmm2", "xmm3", "xmm4", "xmm5", "xmm6", "xmm7", "xmm8", "xmm9", "xmm10", "xmm11", "xmm12",
                       "xmm13", "xmm14", "xmm15");
}

/* Exactly so many bytes are cleared below the place to return to, which is not looked at. */
static void clears(clearing *function, size_t given, size_t cleared)
{
    const size_t end = TOP - sizeof(void *);
    memset(stack, PAINT, STACK);
    call_at_top(function, given);
    for (size_t i = 0; i < STACK; i = i + 1 == end ? TOP : i + 1) {
        uint8_t wanted = i + cleared >= end && i < end ? 0 : PAINT;
        if (stack[i] != wanted) {
            fprintf(stderr, "memory: %zu bytes of stack cleared: byte %zu below is wrong\n", given, end - i);
            exit(1);
        }
    }
    cases++;
}

int main(void)
{
    for (size_t length = 0; length < LENGTHS; length++) {
        copies(length);
        fills(length);
        clears(flamivorse_clear_stack_of, length, (length + 7) / 8 * 8);
    }
    clears(flamivorse_clear_stack_of, MOST_CLEARED, MOST_CLEARED);
    clears((clearing *)flamivorse_clear_stack, 0, MOST_CLEARED);
    printf("memory: %zu copies, fills and clearings\n", cases);
    return 0;
}
