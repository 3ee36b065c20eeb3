/* A thread whose stack has 16,384 bytes, the least that there is: flamivorse_clear_stack_of clears what splitting a key
 * left there, and goes no further.
 *
 *   small_stack BYTES     what docs/FIGURES.md has for flamivorse_split_key */
#define _DEFAULT_SOURCE
#include <flamivorse.h>
#include <pthread.h>
#include <stdio.h>
#include <stdlib.h>
#include <string.h>
#include <sys/mman.h>

enum { STACK = 16384, PAGE = 4096, PAINT = 0xa5, ARGUMENTS = 64 };
enum { SHARES = 4, KEY_WORDS = FLAMIVORSE_KEY_BLOCK_WORDS * SHARES, DRAWN = FLAMIVORSE_KEY_BLOCK_WORDS * (SHARES - 1) };

static uint8_t *stack, key[FLAMIVORSE_BLOCK_BYTES];
static uint32_t shares[KEY_WORDS], words[DRAWN];
static size_t bytes, painted, cleared, others;

static void stop(const char *why)
{
    fprintf(stderr, "small_stack: %s\n", why);
    exit(1);
}

/* Splits the key, clears, and counts what stands below this frame. */
static void *split(void *unused)
{
    const uint8_t *frame = __builtin_frame_address(0);
    flamivorse_answer answer = flamivorse_split_key(SHARES, key, sizeof key, shares, KEY_WORDS, words, DRAWN);
    flamivorse_clear_stack_of(bytes + ARGUMENTS);
    for (const uint8_t *at = stack; at < frame - 2 * ARGUMENTS; at++) {
        painted += *at == PAINT;
        cleared += *at == 0;
        others += *at != PAINT && *at != 0;
    }
    if (answer.number != FLAMIVORSE_DONE)
        stop("the key is not split");
    return unused;
}

/* Runs it on a stack of its own, which ends at a page that nothing may touch. */
static void run(void)
{
    pthread_attr_t attributes;
    pthread_t thread;
    uint8_t *memory = mmap(NULL, PAGE + STACK, PROT_READ | PROT_WRITE, MAP_PRIVATE | MAP_ANONYMOUS, -1, 0);
    if (memory == MAP_FAILED || mprotect(memory, PAGE, PROT_NONE) != 0)
        stop("there is no memory");
    stack = memory + PAGE;
    memset(stack, PAINT, STACK);
    if (pthread_attr_init(&attributes) != 0 || pthread_attr_setstack(&attributes, stack, STACK) != 0
        || pthread_create(&thread, &attributes, split, NULL) != 0 || pthread_join(thread, NULL) != 0)
        stop("there is no thread");
}

int main(int argc, char **argv)
{
    bytes = argc == 2 ? strtoul(argv[1], NULL, 10) : 0;
    if (bytes == 0)
        stop("usage: small_stack BYTES");
    memset(key, 0x5a, sizeof key);
    for (size_t i = 0; i < DRAWN; i++)
        words[i] = 0x9e3779b1u * (uint32_t)(i + 1);
    run();
    printf("small_stack: %zu bytes cleared, %zu untouched, %zu others\n", cleared, painted, others);
    return cleared + 2 * ARGUMENTS >= bytes && others == 0 ? 0 : 1;
}
