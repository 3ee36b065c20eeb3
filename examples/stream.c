/* Tags a log piece by piece with HMAC-SHA-1 under a key in two shares: a whole program over libflamivorse.a, with
 * fixed buffers.
 *
 *   cc -o stream examples/stream.c $(pkg-config --cflags --libs flamivorse)    # after make install
 *   ./stream examples/box.key examples/trial.log
 *
 * The key is the bytes of its file, at most 64: a longer one is hashed when it is split, which draws the words of up
 * to 17 compressions at once, and there is no room for so many here. Its SHA-1 digest may stand for it: the tags are
 * the same. The random words come from /dev/urandom, and each is used once.
 *
 * Memory, whatever the log's length: 126,784 bytes of data (.bss, as size tells) and 16,456 of stack (painted before a
 * run and looked at after it), beside the code and what the C library takes for its files. Of the data 125,280 bytes
 * are the words of one call. At two shares a compression draws 41,760 bytes of words, a start two compressions and a
 * finish two or three, and a call needs all its words at once: so this does not fit into 64 KiB. Feeding alone does,
 * with words for one compression, by 43,264 and 16,456 bytes: where there is no more room than that, the state has to
 * be started and finished elsewhere. It is as secret as the key.
 *
 * HMAC-SHA-256 goes by its own calls in the same way, with a tag of 32 bytes. There a compression draws 77,312 bytes of
 * words, and feeding alone does not fit either. */
#include <flamivorse.h>
#include <stdio.h>
#include <stdlib.h>

enum { SHARES = 2, KEY_WORDS = FLAMIVORSE_KEY_BLOCK_WORDS * SHARES, KEY_LIMIT = FLAMIVORSE_BLOCK_BYTES };

/* A piece of a block's length completes at most one block. No call draws more than a finish: three compressions. */
enum { PIECE = FLAMIVORSE_BLOCK_BYTES, COMPRESSION = 10440, MOST_WORDS = 3 * COMPRESSION };

static uint32_t words[MOST_WORDS];
static flamivorse_state state;

/* Ends the program with a word of why. */
static void stop(const char *what, const char *why)
{
    fprintf(stderr, "stream: %s: %s\n", what, why);
    exit(2);
}

/* Ends the program where a call was refused. */
static void accepted(const char *what, uint32_t number)
{
    if (number == FLAMIVORSE_DONE)
        return;
    fprintf(stderr, "stream: %s: refused, number %u (see flamivorse.h)\n", what, (unsigned)number);
    exit(2);
}

/* Clears a secret in a way that the compiler must not leave out. */
static void clear(void *memory, size_t size)
{
    volatile unsigned char *bytes = memory;
    while (size > 0)
        bytes[--size] = 0;
}

/* Opens a file, with no buffer of its own. */
static FILE *open_file(const char *name)
{
    FILE *file = fopen(name, "rb");
    if (file == NULL)
        stop(name, "cannot be opened");
    setvbuf(file, NULL, _IONBF, 0);
    return file;
}

/* Reads so many bytes of a file, fewer only at its end, and hands back how many there were. */
static size_t read_piece(const char *name, FILE *file, uint8_t *bytes, size_t room)
{
    size_t size = fread(bytes, 1, room, file);
    if (ferror(file))
        stop(name, "cannot be read");
    return size;
}

/* Puts fresh words where the last ones were, as many as a query asks for, and hands back how many. */
static size_t fresh_words(const char *what, flamivorse_answer need)
{
    static FILE *source;
    accepted(what, need.number);
    if (source == NULL)
        source = open_file("/dev/urandom");
    if (need.drawn > MOST_WORDS || fread(words, sizeof *words, need.drawn, source) != need.drawn)
        stop("/dev/urandom", "gave too few words");
    return need.drawn;
}

/* Keeps the state that a call handed back. It goes byte by byte, since the C library's copy might leave shares in wide
 * registers, which nothing clears. */
static void keep(const flamivorse_state *next)
{
    const volatile unsigned char *from = (const volatile unsigned char *)next;
    unsigned char *to = (unsigned char *)&state;
    for (size_t i = 0; i < sizeof state; i++)
        to[i] = from[i];
}

/* The steps hand the state in and out by value. Each has a frame of its own, which is not there any more when its
 * caller clears the stack: so the copies that the compiler made of the state are cleared as well. */

__attribute__((noinline)) static void start(const char *name, const uint32_t *shares)
{
    size_t count = fresh_words(name, flamivorse_hmac_sha1_start_words(SHARES));
    flamivorse_streamed done = flamivorse_hmac_sha1_start(SHARES, shares, KEY_WORDS, words, count);
    accepted(name, done.number);
    keep(&done.state);
}

__attribute__((noinline)) static void feed(const char *name, const uint8_t *piece, size_t size)
{
    size_t count = fresh_words(name, flamivorse_hmac_sha1_feed_words(state, size));
    flamivorse_streamed done = flamivorse_hmac_sha1_feed(state, piece, size, words, count);
    accepted(name, done.number);
    keep(&done.state);
}

__attribute__((noinline)) static void finish(const char *name, uint8_t *tag)
{
    size_t count = fresh_words(name, flamivorse_hmac_sha1_finish_words(state));
    flamivorse_streamed done = flamivorse_hmac_sha1_finish(state, tag, FLAMIVORSE_TAG_BYTES, words, count);
    accepted(name, done.number);
    keep(&done.state);
}

/* Reads a key and splits it. Of one that is too long no part may be taken for the whole. */
static void split_key(const char *name, uint32_t *shares)
{
    static uint8_t key[KEY_LIMIT + 1];
    FILE *file = open_file(name);
    size_t size = read_piece(name, file, key, sizeof key);
    fclose(file);
    if (size > KEY_LIMIT)
        stop(name, "the key has more than 64 bytes");
    size_t count = fresh_words(name, flamivorse_split_key_words(SHARES, size));
    accepted(name, flamivorse_split_key(SHARES, key, size, shares, KEY_WORDS, words, count).number);
    clear(key, sizeof key);
}

int main(int argc, char **argv)
{
    static uint32_t shares[KEY_WORDS];
    static uint8_t piece[PIECE], tag[FLAMIVORSE_TAG_BYTES];
    if (argc != 3)
        stop("usage", "stream KEY LOG");
    const char *key_name = argv[1], *log_name = argv[2];

    split_key(key_name, shares);
    flamivorse_clear_stack();
    start(key_name, shares);
    flamivorse_clear_stack();
    clear(shares, sizeof shares);

    FILE *log = open_file(log_name);
    for (size_t size; (size = read_piece(log_name, log, piece, PIECE)) > 0; ) {
        feed(log_name, piece, size);
        flamivorse_clear_stack();
    }
    fclose(log);
    finish(log_name, tag);
    flamivorse_clear_stack();
    clear(&state, sizeof state);
    clear(words, sizeof words);

    for (size_t i = 0; i < sizeof tag; i++)
        printf("%02x", tag[i]);
    printf("  %s\n", log_name);
    return 0;
}
