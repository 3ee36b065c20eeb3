/* Tags a log with HMAC-SHA-1 under a key in four shares, or checks its tag: a whole program over libflamivorse.a.
 *
 *   cc -o tag examples/tag.c $(pkg-config --cflags --libs flamivorse)    # after make install; in a clone, after make:
 *   cc -o tag -I include examples/tag.c target/lib/libflamivorse.a
 *   ./tag examples/box.key examples/trial.log            # prints the tag
 *   ./tag examples/box.key examples/trial.log TAG        # says whether this is the tag; its status is 0 if so, else 1
 *
 * The key is the bytes of its file, at most 1,024. The random words come from /dev/urandom, and each is used once.
 * For HMAC-SHA-256 the calls are flamivorse_sha256_split_key and flamivorse_hmac_sha256, with their queries, and the
 * tag has 32 bytes.
 *
 * A call needs all its words at once. The key takes 192 bytes of them, or where it has more than 64 bytes and is hashed
 * up to 4.3 MB, and they are given back before the log's are made. A log of 4,096 bytes takes 17 MB, the longest, of
 * 65,536 bytes, 258 MB: examples/stream.c does with the same few words however long a log is. */
#include <flamivorse.h>
#include <stdio.h>
#include <stdlib.h>
#include <string.h>

enum { SHARES = 4, KEY_WORDS = FLAMIVORSE_KEY_BLOCK_WORDS * SHARES };

/* Ends the program with a word of why. */
static void stop(const char *what, const char *why)
{
    fprintf(stderr, "tag: %s: %s\n", what, why);
    exit(2);
}

/* Ends the program where a call was refused; else tells how many words it drew, or will draw. */
static size_t accepted(const char *what, flamivorse_answer answer)
{
    if (answer.number != FLAMIVORSE_DONE) {
        fprintf(stderr, "tag: %s: refused, number %u (see flamivorse.h)\n", what, (unsigned)answer.number);
        exit(2);
    }
    return answer.drawn;
}

/* Clears a secret in a way that the compiler must not leave out. */
static void clear(void *memory, size_t size)
{
    volatile unsigned char *bytes = memory;
    while (size > 0)
        bytes[--size] = 0;
}

/* Reads up to room bytes of a file, and hands back how many there were. A file that fills the room is one byte too
 * long. */
static size_t read_file(const char *name, uint8_t *bytes, size_t room)
{
    FILE *file = fopen(name, "rb");
    if (file == NULL)
        stop(name, "cannot be opened");
    setvbuf(file, NULL, _IONBF, 0);
    size_t size = fread(bytes, 1, room, file);
    if (ferror(file))
        stop(name, "cannot be read");
    fclose(file);
    return size;
}

/* Fresh random words, as many as a query asked for. The caller gives them back with give_back. */
static uint32_t *fresh_words(size_t count)
{
    uint32_t *words = calloc(count + 1, sizeof *words);
    FILE *source = fopen("/dev/urandom", "rb");
    if (words == NULL || source == NULL || fread(words, sizeof *words, count, source) != count)
        stop("/dev/urandom", "gave too few words");
    fclose(source);
    return words;
}

static void give_back(uint32_t *words, size_t count)
{
    clear(words, count * sizeof *words);
    free(words);
}

/* The bytes of a tag in hexadecimal. One that fills the room is too long, whatever comes after. */
static size_t read_tag(const char *text, uint8_t *bytes, size_t room)
{
    size_t size = 0;
    for (; size < room && *text != '\0'; text += 2)
        if (strspn(text, "0123456789abcdef") < 2 || sscanf(text, "%2hhx", &bytes[size++]) != 1)
            stop("TAG", "is not in hexadecimal");
    return size;
}

static void print_tag(const uint8_t *tag, const char *log_name)
{
    for (size_t i = 0; i < FLAMIVORSE_TAG_BYTES; i++)
        printf("%02x", tag[i]);
    printf("  %s\n", log_name);
}

/* Says whether a tag is the right one, which is not shown, and hands back the status to end with. */
static int check_tag(const uint8_t *tag, const char *text, const char *log_name)
{
    uint8_t given[FLAMIVORSE_TAG_BYTES + 1];
    size_t size = read_tag(text, given, sizeof given);
    uint32_t same = flamivorse_same_tag(tag, FLAMIVORSE_TAG_BYTES, given, size);
    printf("%s: %s\n", log_name, same ? "right" : "wrong");
    return same ? 0 : 1;
}

int main(int argc, char **argv)
{
    static uint8_t key[FLAMIVORSE_KEY_LIMIT + 1], log[FLAMIVORSE_MESSAGE_LIMIT + 1], tag[FLAMIVORSE_TAG_BYTES];
    static uint32_t shares[KEY_WORDS];
    if (argc != 3 && argc != 4)
        stop("usage", "tag KEY LOG [TAG]");
    const char *key_name = argv[1], *log_name = argv[2];

    size_t key_size = read_file(key_name, key, sizeof key);
    size_t count = accepted(key_name, flamivorse_split_key_words(SHARES, key_size));
    uint32_t *words = fresh_words(count);
    accepted(key_name, flamivorse_split_key(SHARES, key, key_size, shares, KEY_WORDS, words, count));
    flamivorse_clear_stack();
    give_back(words, count);
    clear(key, sizeof key);

    size_t log_size = read_file(log_name, log, sizeof log);
    count = accepted(log_name, flamivorse_hmac_sha1_words(SHARES, log_size));
    words = fresh_words(count);
    accepted(log_name, flamivorse_hmac_sha1(SHARES, shares, KEY_WORDS, log, log_size, tag, sizeof tag, words, count));
    flamivorse_clear_stack();
    give_back(words, count);
    clear(shares, sizeof shares);

    if (argc == 4)
        return check_tag(tag, argv[3], log_name);
    print_tag(tag, log_name);
    return 0;
}
