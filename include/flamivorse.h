/* Flamivorse: masked conversions of 32-bit words, masked HMAC-SHA-1 and HMAC-SHA-256, every call proved against its
 * rules.
 *
 * Link with libflamivorse.a, on x86-64, as pkg-config --cflags --libs flamivorse says once it is installed. It needs no
 * other library.
 *
 * Every function takes any numbers and any lengths, answers, and ends. What no proof can see and a caller must respect:
 *  - a slice is a pointer and a length in elements, and so many elements are there; where the length is 0 the pointer
 *    is not looked at, and may be null;
 *  - a slice that is written overlaps no other;
 *  - a key is split for the hash that it is used with. Its shares do not say for which: those of a key over 64 bytes
 *    that was split for the other hash give a wrong tag, and nothing is refused.
 *
 * Shares: n is 1 to 16; for the short conversion alone it is 1, 2, 4 or 8. Boolean shares of a word give it by XOR,
 * arithmetic shares by their sum modulo 2^32. Of several words, share i of word w (both from 0) stands at place
 * w * n + i.
 *
 * Words: the random words that a call draws are lent as a slice, used from its start and never written. Each must be
 * fresh: no word serves two draws. Words after those drawn have no influence. The queries at the end say how many words
 * a call draws.
 *
 * All words of a call are lent at once, and flamivorse_hmac_sha1 draws up to 1,287,878,400 of them, 5 GB (16 shares and
 * 65,536 bytes), flamivorse_hmac_sha256 up to 2,384,302,080, 10 GB: at many shares a long message is to be streamed. A
 * compression of SHA-1 draws 5,220n(n-1) words: 10,440 at two shares, 1,252,800 at 16, which are 5 MB. One of SHA-256
 * draws 9,664n(n-1): 19,328 at two shares, 2,319,360 at 16, which are 9 MB. A start draws those of two compressions, a
 * finish those of two or three. A feed draws those of (waiting + piece_len) / 64 compressions, rounded down, where
 * waiting is how many bytes wait for their block to become full (bytes % 64 of the state): for a piece of 64 bytes
 * always those of one.
 *
 * What stays behind: a call leaves shares on the stack below its caller and in registers, and splitting may leave bytes
 * of the key or the value itself in registers. flamivorse_clear_stack clears both; flamivorse_clear_stack_of is for
 * little stack. What a program keeps in its own variables, a state among them, is its own to clear.
 *
 * By value: a chain or a state that is passed or handed back is copied by the caller's compiler, in registers as wide
 * as it likes, so that all shares of a word may stand in one, and copies stay in the caller's frame. No call can
 * prevent that. A program that makes such a call in a function of its own, and calls flamivorse_clear_stack when that
 * function has returned, clears the copies on the stack; what a C library's memcpy left in registers wider than 16
 * bytes stays (examples/stream.c copies without it). Where registers matter, use flamivorse_hmac_sha1 or
 * flamivorse_hmac_sha256: their chains never leave the archive, which copies one share at a time.
 */
#ifndef FLAMIVORSE_H
#define FLAMIVORSE_H

#include <stddef.h>
#include <stdint.h>

/* The version of this header, and of the archive that comes with it. */
#define FLAMIVORSE_VERSION_MAJOR 0
#define FLAMIVORSE_VERSION_MINOR 2
#define FLAMIVORSE_VERSION_PATCH 0
#define FLAMIVORSE_VERSION "0.2.0"

/* Limits. Every share count from 1 to the limit is taken. */
#define FLAMIVORSE_SHARES_LIMIT 16
#define FLAMIVORSE_KEY_LIMIT 1024         /* bytes of a key */
#define FLAMIVORSE_MESSAGE_LIMIT 65536    /* bytes of a message, all pieces together */

/* Lengths. */
#define FLAMIVORSE_BLOCK_BYTES 64            /* a block of a message */
#define FLAMIVORSE_KEY_BLOCK_WORDS 16        /* a key or a block in n shares has so many words times n */
#define FLAMIVORSE_TAG_BYTES 20              /* a tag of HMAC-SHA-1 */
#define FLAMIVORSE_SHA256_TAG_BYTES 32       /* one of HMAC-SHA-256 */
#define FLAMIVORSE_CHAIN_WORDS 80            /* a chain of SHA-1, at every share count */
#define FLAMIVORSE_SHA256_CHAIN_WORDS 128    /* one of SHA-256, and one of either hash in a state */
#define FLAMIVORSE_B2A_2_STEPS 7             /* the record of flamivorse_b2a_2_record */
#define FLAMIVORSE_A2B_2_STEPS 165           /* that of flamivorse_a2b_2_record */

/* The numbers handed back. Where several apply, 6 comes before all others, and of the others the least is given. A
 * refusal reports 0 words drawn and leaves every slice as it came. Where a call takes a state, 1 is never given. */
enum flamivorse_number {
    FLAMIVORSE_DONE = 0,
    FLAMIVORSE_SHARE_COUNT = 1,      /* the share count is 0 or over 16, or of flamivorse_b2a_short not 1, 2, 4 or 8 */
    FLAMIVORSE_INPUT_LENGTH = 2,     /* an input slice has not exactly the length that the share count asks for */
    FLAMIVORSE_OUTPUT_LENGTH = 3,    /* an output slice or record has not exactly its length */
    FLAMIVORSE_TOO_LONG = 4,         /* the message is over 65,536 bytes, or the key given for splitting over 1,024 */
    FLAMIVORSE_SUPPLY_SHORT = 5,     /* fewer words are lent than the call draws */
    FLAMIVORSE_STATE_UNFIT = 6       /* the state is finished, its share count is 0 or over 16, its byte count is over
                                        65,536, its hash is not the call's, or its count of words is not what start and
                                        feeds draw for these */
};

/* The hash that a state belongs to. */
enum flamivorse_hash { FLAMIVORSE_SHA1 = 0, FLAMIVORSE_SHA256 = 1 };

#ifdef __cplusplus
extern "C" {
#endif

/* A number of enum flamivorse_number, and how many words were drawn; of a query, how many will be. */
typedef struct { uint32_t number; uint64_t drawn; } flamivorse_answer;

/* The number, and the opened word; 0 where refused. */
typedef struct { uint32_t number; uint32_t word; } flamivorse_opened;

/* A chain value of SHA-1 in shares. The first 5n places are used; the others are not looked at, and are 0 in an
 * accepted answer. */
typedef struct { uint32_t shares[FLAMIVORSE_CHAIN_WORDS]; } flamivorse_chain;

/* A chain value of SHA-256 in shares: the same with 8n places. A state has it for either hash, with 5n or 8n. */
typedef struct { uint32_t shares[FLAMIVORSE_SHA256_CHAIN_WORDS]; } flamivorse_sha256_chain;

/* The number, how many words were drawn, and the chain after; where refused, the chain exactly as given. */
typedef struct { uint32_t number; uint64_t drawn; flamivorse_chain chain; } flamivorse_compressed;
typedef struct { uint32_t number; uint64_t drawn; flamivorse_sha256_chain chain; } flamivorse_sha256_compressed;

/* What is carried from piece to piece of a message, for both hashes. It is a value: each copy can be fed or finished by
 * itself, with words of its own, and the one from before a finish can be finished again. Both chains come from the key,
 * and whoever has them can make tags under it: a program clears its copies of a state as it clears the key's shares. */
typedef struct {
    size_t n;                         /* the share count */
    uint64_t bytes;                   /* how many bytes of the message were fed so far */
    uint64_t drawn;                   /* how many words start and feeds drew: those of 2 + bytes / 64 compressions */
    uint32_t finished;                /* 0; 1 after an accepted finish; anything but 0 counts as finished */
    uint32_t hash;                    /* the hash that it belongs to: of enum flamivorse_hash, and there is no other */
    flamivorse_sha256_chain inner;    /* after the inner key block and the full blocks of the message */
    flamivorse_sha256_chain outer;    /* after the outer key block */
    uint8_t tail[FLAMIVORSE_BLOCK_BYTES];    /* the bytes of the block that is not yet full: the first bytes % 64 */
} flamivorse_state;

/* The number, how many words were drawn, and the state after; where refused, the state exactly as given, of a start
 * zeros in every field. */
typedef struct { uint32_t number; uint64_t drawn; flamivorse_state state; } flamivorse_streamed;

/* Two shares, after Goubin. g is a fresh random word, used once. No step of the source, taken alone, tells anything of
 * x. */

/* Boolean to arithmetic: from x1 and r with x = x1 XOR r, hands back x - r modulo 2^32. Refuses nothing. */
uint32_t flamivorse_b2a_2(uint32_t x1, uint32_t r, uint32_t g);

/* Arithmetic to Boolean: from a and r with x = a + r modulo 2^32, hands back x XOR r. Refuses nothing. */
uint32_t flamivorse_a2b_2(uint32_t a, uint32_t r, uint32_t g);

/* Boolean to arithmetic, recording: writes the value of each of its 7 steps, in order; the last is the answer.
 * Hands back 0; or 3 where record_len is not 7, and then the record is as it came. */
uint32_t flamivorse_b2a_2_record(uint32_t x1, uint32_t r, uint32_t g, uint32_t *record, size_t record_len);

/* Arithmetic to Boolean, recording: writes the value of each of its 165 steps, in order; the last is the answer.
 * Hands back 0; or 3 where record_len is not 165, and then the record is as it came. */
uint32_t flamivorse_a2b_2_record(uint32_t a, uint32_t r, uint32_t g, uint32_t *record, size_t record_len);

/* n shares. Each slice has n words where nothing else is said. */

/* Splits value into Boolean shares: the n - 1 words drawn, then value XOR all of them. Refuses with 1, 3, 5. */
flamivorse_answer flamivorse_split(size_t n, uint32_t value, uint32_t *shares, size_t shares_len,
                                   const uint32_t *words, size_t words_len);

/* Opens Boolean shares: hands back their XOR. Refuses with 1, 2, and then the word is 0. */
flamivorse_opened flamivorse_open_xor(size_t n, const uint32_t *shares, size_t shares_len);

/* Opens arithmetic shares: hands back their sum modulo 2^32. Refuses with 1, 2, and then the word is 0. */
flamivorse_opened flamivorse_open_sum(size_t n, const uint32_t *shares, size_t shares_len);

/* Writes to y fresh Boolean shares of what x shares, a word for each pair of them; draws n(n-1)/2 words.
 * Refuses with 1, 2, 3, 5. */
flamivorse_answer flamivorse_refresh(size_t n, const uint32_t *x, size_t x_len, uint32_t *y, size_t y_len,
                                     const uint32_t *words, size_t words_len);

/* Writes to y, of 2n words, twice as many Boolean shares of what x shares; draws n words. From n = 9 on these are more
 * shares than any call takes. Refuses with 1, 2, 3, 5. */
flamivorse_answer flamivorse_expand(size_t n, const uint32_t *x, size_t x_len, uint32_t *y, size_t y_len,
                                    const uint32_t *words, size_t words_len);

/* Writes to z Boolean shares of the AND of what x and y share; draws n(n-1)/2 words. Refuses with 1, 2, 3, 5. */
flamivorse_answer flamivorse_and(size_t n, const uint32_t *x, size_t x_len, const uint32_t *y, size_t y_len,
                                 uint32_t *z, size_t z_len, const uint32_t *words, size_t words_len);

/* Writes to z Boolean shares of the sum modulo 2^32 of what x and y share, both Boolean; draws 16n(n-1) words.
 * Refuses with 1, 2, 3, 5. */
flamivorse_answer flamivorse_add(size_t n, const uint32_t *x, size_t x_len, const uint32_t *y, size_t y_len,
                                 uint32_t *z, size_t z_len, const uint32_t *words, size_t words_len);

/* Arithmetic to Boolean: writes to x Boolean shares of what a shares arithmetically. Draws, for n = 1 to 16, 0, 34,
 * 134, 264, 496, 758, 1,082, 1,432, 1,928, 2,450, 3,034, 3,650, 4,360, 5,102, 5,902 or 6,720 words.
 * Refuses with 1, 2, 3, 5. */
flamivorse_answer flamivorse_a2b(size_t n, const uint32_t *a, size_t a_len, uint32_t *x, size_t x_len,
                                 const uint32_t *words, size_t words_len);

/* Boolean to arithmetic: writes to a arithmetic shares of what x shares by XOR. Draws, for n = 1 to 16, 0, 68, 235,
 * 465, 830, 1,258, 1,781, 2,363, 3,124, 3,944, 4,859, 5,839, 6,946, 8,118, 9,381 or 10,695 words.
 * Refuses with 1, 2, 3, 5. */
flamivorse_answer flamivorse_b2a(size_t n, const uint32_t *x, size_t x_len, uint32_t *a, size_t a_len,
                                 const uint32_t *words, size_t words_len);

/* Boolean to arithmetic by the short conversion, which has no carry loop: writes to a arithmetic shares of what x
 * shares by XOR, as flamivorse_b2a does, but draws only 0, 4, 40 or 868 words. n is 1, 2, 4 or 8, and no other.
 * Refuses with 1, 2, 3, 5. */
flamivorse_answer flamivorse_b2a_short(size_t n, const uint32_t *x, size_t x_len, uint32_t *a, size_t a_len,
                                       const uint32_t *words, size_t words_len);

/* SHA-1 and HMAC-SHA-1 on shares. */

/* Splits a key of at most 1,024 bytes into the Boolean shares of HMAC-SHA-1's key block, 16 big-endian words: shares
 * has 16n words.
 * A key of up to 64 bytes is padded with zero bytes to 64 and split word by word. Draws 16(n-1) words.
 * A longer one is hashed, as HMAC has it (RFC 2104, section 2), and in shares: its bytes, the last word filled with
 * zero bytes, are split word by word and hashed by SHA-1 under their true length. The five words of the digest, still
 * in shares, then zero shares, are the key block. Draws (key_len + 3) / 4 * (n-1) words, then those of
 * (key_len + 8) / 64 + 1 compressions: at four shares a key of 64 bytes draws 48 words, one of 65 bytes 125,331, and
 * one of 1,024 bytes 1,065,648.
 * Refuses with 1, 3, 4, 5 (fewer words than the splitting and the compressions draw together). */
flamivorse_answer flamivorse_split_key(size_t n, const uint8_t *key, size_t key_len,
                                       uint32_t *shares, size_t shares_len, const uint32_t *words, size_t words_len);

/* One compression of SHA-1: hands back the chain after the block, which has 16n words; draws 5,220n(n-1) words.
 * Refuses with 1, 2, 5. */
flamivorse_compressed flamivorse_sha1_compress(size_t n, flamivorse_chain chain,
                                               const uint32_t *block, size_t block_len,
                                               const uint32_t *words, size_t words_len);

/* The HMAC-SHA-1 tag of a whole message of at most 65,536 bytes, under a key of 16n words as flamivorse_split_key
 * writes it: writes the opened tag, of 20 bytes. Nothing else is opened. Draws the words of (message_len + 8) / 64 + 4
 * compressions.
 * Refuses with 1, 2 (the key), 3 (the tag), 4, 5. */
flamivorse_answer flamivorse_hmac_sha1(size_t n, const uint32_t *key, size_t key_len,
                                       const uint8_t *message, size_t message_len, uint8_t *tag, size_t tag_len,
                                       const uint32_t *words, size_t words_len);

/* HMAC-SHA-1 of a message that comes in pieces: start, a feed for each piece, finish. However the message is cut, with
 * empty pieces too, its tag is the one of flamivorse_hmac_sha1, and all calls together draw as many words as that one,
 * in another order. Any state may be given: one that is not refused with 6 is taken as it stands. */

/* The state before the first byte, under a key of 16n words as flamivorse_split_key writes it: the inner key block is
 * compressed, then the outer one. Draws the words of 2 compressions, and the state's drawn says so; its hash is 0.
 * Refuses with 1, 2 (the key), 5. */
flamivorse_streamed flamivorse_hmac_sha1_start(size_t n, const uint32_t *key, size_t key_len,
                                               const uint32_t *words, size_t words_len);

/* The state after one more piece, of any length: each block that becomes full is compressed at once, and the bytes
 * after it wait in the tail. Draws the words of a compression for each such block, and adds them to the state's drawn.
 * Chain words from place 5n on and tail bytes from bytes % 64 on are not looked at, and are 0 in an accepted answer, of
 * an empty piece too.
 * Refuses with 6, 4 (all pieces together would be over 65,536 bytes), 5, in this order. */
flamivorse_streamed flamivorse_hmac_sha1_feed(flamivorse_state state, const uint8_t *piece, size_t piece_len,
                                              const uint32_t *words, size_t words_len);

/* The tag of all that was fed: writes it opened, of 20 bytes. Nothing else is opened. Draws the words of 2
 * compressions, or of 3 where bytes % 64 is over 55. The state handed back is the one given but for finished, which is
 * 1: these words are not added to its drawn, and nothing of it is cleared.
 * Refuses with 6, 3 (the tag), 5, in this order. */
flamivorse_streamed flamivorse_hmac_sha1_finish(flamivorse_state state, uint8_t *tag, size_t tag_len,
                                                const uint32_t *words, size_t words_len);

/* SHA-256 and HMAC-SHA-256 on shares. Each call is that of SHA-1 with the other hash: what it takes, does, draws,
 * refuses and hands back is said there, and here what is another. */

/* Splits a key for HMAC-SHA-256. The shares of a key of up to 64 bytes are those that flamivorse_split_key writes. A
 * longer one is hashed by SHA-256, and the eight words of the digest, then zero shares, are the key block: at four
 * shares a key of 65 bytes draws 231,987 words, and one of 1,024 bytes 1,972,224.
 * Refuses with 1, 3, 4, 5. */
flamivorse_answer flamivorse_sha256_split_key(size_t n, const uint8_t *key, size_t key_len,
                                              uint32_t *shares, size_t shares_len,
                                              const uint32_t *words, size_t words_len);

/* One compression of SHA-256: draws 9,664n(n-1) words. Refuses with 1, 2, 5. */
flamivorse_sha256_compressed flamivorse_sha256_compress(size_t n, flamivorse_sha256_chain chain,
                                                        const uint32_t *block, size_t block_len,
                                                        const uint32_t *words, size_t words_len);

/* The HMAC-SHA-256 tag of a whole message, under a key as flamivorse_sha256_split_key writes it: the tag has 32 bytes.
 * Refuses with 1, 2 (the key), 3 (the tag), 4, 5. */
flamivorse_answer flamivorse_hmac_sha256(size_t n, const uint32_t *key, size_t key_len,
                                         const uint8_t *message, size_t message_len, uint8_t *tag, size_t tag_len,
                                         const uint32_t *words, size_t words_len);

/* HMAC-SHA-256 of a message that comes in pieces: start, a feed for each piece, finish. A state of the other hash is
 * refused with 6, by these calls as by those of SHA-1. */

/* The state before the first byte, under a key as flamivorse_sha256_split_key writes it: its hash is 1.
 * Refuses with 1, 2 (the key), 5. */
flamivorse_streamed flamivorse_hmac_sha256_start(size_t n, const uint32_t *key, size_t key_len,
                                                 const uint32_t *words, size_t words_len);

/* The state after one more piece: of its chains the words from place 8n on are not looked at, and are 0 in an accepted
 * answer.
 * Refuses with 6, 4, 5, in this order. */
flamivorse_streamed flamivorse_hmac_sha256_feed(flamivorse_state state, const uint8_t *piece, size_t piece_len,
                                                const uint32_t *words, size_t words_len);

/* The tag of all that was fed, of 32 bytes.
 * Refuses with 6, 3 (the tag), 5, in this order. */
flamivorse_streamed flamivorse_hmac_sha256_finish(flamivorse_state state, uint8_t *tag, size_t tag_len,
                                                  const uint32_t *words, size_t words_len);

/* How many words a call draws: number 0 and the count, or the number with which the call refuses such an n (1), length
 * (4) or state (6), and 0. Lending as many words is always enough, and one word less is always refused with 5. Of a
 * state only n, bytes, drawn, finished and hash are looked at, so that its chains need not be handed to a query. */
flamivorse_answer flamivorse_split_words(size_t n);
flamivorse_answer flamivorse_refresh_words(size_t n);
flamivorse_answer flamivorse_expand_words(size_t n);
flamivorse_answer flamivorse_and_words(size_t n);
flamivorse_answer flamivorse_add_words(size_t n);
flamivorse_answer flamivorse_a2b_words(size_t n);
flamivorse_answer flamivorse_b2a_words(size_t n);
flamivorse_answer flamivorse_b2a_short_words(size_t n);
flamivorse_answer flamivorse_split_key_words(size_t n, size_t key_len);
flamivorse_answer flamivorse_sha1_compress_words(size_t n);
flamivorse_answer flamivorse_hmac_sha1_words(size_t n, size_t message_len);
flamivorse_answer flamivorse_hmac_sha1_start_words(size_t n);
flamivorse_answer flamivorse_hmac_sha1_feed_words(flamivorse_state state, size_t piece_len);
flamivorse_answer flamivorse_hmac_sha1_finish_words(flamivorse_state state);
flamivorse_answer flamivorse_sha256_split_key_words(size_t n, size_t key_len);
flamivorse_answer flamivorse_sha256_compress_words(size_t n);
flamivorse_answer flamivorse_hmac_sha256_words(size_t n, size_t message_len);
flamivorse_answer flamivorse_hmac_sha256_start_words(size_t n);
flamivorse_answer flamivorse_hmac_sha256_feed_words(flamivorse_state state, size_t piece_len);
flamivorse_answer flamivorse_hmac_sha256_finish_words(flamivorse_state state);

/* Compares two tags, or any two texts: hands back 1 where both lengths and all bytes are the same, else 0. Refuses
 * nothing. The path through it depends on the lengths alone: memcmp tells by its time how far a wrong tag is right. */
uint32_t flamivorse_same_tag(const uint8_t *a, size_t a_len, const uint8_t *b, size_t b_len);

/* Clears what calls have left behind: 16,384 bytes of stack below its caller, more than any call takes, and every
 * register that a call may change. To be called from the function that made the calls, after the last that saw a
 * secret. */
void flamivorse_clear_stack(void);

/* The same with so many bytes of stack, rounded up to a multiple of 8; with 0 it clears registers alone. It is for a
 * thread, or a box, whose stack has no 16,384 bytes left: so many must be there, or the program runs over its end. To
 * be given is the most that docs/FIGURES.md has, under "Stack", for the calls that were made, and besides 64 bytes for
 * what a compiler passes on the stack, the size of a chain or state that goes by value, and the frame of a function of
 * its own that made the call. */
void flamivorse_clear_stack_of(size_t bytes);

#ifdef __cplusplus
}
#endif

#endif
