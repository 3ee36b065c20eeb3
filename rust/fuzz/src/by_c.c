/* Each call of flamivorse.h, made by C as the header declares it, on arguments that by_c.rs lends. */
#include <flamivorse.h>
#include <stdlib.h>
#include <string.h>

typedef struct { uint32_t *start; size_t length; } lent_words;
typedef struct { uint8_t *start; size_t length; } lent_bytes;

/* What a query looks at of a state: share count, bytes and words so far, mark, hash. Calls without a state have the
 * share count alone. lent.rs has the same struct. */
typedef struct { size_t n; uint64_t fed, drawn; uint32_t finished, hash; } outline;

/* All that a call can be lent; by_c.rs has the same struct. */
typedef struct {
    outline state;
    uint32_t values[3];
    lent_words inputs[2], output, words;
    lent_bytes bytes, tag;
    uint32_t *chain, *outer;
    uint8_t *tail;
} arguments;

/* The number, and the count of words, or the word, that a call hands back. */
typedef struct { uint32_t number; uint64_t count; } outcome;

outcome make_by_c(const char *name, arguments *a);
outcome ask_by_c(const char *name, outline state, size_t bytes);

static outcome word(uint32_t answer)
{
    return (outcome){0, answer};
}

static outcome number(uint32_t answer)
{
    return (outcome){answer, 0};
}

static outcome opened(flamivorse_opened answer)
{
    return (outcome){answer.number, answer.word};
}

static outcome counted(flamivorse_answer answer)
{
    return (outcome){answer.number, answer.drawn};
}

/* Of a hash: the chain of a compression, which is the first of the words lent for a chain; and the answer of one as an
 * outcome, where the chain handed back takes the place of the one given. */
#define CHAIN(hash, chain_type, answer_type)                           \
    static chain_type hash##_chain(const arguments *a)                 \
    {                                                                  \
        chain_type chain;                                              \
        memcpy(&chain, a->chain, sizeof chain);                        \
        return chain;                                                  \
    }                                                                  \
    static outcome hash##_compressed(arguments *a, answer_type answer) \
    {                                                                  \
        memcpy(a->chain, &answer.chain, sizeof answer.chain);          \
        return (outcome){answer.number, answer.drawn};                 \
    }
CHAIN(sha1, flamivorse_chain, flamivorse_compressed)
CHAIN(sha256, flamivorse_sha256_chain, flamivorse_sha256_compressed)

/* The state handed back takes the place of the one given. */
static outcome streamed(arguments *a, flamivorse_streamed answer)
{
    const flamivorse_state *state = &answer.state;
    a->state = (outline){state->n, state->bytes, state->drawn, state->finished, state->hash};
    memcpy(a->chain, &state->inner, sizeof state->inner);
    memcpy(a->outer, &state->outer, sizeof state->outer);
    memcpy(a->tail, state->tail, sizeof state->tail);
    return (outcome){answer.number, answer.drawn};
}

/* A state with something in every place that a query does not look at. */
static flamivorse_state outlined(outline state)
{
    flamivorse_state made;
    memset(&made, 0xa5, sizeof made);
    made.n = state.n;
    made.bytes = state.fed;
    made.drawn = state.drawn;
    made.finished = state.finished;
    made.hash = state.hash;
    return made;
}

/* The state that is lent. */
static flamivorse_state whole(const arguments *a)
{
    flamivorse_state made = outlined(a->state);
    memcpy(&made.inner, a->chain, sizeof made.inner);
    memcpy(&made.outer, a->outer, sizeof made.outer);
    memcpy(made.tail, a->tail, sizeof made.tail);
    return made;
}

#define IS(function) (strcmp(name, #function) == 0)
/* If it is this function that is asked for, makes the call and hands its answer back as an outcome. */
#define CALL(function, answer, ...) if (IS(function)) return answer(flamivorse_##function(__VA_ARGS__))
/* The same of a call that hands back what takes the place of what it was given. */
#define CHANGE(function, answer, ...) if (IS(function)) return answer(a, flamivorse_##function(__VA_ARGS__))
#define VALUES a->values[0], a->values[1], a->values[2]
#define SLICE(slice) a->slice.start, a->slice.length
/* The calls of a hash: the splitting of a key, the compression, HMAC whole and in pieces. */
#define HASHED(hash, split_key)                                                                     \
    CALL(split_key, counted, n, SLICE(bytes), SLICE(output), SLICE(words));                         \
    CHANGE(hash##_compress, hash##_compressed, n, hash##_chain(a), SLICE(inputs[0]), SLICE(words)); \
    CALL(hmac_##hash, counted, n, SLICE(inputs[0]), SLICE(bytes), SLICE(tag), SLICE(words));        \
    CHANGE(hmac_##hash##_start, streamed, n, SLICE(inputs[0]), SLICE(words));                       \
    CHANGE(hmac_##hash##_feed, streamed, whole(a), SLICE(bytes), SLICE(words));                     \
    CHANGE(hmac_##hash##_finish, streamed, whole(a), SLICE(tag), SLICE(words))

/* Makes the call of this name. */
outcome make_by_c(const char *name, arguments *a)
{
    size_t n = a->state.n;
    CALL(b2a_2, word, VALUES);
    CALL(a2b_2, word, VALUES);
    CALL(b2a_2_record, number, VALUES, SLICE(output));
    CALL(a2b_2_record, number, VALUES, SLICE(output));
    CALL(split, counted, n, a->values[0], SLICE(output), SLICE(words));
    CALL(open_xor, opened, n, SLICE(inputs[0]));
    CALL(open_sum, opened, n, SLICE(inputs[0]));
    CALL(refresh, counted, n, SLICE(inputs[0]), SLICE(output), SLICE(words));
    CALL(expand, counted, n, SLICE(inputs[0]), SLICE(output), SLICE(words));
    CALL(and, counted, n, SLICE(inputs[0]), SLICE(inputs[1]), SLICE(output), SLICE(words));
    CALL(add, counted, n, SLICE(inputs[0]), SLICE(inputs[1]), SLICE(output), SLICE(words));
    CALL(a2b, counted, n, SLICE(inputs[0]), SLICE(output), SLICE(words));
    CALL(b2a, counted, n, SLICE(inputs[0]), SLICE(output), SLICE(words));
    CALL(b2a_short, counted, n, SLICE(inputs[0]), SLICE(output), SLICE(words));
    HASHED(sha1, split_key);
    HASHED(sha256, sha256_split_key);
    CALL(same_tag, word, SLICE(bytes), SLICE(tag));
    abort();
}

#define QUERY(function, ...) if (IS(function)) return counted(flamivorse_##function##_words(__VA_ARGS__))
/* Those of a hash. */
#define QUERIES(hash, split_key)                       \
    QUERY(split_key, n, bytes);                        \
    QUERY(hash##_compress, n);                         \
    QUERY(hmac_##hash, n, bytes);                      \
    QUERY(hmac_##hash##_start, n);                     \
    QUERY(hmac_##hash##_feed, outlined(state), bytes); \
    QUERY(hmac_##hash##_finish, outlined(state))

/* Asks how many words the call of this name draws. */
outcome ask_by_c(const char *name, outline state, size_t bytes)
{
    size_t n = state.n;
    QUERY(split, n);
    QUERY(refresh, n);
    QUERY(expand, n);
    QUERY(and, n);
    QUERY(add, n);
    QUERY(a2b, n);
    QUERY(b2a, n);
    QUERY(b2a_short, n);
    QUERIES(sha1, split_key);
    QUERIES(sha256, sha256_split_key);
    abort();
}
