/* How many random words each call draws, by its query, as the table of docs/FIGURES.md. */
#include <flamivorse.h>
#include <stdio.h>

typedef flamivorse_answer by_count(size_t n);
typedef flamivorse_answer by_length(size_t n, size_t length);

static const size_t counts[] = {1, 2, 3, 4, 8, 16};

static const struct { const char *name; by_count *query; } short_calls[] = {
    {"`split`", flamivorse_split_words},
    {"`expand`", flamivorse_expand_words},
    {"`refresh`, `and`", flamivorse_refresh_words},
    {"`add`", flamivorse_add_words},
    {"`a2b`", flamivorse_a2b_words},
    {"`b2a`", flamivorse_b2a_words},
    {"`b2a_short`", flamivorse_b2a_short_words},
    {"`sha1_compress`, and each block fed", flamivorse_sha1_compress_words},
    {"`sha256_compress`, and each block fed", flamivorse_sha256_compress_words},
};

static const struct { const char *name; by_length *query; size_t lengths[5]; } long_calls[] = {
    {"`split_key`", flamivorse_split_key_words, {64, 65, 1024}},
    {"`sha256_split_key`", flamivorse_sha256_split_key_words, {64, 65, 1024}},
    {"`hmac_sha1`", flamivorse_hmac_sha1_words, {55, 256, 1024, 4096, 65536}},
    {"`hmac_sha256`", flamivorse_hmac_sha256_words, {55, 256, 1024, 4096, 65536}},
};

/* A number with a comma before every three digits. */
static void print_number(uint64_t number)
{
    if (number >= 1000) {
        print_number(number / 1000);
        printf(",%03u", (unsigned)(number % 1000));
    } else {
        printf("%u", (unsigned)number);
    }
}

/* A cell: the count, or a dash where the call takes no such share count. */
static void print_cell(flamivorse_answer answer)
{
    if (answer.number == FLAMIVORSE_DONE)
        print_number(answer.drawn);
    else
        printf("–");
    printf(" |");
}

static void print_short_calls(void)
{
    for (size_t i = 0; i < sizeof short_calls / sizeof *short_calls; i++) {
        printf("| %s |", short_calls[i].name);
        for (size_t k = 0; k < sizeof counts / sizeof *counts; k++) {
            printf(" ");
            print_cell(short_calls[i].query(counts[k]));
        }
        printf("\n");
    }
}

static void print_long_call(const char *name, by_length *query, size_t length)
{
    printf("| %s, ", name);
    print_number(length);
    printf(" bytes |");
    for (size_t k = 0; k < sizeof counts / sizeof *counts; k++) {
        printf(" ");
        print_cell(query(counts[k], length));
    }
    printf("\n");
}

int main(void)
{
    printf("| Call | 1 share | 2 shares | 3 shares | 4 shares | 8 shares | 16 shares |\n");
    printf("|---|---|---|---|---|---|---|\n");
    print_short_calls();
    for (size_t i = 0; i < sizeof long_calls / sizeof *long_calls; i++)
        for (size_t k = 0; k < 5 && long_calls[i].lengths[k] != 0; k++)
            print_long_call(long_calls[i].name, long_calls[i].query, long_calls[i].lengths[k]);
    return 0;
}
