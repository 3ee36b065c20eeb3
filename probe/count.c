// How often each value was seen under each secret, and how far these counts are from one distribution for all secrets.
#include "trace.h"
#include <math.h>
#include <stdlib.h>
#include <string.h>

enum { ALWAYS_ZERO = 31 };                   // the bit of same_as that stands for a byte that is 0
enum { LEAST = 8 };                          // a cell of the test that expects fewer is pooled with others
enum { PARITY = 46 };                        // a test's number: trace.h has them all

static Value *values;
static uint64_t count, room, next;
static int secrets, handed_length;
static uint32_t *batch;                      // by run and value
static uint32_t (*same)[256];                // by run and byte: the bytes handed back that equal it
static int batch_secret[BATCH], batch_runs;
static uint32_t runs_of[8];

void counts_open(int secret_count, int handed_back) {
    secrets = secret_count;
    handed_length = handed_back;
    same = calloc(BATCH, sizeof *same);
}

int counts_first_run(void) {
    return batch == NULL;
}

void counts_first_value(Value value) {
    if (count == room) {
        room = room ? room * 2 : 4096;
        values = realloc(values, room * sizeof *values);
    }
    memset(value.same_as, 0xff, sizeof value.same_as);
    values[count++] = value;
}

// The next value of a run; not 0 where the first run had another instruction's here.
int counts_value(uint64_t address, uint32_t value) {
    if (next >= count || values[next].address != address)
        return -1;
    batch[batch_runs * count + next++] = value;
    return 0;
}

static int columns_of(const Value *value) {
    return value->kind == WORD ? 5 : 1;      // four bytes and the weight
}

static uint32_t column_of(const Value *value, int column, uint32_t seen) {
    if (value->kind != WORD)
        return seen & 255;
    return column == 4 ? (uint32_t)__builtin_popcount(seen) : seen >> 8 * column & 255;
}

static void add_seen(Value *value, int secret, uint32_t seen, uint32_t times) {
    for (int column = 0; column < columns_of(value); column++)
        value->counts[(column * secrets + secret) * 256 + column_of(value, column, seen)] += times;
}

// Counts one value over the batch. Nothing is kept of a value as long as it is always the same.
static void count_value(Value *value, const uint32_t *seen) {
    uint32_t before[8];
    memcpy(before, runs_of, sizeof before);
    for (int run = 0; run < batch_runs; run++, seen += count) {
        int secret = batch_secret[run];
        for (int i = 0; i < 4 && handed_length; i++)
            value->same_as[i] &= same[run][*seen >> 8 * i & 255];
        if (!value->counts && *seen == value->first) {
            before[secret]++;
            continue;
        }
        if (!value->counts) {
            value->counts = calloc((size_t)columns_of(value) * secrets * 256, sizeof *value->counts);
            for (int other = 0; other < secrets; other++)
                add_seen(value, other, value->first, before[other]);
        }
        add_seen(value, secret, *seen, 1);
    }
}

static void count_batch(void) {
    for (uint64_t i = 0; i < count; i++)
        count_value(values + i, batch + i);
    for (int run = 0; run < batch_runs; run++)
        runs_of[batch_secret[run]]++;
    batch_runs = 0;
}

// Ends a run; not 0 where it had fewer values than the first. The first run only gives the values their places.
int counts_end_run(int secret, const uint8_t *handed_back) {
    if (!batch) {
        batch = malloc((BATCH * count + 1) * sizeof *batch);
        return 0;
    }
    if (next != count)
        return -1;
    next = 0;
    memset(same[batch_runs], 0, sizeof *same);
    same[batch_runs][0] = 1u << ALWAYS_ZERO;
    for (int i = 0; i < handed_length; i++)
        same[batch_runs][handed_back[i]] |= 1u << i;
    batch_secret[batch_runs++] = secret;
    if (batch_runs == BATCH)
        count_batch();
    return 0;
}

// Chi-square of one row of a table, and whether the row was enough for it.
static int add_row(const double *row, const double *totals, double all, double least, double *sum) {
    double row_total = 0;
    for (int secret = 0; secret < secrets; secret++)
        row_total += row[secret];
    if (row_total * least / all < LEAST)
        return 0;
    for (int secret = 0; secret < secrets; secret++) {
        double expected = row_total * totals[secret] / all;
        *sum += (row[secret] - expected) * (row[secret] - expected) / expected;
    }
    return 1;
}

// How surprising the table is if all secrets have one distribution: chi-square as a normal deviate (Wilson and Hilferty).
static double deviate(double table[256][8], int bins) {
    double totals[8] = { 0 }, pool[8] = { 0 }, all = 0, least = 0, sum = 0;
    int rows = 0;
    for (int secret = 0; secret < secrets; secret++) {
        for (int bin = 0; bin < bins; bin++)
            totals[secret] += table[bin][secret];
        all += totals[secret];
        least = secret == 0 || totals[secret] < least ? totals[secret] : least;
    }
    if (least == 0)
        return 0;
    for (int bin = 0; bin < bins; bin++) {
        if (add_row(table[bin], totals, all, least, &sum)) {
            rows++;
            continue;
        }
        for (int secret = 0; secret < secrets; secret++)
            pool[secret] += table[bin][secret];
    }
    rows += add_row(pool, totals, all, least, &sum);
    if (rows < 2)
        return 0;
    double freedom = (double)(rows - 1) * (secrets - 1), variance = 2 / (9 * freedom);
    return (cbrt(sum / freedom) - (1 - variance)) / sqrt(variance);
}

// Tests `bits` bits of a column from `shift` on. A bit that tells is named rather than its byte.
static void test_part(const Value *value, int column, int shift, int bits, int test, Finding *strongest) {
    static double table[256][8];
    int bins = 1 << bits;
    memset(table, 0, bins * sizeof *table);
    for (int secret = 0; secret < secrets; secret++)
        for (int seen = 0; seen < 256; seen++)
            table[seen >> shift & (bins - 1)][secret] += value->counts[(column * secrets + secret) * 256 + seen];
    double found = deviate(table, bins);
    if (found <= strongest->deviate || (bits > 1 && strongest->deviate > 8 && strongest->test < 32))
        return;
    strongest->deviate = found;
    strongest->test = test;
    for (int secret = 0; secret < secrets; secret++)
        strongest->ones[secret] = bits == 1 ? table[1][secret] : 0;
}

// All tests of a column; how many. The lowest bit of a weight is the parity, which all shares of a word have in common
// with the secret.
static uint64_t test_column(const Value *value, int column, Finding *strongest) {
    int byte = value->kind == WORD && column < 4, flags = value->kind == FLAGS;
    int bits = byte ? 8 : flags ? 5 : 1, nibbles = byte ? 2 : 0;
    for (int i = 0; i < bits; i++)
        test_part(value, column, i, 1, byte || flags ? 8 * column + i : PARITY, strongest);
    for (int i = 0; i < nibbles; i++)
        test_part(value, column, 4 * i, 4, 32 + 2 * column + i, strongest);
    test_part(value, column, 0, 8, byte ? 40 + column : flags ? 45 : 44, strongest);
    return bits + nibbles + 1;
}

static int is_handed_back(const Value *value) {
    return handed_length && value->kind == WORD && value->same_as[0] && value->same_as[1] && value->same_as[2] && value->same_as[3];
}

uint64_t probe_values(void) {
    return count;
}

// The strongest deviation of each value that varies; how many there are, and how many tests were made.
uint64_t probe_findings(Finding *findings, uint64_t *tests) {
    uint64_t found = 0;
    count_batch();
    *tests = 0;
    for (uint64_t i = 0; i < count; i++) {
        const Value *value = values + i;
        if (!value->counts)
            continue;
        Finding strongest = { .step = value->step, .address = value->address, .deviate = -9, .kind = value->kind, .where = value->where,
                              .lane = value->lane, .number = value->number, .handed_back = is_handed_back(value) };
        for (int column = 0; column < columns_of(value); column++)
            *tests += test_column(value, column, &strongest);
        findings[found++] = strongest;
    }
    return found;
}
