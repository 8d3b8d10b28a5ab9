/* Times ISA-L in each ratio of data and parity pieces of 64 KiB, with the coefficients of rs_code, and restoring
 * the first of them, as many as there are parity pieces, from the rest. Prints `NAME RATE MB/s`, of the bytes
 * read, once for each argument: `encode_K+M` and `restore_K+M` on pieces that stand one after the other, as the
 * kernels of this repository take them, and `encode_apart_K+M` and `restore_apart_K+M` on pieces of their own,
 * each at a multiple of 64. */
#include <isa-l/erasure_code.h>
#include <stdio.h>
#include <stdlib.h>
#include <string.h>
#include <time.h>

enum { MOST_DATA = 12, MOST_PARITY = 4, MOST_SHARDS = MOST_DATA + MOST_PARITY, SIZE = 65536, REPEATS = 200 };

/* So many data and parity pieces. */
struct ratio {
    int data, parity;
};

static const struct ratio RATIOS[] = {{3, 2}, {6, 3}, {10, 4}, {12, 4}};

static double now(void)
{
    struct timespec t;
    clock_gettime(CLOCK_MONOTONIC, &t);
    return t.tv_sec + t.tv_nsec * 1e-9;
}

static unsigned char power(unsigned char base, int n)
{
    unsigned char result = 1;
    while (n-- > 0)
        result = gf_mul(result, base);
    return result;
}

/* Entry r to the power c, times the inverse of the first rows, as many as there are data pieces. */
static void make_matrix(struct ratio ratio, unsigned char *matrix)
{
    unsigned char powers[MOST_SHARDS * MOST_DATA], top[MOST_DATA * MOST_DATA], inverse[MOST_DATA * MOST_DATA];
    int data = ratio.data, shards = ratio.data + ratio.parity;
    for (int r = 0; r < shards; r++)
        for (int c = 0; c < data; c++)
            powers[r * data + c] = power(r, c);
    memcpy(top, powers, data * data);
    if (gf_invert_matrix(top, inverse, data))
        exit(2);
    for (int r = 0; r < shards; r++)
        for (int c = 0; c < data; c++) {
            unsigned char sum = 0;
            for (int i = 0; i < data; i++)
                sum ^= gf_mul(powers[r * data + i], inverse[i * data + c]);
            matrix[r * data + c] = sum;
        }
}

static void report(const char *name, struct ratio ratio, unsigned char *tables, unsigned char **from,
                   unsigned char **to)
{
    double start = now();
    for (int i = 0; i < REPEATS; i++)
        ec_encode_data(SIZE, ratio.data, ratio.parity, tables, from, to);
    printf("%s_%d+%d %.0f MB/s\n", name, ratio.data, ratio.parity,
           (double)REPEATS * ratio.data * SIZE / (now() - start) / 1e6);
}

/* Memory for pieces one after the other. */
static void lay_out(unsigned char **piece, int count)
{
    piece[0] = malloc((size_t)count * SIZE);
    for (int i = 0; i < count; i++)
        piece[i] = piece[0] + (size_t)i * SIZE;
}

/* A copy of each piece, at a multiple of 64. */
static void copy_apart(unsigned char **copy, unsigned char **piece, int count)
{
    for (int i = 0; i < count; i++)
        memcpy(copy[i] = aligned_alloc(64, SIZE), piece[i], SIZE);
}

static void fill(unsigned char *bytes, int count)
{
    unsigned long long state = 88172645463325252ull;
    for (int i = 0; i < count; i++) {
        state ^= state << 13;
        state ^= state >> 7;
        state ^= state << 17;
        bytes[i] = (unsigned char)(state >> 32);
    }
}

/* Times a ratio in so many rounds, and answers whether the lost pieces came back. */
static int try_ratio(struct ratio ratio, int rounds)
{
    static unsigned char matrix[MOST_SHARDS * MOST_DATA], rest[MOST_DATA * MOST_DATA], inverse[MOST_DATA * MOST_DATA];
    static unsigned char encode[32 * MOST_DATA * MOST_PARITY], restore[32 * MOST_DATA * MOST_PARITY];
    unsigned char *data[MOST_DATA], *parity[MOST_PARITY], *have[MOST_DATA], *lost[MOST_PARITY];
    unsigned char *data_apart[MOST_DATA], *parity_apart[MOST_PARITY], *have_apart[MOST_DATA], *lost_apart[MOST_PARITY];
    int k = ratio.data, m = ratio.parity;
    make_matrix(ratio, matrix);
    ec_init_tables(k, m, matrix + k * k, encode);
    memcpy(rest, matrix + m * k, k * k);
    if (gf_invert_matrix(rest, inverse, k))
        exit(2);
    ec_init_tables(k, m, inverse, restore);
    lay_out(data, k);
    lay_out(parity, m);
    lay_out(have, k);
    lay_out(lost, m);
    fill(data[0], k * SIZE);
    ec_encode_data(SIZE, k, m, encode, data, parity);
    for (int i = 0; i < k; i++)
        memcpy(have[i], i + m < k ? data[i + m] : parity[i + m - k], SIZE);
    ec_encode_data(SIZE, k, m, restore, have, lost);
    copy_apart(data_apart, data, k);
    copy_apart(parity_apart, parity, m);
    copy_apart(have_apart, have, k);
    copy_apart(lost_apart, lost, m);
    for (int round = 0; round < rounds; round++) {
        report("encode", ratio, encode, data, parity);
        report("restore", ratio, restore, have, lost);
        report("encode_apart", ratio, encode, data_apart, parity_apart);
        report("restore_apart", ratio, restore, have_apart, lost_apart);
    }
    return memcmp(lost[0], data[0], (size_t)m * SIZE) == 0;
}

int main(int words, char **word)
{
    int came_back = 1;
    (void)word;
    for (size_t i = 0; i < sizeof RATIOS / sizeof RATIOS[0]; i++)
        came_back &= try_ratio(RATIOS[i], words - 1);
    return !came_back;
}
