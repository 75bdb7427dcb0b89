// Plain C baselines for the four-check code, with split tables and log tables, and the timing of both sides.
#define _POSIX_C_SOURCE 199309L
#include <stdint.h>
#include <stdio.h>
#include <stdlib.h>
#include <string.h>
#include <time.h>

enum { COLUMNS = 4114, ROUNDS = 60 };

// The proved code, from the static library: a slice is a pointer and a length.
void codes_bench_checks(const uint16_t *words, size_t n, uint16_t *out, size_t m);
void codes_bench_rebuild(const uint16_t *columns, size_t n, const uint8_t *marks, size_t k, uint16_t *out, size_t m);

static uint16_t slow_product(uint16_t a, uint16_t b) {
    uint32_t r = 0;
    for (int i = 15; i >= 0; i--) {
        r <<= 1;
        if (r & 0x10000) r ^= 0x1100B;
        if ((b >> i) & 1) r ^= a;
    }
    return (uint16_t)r;
}

static uint16_t logs[65536], exps[2 * 65535];
static uint16_t split_rows[4][16][2][256];   // check word p from word i
static uint64_t packed_rows[16][2][256];     // the same, four products in one number
static uint16_t split_sums[4][20][2][256];   // sum j from word i
static uint16_t points[20];

static uint16_t product(uint16_t a, uint16_t b) { return a && b ? exps[logs[a] + logs[b]] : 0; }
static uint16_t quotient(uint16_t a, uint16_t b) { return a ? exps[logs[a] + 65535 - logs[b]] : 0; }

static void make_tables(void) {
    uint16_t x = 1;
    for (int i = 0; i < 65535; i++) {
        exps[i] = exps[i + 65535] = x;
        logs[x] = (uint16_t)i;
        x = slow_product(x, 2);
    }
    for (int i = 0; i < 20; i++) points[i] = exps[i];
    for (int p = 0; p < 4; p++)
        for (int i = 0; i < 16; i++) {
            uint16_t up = 1, down = 1;
            for (int q = 0; q < 4; q++)
                if (q != p) {
                    up = product(up, points[i] ^ points[16 + q]);
                    down = product(down, points[16 + p] ^ points[16 + q]);
                }
            uint16_t c = quotient(up, down);
            for (int b = 0; b < 256; b++) {
                split_rows[p][i][0][b] = product(c, (uint16_t)b);
                split_rows[p][i][1][b] = product(c, (uint16_t)(b << 8));
                packed_rows[i][0][b] |= (uint64_t)split_rows[p][i][0][b] << (16 * p);
                packed_rows[i][1][b] |= (uint64_t)split_rows[p][i][1][b] << (16 * p);
            }
        }
    for (int j = 0; j < 4; j++)
        for (int i = 0; i < 20; i++)
            for (int b = 0; b < 256; b++) {
                split_sums[j][i][0][b] = product(exps[i * j], (uint16_t)b);
                split_sums[j][i][1][b] = product(exps[i * j], (uint16_t)(b << 8));
            }
}

static inline void check_words(const uint16_t *w, uint16_t *c) {
    for (int p = 0; p < 4; p++) {
        uint16_t s = 0;
        for (int i = 0; i < 16; i++) s ^= split_rows[p][i][0][w[i] & 255] ^ split_rows[p][i][1][w[i] >> 8];
        c[p] = s;
    }
}

static inline void check_words_packed(const uint16_t *w, uint16_t *c) {
    uint64_t s = 0;
    for (int i = 0; i < 16; i++) s ^= packed_rows[i][0][w[i] & 255] ^ packed_rows[i][1][w[i] >> 8];
    for (int p = 0; p < 4; p++) c[p] = (uint16_t)(s >> (16 * p));
}

// The sums of the words present, then Gauss on the square system of the missing words.
static int solve(const uint16_t *w, const uint8_t *marks, uint16_t *out) {
    int at[4], n = 0;
    for (int i = 0; i < 20; i++)
        if (marks[i]) {
            if (n == 4) return 15;
            at[n++] = i;
        }
    uint16_t s[4] = {0}, m[4][5];
    for (int i = 0; i < 20; i++) {
        out[i] = marks[i] ? 0 : w[i];
        for (int j = 0; j < 4; j++) s[j] ^= split_sums[j][i][0][out[i] & 255] ^ split_sums[j][i][1][out[i] >> 8];
    }
    for (int j = 0; j < n; j++) {
        for (int k = 0; k < n; k++) m[j][k] = exps[at[k] * j];
        m[j][n] = s[j];
    }
    for (int k = 0; k < n; k++)
        for (int j = 0; j < n; j++)
            if (j != k && m[j][k]) {
                uint16_t f = quotient(m[j][k], m[k][k]);
                for (int c = k; c <= n; c++) m[j][c] ^= product(f, m[k][c]);
            }
    for (int k = 0; k < n; k++) out[at[k]] = quotient(m[k][n], m[k][k]);
    uint16_t c[4];
    check_words(out, c);
    return memcmp(c, out + 16, 8) ? 13 : 0;
}

static void c_checks(const uint16_t *words, uint16_t *out) {
    for (int c = 0; c < COLUMNS; c++) check_words(words + 16 * c, out + 4 * c);
}

static void c_checks_packed(const uint16_t *words, uint16_t *out) {
    for (int c = 0; c < COLUMNS; c++) check_words_packed(words + 16 * c, out + 4 * c);
}

static void c_again(const uint16_t *columns, const uint8_t *marks, uint16_t *out) {
    for (int k = 0; k < COLUMNS; k++) {
        const uint16_t *w = columns + 20 * k;
        uint16_t c[4], *o = out + 20 * k;
        int n = 0;
        for (int i = 0; i < 20; i++) n += marks[i];
        check_words(w, c);
        if (n == 0 && !memcmp(c, w + 16, 8)) memcpy(o, w, 40); else memset(o, 0, 40);
    }
}

static void c_solve(const uint16_t *columns, const uint8_t *marks, uint16_t *out) {
    for (int k = 0; k < COLUMNS; k++)
        if (solve(columns + 20 * k, marks, out + 20 * k)) memset(out + 20 * k, 0, 40);
}

static double now(void) {
    struct timespec t;
    clock_gettime(CLOCK_MONOTONIC, &t);
    return (double)t.tv_sec + 1e-9 * (double)t.tv_nsec;
}

static uint16_t words[16 * COLUMNS], columns[20 * COLUMNS], hurt[20 * COLUMNS];
static uint16_t a[20 * COLUMNS], b[20 * COLUMNS], d[20 * COLUMNS];

// Both sides in turn, the best round of each; ns for a column, and how many times as fast as the baseline the proved code is.
#define RACE(name, bytes, base, ours) do { \
    double best[2] = {1e9, 1e9}; \
    for (int r = 0; r < ROUNDS; r++) { \
        double t0 = now(); base; double t1 = now(); ours; double t2 = now(); \
        if (t1 - t0 < best[0]) best[0] = t1 - t0; \
        if (t2 - t1 < best[1]) best[1] = t2 - t1; \
    } \
    printf("%-44s C %7.1f ns  ours %7.1f ns  ours %5.2f GB/s  ratio %.2f\n", name, best[0] / COLUMNS * 1e9, best[1] / COLUMNS * 1e9, \
        (bytes) * (double)COLUMNS / best[1] * 1e-9, best[0] / best[1]); \
} while (0)

static void same(const char *what, const uint16_t *x, const uint16_t *y, size_t n) {
    if (memcmp(x, y, n * 2)) { printf("%s: the two sides differ\n", what); exit(1); }
}

int main(void) {
    make_tables();
    uint64_t seed = 88172645463325252ull;
    for (size_t i = 0; i < 16 * COLUMNS; i++) {
        seed ^= seed << 13; seed ^= seed >> 7; seed ^= seed << 17;
        words[i] = (uint16_t)seed;
    }
    uint8_t none[20] = {0}, four[20] = {0};
    four[1] = four[5] = four[9] = four[17] = 1;
    for (int c = 0; c < COLUMNS; c++) {
        memcpy(columns + 20 * c, words + 16 * c, 32);
        check_words(words + 16 * c, columns + 20 * c + 16);
    }
    memcpy(hurt, columns, sizeof columns);
    for (int c = 0; c < COLUMNS; c++) for (int i = 0; i < 20; i++) if (four[i]) hurt[20 * c + i] = 0xBAD;
    RACE("check words (split tables)", 32, c_checks(words, a), codes_bench_checks(words, 16 * COLUMNS, b, 4 * COLUMNS));
    same("check words", a, b, 4 * COLUMNS);
    RACE("check words (C: four products in a number)", 32, c_checks_packed(words, d), codes_bench_checks(words, 16 * COLUMNS, b, 4 * COLUMNS));
    same("check words packed", d, b, 4 * COLUMNS);
    RACE("nothing missing", 40, c_again(columns, none, a), codes_bench_rebuild(columns, 20 * COLUMNS, none, 20, b, 20 * COLUMNS));
    same("nothing missing", a, b, 20 * COLUMNS); same("nothing missing", columns, b, 20 * COLUMNS);
    RACE("four missing", 40, c_solve(hurt, four, a), codes_bench_rebuild(hurt, 20 * COLUMNS, four, 20, b, 20 * COLUMNS));
    same("four missing", a, b, 20 * COLUMNS); same("four missing", columns, b, 20 * COLUMNS);
    for (int k = 3; k > 0; k--) {
        char name[32];
        four[k == 3 ? 17 : k == 2 ? 9 : 5] = 0;
        memcpy(hurt, columns, sizeof columns);
        for (int c = 0; c < COLUMNS; c++) for (int i = 0; i < 20; i++) if (four[i]) hurt[20 * c + i] = 0xBAD;
        snprintf(name, sizeof name, "%d missing", k);
        RACE(name, 40, c_solve(hurt, four, a), codes_bench_rebuild(hurt, 20 * COLUMNS, four, 20, b, 20 * COLUMNS));
        same(name, columns, b, 20 * COLUMNS);
    }
    return 0;
}
