// Checks and decodes the largest recording (8 stations of 255 events, 22,461 bytes): the proved library beside a plain C loop that does the same,
// in one run. Prints the time of each for one recording, and the ratio.
// The proved library is asked to judge a job: a good condition (all 0: Together, no station asked) in front of the recording. Its box is 2 to the power 64,
// so the job is refused with 10; but that comes behind the whole recording, which is checked and decoded into tables before. What is timed is thus check and
// decode, the reading of the condition's 38 bytes, and the clearing of the tables' rooms, which are the library's own.
#include <stdbool.h>
#include <stddef.h>
#include <stdint.h>
#include <stdio.h>
#include <stdlib.h>
#include <string.h>
#include <time.h>

// 0 if refused, else another number.
uint8_t filebramble_judge(const uint8_t *job, size_t len, uint8_t *marks, size_t marks_len, uint8_t *path, size_t path_len);

enum { N = 8, M = 255, TABLE = 8 * 8 * M, CONDITION = 38, MAX = 22461, BOX = 65536, ROOM = 8 * M };

// --- the plain C loop -------------------------------------------------------

static unsigned get(const uint8_t *s, size_t len, size_t at, unsigned k) {
    size_t q = at / 8;
    unsigned a = q < len ? s[q] : 0, b = q + 1 < len ? s[q + 1] : 0, c = q + 2 < len ? s[q + 2] : 0;
    return ((a << 16 | b << 8 | c) >> (24 - at % 8 - k)) & ((1u << k) - 1);
}

static uint16_t c_stamps[TABLE], c_levels[8 * M];

// The refusal number, 0 if accepted; the tables are filled.
static int c_check(const uint8_t *s, size_t len) {
    if (len < 1) return 1;
    size_t n = s[0] >> 4;
    if (n < 1 || n > 8) return 2;
    if (len < (4 + 20 * n + 7) / 8) return 1;
    unsigned m[8], first[8], total = 0;
    for (size_t p = 0; p < n; p++) {
        m[p] = get(s, len, 4 + 20 * p, 8);
        first[p] = total;
        total += m[p];
    }
    size_t size = 24 + 8 * n, end = 4 + 20 * n + size * total, need = (end + 7) / 8;
    if (len < need) return 1;
    if (len > need) return 3;
    if (8 * need > end && get(s, len, end, 8 * need - end)) return 4;
    for (size_t r = 0; r < total; r++) {
        size_t at = 4 + 20 * n + size * r;
        c_levels[r] = (get(s, len, at + 12, 12) + 2048) % 4096;
        for (size_t q = 0; q < 8; q++) c_stamps[8 * r + q] = q < n ? get(s, len, at + 24 + 8 * q, 8) : 0;
    }
    static const uint16_t zero[8];
    for (size_t p = 0; p < n; p++)
        for (size_t e = 0; e < m[p]; e++) {
            size_t r = first[p] + e, at = 4 + 20 * n + size * r;
            unsigned o = get(s, len, at, 4), k = get(s, len, at + 4, 8);
            if (o > n || o == p + 1) return 5;
            if (o == 0 ? k != 0 : k < 1 || k > m[o - 1]) return 6;
            const uint16_t *now = c_stamps + 8 * r, *before = e ? now - 8 : zero, *sent = o ? c_stamps + 8 * (first[o - 1] + k - 1) : zero;
            for (size_t q = 0; q < n; q++) {
                unsigned want = (before[q] > sent[q] ? before[q] : sent[q]) + (p == q);
                if (now[q] != want) return 7;
            }
        }
    return 0;
}

// --- the largest recording --------------------------------------------------

static void put(uint8_t *s, size_t *at, unsigned k, unsigned v) {
    for (unsigned i = k; i-- > 0; (*at)++)
        if (v >> i & 1) s[*at / 8] |= 0x80 >> *at % 8;
}

static size_t largest(uint8_t *s) {
    static unsigned origin[N][M], number[N][M], stamp[N][M + 1][N];
    unsigned done[N] = {0};
    srand(1);
    for (size_t i = 0; i < N * M; i++) {
        size_t p;
        do p = rand() % N; while (done[p] == M);
        size_t q = rand() % N;
        unsigned e = done[p]++, *now = stamp[p][e + 1];
        memcpy(now, stamp[p][e], sizeof stamp[p][e]);
        if (q != p && done[q] > 0 && rand() % 2) {
            origin[p][e] = q + 1;
            number[p][e] = 1 + rand() % done[q];
            for (size_t j = 0; j < N; j++)
                if (stamp[q][number[p][e]][j] > now[j]) now[j] = stamp[q][number[p][e]][j];
        }
        now[p]++;
    }
    size_t at = 0;
    put(s, &at, 4, N);
    for (size_t p = 0; p < N; p++) put(s, &at, 8, M), put(s, &at, 12, rand() % 4096);
    for (size_t p = 0; p < N; p++)
        for (size_t e = 0; e < M; e++) {
            put(s, &at, 4, origin[p][e]), put(s, &at, 8, number[p][e]), put(s, &at, 12, rand() % 4096);
            for (size_t q = 0; q < N; q++) put(s, &at, 8, stamp[p][e + 1][q]);
        }
    return (at + 7) / 8;
}

static double now(void) {
    struct timespec t;
    clock_gettime(CLOCK_MONOTONIC, &t);
    return t.tv_sec + t.tv_nsec * 1e-9;
}

int main(void) {
    static uint8_t job[CONDITION + MAX], marks[BOX], path[ROOM];
    // The condition is a good one: with one station and no event the job is judged.
    job[CONDITION] = 0x10;
    bool good = filebramble_judge(job, CONDITION + 3, marks, BOX, path, ROOM);
    job[CONDITION] = 0;
    uint8_t *s = job + CONDITION;
    size_t len = largest(s);
    enum { ROUNDS = 200, TRIES = 15 };
    double best_c = 1e9, best = 1e9;
    unsigned sum = 0;
    for (int t = 0; t < TRIES; t++) {
        double a = now();
        for (int i = 0; i < ROUNDS; i++) sum += c_check(s, len);
        double b = now();
        for (int i = 0; i < ROUNDS; i++) sum += filebramble_judge(job, CONDITION + len, marks, BOX, path, ROOM);
        double c = now();
        if (b - a < best_c) best_c = b - a;
        if (c - b < best) best = c - b;
    }
    printf("bytes %zu, condition %s, replies %s\n", len, good ? "good" : "REFUSED", sum ? "DIFFER" : "as they should be");
    printf("plain C, check and decode   %8.1f us\nproved, check and decode    %8.1f us\nratio                       %8.2f\n", best_c / ROUNDS * 1e6, best / ROUNDS * 1e6, best / best_c);
    return sum || !good;
}
