// Marks, witness and path of whole boxes: the proved engine beside a plain C loop that makes the same comparisons in rank order, and beside a textbook
// search by levels (all consistent cuts with k events at a time, kept in a hash table), all three on the same jobs in one run.
// Prints times for one job, per cut, and ratios.
#include <stdbool.h>
#include <stddef.h>
#include <stdint.h>
#include <stdio.h>
#include <stdlib.h>
#include <string.h>
#include <time.h>

// 0 if refused; else 1, plus 2 if Poss is yes, plus 4 if Def is yes.
uint8_t filebramble_judge(const uint8_t *job, size_t len, uint8_t *marks, size_t marks_len, uint8_t *path, size_t path_len);

enum { MAXN = 8, MAXM = 255, BOX = 65536, ROOM = 8 * MAXM };

// --- jobs --------------------------------------------------------------------

struct run {
    size_t n, m[MAXN];
    unsigned origin[MAXN][MAXM], number[MAXN][MAXM];
    int start[MAXN], level[MAXN][MAXM];
    unsigned stamp[MAXN][MAXM + 1][MAXN];
};

struct ask {
    unsigned kind, k;
    int low, high;
    bool asked[MAXN];
    int wlow[MAXN], whigh[MAXN];
};

static void make_run(struct run *r, size_t n, const size_t *m, unsigned percent, unsigned seed) {
    memset(r, 0, sizeof *r);
    r->n = n;
    size_t done[MAXN] = {0}, total = 0;
    for (size_t p = 0; p < n; p++) r->m[p] = m[p], total += m[p], r->start[p] = 0;
    srand(seed);
    for (size_t i = 0; i < total; i++) {
        size_t p;
        do p = rand() % n; while (done[p] == m[p]);
        size_t q = rand() % n, e = done[p]++;
        unsigned *now = r->stamp[p][e + 1];
        memcpy(now, r->stamp[p][e], sizeof r->stamp[p][e]);
        if (q != p && done[q] > 0 && (unsigned)rand() % 100 < percent) {
            r->origin[p][e] = q + 1;
            r->number[p][e] = 1 + rand() % done[q];
            const unsigned *sent = r->stamp[q][r->number[p][e]];
            for (size_t j = 0; j < n; j++)
                if (sent[j] > now[j]) now[j] = sent[j];
        }
        now[p]++;
        r->level[p][e] = rand() % 200 - 100;
    }
}

static void put(uint8_t *s, size_t *at, unsigned k, unsigned v) {
    for (unsigned i = k; i-- > 0; (*at)++)
        if (v >> i & 1) s[*at / 8] |= 0x80 >> *at % 8;
}

static size_t pack(uint8_t *s, const struct ask *c, const struct run *r) {
    memset(s, 0, 22500);
    size_t at = 0;
    put(s, &at, 2, c->kind), put(s, &at, 6, c->k), put(s, &at, 16, c->low & 0xffff), put(s, &at, 16, c->high & 0xffff);
    for (size_t p = 0; p < MAXN; p++) put(s, &at, 1, c->asked[p]);
    for (size_t p = 0; p < MAXN; p++) put(s, &at, 16, c->wlow[p] & 0xffff), put(s, &at, 16, c->whigh[p] & 0xffff);
    put(s, &at, 4, r->n);
    for (size_t p = 0; p < r->n; p++) put(s, &at, 8, r->m[p]), put(s, &at, 12, r->start[p] & 0xfff);
    for (size_t p = 0; p < r->n; p++)
        for (size_t e = 0; e < r->m[p]; e++) {
            put(s, &at, 4, r->origin[p][e]), put(s, &at, 8, r->number[p][e]), put(s, &at, 12, r->level[p][e] & 0xfff);
            for (size_t q = 0; q < r->n; q++) put(s, &at, 8, r->stamp[p][e + 1][q]);
        }
    return (at + 7) / 8;
}

// --- what all C code shares: the condition at a cut, consistency --------------

static int level_at(const struct run *r, size_t p, unsigned e) { return e ? r->level[p][e - 1] : r->start[p]; }

static bool holds(const struct run *r, const struct ask *c, const unsigned *cut) {
    if (c->kind == 2) {
        int sum = 0;
        for (size_t p = 0; p < r->n; p++)
            if (c->asked[p]) sum += level_at(r, p, cut[p]);
        return c->low <= sum && sum <= c->high;
    }
    unsigned in = 0, asked = 0;
    for (size_t p = 0; p < r->n; p++)
        if (c->asked[p]) {
            int v = level_at(r, p, cut[p]);
            asked++;
            in += c->wlow[p] <= v && v <= c->whigh[p];
        }
    return c->kind == 0 ? in == asked : in >= c->k;
}

static bool consistent(const struct run *r, const unsigned *cut) {
    for (size_t p = 0; p < r->n; p++)
        for (size_t q = 0; q < r->n; q++)
            if (p != q && r->stamp[p][cut[p]][q] > cut[q]) return false;
    return true;
}

// --- the plain loop in rank order ---------------------------------------------

static uint8_t c_marks[BOX], c_path[ROOM];

static unsigned plain(const struct run *r, const struct ask *c) {
    size_t weight[MAXN], box = 1, total = 0, first = BOX;
    for (size_t p = 0; p < r->n; p++) weight[p] = box, box *= r->m[p] + 1, total += r->m[p];
    unsigned cut[MAXN];
    for (size_t rank = 0; rank < box; rank++) {
        size_t x = rank;
        for (size_t p = 0; p < r->n; p++) cut[p] = x % (r->m[p] + 1), x /= r->m[p] + 1;
        if (!consistent(r, cut)) {
            c_marks[rank] = 0;
            continue;
        }
        if (holds(r, c, cut)) {
            c_marks[rank] = 1;
            if (first == BOX) first = rank;
            continue;
        }
        bool met = rank == 0;
        for (size_t p = 0; p < r->n && !met; p++) met = cut[p] > 0 && c_marks[rank - weight[p]] == 3;
        c_marks[rank] = met ? 3 : 2;
    }
    bool def = c_marks[box - 1] != 3;
    if (!def) {
        size_t rank = box - 1;
        for (size_t p = 0; p < r->n; p++) cut[p] = r->m[p];
        for (size_t i = total; i-- > 0;)
            for (size_t p = 0; p < r->n; p++)
                if (cut[p] > 0 && c_marks[rank - weight[p]] == 3) {
                    c_path[i] = p + 1, cut[p]--, rank -= weight[p];
                    break;
                }
    }
    return 1 + 2 * (first < BOX) + 4 * def;
}

// --- the textbook search by levels ---------------------------------------------

enum { SLOTS = 1 << 17 };
static struct { uint64_t key; uint32_t level; } slots[SLOTS];
static uint64_t level_now[BOX], level_next[BOX];
static uint32_t level_number; // slots of earlier levels count as free

static bool insert(uint64_t key, size_t *used) {
    size_t i = (key * 0x9e3779b97f4a7c15u) >> 47;
    for (; slots[i].level == level_number; i = (i + 1) % SLOTS)
        if (slots[i].key == key) return false;
    slots[i].key = key, slots[i].level = level_number;
    level_next[(*used)++] = key;
    return true;
}

// All consistent cuts level by level; those that satisfy are not gone beyond where `avoid` says so. Answers whether one satisfies (any), or whether the full
// cut is reached (avoid).
static bool levels(const struct run *r, const struct ask *c, bool avoid) {
    unsigned cut[MAXN] = {0};
    size_t total = 0, used = 0;
    for (size_t p = 0; p < r->n; p++) total += r->m[p];
    bool some = holds(r, c, cut);
    if (some) return !avoid;
    level_now[used++] = 0;
    for (size_t k = 0; k < total; k++) {
        size_t next = 0;
        level_number++;
        for (size_t i = 0; i < used; i++) {
            for (size_t p = 0; p < r->n; p++) cut[p] = level_now[i] >> 8 * p & 0xff;
            for (size_t p = 0; p < r->n; p++) {
                if (cut[p] == r->m[p]) continue;
                cut[p]++;
                if (consistent(r, cut)) {
                    uint64_t key = level_now[i] + ((uint64_t)1 << 8 * p);
                    size_t before = next;
                    if (insert(key, &next) && holds(r, c, cut)) {
                        some = true;
                        if (avoid) next = before;
                    }
                }
                cut[p]--;
            }
        }
        if (some && !avoid) return true;
        if (next == 0) return false;
        memcpy(level_now, level_next, next * sizeof *level_now);
        used = next;
    }
    return avoid;
}

static unsigned textbook(const struct run *r, const struct ask *c) {
    bool poss = levels(r, c, false), def = !levels(r, c, true);
    return 1 + 2 * poss + 4 * def;
}

// --- the table -------------------------------------------------------------------

static double now(void) {
    struct timespec t;
    clock_gettime(CLOCK_MONOTONIC, &t);
    return t.tv_sec + t.tv_nsec * 1e-9;
}

static int measure(const char *name, size_t n, const size_t *m, unsigned percent, const struct ask *asks) {
    struct ask limited = *asks, *c = &limited;
    for (size_t p = n; p < MAXN; p++) limited.asked[p] = false; // a station above n is refused
    static struct run r;
    static uint8_t job[22500], marks[BOX], path[ROOM];
    make_run(&r, n, m, percent, 7);
    size_t len = pack(job, c, &r), box = 1, total = 0;
    for (size_t p = 0; p < n; p++) box *= m[p] + 1, total += m[p];
    double best[3] = {1e9, 1e9, 1e9};
    unsigned says[3] = {0};
    for (int t = 0; t < 9; t++) {
        double a = now();
        says[0] = filebramble_judge(job, len, marks, BOX, path, ROOM);
        double b = now();
        says[1] = plain(&r, c);
        double d = now();
        says[2] = textbook(&r, c);
        double e = now();
        if (b - a < best[0]) best[0] = b - a;
        if (d - b < best[1]) best[1] = d - b;
        if (e - d < best[2]) best[2] = e - d;
    }
    bool same = says[0] == says[1] && says[1] == says[2] && !memcmp(marks, c_marks, box) && (says[0] & 4 || !memcmp(path, c_path, total));
    printf("%-28s %6zu %8.1f %8.1f %9.1f   %6.1f   %5.2f  %6.1f   %s\n", name, box, best[0] * 1e6, best[1] * 1e6, best[2] * 1e6, best[0] / box * 1e9, best[0] / best[1], best[2] / best[0], same ? "equal" : "DIFFER");
    return !same;
}

int main(void) {
    struct ask together = {.kind = 0, .asked = {1, 1}, .wlow = {60, 60}, .whigh = {100, 100}};
    struct ask sum = {.kind = 2, .low = 5000, .high = 6000, .asked = {1, 1, 1, 1, 1, 1, 1, 1}};
    printf("%-28s %6s %8s %8s %9s   %6s   %5s  %6s\n", "", "cuts", "proved", "plain C", "textbook", "ns/cut", "/plain", "faster");
    int bad = 0;
    bad |= measure("2 of 255, no message", 2, (size_t[]){255, 255}, 0, &sum);
    bad |= measure("2 of 255, many", 2, (size_t[]){255, 255}, 50, &sum);
    bad |= measure("8 of 3, no message", 8, (size_t[]){3, 3, 3, 3, 3, 3, 3, 3}, 0, &sum);
    bad |= measure("8 of 3, many", 8, (size_t[]){3, 3, 3, 3, 3, 3, 3, 3}, 50, &sum);
    bad |= measure("4 of 15, few", 4, (size_t[]){15, 15, 15, 15}, 10, &sum);
    bad |= measure("4 of 15, many", 4, (size_t[]){15, 15, 15, 15}, 60, &sum);
    bad |= measure("4 of 15, together", 4, (size_t[]){15, 15, 15, 15}, 10, &together);
    bad |= measure("mixed 63 15 7 3 1, few", 5, (size_t[]){63, 15, 7, 3, 1}, 10, &sum);
    bad |= measure("4 of 7, no message", 4, (size_t[]){7, 7, 7, 7}, 0, &sum);
    bad |= measure("15 15 7 7, no message", 4, (size_t[]){15, 15, 7, 7}, 0, &sum);
    bad |= measure("4 of 15, no message", 4, (size_t[]){15, 15, 15, 15}, 0, &sum);
    return bad;
}
