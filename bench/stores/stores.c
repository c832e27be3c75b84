/* The store with a map of bits: the proved one, called from C, against the same algorithm written in C. */
#include <stdint.h>
#include <stdio.h>
#include <stdlib.h>
#include <string.h>
#include <time.h>

uint32_t store_takes(uint32_t *words, size_t nwords, uint16_t *cells, size_t ncells, uint32_t rounds);
uint32_t store_gets(uint32_t *words, size_t nwords, uint16_t *cells, size_t ncells, uint32_t count);
uint32_t store_puts(uint32_t *words, size_t nwords, uint16_t *cells, size_t ncells, uint32_t count);

enum { NONE_FREE = 1, NOT_OUT = 2, NO_WORD = 4 };

struct store {
    uint32_t *words;
    size_t nwords;
    uint16_t *cells;
    size_t ncells;
    uint32_t map[512];
    size_t first;
};

static size_t size(const struct store *s)
{
    size_t n = s->nwords / 16;
    if (s->ncells < n)
        n = s->ncells;
    return n < 16384 ? n : 16384;
}

static void make(struct store *s, uint32_t *words, size_t nwords, uint16_t *cells, size_t ncells)
{
    s->words = words;
    s->nwords = nwords;
    s->cells = cells;
    s->ncells = ncells;
    s->first = 0;
    for (size_t k = 0; k < size(s); k++)
        cells[k] = 0;
    memset(s->map, 0xff, sizeof s->map);
    for (size_t b = 0; b < size(s); b++)
        s->map[b / 32] ^= 1u << b % 32;
}

static int take(struct store *s, uint32_t *b)
{
    for (size_t w = s->first; w < 512; w++) {
        uint32_t free = ~s->map[w];
        if (free) {
            *b = 32 * w + __builtin_ctz(free);
            memset(s->words + 16 * (size_t)*b, 0, 64);
            s->cells[*b] = 1;
            s->map[w] ^= 1u << *b % 32;
            s->first = w;
            return 0;
        }
    }
    return NONE_FREE;
}

static int get(const struct store *s, uint32_t b, uint32_t i, uint32_t *w)
{
    if (b >= size(s) || !s->cells[b])
        return NOT_OUT;
    if (i > 15)
        return NO_WORD;
    *w = s->words[16 * (size_t)b + i];
    return 0;
}

static int put(struct store *s, uint32_t b, uint32_t i, uint32_t w)
{
    if (b >= size(s) || !s->cells[b])
        return NOT_OUT;
    if (i > 15)
        return NO_WORD;
    s->words[16 * (size_t)b + i] = w;
    return 0;
}

static uint32_t next(uint32_t x)
{
    return x * 1664525 + 1013904223;
}

static uint32_t take_some(struct store *s, uint32_t most)
{
    uint32_t sum = 0, b;
    for (uint32_t k = 0; k < most; k++) {
        if (take(s, &b))
            return sum;
        sum += b;
    }
    return sum;
}

static uint32_t get_some(const struct store *s, uint32_t count)
{
    uint32_t x = 1, sum = 0, w;
    for (uint32_t k = 0; k < count; k++) {
        x = next(x);
        if (!get(s, x >> 18, (x >> 8) % 16, &w))
            sum += w;
    }
    return sum;
}

static void put_some(struct store *s, uint32_t count)
{
    uint32_t x = 7;
    for (uint32_t k = 0; k < count; k++) {
        x = next(x);
        put(s, x >> 18, (x >> 8) % 16, x);
    }
}

static uint32_t c_takes(uint32_t *words, size_t nwords, uint16_t *cells, size_t ncells, uint32_t rounds)
{
    struct store s;
    uint32_t sum = 0;
    for (uint32_t k = 0; k < rounds; k++) {
        make(&s, words, nwords, cells, ncells);
        sum += take_some(&s, 16384);
    }
    return sum;
}

static uint32_t c_gets(uint32_t *words, size_t nwords, uint16_t *cells, size_t ncells, uint32_t count)
{
    struct store s;
    make(&s, words, nwords, cells, ncells);
    uint32_t taken = take_some(&s, 16384);
    return taken + get_some(&s, count);
}

static uint32_t c_puts(uint32_t *words, size_t nwords, uint16_t *cells, size_t ncells, uint32_t count)
{
    struct store s;
    make(&s, words, nwords, cells, ncells);
    uint32_t taken = take_some(&s, 16384);
    put_some(&s, count);
    return taken + get_some(&s, 1000);
}

typedef uint32_t work(uint32_t *, size_t, uint16_t *, size_t, uint32_t);

static uint32_t words[16384 * 16];
static uint16_t cells[16384];

static double timed(work *f, size_t blocks, uint32_t count, uint32_t *answer)
{
    struct timespec a, b;
    clock_gettime(CLOCK_MONOTONIC, &a);
    *answer = f(words, 16 * blocks, cells, blocks, count);
    clock_gettime(CLOCK_MONOTONIC, &b);
    return (b.tv_sec - a.tv_sec) * 1e9 + (b.tv_nsec - a.tv_nsec);
}

/* The least of nine runs of each, in turn, as nanoseconds for one of `each`. */
static void compare(const char *name, work *ours, work *theirs, size_t blocks, uint32_t count, double each)
{
    double best_ours = 1e18, best_theirs = 1e18;
    for (int k = 0; k < 9; k++) {
        uint32_t x, y;
        double t = timed(ours, blocks, count, &x);
        double u = timed(theirs, blocks, count, &y);
        if (x != y) {
            printf("%s: the answers differ: %u and %u\n", name, x, y);
            exit(1);
        }
        if (t < best_ours)
            best_ours = t;
        if (u < best_theirs)
            best_theirs = u;
    }
    printf("%-44s%9.2f ns%9.2f ns%7.2f\n", name, best_ours / each, best_theirs / each, best_ours / best_theirs);
}

int main(void)
{
    printf("%-44s%12s%12s%7s\n", "work", "Rattle", "C", "ratio");
    compare("take, all 1024 blocks of a store", store_takes, c_takes, 1024, 400, 400.0 * 1024);
    compare("take, all 16384 blocks of a store", store_takes, c_takes, 16384, 25, 25.0 * 16384);
    compare("get, 16384 blocks out, without a pattern", store_gets, c_gets, 16384, 8000000, 8e6);
    compare("get, 64 blocks out, most refused", store_gets, c_gets, 64, 8000000, 8e6);
    compare("put, 16384 blocks out, without a pattern", store_puts, c_puts, 16384, 8000000, 8e6);
    return 0;
}
