// The same algorithm in C, and a clock beside it: look-ups in a tree of depth 4, and rebuilds of one cell, over a store with a map of bits.
#include <stdint.h>
#include <stdio.h>
#include <stdlib.h>
#include <string.h>
#include <time.h>

#define BLOCKS 16384

// the proved library: a slice passes as a pointer and a length
uint32_t tree_look_ups(uint32_t *words, size_t n, uint16_t *cells, size_t m, uint32_t planted, uint32_t count);
uint32_t tree_rebuilds(uint32_t *words, size_t n, uint16_t *cells, size_t m, uint32_t count);

enum refusal { NONE, NONE_FREE, NOT_OUT, TOO_MANY, NO_WORD };

struct store {
    uint32_t *words;
    uint16_t *cells;
    size_t size;
    uint32_t map[512];
    size_t first;
};

static void turn(struct store *s, uint32_t b) { if (b / 32 < 512) s->map[b / 32] ^= 1u << (b % 32); }

static void make(struct store *s, uint32_t *words, size_t n, uint16_t *cells, size_t m) {
    s->words = words;
    s->cells = cells;
    s->size = n / 16 < m ? n / 16 : m;
    if (s->size > BLOCKS) s->size = BLOCKS;
    memset(words, 0, s->size * 64);
    memset(cells, 0, s->size * 2);
    memset(s->map, 255, sizeof s->map);
    for (uint32_t b = 0; b < s->size; b++) turn(s, b);
    s->first = 0;
}

static int is_out(const struct store *s, uint32_t b) { return b < s->size && s->cells[b] > 0; }

static enum refusal take(struct store *s, uint32_t *b) {
    for (size_t w = s->first; w < 512; w++) {
        uint32_t free = ~s->map[w];
        if (free) {
            *b = 32 * w + __builtin_ctz(free);
            if (*b < s->size) {
                memset(s->words + 16 * (size_t)*b, 0, 64);
                s->cells[*b] = 1;
            }
            turn(s, *b);
            s->first = *b / 32;
            return NONE;
        }
    }
    return NONE_FREE;
}

static enum refusal keep(struct store *s, uint32_t b) {
    if (!is_out(s, b)) return NOT_OUT;
    if (s->cells[b] == 65535) return TOO_MANY;
    s->cells[b]++;
    return NONE;
}

static enum refusal release(struct store *s, uint32_t b) {
    if (!is_out(s, b)) return NOT_OUT;
    if (--s->cells[b] == 0) {
        turn(s, b);
        if (b / 32 < s->first) s->first = b / 32;
    }
    return NONE;
}

static enum refusal get(const struct store *s, uint32_t b, uint32_t i, uint32_t *w) {
    if (!is_out(s, b)) return NOT_OUT;
    if (i > 15) return NO_WORD;
    *w = s->words[16 * (size_t)b + i];
    return NONE;
}

static enum refusal put_word(struct store *s, uint32_t b, uint32_t i, uint32_t w) {
    if (!is_out(s, b)) return NOT_OUT;
    if (i > 15) return NO_WORD;
    s->words[16 * (size_t)b + i] = w;
    return NONE;
}

static enum refusal holders(const struct store *s, uint32_t b, uint16_t *n) {
    if (!is_out(s, b)) return NOT_OUT;
    *n = s->cells[b];
    return NONE;
}

static uint32_t left(const struct store *s) {
    uint32_t n = 0;
    for (int w = 0; w < 512; w++) n += __builtin_popcount(s->map[w]);
    return BLOCKS - n;
}

static uint32_t child_of(const struct store *s, uint32_t word, uint32_t i) {
    uint32_t w;
    if (word == 0) return 0;
    return get(s, word - 1, i, &w) == NONE ? w : 0;
}

static uint32_t look_up(const struct store *s, unsigned order, uint32_t word, uint32_t index) {
    if (order == 0) return word;
    return look_up(s, order - 1, child_of(s, word, (index >> (4 * (order - 1))) % 16), index);
}

static void let_go(struct store *s, unsigned order, uint32_t word) {
    uint16_t n;
    if (order == 0 || word == 0) return;
    if (order > 1 && holders(s, word - 1, &n) == NONE && n == 1) {
        uint32_t children[16];
        for (int i = 0; i < 16; i++) children[i] = child_of(s, word, i);
        release(s, word - 1);
        for (int i = 0; i < 16; i++) let_go(s, order - 1, children[i]);
    } else {
        release(s, word - 1);
    }
}

struct plan { uint32_t index, word; };

static int touches(const struct plan *p, unsigned order, uint32_t at) { return p->index >> (4 * order) == at; }

static uint32_t new_word(const struct plan *p, uint32_t index, uint32_t old) { return index == p->index ? p->word : old; }

static int has_room(const struct store *s, unsigned order, uint32_t word, int fresh) {
    uint16_t n;
    if (order == 0 || word == 0 || fresh) return 1;
    return holders(s, word - 1, &n) == NONE && n < 65520;
}

static void drop_fresh(struct store *s, unsigned order, const uint32_t *words, const unsigned char *fresh) {
    for (int i = 0; i < 16; i++)
        if (fresh[i]) let_go(s, order, words[i]);
}

static enum refusal fill(struct store *s, unsigned order, const uint32_t *words, const unsigned char *fresh, uint32_t *word) {
    uint32_t b;
    for (int i = 0; i < 16; i++)
        if (!has_room(s, order, words[i], fresh[i])) return TOO_MANY;
    enum refusal e = take(s, &b);
    if (e) return e;
    for (int i = 0; i < 16; i++) {
        if (!fresh[i] && order && words[i]) keep(s, words[i] - 1);
        put_word(s, b, i, words[i]);
    }
    *word = b + 1;
    return NONE;
}

static enum refusal build(struct store *s, const struct plan *p, unsigned order, uint32_t at, uint32_t word, uint32_t *new, int *is_new) {
    *new = word;
    *is_new = 0;
    if (!touches(p, order, at)) return NONE;
    if (order == 0) {
        *new = new_word(p, at, word);
        *is_new = *new != word;
        return NONE;
    }
    uint32_t words[16] = { 0 };
    unsigned char fresh[16] = { 0 };
    int changed = 0;
    for (uint32_t i = 0; i < 16; i++) {
        int f;
        enum refusal e = build(s, p, order - 1, at * 16 + i, child_of(s, word, i), &words[i], &f);
        if (e) {
            drop_fresh(s, order - 1, words, fresh);
            return e;
        }
        fresh[i] = f;
        changed |= f;
    }
    if (!changed) return NONE;
    enum refusal e = fill(s, order - 1, words, fresh, new);
    if (e) {
        drop_fresh(s, order - 1, words, fresh);
        return e;
    }
    *is_new = 1;
    return NONE;
}

static uint32_t next(uint32_t x) { return x * 1664525u + 1013904223u; }

static uint32_t planted(struct store *s, uint32_t count) {
    uint32_t top = 0, x = 7;
    for (uint32_t i = 0; i < count; i++) {
        x = next(x);
        struct plan p = { x >> 16, x | 1 };
        uint32_t new;
        int is_new;
        if (build(s, &p, 4, 0, top, &new, &is_new) == NONE && is_new) {
            let_go(s, 4, top);
            top = new;
        }
    }
    return top;
}

static uint32_t c_look_ups(uint32_t *words, size_t n, uint16_t *cells, size_t m, uint32_t plant, uint32_t count) {
    struct store s;
    make(&s, words, n, cells, m);
    uint32_t top = planted(&s, plant), x = 1, sum = 0;
    for (uint32_t i = 0; i < count; i++) {
        x = next(x);
        sum += look_up(&s, 4, top, x >> 16);
    }
    return sum;
}

static uint32_t c_rebuilds(uint32_t *words, size_t n, uint16_t *cells, size_t m, uint32_t count) {
    struct store s;
    make(&s, words, n, cells, m);
    planted(&s, count);
    return left(&s);
}

static double now(void) {
    struct timespec t;
    clock_gettime(CLOCK_MONOTONIC, &t);
    return t.tv_sec + t.tv_nsec * 1e-9;
}

static uint32_t words[16 * BLOCKS];
static uint16_t cells[BLOCKS];

// the least of seven times, the two sides in turn, and both answers
#define RACE(name, ours, theirs, each)                                                        \
    do {                                                                                      \
        double a = 1e9, b = 1e9;                                                              \
        uint32_t p = 0, q = 0;                                                                \
        for (int k = 0; k < 7; k++) {                                                         \
            double t = now();                                                                 \
            p = ours;                                                                         \
            t = now() - t;                                                                    \
            if (t < a) a = t;                                                                 \
            t = now();                                                                        \
            q = theirs;                                                                       \
            t = now() - t;                                                                    \
            if (t < b) b = t;                                                                 \
        }                                                                                     \
        printf("%-22s Rattle %7.1f ns   C %7.1f ns   ratio %.2f   answers %s\n", name,        \
               a / (each) * 1e9, b / (each) * 1e9, a / b, p == q ? "agree" : "DIFFER");       \
        if (p != q) return 1;                                                                 \
    } while (0)

int main(void) {
    const size_t n = 16 * BLOCKS, m = BLOCKS;
    RACE("look-ups, 4000 cells", tree_look_ups(words, n, cells, m, 4000, 20000000), c_look_ups(words, n, cells, m, 4000, 20000000), 20000000.0);
    RACE("look-ups, 60 cells", tree_look_ups(words, n, cells, m, 60, 20000000), c_look_ups(words, n, cells, m, 60, 20000000), 20000000.0);
    RACE("one-cell rebuilds", tree_rebuilds(words, n, cells, m, 400000), c_rebuilds(words, n, cells, m, 400000), 400000.0);
    return 0;
}
