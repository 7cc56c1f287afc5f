/* search.c: how long the search in one node takes, and how many keys it looks at.
 *
 * Links the proved function alone (crate bench_search). Beside its time stand the key reads of two loops written here:
 * halving, which is what the function does (its answers are held against it), and one key after another, as it was before.
 *
 * usage: search
 */
#define _POSIX_C_SOURCE 200809L
#include <stddef.h>
#include <stdint.h>
#include <stdio.h>
#include <stdlib.h>
#include <time.h>

size_t bench_chosen_index(const uint8_t *node, size_t node_len, uint8_t n, uint32_t key);

enum { MOST = 255, KEYS = 4096, ROUNDS = 400, TRIES = 7 };

static uint8_t node[8 * MOST];
static uint32_t keys[KEYS];

/* Processor time, so that what else the machine does counts little. */
static double now(void)
{
    struct timespec t;
    clock_gettime(CLOCK_PROCESS_CPUTIME_ID, &t);
    return (double)t.tv_sec + 1e-9 * (double)t.tv_nsec;
}

static uint32_t key_at(size_t i)
{
    const uint8_t *at = node + 8 * i;
    return (uint32_t)at[0] | (uint32_t)at[1] << 8 | (uint32_t)at[2] << 16 | (uint32_t)at[3] << 24;
}

/* n entries with the keys 10, 20, 30, .. */
static void fill(size_t n)
{
    size_t i;
    unsigned b;
    for (i = 0; i < n; i++)
        for (b = 0; b < 4; b++)
            node[8 * i + b] = (uint8_t)((10 * (i + 1)) >> (8 * b));
}

/* Keys from 0 to a little above the last, spread by a fixed rule. */
static void choose_keys(size_t n)
{
    uint32_t state = 1;
    size_t i;
    for (i = 0; i < KEYS; i++) {
        state = state * 1664525u + 1013904223u;
        keys[i] = (state >> 8) % (uint32_t)(10 * n + 15);
    }
}

static size_t by_halving(size_t n, uint32_t key, unsigned long *reads)
{
    size_t low = 0, high = n;
    while (low + 1 < high) {
        size_t middle = low + (high - low) / 2;
        ++*reads;
        if (key < key_at(middle))
            high = middle;
        else
            low = middle;
    }
    return low;
}

static size_t one_after_another(size_t n, uint32_t key, unsigned long *reads)
{
    size_t i = 0;
    while (i + 1 < n) {
        ++*reads;
        if (key < key_at(i + 1))
            return i;
        i++;
    }
    return i;
}

/* Nanoseconds a search: the least of some tries, each over all keys many times. */
static double measure(size_t n)
{
    double least = 0;
    unsigned t, r, i;
    size_t sum = 0;
    for (t = 0; t < TRIES; t++) {
        double start = now(), took;
        for (r = 0; r < ROUNDS; r++)
            for (i = 0; i < KEYS; i++)
                sum += bench_chosen_index(node, sizeof node, (uint8_t)n, keys[i]);
        took = (now() - start) * 1e9 / ROUNDS / KEYS;
        if (t == 0 || took < least)
            least = took;
    }
    if (sum == 1)
        puts("");
    return least;
}

static void row(size_t n)
{
    unsigned long halving = 0, line = 0;
    size_t i;
    fill(n);
    choose_keys(n);
    for (i = 0; i < KEYS; i++) {
        size_t place = by_halving(n, keys[i], &halving);
        if (place != one_after_another(n, keys[i], &line) || place != bench_chosen_index(node, sizeof node, (uint8_t)n, keys[i])) {
            printf("search: another place for key %u of %zu entries\n", (unsigned)keys[i], n);
            exit(1);
        }
    }
    printf("| %zu | %.1f | %.1f | %.1f |\n", n, (double)line / KEYS, (double)halving / KEYS, measure(n));
}

int main(void)
{
    puts("| entries | key reads, one after another | key reads, halving | nanoseconds a search |\n|---|---|---|---|");
    row(4);
    row(8);
    row(16);
    row(32);
    row(63);
    row(255);
    return 0;
}
