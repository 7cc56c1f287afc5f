/* limits.c: what c/mutree.h says of capacity and of small allowances, measured.
 *
 * usage: limits rising CHIP BLOCKS            inserts rising keys until none is taken any more, and prints how many there are
 *        limits random CHIP BLOCKS [SEED]     the same with random keys
 *        limits allowance CHIP CALLS          calls the insert that halves the first root with allowance 1, so many times
 * CHIP is the geometry's number, 0 or 1.
 */
#include "../../c/mutree.h"

#include <stdio.h>
#include <stdlib.h>
#include <string.h>

/* Rising keys end on the small chip by the tree's height, however many blocks there are. */
enum { RISING_KEYS_SMALL = 7456 };

static const struct mutree_geometry *chip;
static uint8_t *image, result[MUTREE_RESULT_BYTES];
static uint32_t live[MUTREE_MOST_LIVE_WORDS];
static size_t length;
static uint64_t seed = 1;

static void need(int ok, const char *what)
{
    if (!ok) {
        printf("limits: %s\n", what);
        exit(1);
    }
}

static void format(size_t blocks)
{
    length = blocks * chip->block_bytes;
    image = malloc(length);
    need(image != NULL, "no memory");
    need(mutree_format(chip->number, image, length, result, sizeof result) == MUTREE_DONE, "format was refused");
}

static uint32_t insert(uint32_t key, uint32_t allowance)
{
    return mutree_insert(chip->number, image, length, live, MUTREE_MOST_LIVE_WORDS, key, 1, allowance, result, sizeof result);
}

static uint32_t random_key(void)
{
    seed = seed * 6364136223846793005u + 1442695040888963407u;
    return (uint32_t)(seed >> 32);
}

/* On the large chip they end by its pages. Two blocks' pages are then without a live node and each other page has a leaf: the first one
 * and the last one full, the others half full. Where the last leaf would also grow the root, it is not taken. */
static int fits_pages(uint32_t keys, size_t blocks)
{
    size_t leaves = (blocks - 2) * chip->pages, half = chip->slots / 4;
    return keys == half * (leaves + 2) || keys == half * (leaves + 1);
}

static int fill(int rising, size_t blocks)
{
    uint32_t keys = 0, answer, wanted = chip->number == MUTREE_SMALL ? MUTREE_HEIGHT : MUTREE_ROOM;
    format(blocks);
    while ((answer = insert(rising ? keys + 1 : random_key(), UINT32_MAX)) == MUTREE_DONE)
        keys++;
    printf("limits: chip %u, %s keys, %u blocks: answer %u after %u keys\n", (unsigned)chip->number, rising ? "rising" : "random",
           (unsigned)blocks, (unsigned)answer, (unsigned)keys);
    need(answer == wanted, wanted == MUTREE_HEIGHT ? "the chip was full before the tree was; give it more blocks"
                                                   : "the tree was too high before the chip was full");
    need(!rising || (wanted == MUTREE_ROOM ? fits_pages(keys, blocks) : keys == RISING_KEYS_SMALL),
         "c/mutree.h says another number of rising keys");
    return 0;
}

static int small_allowance(unsigned long calls)
{
    unsigned long programmed = 0, i;
    uint32_t key;
    format(MUTREE_LEAST_BLOCKS);
    for (key = 1; key < chip->slots; key++)
        need(insert(key, UINT32_MAX) == MUTREE_DONE, "an insert was refused");
    for (i = 0; i < calls; i++) {
        need(insert(key, 1) == MUTREE_STOPPED, "an insert with allowance 1 was not stopped");
        programmed += mutree_read_result(result).programmed;
    }
    printf("limits: chip %u, key %u with allowance 1: %lu calls, all STOPPED, %lu pages programmed\n", (unsigned)chip->number,
           (unsigned)key, calls, programmed);
    need(insert(key, chip->most_stores) == MUTREE_DONE, "the insert with allowance enough was refused");
    return 0;
}

int main(int count, char **words)
{
    if (count >= 4)
        chip = mutree_geometry_of((uint32_t)strtoul(words[2], NULL, 10));
    if (chip == NULL || count > 5) {
        printf("usage: limits rising|random CHIP BLOCKS [SEED], limits allowance CHIP CALLS\n");
        return 64;
    }
    if (count == 5)
        seed = strtoull(words[4], NULL, 10);
    if (strcmp(words[1], "allowance") == 0)
        return small_allowance(strtoul(words[3], NULL, 10));
    return fill(strcmp(words[1], "rising") == 0, strtoul(words[3], NULL, 10));
}
