/* main.c: drives target.c without libFuzzer, with inputs from a counter. So any C compiler can run it; it is no search, but
 * it meets all calls on both chips, sound and broken images, good and bad lengths, and both guard pages.
 *
 * usage: fuzz [ROUNDS]
 */
#include "../../c/mutree.h"

#include <stdio.h>
#include <stdlib.h>
#include <string.h>

int LLVMFuzzerTestOneInput(const uint8_t *data, size_t size);

enum { MOST = 420000 };

static uint64_t seed = 1;

static uint32_t some(uint32_t below)
{
    seed = seed * 6364136223846793005u + 1442695040888963407u;
    return (uint32_t)((seed >> 33) % below);
}

static void fill(uint8_t *bytes, size_t count)
{
    while (count > 0)
        bytes[--count] = (uint8_t)some(256);
}

/* A length that matters: a short one, a page, a block, an index's, and one byte beside it. */
static size_t some_length(const struct mutree_geometry *chip)
{
    size_t least = MUTREE_LEAST_BLOCKS * (size_t)chip->block_bytes;
    size_t lengths[8];
    lengths[0] = 0;
    lengths[1] = 1;
    lengths[2] = chip->page_bytes;
    lengths[3] = chip->block_bytes;
    lengths[4] = least - 1;
    lengths[5] = least;
    lengths[6] = least + 1;
    lengths[7] = least + 3 * chip->page_bytes;
    return lengths[some(8)];
}

/* What is laid over a formatted image is inserts alone: it stays sound. */
static void only_inserts(uint8_t *changes, size_t size)
{
    size_t i;
    for (i = 0; i < size; i += 5)
        changes[i] |= 1;
}

/* Lines of rising keys; now and then a byte is changed, and the end is cut off. Gives the length. */
static size_t text(uint8_t *at)
{
    uint32_t lines = some(4) ? some(20) : some(700), key = some(50);
    size_t length = 0;
    for (; lines > 0; lines--, key += (some(60) > 0) + some(some(2) ? 3 : 5000000))
        length += (size_t)sprintf((char *)at + length, "%lu\t%lu\n", (unsigned long)key, (unsigned long)some(4294967295u));
    if (length > 0 && some(2))
        at[some((uint32_t)length)] = some(2) ? (uint8_t)some(256) : (uint8_t)"\t\n0 9\r"[some(6)];
    return some(8) ? length : some((uint32_t)length + 1);
}

/* Whether the first bytes ask for an import over a formatted image. */
static int is_import(const uint8_t *data)
{
    return (data[7] >> 2 & 3) == 3 && !(data[0] & 1) && data[7] & 1 && (data[0] >> 3 & 3) != 2;
}

/* The first bytes at random, then the image, or the text. */
static size_t input(uint8_t *data)
{
    size_t size = is_import(data) ? text(data + 8) : data[7] & 1 ? some(400) : some_length(mutree_geometry_of(data[0] >> 2 & 1));
    if (is_import(data))
        return 8 + size;
    if (data[7] & 1)
        fill(data + 8, size);
    if (data[7] & 1 && some(2))
        only_inserts(data + 8, size);
    else if (!(data[7] & 1))
        memset(data + 8, some(2) ? 255 : (int)some(256), size);
    return 8 + size;
}

int main(int count, char **words)
{
    static uint8_t data[MOST];
    long round, rounds = count > 1 ? atol(words[1]) : 3000;
    for (round = 0; round < rounds; round++) {
        fill(data, 8);
        LLVMFuzzerTestOneInput(data, input(data));
    }
    printf("fuzz: %ld inputs, no finding\n", rounds);
    return 0;
}
