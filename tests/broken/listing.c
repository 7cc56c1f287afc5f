#include "listing.h"
#include "damage.h"

#include <stdlib.h>

/* Low above high: no pair is asked for. */
static uint32_t list_nothing(uint32_t geometry, const uint8_t *image, size_t image_len, uint8_t *result, size_t result_len)
{
    uint32_t none = 0;
    return real_list(geometry, image, image_len, 1, 0, &none, 0, result, result_len);
}

/* After a list that was cut short at an odd length: the next pair's key in the last number, and one more said to be written. */
static void one_too_many(uint32_t geometry, const uint8_t *image, size_t image_len, uint32_t low, uint32_t high, uint32_t *pairs,
                         size_t pairs_len, uint8_t *result)
{
    uint32_t *more = malloc((pairs_len + 1) * sizeof *more);
    uint8_t ignored[MUTREE_RESULT_BYTES];
    if (more == NULL)
        abort();
    real_list(geometry, image, image_len, low, high, more, pairs_len + 1, ignored, sizeof ignored);
    pairs[pairs_len - 1] = more[pairs_len - 1];
    result[8]++;
    free(more);
}

/* The walk begins at the first entry of the root whose key is not below low: the subtree before it, which may hold low, is passed
 * over. Gives the key to begin at; 0 where no entry is left. */
static int begins_late(uint32_t geometry, const uint8_t *image, size_t image_len, uint32_t *low)
{
    const struct mutree_geometry *chip = mutree_geometry_of(geometry);
    const uint8_t *page = image + (size_t)root_of(geometry, image, image_len) * chip->page_bytes, *spare = page + chip->main_bytes;
    uint32_t height = spare[4], count = spare[4 + height], i;
    const uint8_t *slot = page + MUTREE_SLOT_BYTES * (chip->slots - (chip->slots >> (height - 1)));
    if (height == 1)
        return 1;
    for (i = 0; i < count; i++, slot += MUTREE_SLOT_BYTES) {
        uint32_t key = (uint32_t)slot[0] | (uint32_t)slot[1] << 8 | (uint32_t)slot[2] << 16 | (uint32_t)slot[3] << 24;
        if (key >= *low) {
            *low = i == 0 ? *low : key;
            return 1;
        }
    }
    return 0;
}

uint32_t list_wrongly(int fault, uint32_t geometry, const uint8_t *image, size_t image_len, uint32_t low, uint32_t high,
                      uint32_t *pairs, size_t pairs_len, uint8_t *result, size_t result_len)
{
    uint32_t answer;
    if (fault == 20 && high == 0)
        return list_nothing(geometry, image, image_len, result, result_len);
    if (fault == 20)
        high--;
    answer = real_list(geometry, image, image_len, low, high, pairs, fault == 22 ? 0 : pairs_len, result, result_len);
    if (answer != MUTREE_DONE)
        return answer;
    if (fault == 21 && pairs_len % 2 == 1 && mutree_read_listed(result).exist > pairs_len / 2)
        one_too_many(geometry, image, image_len, low, high, pairs, pairs_len, result);
    if (fault == 22 && !begins_late(geometry, image, image_len, &low))
        return list_nothing(geometry, image, image_len, result, result_len);
    return fault == 22 ? real_list(geometry, image, image_len, low, high, pairs, pairs_len, result, result_len) : answer;
}
