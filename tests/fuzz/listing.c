/* listing.c: a list with any numbers. Checked: as many pairs are written as exist or have room, their keys rise and lie between the two
 * keys, a lookup finds each with its address, and the numbers beyond stay, all of them where the call is refused. */
#define _DEFAULT_SOURCE
#include "listing.h"

#include <stdlib.h>

static const uint32_t mark = 0x5ca1ab1eu;

static void check_pair(uint32_t geometry, struct guarded image, struct wish wish, const uint32_t *pairs, size_t i)
{
    uint8_t found[MUTREE_RESULT_BYTES];
    uint32_t key = pairs[2 * i];
    if (key < wish.low || key > wish.high || (i > 0 && pairs[2 * i - 2] >= key))
        abort();
    if (mutree_lookup(geometry, image.bytes, image.length, key, found, sizeof found) != MUTREE_DONE
        || mutree_read_result(found).address != pairs[2 * i + 1])
        abort();
}

/* The count alone, by a call that is lent no numbers. */
static void check_count(uint32_t geometry, struct guarded image, struct wish wish, uint32_t exist)
{
    uint8_t counted[MUTREE_RESULT_BYTES];
    uint32_t none = mark;
    if (mutree_list(geometry, image.bytes, image.length, wish.low, wish.high, &none, 0, counted, sizeof counted) != MUTREE_DONE
        || mutree_read_listed(counted).exist != exist || mutree_read_listed(counted).written != 0 || none != mark)
        abort();
}

/* The pairs of a list that was DONE; how many were written. */
static size_t check_pairs(uint32_t geometry, struct guarded image, struct wish wish, const uint32_t *pairs, struct guarded result)
{
    struct mutree_listed listed = mutree_read_listed(result.bytes);
    size_t most = wish.numbers / 2, i;
    if (listed.written != (listed.exist < most ? listed.exist : most))
        abort();
    for (i = 0; i < listed.written; i++)
        check_pair(geometry, image, wish, pairs, i);
    check_count(geometry, image, wish, listed.exist);
    return listed.written;
}

uint32_t list_checked(uint32_t geometry, struct guarded image, struct wish wish, int at_end, struct guarded result)
{
    struct guarded lent = guarded_make(4 * wish.numbers, at_end);
    uint32_t *pairs = (uint32_t *)(void *)lent.bytes, answer;
    size_t i;
    for (i = 0; i < wish.numbers; i++)
        pairs[i] = mark;
    answer = mutree_list(geometry, image.bytes, image.length, wish.low, wish.high, pairs, wish.numbers, result.bytes, result.length);
    for (i = answer == MUTREE_DONE ? 2 * check_pairs(geometry, image, wish, pairs, result) : 0; i < wish.numbers; i++)
        if (pairs[i] != mark)
            abort();
    guarded_free(&lent);
    return answer;
}
