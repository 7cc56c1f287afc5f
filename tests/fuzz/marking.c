/* marking.c: an insert or a delete with any number of words. Checked: too few of them are LENGTH; LENGTH and DAMAGED leave them; else the
 * words past the image's stay, no erased page is live, and a call that stores nothing finds the same words, whatever stood there. */
#define _DEFAULT_SOURCE
#include "marking.h"

#include <stdlib.h>
#include <string.h>

static const uint32_t mark = 0x5ca1ab1eu;

static struct guarded lent_words(size_t words, uint32_t filled_with, int at_end)
{
    struct guarded lent = guarded_make(sizeof(uint32_t) * words, at_end);
    size_t i;
    for (i = 0; i < words; i++)
        memcpy(lent.bytes + sizeof(uint32_t) * i, &filled_with, sizeof filled_with);
    return lent;
}

static uint32_t *words_of(struct guarded lent)
{
    return (uint32_t *)(void *)lent.bytes;
}

static void check_stay_from(struct guarded lent, size_t i)
{
    for (; i < lent.length / sizeof mark; i++)
        if (words_of(lent)[i] != mark)
            abort();
}

/* A delete that may store nothing. */
static void check_again(uint32_t geometry, struct guarded image, struct guarded lent, size_t needed)
{
    uint8_t ignored[MUTREE_RESULT_BYTES];
    struct guarded again = lent_words(lent.length / sizeof mark, ~mark, 1);
    uint32_t answer = mutree_delete(geometry, image.bytes, image.length, words_of(again), again.length / sizeof mark, 0, 0, ignored, sizeof ignored);
    if (answer == MUTREE_LENGTH || answer == MUTREE_DAMAGED || memcmp(again.bytes, lent.bytes, sizeof mark * needed) != 0)
        abort();
    guarded_free(&again);
}

static int is_erased(const uint8_t *page, size_t bytes)
{
    return page[0] == 255 && memcmp(page, page + 1, bytes - 1) == 0;
}

static void check_programmed(const struct mutree_geometry *chip, struct guarded image, struct guarded lent)
{
    uint32_t page;
    for (page = 0; page < image.length / chip->page_bytes; page++)
        if (mutree_is_live(words_of(lent), page) && is_erased(image.bytes + (size_t)page * chip->page_bytes, chip->page_bytes))
            abort();
}

static void check_words(uint32_t geometry, struct guarded image, uint32_t answer, struct guarded lent)
{
    size_t needed = mutree_live_words(geometry, image.length);
    if (lent.length / sizeof mark < needed && answer != MUTREE_LENGTH)
        abort();
    if (answer == MUTREE_LENGTH || answer == MUTREE_DAMAGED) {
        check_stay_from(lent, 0);
        return;
    }
    check_stay_from(lent, needed);
    check_programmed(mutree_geometry_of(geometry), image, lent);
    check_again(geometry, image, lent, needed);
}

uint32_t update_checked(uint32_t geometry, struct guarded image, struct change change, int at_end, struct guarded result)
{
    struct guarded lent = lent_words(change.words, mark, at_end);
    uint32_t answer = change.adds ? mutree_insert(geometry, image.bytes, image.length, words_of(lent), change.words, change.key, ~change.key,
                                                  change.allowance, result.bytes, result.length)
                                  : mutree_delete(geometry, image.bytes, image.length, words_of(lent), change.words, change.key,
                                                  change.allowance, result.bytes, result.length);
    check_words(geometry, image, answer, lent);
    guarded_free(&lent);
    return answer;
}
