#include "marking.h"
#include "../independent/judge.h"

#include <stdlib.h>
#include <string.h>

static uint32_t words[MUTREE_MOST_LIVE_WORDS]; /* of an image, or a finished update */
static volatile uint32_t seen;                 /* what fault 43 reads */

static void *copied(const void *from, size_t length)
{
    void *copy = malloc(length ? length : 1);
    if (copy == NULL)
        abort();
    return memcpy(copy, from, length);
}

uint32_t update_rightly(struct update u)
{
    return u.adds ? real_insert(u.geometry, u.image, u.image_len, u.live, u.live_len, u.key, u.address, u.allowance, u.result, u.result_len)
                  : real_delete(u.geometry, u.image, u.image_len, u.live, u.live_len, u.key, u.allowance, u.result, u.result_len);
}

/* The words that the update leaves with this allowance, on a copy of an image; with 0 they are the image's. */
static void work_out(struct update u, const uint8_t *image, uint32_t allowance)
{
    uint8_t result[MUTREE_RESULT_BYTES];
    u.image = copied(image, u.image_len);
    u.live = words;
    u.live_len = MUTREE_MOST_LIVE_WORDS;
    u.allowance = allowance;
    u.result = result;
    u.result_len = sizeof result;
    update_rightly(u);
    free(u.image);
}

/* 34: the bits from before are left set. 35: those that are new are forgotten. */
static void join(int fault, struct update u, const uint8_t *before)
{
    size_t i;
    work_out(u, before, 0);
    for (i = 0; i < mutree_live_words(u.geometry, u.image_len); i++)
        u.live[i] = fault == 34 ? u.live[i] | words[i] : u.live[i] & words[i];
}

static void exchange_halves(struct update u)
{
    size_t i;
    for (i = 0; i < mutree_live_words(u.geometry, u.image_len); i += 2) {
        uint32_t kept = u.live[i];
        u.live[i] = u.live[i + 1];
        u.live[i + 1] = kept;
    }
}

/* Pages that had inner nodes alone stay live where these have moved. */
static void keep_pages_without_leaf(struct update u, const uint8_t *before)
{
    static struct tree tree;
    uint32_t page;
    if (mutree_read_result(u.result).erased > 0 || judge(&tree, &chips[u.geometry], before, u.image_len) != 0)
        return;
    for (page = 0; page < tree.pages; page++)
        if (tree.levels[page] != 0 && !(tree.levels[page] & 1))
            u.live[page / MUTREE_WORD_PAGES] |= (uint32_t)1 << page % MUTREE_WORD_PAGES;
}

/* After an answer whose words are right. */
static void spoil_right(int fault, struct update u, uint32_t answer, const uint8_t *before, const uint32_t *kept)
{
    size_t needed = mutree_live_words(u.geometry, u.image_len);
    if ((fault == 34 || fault == 35) && (answer == MUTREE_DONE || answer == MUTREE_STOPPED))
        join(fault, u, before);
    if (fault == 36 && u.live_len > needed)
        u.live[needed] = 0;
    if (fault == 37 && answer == MUTREE_ROOM)
        memcpy(u.live, kept, u.live_len * sizeof *kept);
    if (fault == 38 && answer == MUTREE_STOPPED) {
        work_out(u, before, UINT32_MAX);
        memcpy(u.live, words, needed * sizeof *words);
    }
    if (fault == 42 && u.geometry == MUTREE_LARGE)
        exchange_halves(u);
    if (fault == 45 && answer == MUTREE_DONE)
        keep_pages_without_leaf(u, before);
}

static void spoil(int fault, struct update u, uint32_t answer, const uint8_t *before, const uint32_t *kept)
{
    int left = fault == 39 ? MUTREE_DAMAGED : MUTREE_LENGTH;
    if ((fault == 39 || fault == 40) && answer == (uint32_t)left && u.live_len > 0)
        u.live[0] ^= 1;
    if (fault == 43)
        seen = u.live[u.live_len];
    if (answer != MUTREE_LENGTH && answer != MUTREE_DAMAGED)
        spoil_right(fault, u, answer, before, kept);
}

/* One word less than the image needs will do. */
static uint32_t take_too_few(struct update u)
{
    uint32_t *lent = u.live, answer;
    size_t count = u.live_len;
    memcpy(words, lent, count * sizeof *words);
    u.live = words;
    u.live_len = MUTREE_MOST_LIVE_WORDS;
    answer = update_rightly(u);
    memcpy(lent, words, count * sizeof *words);
    return answer;
}

uint32_t update_wrongly(int fault, struct update u)
{
    size_t needed = mutree_live_words(u.geometry, u.image_len);
    uint8_t *before = copied(u.image, u.image_len);
    uint32_t *kept = copied(u.live, u.live_len * sizeof *kept), answer;
    if (fault == 41 && u.live_len + 1 == needed)
        answer = take_too_few(u);
    else if (fault == 44 && u.live_len < needed && real_lookup(u.geometry, u.image, u.image_len, 0, u.result, u.result_len) == MUTREE_DAMAGED)
        answer = MUTREE_DAMAGED;
    else
        answer = update_rightly(u);
    spoil(fault, u, answer, before, kept);
    free(before);
    free(kept);
    return answer;
}
