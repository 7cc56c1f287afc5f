/* words.c: request 7. Insert and delete are lent words of 32 bits: bit p % 32 of word p / 32 is set where page p is live, so a block has one
 * word and a large block two. After every answer but LENGTH and DAMAGED each word is the one that the judge finds in the image that is
 * left; these two leave all words. Words past the image's stay. Fewer words than the image needs are LENGTH. The words stand against a
 * guard page, with something in them beforehand. */
#define _DEFAULT_SOURCE
#include "built.h"
#include "demands.h"
#include "marked.h"
#include "opened.h"

#include <stdio.h>
#include <stdlib.h>
#include <string.h>

enum { WORD_PAGES = 32, WORD_BYTES = 4, ANSWERS = 8 };

static struct tree state, split; /* of the image after a call, and after the split of a full path */

static struct {
    unsigned long answers[ANSWERS], words, past, too_few, without_leaf;
} met;

/* ---- one call */
struct call {
    struct update u;
    uint32_t number;
    uint8_t *image;
    size_t length;
    uint32_t allowance;
    uint8_t *result;
    size_t room;
};

static size_t words_of(const struct chip *on, size_t length)
{
    return length / on->page / WORD_PAGES;
}

static uint32_t make(const struct call *c, const struct guarded *lent)
{
    uint32_t *live = numbers_of(lent);
    size_t words = lent->length / WORD_BYTES;
    return c->u.adds ? mutree_insert(c->number, c->image, c->length, live, words, c->u.key, c->u.address, c->allowance, c->result, c->room)
                     : mutree_delete(c->number, c->image, c->length, live, words, c->u.key, c->allowance, c->result, c->room);
}

/* A word "worked out afresh from the image": the tree is the image's. */
static uint32_t fresh_word(size_t word)
{
    uint32_t bits = 0, i;
    for (i = 0; i < WORD_PAGES; i++)
        if (state.levels[word * WORD_PAGES + i] != 0)
            bits |= (uint32_t)1 << i;
    return bits;
}

static void are_those_of_the_image(const struct call *c, const struct guarded *lent)
{
    const struct chip *on = &chips[c->number];
    const uint32_t *live = numbers_of(lent);
    size_t words = words_of(on, c->length), i;
    uint32_t page = pick(c->length / on->page);
    if (lent->length < WORD_BYTES * words)
        fail("too few words were taken");
    if (judge(&state, on, c->image, c->length))
        fail("an update left an image that is not sound");
    for (i = 0; i < words; i++)
        if (live[i] != fresh_word(i))
            fail("a word is not the one worked out from the image");
    if (mutree_is_live(live, page) != (state.levels[page] != 0))
        fail("mutree_is_live says another thing than the image");
    stay_from(lent, WORD_BYTES * words, "a word past the image's changed");
    met.words += words;
    met.past += lent->length > WORD_BYTES * words;
}

/* The call with so many words; and on copies with the record that opening gives, which must leave the same (request 8). */
static uint32_t call_with(const struct call *c, size_t words)
{
    struct guarded lent = marked(WORD_BYTES * words);
    struct twin twin = update_opened(c->u, c->number, c->image, c->length, c->allowance, c->result, c->room, words);
    uint32_t answer = make(c, &lent);
    is_alike(&twin, answer, c->image, c->result, &lent);
    if (answer == MUTREE_LENGTH || answer == MUTREE_DAMAGED)
        stay_from(&lent, 0, "LENGTH or DAMAGED changed a word");
    else
        are_those_of_the_image(c, &lent);
    met.answers[answer]++;
    guarded_free(&lent);
    return answer;
}

uint32_t update_with_words(struct update u, uint32_t number, uint8_t *image, size_t length, uint32_t allowance, uint8_t *result, size_t room)
{
    struct call c = { u, number, image, length, allowance, result, room };
    return call_with(&c, (number < CHIPS ? words_of(&chips[number], length) : 0) + pick(4));
}

/* ---- too few words */
/* LENGTH, the result says so, and neither the image nor a word changes. */
static void is_too_few(struct update u, const uint8_t *image, size_t length, size_t words)
{
    uint8_t result[RESULT + 4], wanted[RESULT + 4] = { MUTREE_LENGTH };
    struct call c = { u, chip->number, copy_of(image, length), length, UINT32_MAX, result, sizeof result };
    memset(result, 9, sizeof result);
    memset(wanted + RESULT, 9, 4);
    if (call_with(&c, words) != MUTREE_LENGTH || memcmp(result, wanted, sizeof result) || memcmp(c.image, image, length))
        fail("too few words are LENGTH, the result says so, and nothing is stored");
    met.too_few++;
    free(c.image);
}

/* The least words that are enough, and no others. */
static void least_words(const uint8_t *image, size_t length, struct update u, uint32_t answer)
{
    uint8_t result[RESULT];
    struct call c = { u, chip->number, copy_of(image, length), length, UINT32_MAX, result, sizeof result };
    size_t least = words_of(chip, length), words;
    for (words = least > 8 ? least - 2 : 0; words < least; words++)
        is_too_few(u, image, length, words);
    is_too_few(u, image, length, 0);
    if (call_with(&c, least) != answer)
        fail("as many words as the image needs are not enough");
    free(c.image);
}

/* On sound images and, before DAMAGED, on one that is not. */
static void too_few_words(void)
{
    static const unsigned blocks[] = { 3, 4, 40 };
    struct update insert = { 1, 7, 7 }, delete = { 0, 7, 0 };
    size_t i;
    for (i = 0; i < sizeof blocks / sizeof *blocks; i++) {
        size_t length = length_of(chip, blocks[i]);
        uint8_t *image = room_for(length), result[RESULT];
        mutree_format(chip->number, image, length, result, sizeof result);
        least_words(image, length, insert, MUTREE_DONE);
        least_words(image, length, delete, MUTREE_ABSENT);
        image[0] ^= 1;
        least_words(image, length, insert, MUTREE_DAMAGED);
        least_words(image, length, delete, MUTREE_DAMAGED);
        free(image);
    }
}

/* The longest image: 1,024 words, on the large chip 2,048. */
static void most_words(void)
{
    struct update u = { 1, 7, 7 };
    size_t length = length_of(chip, 1024);
    uint8_t *image = room_for(length), result[RESULT];
    struct call c = { u, chip->number, image, length, UINT32_MAX, result, sizeof result };
    mutree_format(chip->number, image, length, result, sizeof result);
    is_too_few(u, image, length, words_of(chip, length) - 1);
    if (call_with(&c, words_of(chip, length)) != MUTREE_DONE)
        fail("1,024 words (2,048) are not enough for 1,024 blocks");
    free(image);
}

/* ---- a result buffer that is too short: nothing changes at all */
static uint32_t any_update(int adds, uint32_t number, const uint8_t *image, size_t length, uint8_t *result, size_t room)
{
    struct update u = { adds, 7, 7 };
    uint8_t *copy = copy_of(image, length);
    uint32_t answer = update_with_words(u, number, copy, length, UINT32_MAX, result, room);
    if (memcmp(copy, image, length))
        fail("an update with a short result buffer wrote to the image");
    free(copy);
    return answer;
}

static uint32_t any_insert(uint32_t number, const uint8_t *image, size_t length, uint8_t *result, size_t room)
{
    return any_update(1, number, image, length, result, room);
}

static uint32_t any_delete(uint32_t number, const uint8_t *image, size_t length, uint8_t *result, size_t room)
{
    return any_update(0, number, image, length, result, room);
}

static void short_results(void)
{
    static const char *const what = "an update with a short result buffer is LENGTH and writes nothing";
    size_t length = length_of(chip, 3);
    uint8_t *image = room_for(length), result[RESULT];
    mutree_format(chip->number, image, length, result, sizeof result);
    short_results_stay(any_insert, image, length, what);
    short_results_stay(any_delete, image, length, what);
    free(image);
}

/* ---- a page dies because only its inner node moves */
static uint32_t first_key_below(const uint8_t *image, size_t page)
{
    unsigned level = 2;
    uint32_t least;
    size_t i = 0;
    while (!(split.levels[page] >> (level - 1) & 1))
        level++;
    least = number_at(image + page * chip->page + 8 * first_slot(chip, level));
    while (split.map[i].key < least)
        i++;
    return split.map[i].key;
}

/* A present key below the node gets another address: its path moves, and the page with it. */
static void page_without_leaf_dies(const uint8_t *image, size_t length, size_t page)
{
    struct update u = { 1, first_key_below(image, page), 77 };
    uint8_t *copy = copy_of(image, length), result[RESULT];
    struct call c = { u, chip->number, copy, length, UINT32_MAX, result, sizeof result };
    struct guarded lent = marked(WORD_BYTES * words_of(chip, length));
    if (make(&c, &lent) != MUTREE_DONE || mutree_read_result(result).erased != 0 || mutree_is_live(numbers_of(&lent), (uint32_t)page))
        fail("a page without a live leaf lives on when its inner node has moved");
    are_those_of_the_image(&c, &lent);
    met.without_leaf++;
    guarded_free(&lent);
    free(copy);
}

/* Every page that has an inner node and no leaf. */
static void pages_without_leaf(const uint8_t *image, size_t length)
{
    size_t page;
    if (judge(&split, chip, image, length))
        fail("a split left an image that is not sound");
    for (page = 0; page < split.pages; page++)
        if (split.levels[page] != 0 && !(split.levels[page] & 1))
            page_without_leaf_dies(image, length, page);
}

/* A tree whose every node on one path is full: a new key halves them all, and a half of an inner node stands on a page without a leaf. */
static void splits_leave_pages_without_leaf(unsigned height)
{
    struct update u = { 1, 3, 5 };
    uint8_t result[RESULT];
    size_t length;
    uint8_t *image = full_tree(height, FIRST_PATH, &length);
    image[chip->main + 3] = 0; /* the largest number: far below the WORN limit */
    if (update_with_words(u, chip->number, image, length, UINT32_MAX, result, sizeof result) != MUTREE_DONE)
        fail("a new key on a full path was refused");
    pages_without_leaf(image, length);
    free(image);
}

/* Above the limit of the sequence numbers. */
static void worn(void)
{
    struct update insert = { 1, 3, 5 }, delete = { 0, 2, 0 };
    uint8_t result[RESULT];
    size_t length;
    uint8_t *image = full_tree(3, FIRST_PATH, &length);
    update_with_words(insert, chip->number, image, length, UINT32_MAX, result, sizeof result);
    if (update_with_words(insert, chip->number, image, length, UINT32_MAX, result, sizeof result) != MUTREE_WORN
        || update_with_words(delete, chip->number, image, length, UINT32_MAX, result, sizeof result) != MUTREE_WORN)
        fail("updates above the limit of the sequence numbers are WORN");
    free(image);
}

void words_are_the_live_pages(void)
{
    unsigned height;
    too_few_words();
    most_words();
    short_results();
    for (height = 3; height < chip->top; height++)
        splits_leave_pages_without_leaf(height);
    worn();
}

void tell_words(void)
{
    static const char *const names[ANSWERS] = { "DONE", "LENGTH", "DAMAGED", "WORN", "ABSENT", "HEIGHT", "ROOM", "STOPPED" };
    int answer;
    printf("independent: %s chip: %lu words of live pages are those of the image, %lu times with words past it, which stayed; %lu times too few; "
           "%lu pages without a leaf died; after", chip->name, met.words, met.past, met.too_few, met.without_leaf);
    for (answer = 0; answer < ANSWERS; answer++) {
        printf(" %s %lu", names[answer], met.answers[answer]);
        if (met.answers[answer] == 0)
            fail("an answer was never met with words");
    }
    puts("");
    if (met.past == 0 || met.too_few == 0 || met.without_leaf == 0)
        fail("words past the image's, too few words, or a page without a leaf that dies were not met");
    memset(&met, 0, sizeof met);
}
