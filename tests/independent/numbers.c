/* numbers.c: the geometry's number. 0 and 1 are the two chips, another gives LENGTH, and its result is written all the same. What
 * c/mutree.h says of a chip is what the documents say. */
#define _DEFAULT_SOURCE
#include "carry.h"
#include "demands.h"
#include "listing.h"
#include "opened.h"

#include <stdlib.h>
#include <string.h>

static void header_is_the_documents(void)
{
    const struct mutree_geometry *g = mutree_geometry_of(chip->number);
    if (g == NULL || g->number != chip->number || g->pages != chip->block_pages || g->main_bytes != chip->main
        || g->page_bytes != chip->page || g->main_bytes + g->spare_bytes != chip->page || g->block_bytes != length_of(chip, 1)
        || g->block_words != chip->block_pages / 32
        || g->slots != chip->slots || g->top != chip->top || g->worn != chip->worn || g->halves != chip->halves
        || g->first_code != chip->code)
        fail("c/mutree.h gives the chip another geometry");
    if (g->most_own_pages != chip->own_pages || g->most_pages != chip->all_pages || g->most_erases != chip->erases
        || g->most_stores != chip->all_pages + chip->erases)
        fail("c/mutree.h gives the chip other bounds");
}

/* Request 7: one word a block, by request 9 two a large one; none where the length is no index's. */
static void words_are_the_documents(void)
{
    static const size_t blocks[] = { 3, 4, 64, 1023, 1024 }, others[] = { 0, 1, 2, 1025, 2048 };
    size_t a_block = chip->number == 0 ? 1 : 2, i;
    for (i = 0; i < sizeof blocks / sizeof *blocks; i++) {
        size_t length = length_of(chip, blocks[i]);
        if (mutree_live_words(chip->number, length) != blocks[i] * a_block || mutree_live_words(chip->number, length + 1) != 0
            || mutree_live_words(chip->number, length - 1) != 0 || mutree_live_words(CHIPS, length) != 0)
            fail("c/mutree.h gives an image another number of words");
        if (mutree_live_words(chip->number, length_of(chip, others[i])) != 0)
            fail("c/mutree.h gives words to a length that is no index's");
    }
    if (MUTREE_MOST_LIVE_WORDS != 2048 || MUTREE_SMALL_BLOCK_WORDS != 1 || MUTREE_LARGE_BLOCK_WORDS != 2)
        fail("c/mutree.h has other numbers of words");
}

/* R1 to R8 have words, no other number has; R4, R7 and R8 have no page (requests 5 and 11). */
static void rules_are_the_documents(void)
{
    uint32_t rule;
    for (rule = 0; rule < 20; rule++) {
        if ((mutree_rule_words(rule) != NULL) != (rule >= 1 && rule <= 8))
            fail("c/mutree.h has words for other rules than R1 to R8");
        if (mutree_rule_has_page(rule) != (rule == 1 || rule == 2 || rule == 3 || rule == 5 || rule == 6))
            fail("c/mutree.h gives another rule a page");
    }
}

enum { CALLS = 8 + OPENED_CALLS };

/* One call with a number that is no chip's: 0 format, 1 lookup, 2 insert, 3 delete, 4 patrol, 5 export, 6 import, 7 list, then those with a
 * record. */
static uint32_t call(int which, uint32_t number, uint8_t *image, size_t length, uint8_t *result, size_t room)
{
    struct update insert = { 1, 1, 1 }, delete = { 0, 1, 0 };
    switch (which) {
    case 0: return mutree_format(number, image, length, result, room);
    case 1: return mutree_lookup(number, image, length, 1, result, room);
    case 2: return update_with_words(insert, number, image, length, UINT32_MAX, result, room);
    case 3: return update_with_words(delete, number, image, length, UINT32_MAX, result, room);
    case 4: return mutree_patrol(number, image, length, 0, 0, result, room);
    case 5: return export_any(number, image, length, result, room);
    case 6: return import_any(number, image, length, result, room);
    case 7: return list_of_all(number, image, length, result, room);
    default: return any_opened(which - 8, number, image, length, result, room);
    }
}

void short_results_stay(any_call *call, const uint8_t *image, size_t length, const char *what)
{
    static const size_t rooms[] = { 0, 1, 16, RESULT - 1 };
    uint8_t result[RESULT], kept[RESULT];
    size_t i;
    memset(kept, 9, sizeof kept);
    memset(result, 9, sizeof result);
    for (i = 0; i < sizeof rooms / sizeof *rooms; i++)
        if (call(chip->number, image, length, result, rooms[i]) != MUTREE_LENGTH || memcmp(result, kept, sizeof result))
            fail(what);
}

static void is_no_chip(uint32_t number, const uint8_t *image, size_t length)
{
    uint8_t *copy = copy_of(image, length), result[RESULT + 4], untouched[RESULT + 4], written[RESULT + 4] = { MUTREE_LENGTH };
    int which;
    memset(untouched, 9, sizeof untouched);
    memset(written + RESULT, 9, 4);
    for (which = 0; which < CALLS; which++) {
        memset(result, 9, sizeof result);
        if (call(which, number, copy, length, result, RESULT - 1) != MUTREE_LENGTH || memcmp(result, untouched, sizeof result))
            fail("a number that is no chip's, with a short buffer, is LENGTH and writes nothing");
        if (call(which, number, copy, length, result, RESULT + 4) != MUTREE_LENGTH || memcmp(result, written, sizeof result))
            fail("a number that is no chip's is LENGTH, and the result says so");
        if (memcmp(copy, image, length))
            fail("a call with a number that is no chip's wrote to the image");
    }
    if (mutree_geometry_of(number) != NULL)
        fail("c/mutree.h has a chip that the documents have not");
    free(copy);
}

void numbers_are_the_documents(void)
{
    static const uint32_t others[] = { 2, 3, 255, 256, 257, 65536, 2147483648u, 4294967295u };
    size_t length = length_of(&chips[CHIPS - 1], 3), i; /* which fits both chips */
    uint8_t *image = room_for(length), result[RESULT];
    header_is_the_documents();
    words_are_the_documents();
    rules_are_the_documents();
    memset(image, 255, length);
    if (mutree_format(chip->number, image, length, result, sizeof result) != MUTREE_DONE)
        fail("format was refused");
    for (i = 0; i < sizeof others / sizeof *others; i++)
        is_no_chip(others[i], image, length);
    if (mutree_lookup(1 - chip->number, image, length, 1, result, sizeof result) != MUTREE_DAMAGED)
        fail("an index of one chip is none of the other");
    free(image);
}
