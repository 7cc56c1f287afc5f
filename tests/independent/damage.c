/* damage.c: request 5. Images with one rule broken, or two, whose rule and page are known beforehand; and images with bytes
 * changed by chance. Of each the judge and every call of the library say the same rule and page. Edits of main bytes are given
 * fitting codes, or R1 (request 4) would be broken before the rule that is meant. */
#define _DEFAULT_SOURCE
#include "built.h"
#include "carry.h"
#include "code.h"
#include "demands.h"
#include "listing.h"
#include "opened.h"

#include <stdio.h>
#include <stdlib.h>
#include <string.h>

enum { RULES = 8, NODE = 2, LEAF = 1 };

static struct tree state;
static unsigned long met[RULES + 1];

/* ---- every call */
enum { LOOKUP, LIST, EXPORT, OPEN, INSERT, STOPPED_INSERT, DELETE, STOPPED_DELETE, CALLS };

static uint32_t call(int which, uint8_t *now, size_t length, uint32_t key, uint8_t *result)
{
    uint32_t allowance = which == STOPPED_INSERT || which == STOPPED_DELETE ? 0 : UINT32_MAX;
    struct update u = { which == INSERT || which == STOPPED_INSERT, key, 5 };
    uint8_t record[RECORD];
    switch (which) {
    case LOOKUP: return mutree_lookup(chip->number, now, length, key, result, RESULT + 4);
    case LIST: return list_of_all(chip->number, now, length, result, RESULT + 4);
    case EXPORT: return export_any(chip->number, now, length, result, RESULT + 4);
    case OPEN: return mutree_open(chip->number, now, length, record, sizeof record, result, RESULT + 4);
    default: return update_with_words(u, chip->number, now, length, allowance, result, RESULT + 4);
    }
}

static void put_number(uint8_t *at, uint32_t n)
{
    int i;
    for (i = 0; i < 4; i++)
        at[i] = (uint8_t)(n >> (8 * i));
}

/* DAMAGED, no counts, the rule and the page; four bytes after them as they were. */
static void refused(int rule, uint32_t answer, const uint8_t *result)
{
    uint8_t wanted[RESULT + 4];
    memset(wanted, 0, sizeof wanted);
    put_number(wanted, MUTREE_DAMAGED);
    put_number(wanted + 16, (uint32_t)rule);
    put_number(wanted + 20, state.broken);
    memset(wanted + RESULT, 9, 4);
    if (answer != MUTREE_DAMAGED || memcmp(result, wanted, sizeof wanted)) {
        printf("independent: the judge says R%d, page %u; answer %u, rule %u, page %u\n", rule, (unsigned)state.broken,
               (unsigned)answer, (unsigned)number_at(result + 16), (unsigned)number_at(result + 20));
        fail("a damaged image is DAMAGED, with the judge's rule and page");
    }
}

int is_judged_alike(const uint8_t *image, size_t length, uint32_t key)
{
    int rule = judge(&state, chip, image, length), which;
    uint8_t *now = copy_of(image, length), result[RESULT + 4];
    for (which = 0; which < (rule ? CALLS : INSERT); which++) {
        uint32_t answer;
        memset(result, 9, sizeof result);
        answer = call(which, now, length, key, result);
        if (rule)
            refused(rule, answer, result);
        else if (answer == MUTREE_DAMAGED || number_at(result + 16) || number_at(result + 20))
            fail("a sound image is refused, or has a rule or page");
        if (memcmp(now, image, length))
            fail("a refused call, a lookup, a list, an export or an opening wrote");
    }
    free(now);
    met[rule]++;
    return rule;
}

/* ---- an image of three blocks, height 3: the leaves on all pages of the first but its last, the second begun */
static uint8_t *image;
static size_t length;

static uint8_t *page_at(uint32_t page)
{
    return image + (size_t)page * chip->page;
}

static uint8_t *spare_at(uint32_t page)
{
    return page_at(page) + chip->main;
}

static uint8_t *slot_at(uint32_t page, unsigned level, unsigned entry)
{
    return page_at(page) + 8 * (first_slot(chip, level) + entry);
}

/* The page of an inner node's entry. */
static uint32_t below(uint32_t page, unsigned level, unsigned entry)
{
    return number_at(slot_at(page, level, entry) + 4);
}

static void erase(uint32_t page)
{
    memset(page_at(page), 255, chip->page);
}

static void make_image(void)
{
    uint32_t row = chip->block_pages;
    struct built plan = { chip, 3, 3, 8, 0, 0, 0 };
    plan.leaves = row - 1;
    plan.programmed = row + 10;
    length = length_of(chip, 3);
    image = build(plan);
}

/* ---- one edit a clause; each returns the page that must be named */
static uint32_t heights(void)
{
    spare_at(5)[4] = (uint8_t)(chip->top + 1);
    spare_at(3)[4] = 255;
    return 3;
}

static uint32_t number_0(void)
{
    put_number(spare_at(4), 0);
    return 4;
}

static uint32_t bit_of_a_half(void)
{
    flip(page_at(6) + HALF * (chip->halves - 1), HALF_BITS - 1);
    flip(page_at(9), 0);
    return 6;
}

static uint32_t bit_of_a_code(void)
{
    flip(page_at(8) + code_place(chip, chip->halves - 1), CODE_BITS - 1);
    flip(page_at(7) + code_place(chip, 0), 0);
    return 7;
}

/* Of an image made before request 4. */
static uint32_t no_code(void)
{
    memset(page_at(10) + code_place(chip, 0), 255, CODE_BYTES);
    return 10;
}

/* On the small chip it is a code's. */
static uint32_t last_spare_byte(void)
{
    uint32_t page = chip->block_pages + 1;
    page_at(page)[chip->page - 1] ^= 1;
    return page;
}

static uint32_t erased_before_programmed(void)
{
    erase(chip->block_pages + 2);
    erase(5);
    erase(4);
    return 4;
}

static uint32_t two_mixed_blocks(void)
{
    erase(chip->block_pages - 1);
    erase(chip->block_pages - 2);
    return chip->block_pages;
}

static uint32_t three_mixed_blocks(void)
{
    memcpy(page_at(2 * chip->block_pages), page_at(chip->block_pages), chip->page);
    return two_mixed_blocks();
}

/* The pairs 2 and 7, 5 and 6. */
static uint32_t two_pairs(void)
{
    memcpy(spare_at(7), spare_at(2), 4);
    memcpy(spare_at(6), spare_at(5), 4);
    return 6;
}

static uint32_t three_of_one_number(void)
{
    memcpy(spare_at(9), spare_at(3), 4);
    memcpy(spare_at(8), spare_at(3), 4);
    return 8;
}

static uint32_t no_root(void)
{
    spare_at(0)[4] = 0;
    return 0;
}

static uint32_t count_of_the_root(void)
{
    spare_at(0)[4 + 3] = 1;
    return 0;
}

static uint32_t count_of_a_node(void)
{
    uint32_t node = below(0, 3, 2);
    spare_at(node)[4 + NODE] = 0;
    return node;
}

static uint32_t count_of_a_leaf(void)
{
    uint32_t leaf = below(below(0, 3, 2), NODE, 1);
    spare_at(leaf)[4 + LEAF] = (uint8_t)(most_below(chip, LEAF) + 1);
    return leaf;
}

static uint32_t key_below_its_bound(void)
{
    uint32_t leaf = below(below(0, 3, 2), NODE, 1);
    put_number(slot_at(leaf, LEAF, 0), 0);
    return leaf;
}

static uint32_t key_not_rising(void)
{
    uint32_t node = below(0, 3, 2);
    memcpy(slot_at(node, NODE, 2), slot_at(node, NODE, 1), 4);
    return node;
}

static uint32_t page_that_is_not_there(void)
{
    uint32_t node = below(0, 3, 2);
    put_number(slot_at(node, NODE, 1) + 4, 3 * chip->block_pages);
    return node;
}

static uint32_t page_that_is_erased(void)
{
    uint32_t node = below(0, 3, 2);
    put_number(slot_at(node, NODE, 3) + 4, 3 * chip->block_pages - 1);
    return node;
}

static uint32_t node_before_its_leaf(void)
{
    key_below_its_bound();
    return key_not_rising();
}

static uint32_t left_leaf_before_right_node(void)
{
    uint32_t leaf = below(below(0, 3, 1), NODE, 2);
    spare_at(below(0, 3, 3))[4 + NODE] = 0;
    put_number(slot_at(leaf, LEAF, 0), UINT32_MAX);
    return leaf;
}

/* Two nodes on their first leaves' pages; the leaves change places, so neither page names itself. */
static uint32_t leaves_exchanged(void)
{
    uint32_t a = below(0, 3, 4), b = below(0, 3, 5), bytes = 8 * most_below(chip, LEAF);
    uint8_t *kept = copy_of(page_at(a), bytes), count = spare_at(a)[4 + LEAF];
    memcpy(page_at(a), page_at(b), bytes);
    memcpy(page_at(b), kept, bytes);
    spare_at(a)[4 + LEAF] = spare_at(b)[4 + LEAF];
    spare_at(b)[4 + LEAF] = count;
    put_number(slot_at(a, NODE, 0) + 4, b);
    put_number(slot_at(b, NODE, 0) + 4, a);
    free(kept);
    return a < b ? a : b;
}

struct edit {
    const char *what;
    int rule;
    uint32_t (*make)(void);
};

static const struct edit edits[] = {
    { "two height bytes too great", 1, heights },
    { "number 0", 1, number_0 },
    { "bits of two halves", 1, bit_of_a_half },
    { "bits of two codes", 1, bit_of_a_code },
    { "a page without its first code", 1, no_code },
    { "the last spare byte", 1, last_spare_byte },
    { "erased pages before programmed ones", 2, erased_before_programmed },
    { "two mixed blocks", 2, two_mixed_blocks },
    { "three mixed blocks", 2, three_mixed_blocks },
    { "two pairs of one number each", 3, two_pairs },
    { "three pages of one number", 3, three_of_one_number },
    { "no root", 4, no_root },
    { "the root's count", 5, count_of_the_root },
    { "a node's count", 5, count_of_a_node },
    { "a leaf's count", 5, count_of_a_leaf },
    { "a key below its bound", 5, key_below_its_bound },
    { "a key that does not rise", 5, key_not_rising },
    { "a page that is not there", 5, page_that_is_not_there },
    { "a page that is erased", 5, page_that_is_erased },
    { "a node and its leaf", 5, node_before_its_leaf },
    { "a leaf at the left and a node at the right", 5, left_leaf_before_right_node },
    { "leaves exchanged", 6, leaves_exchanged },
};

enum { EDITS = sizeof edits / sizeof *edits };

/* The edit, and its page. All codes fit after it, but where it breaks R1. */
static uint32_t made(const struct edit *edit)
{
    uint32_t page = edit->make();
    if (edit->rule > 1)
        put_all_codes(chip, image, length);
    return page;
}

/* The first edit's rule and page; the second one, of a later rule, is made before it and must not be told. */
static void tells(const struct edit *first, const struct edit *second)
{
    uint32_t page;
    int rule;
    make_image();
    if (second != NULL)
        made(second);
    page = made(first);
    rule = is_judged_alike(image, length, 2);
    if (rule != first->rule || state.broken != page) {
        printf("independent: %s%s%s: R%d, page %u; the judge says R%d, page %u\n", first->what, second ? " and " : "",
               second ? second->what : "", first->rule, (unsigned)page, rule, (unsigned)state.broken);
        fail("the judge does not name the rule and page that were broken");
    }
    free(image);
}

static void each_clause(void)
{
    size_t i, j;
    make_image();
    if (is_judged_alike(image, length, 2))
        fail("the image to be damaged is not sound");
    free(image);
    for (i = 0; i < EDITS; i++) {
        tells(&edits[i], NULL);
        for (j = i + 1; j < EDITS; j++)
            if (edits[j].rule > edits[i].rule)
                tells(&edits[i], &edits[j]);
    }
}

/* ---- by chance: bytes of an index that has seen some updates, every second time of its root's page */
static uint32_t root;

static void some_updates(void)
{
    struct update u = { 1, 0, 0 };
    uint8_t result[RESULT];
    uint32_t steps = some(4) * chip->slots;
    length = length_of(chip, 3);
    image = room_for(length);
    mutree_format(chip->number, image, length, result, sizeof result);
    for (; steps > 0; steps--) {
        u.key = some(4294967295u);
        run(u, image, length, UINT32_MAX);
    }
    if (judge(&state, chip, image, length))
        fail("updates left an image that is not sound");
    root = state.root;
}

static void change_something(void)
{
    uint32_t pages = 3 * chip->block_pages, page = some(2) ? root : some(pages), level = 1 + some(3);
    switch (some(7)) {
    case 0: spare_at(page)[some(5 + chip->top)] = (uint8_t)some(256); break;
    case 1: spare_at(page)[4 + level] = (uint8_t)some(some(2) ? 4 : 256); break;
    case 2: put_number(slot_at(page, level, some(4)) + 4, some(pages + 2)); break;
    case 3: put_number(slot_at(page, level, some(40) % (chip->slots - first_slot(chip, level))), some(4294967295u)); break;
    case 4: erase(page); break;
    case 5: memcpy(page_at(page), page_at(some(pages)), chip->page); break;
    default: image[some((uint32_t)length)] ^= (uint8_t)(1 << some(8)); break;
    }
}

static void by_chance(unsigned rounds)
{
    unsigned changes, i;
    for (; rounds > 0; rounds--) {
        some_updates();
        for (i = 0; i < 20; i++) {
            uint8_t *whole = image;
            image = copy_of(whole, length);
            for (changes = 1 + some(3); changes > 0; changes--)
                change_something();
            if (some(4))
                put_all_codes(chip, image, length);
            is_judged_alike(image, length, some(1000));
            free(image);
            image = whole;
        }
        free(image);
    }
}

void damage_is_named(void)
{
    int rule;
    each_clause();
    by_chance(20);
    printf("independent: %s chip: judged as the library judges: %lu sound images, broken", chip->name, met[0]);
    for (rule = 1; rule <= RULES; rule++) {
        printf(" R%d %lu", rule, met[rule]);
        if (met[rule] == 0)
            fail("a rule was never broken");
        met[rule] = 0;
    }
    met[0] = 0;
    puts(" times; rule and page are the same");
}
