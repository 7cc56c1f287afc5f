/* demands.c: holds the library's own outputs against the documents' demands, on both chips, with a plain sorted array for the map
 * and the judge of judge.c. After every allowance the image must be sound and hold the old map, or the new one after the
 * last store; only erased pages are programmed and only blocks without live pages erased; the counts are the stores made.
 * Where a page is programmed on a wholly erased block, that block is the one that request 2 names. An insert is ROOM exactly
 * where T - L < 63 + k (127 + k), and a delete never (request 11). After every call the words of live pages are those of the image
 * (request 7). Every call is made with the record of an opening too, and does the same (request 8).
 *
 * usage: demands [ROUNDS] [SEED] [small|large|both] [quick]
 *        quick: of an update of over 60 stores only the last three allowances are tried, and one of 97 differences of a code
 */
#define _DEFAULT_SOURCE
#include "built.h"
#include "carry.h"
#include "demands.h"
#include "listing.h"
#include "opened.h"

#include <stdio.h>
#include <stdlib.h>
#include <string.h>

const struct chip *chip;

static struct tree before, state;
static struct entry oracle[200000];
static size_t entries;

enum { LONG = 60, LAST_ONES = 3 };
static int quick;

/* What was met on one chip. */
static struct {
    unsigned long updates, prefixes;
    uint32_t own, programmed, erased;
    unsigned height;
    unsigned long choices, from_several, past_the_end;
    unsigned long deletes, rooms;
    size_t least_spare;
} met;

void fail(const char *what)
{
    printf("independent: %s chip: %s (update %lu)\n", chip->name, what, met.updates);
    exit(1);
}

uint8_t *room_for(size_t length)
{
    uint8_t *bytes = malloc(length);
    if (bytes == NULL)
        exit(71);
    return bytes;
}

uint8_t *copy_of(const uint8_t *image, size_t length)
{
    return memcpy(room_for(length), image, length);
}

unsigned greatest_height(void)
{
    return met.height;
}

static uint64_t seed;

uint32_t some(uint32_t below)
{
    seed = seed * 6364136223846793005u + 1442695040888963407u;
    return (uint32_t)((seed >> 33) % below);
}

uint32_t pick(size_t below)
{
    static uint32_t turn;
    turn = turn * 1664525u + 1013904223u;
    return (turn >> 8) % (uint32_t)below;
}

/* ---- the map */
static size_t place_of(uint32_t key)
{
    size_t low = 0, high = entries;
    while (low < high) {
        size_t middle = (low + high) / 2;
        if (oracle[middle].key < key)
            low = middle + 1;
        else
            high = middle;
    }
    return low;
}

static int has(uint32_t key)
{
    size_t i = place_of(key);
    return i < entries && oracle[i].key == key;
}

static void put(uint32_t key, uint32_t address)
{
    size_t i = place_of(key);
    if (!has(key)) {
        memmove(oracle + i + 1, oracle + i, (entries - i) * sizeof *oracle);
        entries++;
    }
    oracle[i].key = key;
    oracle[i].address = address;
}

static void drop(uint32_t key)
{
    size_t i = place_of(key);
    memmove(oracle + i, oracle + i + 1, (entries - i - 1) * sizeof *oracle);
    entries--;
}

static int holds_oracle(const struct tree *t)
{
    return t->entries == entries && (entries == 0 || memcmp(t->map, oracle, entries * sizeof *oracle) == 0);
}

void take_map(const struct tree *t)
{
    entries = t->entries;
    if (entries)
        memcpy(oracle, t->map, entries * sizeof *oracle);
}

/* ---- one update */
struct mutree_result run(struct update u, uint8_t *image, size_t length, uint32_t allowance)
{
    uint8_t result[RESULT + 8];
    uint32_t answer;
    memset(result, 77, sizeof result);
    answer = update_with_words(u, chip->number, image, length, allowance, result, sizeof result);
    if (answer != mutree_read_result(result).answer || mutree_read_result(result).address != 0)
        fail("the result buffer differs from the answer");
    if (mutree_read_result(result).rule || mutree_read_result(result).page)
        fail("rule and page of a sound image are not 0");
    if (result[RESULT] != 77 || result[RESULT + 7] != 77)
        fail("bytes after the 24 changed");
    met.deletes += !u.adds;
    if (!u.adds && answer == MUTREE_ROOM)
        fail("a delete was refused for room");
    return mutree_read_result(result);
}

static int is_erased(const uint8_t *page)
{
    unsigned i;
    for (i = 0; i < chip->page; i++)
        if (page[i] != 255)
            return 0;
    return 1;
}

static int differs(const uint8_t *old, const uint8_t *new, size_t page)
{
    return memcmp(old + page * chip->page, new + page * chip->page, chip->page) != 0;
}

/* ---- request 2: "the choice starts after the block that holds the page with the largest sequence number and goes round past
 * the end to the start; the first wholly erased block met is taken" */
static int wholly_erased(const struct tree *t, size_t block)
{
    size_t p;
    for (p = block * chip->block_pages; p < (block + 1) * chip->block_pages; p++)
        if (!t->erased[p])
            return 0;
    return 1;
}

/* Over all programmed pages, live or dead. */
static size_t block_of_largest(const struct tree *t, const uint8_t *image)
{
    size_t p, found = 0;
    uint32_t largest = 0;
    for (p = 0; p < t->pages; p++) {
        uint32_t number = number_at(image + p * chip->page + chip->main);
        if (!t->erased[p] && number > largest) {
            largest = number;
            found = p;
        }
    }
    return found / chip->block_pages;
}

/* The page that a store programs on this image. That a partly programmed block comes first is R2 of the image after it. */
static void goes_round(const struct tree *t, const uint8_t *image, size_t page)
{
    size_t blocks = t->pages / chip->block_pages, start = block_of_largest(t, image), taken = start, several = 0, b;
    if (!wholly_erased(t, page / chip->block_pages))
        return;
    do
        taken = (taken + 1) % blocks;
    while (!wholly_erased(t, taken));
    if (taken != page / chip->block_pages)
        fail("the block taken is not the first wholly erased one after that of the largest number, going round");
    for (b = 0; b < blocks; b++)
        several += (size_t)wholly_erased(t, b);
    met.choices++;
    met.from_several += several > 1;
    met.past_the_end += taken < start;
}

/* Exactly one store leads from old to new. The tree is the old image's. Returns 1 for a page programmed, 2 for a block erased. */
static int one_store(const struct tree *old_tree, const uint8_t *old, const uint8_t *new)
{
    size_t p, from, changed = 0, which = 0;
    for (p = 0; p < old_tree->pages; p++)
        if (differs(old, new, p)) {
            changed++;
            which = p;
        }
    if (changed == 0)
        fail("a store that changes nothing");
    if (changed == 1 && old_tree->erased[which]) {
        goes_round(old_tree, old, which);
        return 1;
    }
    from = which - which % chip->block_pages;
    for (p = from; p < from + chip->block_pages; p++) {
        changed -= (size_t)differs(old, new, p);
        if (!is_erased(new + p * chip->page))
            fail("a page was programmed that was not erased");
        if (old_tree->levels[p])
            fail("a block with a live page was erased");
    }
    if (changed)
        fail("one store changed more than a page or a block");
    return 2;
}

static void note(uint32_t n, uint32_t most, uint32_t *seen, const char *what)
{
    if (n > most)
        fail(what);
    if (n > *seen)
        *seen = n;
}

/* ROOM exactly where T - L < 63 + k (127 + k), and with R8 not where k is 1. */
static void room_is(uint32_t answer, size_t spare, unsigned k)
{
    size_t least = chip->room + k;
    if (answer == MUTREE_ROOM ? spare >= least : answer == MUTREE_DONE && spare < least)
        fail("an insert is ROOM exactly where T - L < 63 + k, on the large chip 127 + k");
    if (answer == MUTREE_ROOM && k < 2)
        fail("an insert that needs one page was refused for room");
    met.rooms += answer == MUTREE_ROOM;
}

/* An update under way: the image as called, the one after the last store looked at, and the stores so far. */
struct trial {
    struct update u;
    const uint8_t *image;
    uint8_t *last, *now;
    size_t length;
    uint32_t programmed, erased;
    size_t nodes, spare;
    unsigned height, k;
};

static struct trial begin(struct update u, const uint8_t *image, size_t length)
{
    struct trial t = { u, image, copy_of(image, length), room_for(length), length, 0, 0, 0, 0, 0, 0 };
    met.updates++;
    if (judge(&before, chip, image, length))
        fail("the image to start from is not sound");
    t.nodes = before.nodes;
    t.height = before.height;
    t.spare = before.pages - before.live;
    t.k = pages_needed(&before, image, u.key);
    return t;
}

/* The allowance to begin with: 0, or for a quick look at a long update one of the last. */
static uint32_t first_allowance(const struct trial *t)
{
    struct mutree_result r;
    if (!quick)
        return 0;
    memcpy(t->now, t->image, t->length);
    r = run(t->u, t->now, t->length, UINT32_MAX);
    return r.programmed + r.erased > LONG ? r.programmed + r.erased + 1 - LAST_ONES : 0;
}

/* The stores that led to the image: one more than to the last one that was looked at, or, at first, as many as were allowed. */
static void count_stores(struct trial *t, int is_first, uint32_t allowance, struct mutree_result r)
{
    if (!is_first) {
        int kind = one_store(&before, t->last, t->now);
        t->programmed += kind == 1;
        t->erased += kind == 2;
    } else if (allowance == 0 && memcmp(t->now, t->image, t->length)) {
        fail("an update without an allowance wrote");
    } else if (r.programmed + r.erased == allowance) {
        t->programmed = r.programmed;
        t->erased = r.erased;
    }
}

/* The image that so many stores left: `before` is judged from it. */
static void look_at_store(struct trial *t, int is_first, uint32_t allowance, struct mutree_result r)
{
    met.prefixes++;
    count_stores(t, is_first, allowance, r);
    if (r.programmed != t->programmed || r.erased != t->erased)
        fail("the counts are not the stores made");
    if (judge(&before, chip, t->now, t->length))
        fail("not sound after a store");
    if (before.pages - before.live < met.least_spare)
        met.least_spare = before.pages - before.live;
    if (r.answer == MUTREE_STOPPED && !holds_oracle(&before))
        fail("a stopped update changed the map");
}

/* A finished insert: 1 + splits + growth, by the nodes of the tree before and after. */
static void count_own_pages(const struct trial *t)
{
    uint32_t grown = before.height - t->height;
    uint32_t pages = 1 + (uint32_t)(before.nodes - t->nodes) - grown;
    if (pages != t->k || (t->erased == 0 && t->programmed != pages))
        fail("pages programmed are not 1 + splits + growth");
    note(pages, chip->own_pages, &met.own, "more than 5 (7) pages besides collection");
}

/* A finished update: `before` is the tree it left. */
static void look_at_end(const struct trial *t)
{
    if (t->u.adds)
        put(t->u.key, t->u.address);
    else
        drop(t->u.key);
    if (!holds_oracle(&before))
        fail("a finished update left another map");
    if (t->u.adds)
        count_own_pages(t);
    else if (t->erased == 0 && t->programmed != 1)
        fail("a delete programs one page");
    note(t->programmed, chip->all_pages, &met.programmed, "more than 191 (511) pages");
    note(t->erased, chip->erases, &met.erased, "more than 6 (8) erases");
    if (before.height > met.height)
        met.height = before.height;
}

uint32_t every_allowance(struct update u, uint8_t *image, size_t length)
{
    struct trial t = begin(u, image, length);
    struct mutree_result r;
    uint32_t first = first_allowance(&t), allowance = first;
    do {
        uint8_t *free_one = t.last;
        t.last = t.now;
        t.now = free_one;
        memcpy(t.now, image, length);
        r = run(u, t.now, length, allowance);
        if (r.answer == MUTREE_DONE || r.answer == MUTREE_STOPPED)
            look_at_store(&t, allowance == first, allowance, r);
        else if (memcmp(t.now, image, length) || r.programmed || r.erased)
            fail("a refused update wrote");
        allowance++;
    } while (r.answer == MUTREE_STOPPED);
    if (u.adds)
        room_is(r.answer, t.spare, t.k);
    if (r.answer == MUTREE_DONE) {
        look_at_end(&t);
        memcpy(image, t.now, length);
    }
    free(t.last);
    free(t.now);
    return r.answer;
}

uint32_t tried(struct update u, const uint8_t *image, size_t length)
{
    uint8_t *copy = copy_of(image, length);
    uint32_t answer;
    if (judge(&state, chip, copy, length))
        fail("the image to try is not sound");
    take_map(&state);
    answer = every_allowance(u, copy, length);
    free(copy);
    return answer;
}

static void look(const uint8_t *image, size_t length, uint32_t key)
{
    uint8_t result[RESULT];
    uint32_t answer = mutree_lookup(chip->number, image, length, key, result, sizeof result);
    if (mutree_read_result(result).rule || mutree_read_result(result).page)
        fail("rule and page of a sound image are not 0");
    lookup_is_alike(chip->number, image, length, key, answer, result);
    if (has(key) ? answer != 0 || mutree_read_result(result).address != oracle[place_of(key)].address : answer != 4)
        fail("lookup differs from the map");
}

/* ---- random days */
static uint32_t a_key(int way, uint32_t step)
{
    switch (way) {
    case 0: return step;                        /* rising */
    case 1: return 4294967295u - step;          /* falling */
    case 2: return some(400);                   /* dense */
    default: return some(65536) * 65521u;       /* all over */
    }
}

/* The battery is lost after a store or two, and the day goes on from there: the page with the largest number may be dead. */
static void stop(struct update u, uint8_t *image, size_t length)
{
    uint8_t *copy = copy_of(image, length);
    if (run(u, copy, length, 1 + some(2)).answer == MUTREE_STOPPED)
        memcpy(image, copy, length);
    free(copy);
}

static struct update some_update(int way, uint32_t step)
{
    struct update u;
    u.adds = entries == 0 || some(10) < (way == 2 ? 6u : 8u);
    u.key = u.adds || some(20) == 0 ? a_key(way, step) : oracle[some((uint32_t)entries)].key;
    u.address = some(4294967295u);
    return u;
}

static void one_step(struct update u, uint8_t *image, size_t length)
{
    int there = has(u.key);
    uint32_t answer;
    if (some(8) == 0)
        stop(u, image, length);
    answer = every_allowance(u, image, length);
    if (answer == MUTREE_DAMAGED || answer == MUTREE_LENGTH)
        fail("a sound image was refused");
    if (u.adds ? answer == MUTREE_ABSENT : answer != (there ? MUTREE_DONE : MUTREE_ABSENT))
        fail("an answer that the map does not allow");
    look(image, length, u.key);
    look(image, length, some(4294967295u));
    if (entries)
        look(image, length, oracle[some((uint32_t)entries)].key);
    some_lists(image, length, oracle, entries);
    some_exports(image, length, oracle, entries);
}

static void day(unsigned blocks, int way, unsigned steps)
{
    size_t length = length_of(chip, blocks);
    uint8_t *image = room_for(length), result[RESULT];
    unsigned step;
    memset(image, (int)some(256), length);
    if (mutree_format(chip->number, image, length, result, sizeof result) || mutree_read_result(result).erased != blocks
        || mutree_read_result(result).programmed != 1)
        fail("format");
    entries = 0;
    for (step = 1; step <= steps; step++)
        one_step(some_update(way, step), image, length);
    is_carried_across(image, length, oracle, entries);
    free(image);
}

/* ---- an image that reaches all three bounds: 37 blocks (71), in each but the last all pages live but one, which is dead; in the
 * last one dead page, the rest erased. The path of the smallest key is full below the root, so an insert there needs 5 pages
 * (7), and each of 6 victims (8) gives back one. */
static void reach_bounds(void)
{
    uint32_t row = chip->block_pages, blocks = row + chip->own_pages, live = (blocks - 1) * (row - 1);
    struct built plan = { chip, blocks, chip->top, 3, FIRST_PATH, live, (blocks - 1) * row + 1 };
    struct update u = { 1, 3, 99 };
    size_t length = length_of(chip, blocks);
    uint8_t *image = build(plan);
    if (judge(&state, chip, image, length) || state.live != live || state.free_pages != row - 1 || state.height != chip->top)
        fail("the image for the bounds is not as planned");
    if (tried(u, image, length) != MUTREE_DONE)
        fail("the update for the bounds was refused");
    if (met.own != chip->own_pages || met.programmed != chip->all_pages || met.erased != chip->erases)
        fail("a bound was not reached");
    free(image);
}

static void report(void)
{
    printf("independent: %s chip: %lu updates, %lu images after a store, all sound, old or new map; reached %u own pages, %u pages, "
           "%u erases, height %u\n", chip->name, met.updates, met.prefixes, (unsigned)met.own, (unsigned)met.programmed,
           (unsigned)met.erased, met.height);
    printf("independent: %s chip: %lu times a wholly erased block was taken, %lu times one of several, %lu times past the end\n",
           chip->name, met.choices, met.from_several, met.past_the_end);
    printf("independent: %s chip: least T - L %lu; %lu inserts were ROOM, each with k of 2 or more; %lu calls of delete, none was "
           "ROOM\n", chip->name, (unsigned long)met.least_spare, met.rooms, met.deletes);
}

static void test_chip(unsigned rounds)
{
    unsigned i;
    memset(&met, 0, sizeof met);
    met.least_spare = MOST_PAGES;
    words_are_the_live_pages();
    opened_calls_are_the_calls();
    outdated_records_are_safe(quick);
    reach_bounds();
    roots_grow();
    delete_is_never_short_of_room();
    damage_is_named();
    lists_are_the_maps_part();
    exports_are_the_maps_text();
    texts_are_imported(quick);
    halves_are_patrolled(quick ? 97 : 1);
    if (met.least_spare != chip->room + 1 || met.rooms == 0)
        fail("T - L of 64 (128), or ROOM, was not met");
    for (i = 0; i < rounds; i++)
        day(3 + some(4), (int)(i % 4), 400);
    if (met.from_several == 0 || met.past_the_end == 0)
        fail("a choice among several wholly erased blocks, or one past the end, was not met");
    report();
    tell_words();
    tell_opened();
    tell_outdated();
    tell_lists();
    tell_exports();
    tell_imports();
}

int main(int count, char **words)
{
    unsigned rounds = count > 1 ? (unsigned)strtoul(words[1], NULL, 10) : 8;
    seed = count > 2 ? strtoull(words[2], NULL, 10) : 1;
    quick = count > 4 && strcmp(words[4], "quick") == 0;
    for (chip = chips; chip < chips + CHIPS; chip++)
        if (count < 4 || strcmp(words[3], "both") == 0 || strcmp(words[3], chip->name) == 0) {
            numbers_are_the_documents();
            test_chip(rounds);
        }
    return 0;
}
