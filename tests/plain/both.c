/* both.c: both trees on one log against a sorted array, by the calls' own words alone: no model, no judge.
 *
 * usage: both [SEED [BLOCKS]]        with so many blocks at most
 *
 * Logs of four kinds, on 3, 20 and 64 blocks, each until a tree has no room. After every update both trees answer as the array says, and
 * lookups of its key, of another one and of a neighbour find what the array has; now and then, and at the end, those of all keys. Of the
 * plain tree: it programs erased pages alone, as many as it tells, and erases nothing; an insert of a present key programs as many as the
 * tree is high, one of a new key as many and at most height + 1 more, a delete at most as many; a stopped update made as many stores as it
 * was allowed and leaves the old map; ROOM changes nothing, and a present key has room exactly where as many pages are erased. Trees of
 * more than two levels are high.c's. */
#include "../../c/mutree.h"
#include "plain.h"
#include "seen.h"

#include <stdio.h>
#include <stdlib.h>
#include <string.h>

enum { MOST_KEYS = 1 << 16, ALL_EACH = 400, STOPPED_EACH = 16 };

enum way { RISING, FALLING, RANDOM, DENSE, WAYS };

static const char *const ways[WAYS] = { "rising", "falling", "random", "dense" };

struct pair {
    uint32_t key, address;
};

/* One log: both images, the map, and what was met. */
struct log {
    enum way way;
    size_t blocks, length;
    uint8_t *plain, *before, *trial, *library;
    uint32_t live[MUTREE_MOST_LIVE_WORDS];
    struct pair map[MOST_KEYS]; /* rising keys */
    size_t keys;
    uint64_t seed;
    uint32_t next;              /* of rising and falling keys */
    size_t erased;              /* pages of the plain tree's image */
    unsigned long updates, present, fresh, deleted, lookups, stopped, pages;
    unsigned highest;
};

static struct log l;

static void need(int ok, const char *what)
{
    if (!ok) {
        fprintf(stderr, "both: %s keys on %u blocks, update %lu: %s\n", ways[l.way], (unsigned)l.blocks, l.updates, what);
        exit(1);
    }
}

static uint32_t some(uint32_t below)
{
    l.seed = l.seed * 6364136223846793005u + 1442695040888963407u;
    return (uint32_t)((l.seed >> 33) % below);
}

/* ---- the map: the first pair whose key is not below this one */
static size_t place_of(uint32_t key)
{
    size_t low = 0, high = l.keys;
    while (low < high) {
        size_t middle = low + (high - low) / 2;
        if (l.map[middle].key < key)
            low = middle + 1;
        else
            high = middle;
    }
    return low;
}

static const struct pair *pair_of(uint32_t key)
{
    size_t at = place_of(key);
    return at < l.keys && l.map[at].key == key ? &l.map[at] : NULL;
}

static void put(uint32_t key, uint32_t address)
{
    size_t at = place_of(key);
    if (pair_of(key) == NULL) {
        need(l.keys < MOST_KEYS, "too many keys");
        memmove(&l.map[at + 1], &l.map[at], (l.keys - at) * sizeof *l.map);
        l.keys++;
    }
    l.map[at].key = key;
    l.map[at].address = address;
}

static void take_out(uint32_t key)
{
    size_t at = place_of(key);
    l.keys--;
    memmove(&l.map[at], &l.map[at + 1], (l.keys - at) * sizeof *l.map);
}

/* ---- lookups */
static void need_found(uint32_t answer, const uint8_t *result, const struct pair *wanted, const char *what)
{
    struct mutree_result r = mutree_read_result(result);
    need(answer == r.answer && r.programmed == 0 && r.erased == 0 && r.rule == 0 && r.page == 0, what);
    need(answer == (wanted ? MUTREE_DONE : MUTREE_ABSENT) && r.address == (wanted ? wanted->address : 0), what);
    l.lookups++;
}

static void look_in_plain(const uint8_t *image, uint32_t key)
{
    uint8_t result[MUTREE_RESULT_BYTES];
    uint32_t answer = plain_lookup(image, l.length, key, result, sizeof result);
    need_found(answer, result, pair_of(key), "a lookup in the plain tree is not what the array has");
}

static void look_in_both(uint32_t key)
{
    uint8_t result[MUTREE_RESULT_BYTES];
    uint32_t answer = mutree_lookup(MUTREE_SMALL, l.library, l.length, key, result, sizeof result);
    need_found(answer, result, pair_of(key), "a lookup in the library is not what the array has");
    look_in_plain(l.plain, key);
}

static void look_at_all(void)
{
    size_t at;
    for (at = 0; at < l.keys; at++)
        look_in_both(l.map[at].key);
}

/* ---- updates */
struct update {
    int is_delete;
    uint32_t key, address;
};

static struct mutree_result plain_update(uint8_t *image, struct update u, uint32_t allowance)
{
    uint8_t result[MUTREE_RESULT_BYTES];
    uint32_t answer = u.is_delete ? plain_delete(image, l.length, u.key, allowance, result, sizeof result)
                                  : plain_insert(image, l.length, u.key, u.address, allowance, result, sizeof result);
    need(answer == mutree_read_result(result).answer, "the returned number is not the result's");
    return mutree_read_result(result);
}

static uint32_t library_update(struct update u)
{
    uint8_t result[MUTREE_RESULT_BYTES];
    return u.is_delete ? mutree_delete(MUTREE_SMALL, l.library, l.length, l.live, MUTREE_MOST_LIVE_WORDS, u.key, UINT32_MAX, result, sizeof result)
                       : mutree_insert(MUTREE_SMALL, l.library, l.length, l.live, MUTREE_MOST_LIVE_WORDS, u.key, u.address, UINT32_MAX, result,
                                       sizeof result);
}

/* The pages that the plain tree's update programmed, at the height before it. */
static void check_pages(struct update u, struct mutree_result made, unsigned height)
{
    need(made.address == 0 && made.erased == 0 && made.rule == 0 && made.page == 0, "an update's result has numbers that are none of it");
    need(made.programmed == pages_programmed(l.before, l.plain, l.length), "other pages were programmed than told, or one that was not erased");
    if (made.answer != MUTREE_DONE)
        need(made.programmed == 0, "a refused update stored");
    else if (u.is_delete)
        need(made.programmed >= 1 && made.programmed <= height, "the pages of a delete are not 1 to the height");
    else if (pair_of(u.key) != NULL)
        need(made.programmed == height, "the pages of a present key are not as many as the height");
    else
        need(made.programmed >= height && made.programmed <= 2 * height + 1, "the pages of a new key are not the height to twice and one");
}

/* The update once more on copies, stopped before each of its stores: the old map is left. The array has it still. */
static void check_stops(struct update u, uint32_t stores)
{
    uint32_t allowance;
    for (allowance = 0; allowance < stores; allowance++) {
        struct mutree_result made;
        memcpy(l.trial, l.before, l.length);
        made = plain_update(l.trial, u, allowance);
        need(made.answer == MUTREE_STOPPED && made.programmed == allowance && made.erased == 0, "a stopped update is not told so");
        need(pages_programmed(l.before, l.trial, l.length) == allowance, "a stopped update made other stores than it was allowed");
        look_in_plain(l.trial, u.key);
        if (l.keys > 0)
            look_in_plain(l.trial, l.map[some((uint32_t)l.keys)].key);
        l.stopped++;
    }
}

static uint32_t wanted_answer(struct update u)
{
    return u.is_delete && pair_of(u.key) == NULL ? MUTREE_ABSENT : MUTREE_DONE;
}

/* The plain tree has no room: so a present key has it exactly where the tree is not higher than pages are erased. */
static void check_room(void)
{
    struct update u = { 0, 0, 7 };
    unsigned height = height_seen(l.plain, l.length);
    need(l.erased < 2 * height + 1, "ROOM where any update has room");
    while (l.keys > 0) {
        struct mutree_result made;
        u.key = l.map[some((uint32_t)l.keys)].key;
        memcpy(l.before, l.plain, l.length);
        made = plain_update(l.plain, u, UINT32_MAX);
        need(made.answer == (l.erased < height ? MUTREE_ROOM : MUTREE_DONE), "ROOM of a present key is not where fewer pages are erased than its height");
        check_pages(u, made, height);
        if (made.answer == MUTREE_ROOM)
            return;
        l.erased -= made.programmed;
        put(u.key, u.address);
        need(library_update(u) == MUTREE_DONE, "the library refused a present key");
    }
}

/* One update through both. Whether both accepted. */
static int make(struct update u)
{
    unsigned height = height_seen(l.plain, l.length);
    struct mutree_result made;
    uint32_t theirs;
    memcpy(l.before, l.plain, l.length);
    made = plain_update(l.plain, u, UINT32_MAX);
    check_pages(u, made, height);
    if (made.answer == MUTREE_ROOM) {
        check_room();
        return 0;
    }
    theirs = library_update(u);
    if (theirs == MUTREE_ROOM || theirs == MUTREE_HEIGHT) {
        memcpy(l.plain, l.before, l.length);
        return 0;
    }
    need(made.answer == wanted_answer(u) && theirs == wanted_answer(u), "an answer is not what the array says");
    if (made.answer == MUTREE_DONE && l.updates % STOPPED_EACH == 0)
        check_stops(u, made.programmed);
    l.erased -= made.programmed;
    l.pages += made.programmed;
    l.present += !u.is_delete && pair_of(u.key) != NULL;
    l.fresh += !u.is_delete && pair_of(u.key) == NULL;
    l.deleted += u.is_delete && made.answer == MUTREE_DONE;
    if (made.answer == MUTREE_DONE && u.is_delete)
        take_out(u.key);
    else if (made.answer == MUTREE_DONE)
        put(u.key, u.address);
    l.highest = height > l.highest ? height : l.highest;
    return 1;
}

static uint32_t new_key(void)
{
    switch (l.way) {
    case RISING: return l.next += 1 + some(3);
    case FALLING: return UINT32_MAX - (l.next += 1 + some(3));
    case RANDOM: return some(UINT32_MAX);
    default: return some(200);
    }
}

/* One of four keys is a present one; one update of five is a delete, of dense keys one of two. */
static struct update next_update(void)
{
    struct update u = { 0, 0, 0 };
    u.key = l.keys > 0 && some(4) == 0 ? l.map[some((uint32_t)l.keys)].key : new_key();
    u.is_delete = some(l.way == DENSE ? 2 : 5) == 0;
    u.address = some(UINT32_MAX);
    return u;
}

static void play(void)
{
    struct update u = next_update();
    while (make(u)) {
        l.updates++;
        look_in_both(u.key);
        look_in_both(u.key + 1);
        if (l.keys > 0)
            look_in_both(l.map[some((uint32_t)l.keys)].key);
        if (l.updates % ALL_EACH == 0)
            look_at_all();
        u = next_update();
    }
    look_at_all();
}

/* ---- a log */
static uint8_t *room(void)
{
    uint8_t *bytes = malloc(l.length);
    need(bytes != NULL, "out of memory");
    memset(bytes, 90, l.length);
    return bytes;
}

static void format_both(void)
{
    uint8_t result[MUTREE_RESULT_BYTES];
    struct mutree_result r;
    need(mutree_format(MUTREE_SMALL, l.library, l.length, result, sizeof result) == MUTREE_DONE, "the library's format was refused");
    need(plain_format(l.plain, l.length, result, sizeof result) == MUTREE_DONE, "the plain tree's format was refused");
    r = mutree_read_result(result);
    need(r.programmed == 1 && r.erased == l.blocks, "a format does not program one page and erase every block");
    need(memcmp(l.plain, l.library, l.length) == 0, "the formatted images differ");
    l.erased = l.length / MUTREE_SMALL_PAGE_BYTES - 1;
}

static unsigned long play_log(enum way way, size_t blocks, uint64_t seed)
{
    memset(&l, 0, sizeof l);
    l.way = way;
    l.blocks = blocks;
    l.length = blocks * MUTREE_SMALL_BLOCK_BYTES;
    l.seed = seed;
    l.plain = room();
    l.before = room();
    l.trial = room();
    l.library = room();
    format_both();
    play();
    printf("both: %s keys on %u blocks: %lu updates (%lu new keys, %lu present, %lu deleted), %lu pages, height %u, %u keys; %lu lookups, %lu stops\n",
           ways[way], (unsigned)blocks, l.updates, l.fresh, l.present, l.deleted, l.pages, l.highest, (unsigned)l.keys, l.lookups, l.stopped);
    need(l.fresh > 0 && l.present > 0 && l.deleted > 0 && l.stopped > 0, "a kind of update was never met");
    free(l.plain);
    free(l.before);
    free(l.trial);
    free(l.library);
    return l.updates;
}

int main(int count, char **words)
{
    static const size_t blocks[] = { 3, 20, 64 };
    uint64_t seed = count > 1 ? strtoull(words[1], NULL, 10) : 1;
    unsigned long updates = 0, most = count > 2 ? strtoul(words[2], NULL, 10) : MUTREE_MOST_BLOCKS;
    size_t i;
    int way;
    for (i = 0; i < sizeof blocks / sizeof *blocks && blocks[i] <= most; i++)
        for (way = 0; way < WAYS; way++)
            updates += play_log((enum way)way, blocks[i], seed + (uint64_t)way);
    printf("both: %lu updates, and both trees held the array's map after each\n", updates);
    return 0;
}
