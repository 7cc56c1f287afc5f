/* high.c: plain trees of every height, made by hand: what an update of them programs, counted from request 12's words, and what the calls'
 * own lookups find before and after it. No model, no judge.
 *
 * A tree has one path from its root to a leaf with so many entries at each level; all other nodes have one. Keys are even, so each odd one is
 * new. An insert of a new key into a path with `full` levels of 64 entries programs a page for each level, one more for each level that
 * splits, and one more where the root splits under a new one, which at height 5 is HEIGHT. A delete programs the levels that are left. Each
 * is made with exactly as many erased pages as it needs, and with one fewer, which is ROOM, and stopped before each of its stores. */
#include "../../c/mutree.h"
#include "../independent/code.h"
#include "plain.h"
#include "seen.h"

#include <stdio.h>
#include <stdlib.h>
#include <string.h>

enum { TOP = 5, SLOTS = 64, MOST_PAGES_HERE = 1024, MOST_LENGTH = MOST_PAGES_HERE * 528, MOST_KEYS = 4096 };

#define CHIP (&chips[MUTREE_SMALL])

/* A tree, and what is to be done with it. */
struct shape {
    unsigned height;
    unsigned counts[TOP + 1];   /* entries of the path's nodes, by level */
    int last;                   /* the path goes down at the last entries, else at the first ones */
};

static struct shape shape;
static uint8_t image[MOST_LENGTH], before[MOST_LENGTH], trial[MOST_LENGTH];
static size_t length;
static uint32_t pages;                  /* of the tree, from page 0 on; the root is the last */
static uint32_t keys[MOST_KEYS], path_keys[SLOTS];
static size_t key_count;
static unsigned long updates, lookups, refused[MUTREE_STOPPED + 1], of_pages[2 * TOP];

static void need(int ok, const char *what)
{
    if (!ok) {
        fprintf(stderr, "high: height %u, path %u %u %u %u %u, %s: %s\n", shape.height, shape.counts[1], shape.counts[2], shape.counts[3],
                shape.counts[4], shape.counts[5], shape.last ? "last" : "first", what);
        exit(1);
    }
}

/* ---- the image */
static void write_number(uint8_t *at, uint32_t n)
{
    int i;
    for (i = 0; i < 4; i++)
        at[i] = (uint8_t)(n >> (8 * i));
}

static uint8_t *page_at(uint32_t page)
{
    need(page < MOST_PAGES_HERE, "too many pages");
    return image + (size_t)page * CHIP->page;
}

/* A page without entries: number, height 0, counts 0. */
static void stamp(uint32_t page)
{
    memset(page_at(page) + CHIP->main + 4, 0, 1 + TOP);
    write_number(page_at(page) + CHIP->main, page + 1);
}

static uint32_t next_key(void)
{
    need(key_count < MOST_KEYS, "too many keys");
    keys[key_count] = 2 * (uint32_t)key_count + 10;
    return keys[key_count++];
}

static void make_leaf(unsigned n, int on_path, struct entry *entries)
{
    unsigned i;
    for (i = 0; i < n; i++) {
        entries[i].key = next_key();
        entries[i].address = entries[i].key + 1000;
        if (on_path)
            path_keys[i] = entries[i].key;
    }
}

/* The node and those below it, each page after those of its children. Its first key; its page is the last one then. */
static uint32_t make_node(unsigned level, int on_path)
{
    unsigned n = on_path ? shape.counts[level] : 1, path = shape.last ? n - 1 : 0, i;
    struct entry entries[SLOTS];
    uint8_t *at;
    if (level == 1)
        make_leaf(n, on_path, entries);
    for (i = 0; level > 1 && i < n; i++) {
        entries[i].key = make_node(level - 1, on_path && i == path);
        entries[i].address = pages - 1;
    }
    stamp(pages);
    at = page_at(pages++);
    at[CHIP->main + 4 + level] = (uint8_t)n;
    for (i = 0; i < n; i++) {
        write_number(at + 8 * i, entries[i].key);
        write_number(at + 8 * i + 4, entries[i].address);
    }
    return entries[0].key;
}

/* The tree's image with so many erased pages; those between are dead. */
static void build(size_t erased)
{
    size_t blocks, page;
    memset(image, 255, sizeof image);
    pages = 0;
    key_count = 0;
    make_node(shape.height, 1);
    page_at(pages - 1)[CHIP->main + 4] = (uint8_t)shape.height;
    blocks = (pages + erased + CHIP->block_pages - 1) / CHIP->block_pages;
    blocks = blocks < MUTREE_LEAST_BLOCKS ? MUTREE_LEAST_BLOCKS : blocks;
    length = blocks * MUTREE_SMALL_BLOCK_BYTES;
    for (page = pages; page < blocks * CHIP->block_pages - erased; page++)
        stamp((uint32_t)page);
    put_all_codes(CHIP, image, length);
    need(pages_erased(image, length) == erased, "the image has not as many erased pages as planned");
}

/* ---- the calls */
struct update {
    int is_delete;
    uint32_t key;
};

static struct mutree_result call(uint8_t *at, struct update u, uint32_t allowance)
{
    uint8_t result[MUTREE_RESULT_BYTES];
    uint32_t answer = u.is_delete ? plain_delete(at, length, u.key, allowance, result, sizeof result)
                                  : plain_insert(at, length, u.key, u.key + 2000, allowance, result, sizeof result);
    need(answer == mutree_read_result(result).answer, "the returned number is not the result's");
    return mutree_read_result(result);
}

static void look(const uint8_t *at, uint32_t key, int there, uint32_t address)
{
    uint8_t result[MUTREE_RESULT_BYTES];
    uint32_t answer = plain_lookup(at, length, key, result, sizeof result);
    need(answer == (there ? MUTREE_DONE : MUTREE_ABSENT), "a lookup does not tell whether the key is there");
    need(mutree_read_result(result).address == (there ? address : 0), "a lookup finds another address");
    lookups++;
}

/* Every key of the tree, but for the update's, which is as it was or as the update leaves it. */
static void look_at_all(const uint8_t *at, struct update u, int made)
{
    size_t i;
    int was_there = u.key % 2 == 0;
    for (i = 0; i < key_count; i++)
        if (keys[i] != u.key)
            look(at, keys[i], 1, keys[i] + 1000);
    if (made)
        look(at, u.key, !u.is_delete, u.key + 2000);
    else
        look(at, u.key, was_there, u.key + 1000);
}

static void check_refused(struct update u, uint32_t answer)
{
    struct mutree_result r;
    memcpy(before, image, length);
    r = call(image, u, UINT32_MAX);
    need(r.answer == answer && r.programmed == 0 && r.erased == 0, answer == MUTREE_ROOM ? "ROOM is not answered" : "HEIGHT is not answered");
    need(memcmp(before, image, length) == 0, "a refused update changed the image");
    refused[answer]++;
}

static void check_stops(struct update u, uint32_t stores)
{
    uint32_t allowance;
    for (allowance = 0; allowance < stores; allowance++) {
        struct mutree_result r;
        memcpy(trial, image, length);
        r = call(trial, u, allowance);
        need(r.answer == MUTREE_STOPPED && r.programmed == allowance && r.erased == 0, "a stopped update is not told so");
        need(pages_programmed(image, trial, length) == allowance, "a stopped update made other stores");
        look(trial, u.key, u.key % 2 == 0, u.key + 1000);
        refused[MUTREE_STOPPED]++;
    }
    look_at_all(trial, u, 0);
}

/* An update that programs so many pages and leaves a tree of this height, with as many erased pages as it needs and one fewer. */
static void check_update(struct update u, uint32_t stores, unsigned height)
{
    struct mutree_result r;
    build(stores - 1);
    check_refused(u, MUTREE_ROOM);
    build(stores);
    look_at_all(image, u, 0);
    check_stops(u, stores);
    memcpy(before, image, length);
    r = call(image, u, stores);
    need(r.answer == MUTREE_DONE, "an update that has room was refused");
    need(r.programmed == stores && r.erased == 0, "an update programmed other than as many pages as it should");
    need(pages_programmed(before, image, length) == stores, "other pages were programmed than told");
    need(height_seen(image, length) == height, "the tree is not as high as it should be");
    look_at_all(image, u, 1);
    updates++;
    of_pages[stores]++;
}

/* ---- the shapes */
static struct update of_key(int is_delete, uint32_t key)
{
    struct update u = { 0, 0 };
    u.is_delete = is_delete;
    u.key = key;
    return u;
}

/* New keys, present ones and a delete on a path with `full` levels of 64 entries and some above. */
static void check_full(unsigned height, unsigned full, int last)
{
    unsigned level, grows = full == height;
    memset(&shape, 0, sizeof shape);
    shape.height = height;
    shape.last = last;
    for (level = 1; level <= height; level++)
        shape.counts[level] = level <= full ? SLOTS : 3;
    build(0);
    if (full == TOP) {
        check_refused(of_key(0, path_keys[1] + 1), MUTREE_HEIGHT);
        build(40);
        check_refused(of_key(0, path_keys[1] + 1), MUTREE_HEIGHT);
    } else
        check_update(of_key(0, path_keys[1] + 1), height + full + grows, height + grows);
    check_update(of_key(0, path_keys[1]), height, height);
    check_update(of_key(1, path_keys[1]), height, height);
}

/* A path of one entry at `gone` levels: with its key so many nodes are gone, and where the root has two entries the tree is a leaf. */
static void check_thin(unsigned height, unsigned gone, unsigned root, int last)
{
    unsigned level;
    memset(&shape, 0, sizeof shape);
    shape.height = height;
    shape.last = last;
    for (level = 1; level <= height; level++)
        shape.counts[level] = level <= gone ? 1 : level == height ? root : 3;
    build(0);
    if (root == 2 && gone + 1 == height)
        check_update(of_key(1, path_keys[0]), 1, 1);
    else
        check_update(of_key(1, path_keys[0]), height - gone, height);
}

int main(void)
{
    unsigned height, levels, root, n;
    int last;
    for (last = 0; last < 2; last++)
        for (height = 1; height <= TOP; height++) {
            for (levels = 0; levels <= height; levels++)
                check_full(height, levels, last);
            for (levels = 1; levels < height; levels++)
                for (root = 2; root <= 3; root++)
                    check_thin(height, levels, root, last);
        }
    printf("high: %lu updates", updates);
    for (n = 1; n < 2 * TOP; n++) {
        printf(", %lu of %u pages", of_pages[n], n);
        need(of_pages[n] > 0, "a number of pages was never met");
    }
    printf("; HEIGHT %lu, ROOM %lu, STOPPED %lu; %lu lookups\n", refused[MUTREE_HEIGHT], refused[MUTREE_ROOM], refused[MUTREE_STOPPED], lookups);
    return 0;
}
