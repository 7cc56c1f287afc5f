/* growth.c: full roots. From format rising keys fill a root at height 1: the key that takes its last slot (the 64th, the 256th) halves
 * it. On built images every height grows to the next one, and the greatest refuses. */
#include "built.h"
#include "demands.h"

#include <stdlib.h>
#include <string.h>

static struct tree state;

static unsigned count_at(const uint8_t *image, uint32_t page, unsigned level)
{
    return image[(size_t)page * chip->page + chip->main + 4 + level];
}

/* Two leaves, each with half of the slots, and a root that names both. */
static void is_halved(const uint8_t *image, size_t length)
{
    const uint8_t *slot;
    unsigned i;
    if (judge(&state, chip, image, length) || state.height != 2 || state.entries != chip->slots)
        fail("the root that is full is halved under a new one");
    slot = image + (size_t)state.root * chip->page + 8 * first_slot(chip, 2);
    if (count_at(image, state.root, 2) != 2)
        fail("the new root has two entries");
    for (i = 0; i < 2; i++)
        if (number_at(slot + 8 * i) != 1 + i * chip->slots / 2 || count_at(image, number_at(slot + 8 * i + 4), 1) != chip->slots / 2)
            fail("a full root at height 1 is halved, 32 and 32 (128 and 128)");
}

/* Three blocks: the keys before fill two blocks' pages again and again, so each of these is collected in time. */
static void first_root_is_halved(void)
{
    size_t length = length_of(chip, 3);
    uint8_t *image = room_for(length), result[RESULT];
    struct update u = { 1, 0, 7 };
    unsigned erased = 0;
    mutree_format(chip->number, image, length, result, sizeof result);
    for (u.key = 1; u.key < chip->slots; u.key++) {
        struct mutree_result r = run(u, image, length, UINT32_MAX);
        if (r.answer || r.programmed != 1)
            fail("a key before the root is full programs one page");
        erased += r.erased;
    }
    if (judge(&state, chip, image, length) || state.height != 1 || state.entries != chip->slots - 1)
        fail("a root at height 1 holds 63 keys (255)");
    if (tried(u, image, length) || run(u, image, length, UINT32_MAX).answer)
        fail("the key that fills the root was refused");
    /* pages 0 to 63 (255) were programmed one after another, and the last key needs two more: blocks are erased in turn */
    if (erased + 1 != chip->slots / chip->block_pages - 1 || state.free_pages != chip->block_pages)
        fail("three blocks are collected in time");
    is_halved(image, length);
    free(image);
}

uint8_t *full_tree(unsigned height, enum path path, size_t *length)
{
    uint32_t root = most_root(chip, height), leaves = leaves_of_full_path(chip, height, root), blocks = 5 + leaves / chip->block_pages;
    struct built plan = { chip, 0, 0, 0, path, 0, 0 };
    plan.blocks = blocks;
    plan.height = height;
    plan.root = root;
    plan.leaves = leaves;
    plan.programmed = (blocks - 2) * chip->block_pages;
    *length = length_of(chip, blocks);
    return build(plan);
}

void on_full_trees(void (*look)(const uint8_t *image, size_t length, const struct entry *map, size_t entries), const char *wrote)
{
    unsigned height;
    enum path path;
    for (height = 1; height <= chip->top; height++)
        for (path = FIRST_PATH; path <= LAST_PATH; path++) {
            size_t length;
            uint8_t *image = full_tree(height, path, &length), *kept = copy_of(image, length);
            if (judge(&state, chip, image, length) || state.height != height)
                fail("a built tree is not sound");
            look(image, length, state.map, state.entries);
            if (memcmp(image, kept, length))
                fail(wrote);
            free(image);
            free(kept);
        }
}

/* A new key and a present one on the full path. */
static void grows_on(enum path path, unsigned height)
{
    struct update u = { 1, 3, 5 };
    size_t length;
    uint8_t *image = full_tree(height, path, &length);
    if (judge(&state, chip, image, length) || state.height != height)
        fail("the tree with a full path is not sound");
    if (path == LAST_PATH)
        u.key = state.map[state.entries - 1].key - 1;
    if (pages_needed(&state, image, u.key) != height + 1)
        fail("the tree with a full path is not as planned");
    if (tried(u, image, length) != (height < chip->top ? MUTREE_DONE : MUTREE_HEIGHT))
        fail("a full root grows at every height but the greatest, where it is HEIGHT");
    u.key--;
    if (tried(u, image, length) != MUTREE_DONE)
        fail("a present key is never HEIGHT");
    free(image);
}

static void every_height_grows(void)
{
    unsigned height;
    for (height = 1; height <= chip->top; height++) {
        grows_on(FIRST_PATH, height);
        grows_on(LAST_PATH, height);
    }
    if (greatest_height() != chip->top)
        fail("the greatest height was not reached");
}

void roots_grow(void)
{
    first_root_is_halved();
    every_height_grows();
}
