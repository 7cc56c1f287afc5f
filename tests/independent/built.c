#include "built.h"
#include "code.h"

#include <stdlib.h>
#include <string.h>

/* The image in the making. */
static struct built plan;
static uint8_t *image;
static uint32_t leaves, sequence, last_key;

static uint32_t leaf_page(uint32_t leaf)
{
    uint32_t used = plan.chip->block_pages - 1;
    return leaf / used * plan.chip->block_pages + leaf % used;
}

static uint8_t *page_at(uint32_t page)
{
    return image + (size_t)page * plan.chip->page;
}

static void write_number(uint8_t *at, uint32_t n)
{
    int i;
    for (i = 0; i < 4; i++)
        at[i] = (uint8_t)(n >> (8 * i));
}

static void stamp(uint8_t *page)
{
    write_number(page + plan.chip->main, ++sequence);
    memset(page + plan.chip->main + 4, 0, 1 + plan.chip->top);
}

static void add_entry(uint32_t page, unsigned level, uint32_t key, uint32_t address)
{
    uint8_t *at = page_at(page), *slot = at + 8 * (first_slot(plan.chip, level) + at[plan.chip->main + 4 + level]++);
    write_number(slot, key);
    write_number(slot + 4, address);
}

uint32_t leaves_of_full_path(const struct chip *chip, uint32_t height, uint32_t root)
{
    uint32_t sum = 1, level;
    for (level = 2; level < height; level++)
        sum += most_below(chip, level) - 1;
    return height == 1 ? 1 : sum + root - 1;
}

/* How many entries a node has that has so many leaves below it. */
static uint32_t entries_of(unsigned level, uint32_t below, int on_path)
{
    uint32_t most = most_below(plan.chip, level);
    if (level == plan.height)
        return plan.root;
    if (level == 1)
        return on_path ? most : 1;
    return below < most && !(on_path && plan.full_path) ? below : most;
}

/* The leaves of the child on the path: an even share, and as many as a full path needs. */
static uint32_t path_share(unsigned level, uint32_t below, uint32_t n, int on_path)
{
    uint32_t even = (below + n - 1) / n;
    uint32_t least = on_path && plan.full_path && level > 2
                         ? leaves_of_full_path(plan.chip, level - 1, most_below(plan.chip, level - 1)) : 1;
    return even > least ? even : least;
}

/* The node at a level with so many leaves below it; returns its first key. Its page is its first leaf's. */
static uint32_t grow_node(unsigned level, uint32_t below, int on_path)
{
    uint32_t first_key = last_key + 2, page = leaf_page(leaves), n = entries_of(level, below, on_path), i;
    uint32_t path = plan.full_path == LAST_PATH ? n - 1 : 0, most = level == 1 ? 0 : path_share(level, below, n, on_path);
    leaves += level == 1;
    for (i = 0; i < n; i++) {
        if (level == 1) {
            last_key += 2;
            add_entry(page, 1, last_key, 1);
        } else {
            uint32_t others = n - i - (i <= path), share = i == path ? most : (below - (i < path ? most : 0) + others - 1) / others;
            uint32_t child = leaf_page(leaves);
            add_entry(page, level, grow_node(level - 1, share, on_path && i == path), child);
            below -= share;
        }
    }
    return first_key;
}

uint8_t *build(struct built wanted)
{
    size_t length = length_of(wanted.chip, wanted.blocks);
    uint32_t p;
    plan = wanted;
    image = malloc(length);
    if (image == NULL)
        exit(71);
    memset(image, 255, length);
    leaves = last_key = 0;
    sequence = 10;
    for (p = 0; p < plan.programmed; p++)
        stamp(page_at(p));
    grow_node(plan.height, plan.leaves, 1);
    write_number(image + plan.chip->main, plan.chip->worn);
    image[plan.chip->main + 4] = (uint8_t)plan.height;
    put_all_codes(plan.chip, image, length);
    return image;
}
