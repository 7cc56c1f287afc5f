#include "judge.h"
#include "code.h"

#include <stdio.h>
#include <stdlib.h>
#include <string.h>

const struct chip chips[CHIPS] = {
    { "small", 0, 32, 512, 528, 64, 5, 63, 2, 10, 4294967000u, 5, 191, 6 },
    { "large", 1, 64, 2048, 2112, 256, 7, 127, 8, 12, 4294966000u, 7, 511, 8 },
};

unsigned first_slot(const struct chip *c, unsigned level)
{
    return c->slots - (c->slots >> (level - 1));
}

unsigned most_below(const struct chip *c, unsigned level)
{
    return level < c->top ? c->slots >> level : 0;
}

/* "A root below the greatest height stores one fewer" than its slots. */
unsigned most_root(const struct chip *c, unsigned level)
{
    return (c->slots >> (level - 1)) - (level < c->top);
}

size_t length_of(const struct chip *c, size_t blocks)
{
    return blocks * c->block_pages * c->page;
}

uint32_t number_at(const uint8_t *at)
{
    return (uint32_t)at[0] + ((uint32_t)at[1] << 8) + ((uint32_t)at[2] << 16) + ((uint32_t)at[3] << 24);
}

int all_255(const uint8_t *at, size_t n)
{
    size_t i;
    for (i = 0; i < n; i++)
        if (at[i] != 255)
            return 0;
    return 1;
}

static const uint8_t *page_of(const struct tree *t, const uint8_t *image, size_t page)
{
    return image + page * t->chip->page;
}

static const uint8_t *spare_of(const struct tree *t, const uint8_t *image, size_t page)
{
    return page_of(t, image, page) + t->chip->main;
}

/* Request 5: the first broken rule, and its page. */
static int breaks(struct tree *t, int rule, size_t page)
{
    t->broken = (uint32_t)page;
    return rule;
}

/* Spare bytes 0 to 3 the number, 4 the height, then a count for each level, then the codes, then 255. */
static int is_page(const struct tree *t, const uint8_t *image, size_t p)
{
    const uint8_t *spare = spare_of(t, image, p);
    unsigned rest = t->chip->code + CODE_BYTES * t->chip->halves;
    return spare[4] <= t->chip->top && number_at(spare) != 0 && all_255(spare + rest, t->chip->page - t->chip->main - rest)
        && codes_fit_again(t->chip, image, p);
}

/* "The lowest page." */
static int rule_1(struct tree *t, const uint8_t *image)
{
    size_t p;
    for (p = 0; p < t->pages; p++) {
        t->erased[p] = (unsigned char)all_255(page_of(t, image, p), t->chip->page);
        if (!t->erased[p] && !is_page(t, image, p))
            return breaks(t, 1, p);
    }
    return 0;
}

/* How many pages of a block are programmed. */
static size_t programmed_in(const struct tree *t, size_t block)
{
    size_t row = t->chip->block_pages, programmed = 0, p;
    for (p = block * row; p < (block + 1) * row; p++)
        programmed += !t->erased[p];
    return programmed;
}

/* "The first erased page before a programmed one, or else the first programmed page of the second mixed block": where no erased
 * page stands before a programmed one, a block's first page is its first programmed one. */
static int rule_2(struct tree *t)
{
    size_t b, p, mixed = 0, row = t->chip->block_pages;
    for (b = 0; b < t->pages / row; b++) {
        size_t programmed = programmed_in(t, b);
        for (p = b * row; programmed > 0; p++) {
            if (t->erased[p])
                return breaks(t, 2, p);
            programmed--;
        }
    }
    for (b = 0; b < t->pages / row; b++) {
        size_t programmed = programmed_in(t, b);
        mixed += programmed > 0 && programmed < row;
        if (mixed == 2)
            return breaks(t, 2, b * row);
    }
    return 0;
}

struct numbered {
    uint32_t number, page;
};

static int by_number(const void *a, const void *b)
{
    const struct numbered *x = a, *y = b;
    if (x->number != y->number)
        return x->number < y->number ? -1 : 1;
    return x->page < y->page ? -1 : x->page > y->page;
}

/* "The higher-numbered page of the pair whose higher page is lowest." */
static int rule_3(struct tree *t, const uint8_t *image)
{
    static struct numbered seen[MOST_PAGES];
    size_t n = 0, p, lowest = t->pages;
    for (p = 0; p < t->pages; p++)
        if (!t->erased[p]) {
            seen[n].number = number_at(spare_of(t, image, p));
            seen[n++].page = (uint32_t)p;
        }
    qsort(seen, n, sizeof *seen, by_number);
    for (p = 1; p < n; p++)
        if (seen[p].number == seen[p - 1].number && seen[p].page < lowest)
            lowest = seen[p].page;
    return lowest < t->pages ? breaks(t, 3, lowest) : 0;
}

static int rule_4(struct tree *t, const uint8_t *image)
{
    uint32_t best = 0;
    size_t p;
    t->height = 0;
    for (p = 0; p < t->pages; p++) {
        const uint8_t *spare = spare_of(t, image, p);
        if (!t->erased[p] && spare[4] >= 1 && number_at(spare) > best) {
            best = number_at(spare);
            t->root = (uint32_t)p;
            t->height = spare[4];
        }
    }
    return t->height == 0 ? 4 : 0;
}

static void add(struct tree *t, uint32_t key, uint32_t address)
{
    if (t->entries == t->room) {
        t->room = t->room ? 2 * t->room : 1024;
        t->map = realloc(t->map, t->room * sizeof *t->map);
        if (t->map == NULL)
            exit(71);
    }
    t->map[t->entries].key = key;
    t->map[t->entries++].address = address;
}

static const uint8_t *slots_of(const struct tree *t, const uint8_t *image, size_t page, unsigned level)
{
    return page_of(t, image, page) + 8 * first_slot(t->chip, level);
}

static unsigned count_of(const struct tree *t, const uint8_t *image, size_t page, unsigned level)
{
    return spare_of(t, image, page)[4 + level];
}

static unsigned most_of(const struct tree *t, unsigned level, int is_root)
{
    return is_root ? most_root(t->chip, level) : most_below(t->chip, level);
}

/* R5 of a node and all below it, keys from `low` on and below `high`; marks what is live and gathers the map. "The page of the
 * first node, each before its subtrees and those left to right, whose own counts, keys or page numbers break it." */
static int node(struct tree *t, const uint8_t *image, uint32_t page, unsigned level, int is_root, uint64_t low, uint64_t high)
{
    const uint8_t *slot = slots_of(t, image, page, level);
    unsigned n = count_of(t, image, page, level), i;
    unsigned least = is_root ? (level == 1 ? 0 : 2) : 1;
    if (n < least || n > most_of(t, level, is_root))
        return breaks(t, 5, page);
    for (i = 0; i < n; i++) {
        uint64_t key = number_at(slot + 8 * i);
        uint32_t address = number_at(slot + 8 * i + 4);
        if (key < low || key >= high || (i > 0 && key <= number_at(slot + 8 * i - 8)))
            return breaks(t, 5, page);
        if (level > 1 && (address >= t->pages || t->erased[address]))
            return breaks(t, 5, page);
    }
    t->nodes++;
    t->levels[page] |= (unsigned char)(1 << (level - 1));
    for (i = 0; i < n; i++) {
        uint64_t key = number_at(slot + 8 * i);
        uint64_t next = i + 1 < n ? number_at(slot + 8 * i + 8) : high;
        if (level == 1)
            add(t, (uint32_t)key, number_at(slot + 8 * i + 4));
        else if (node(t, image, number_at(slot + 8 * i + 4), level - 1, 0, key, next))
            return 5;
    }
    return 0;
}

static int names(const struct tree *t, const uint8_t *image, size_t page, unsigned level)
{
    const uint8_t *slot = slots_of(t, image, page, level);
    unsigned i;
    for (i = 0; i < count_of(t, image, page, level); i++)
        if (number_at(slot + 8 * i + 4) == page)
            return 1;
    return 0;
}

/* "The lowest page." */
static int rule_6(struct tree *t, const uint8_t *image)
{
    size_t p;
    for (p = 0; p < t->pages; p++) {
        unsigned level, low = 0, high = 0;
        for (level = 1; level <= t->chip->top; level++)
            if (t->levels[p] >> (level - 1) & 1) {
                low = low ? low : level;
                high = level;
            }
        for (level = low + 1; low > 0 && level <= high; level++)
            if (!(t->levels[p] >> (level - 1) & 1) || !names(t, image, p, level))
                return breaks(t, 6, p);
    }
    return 0;
}

static int rule_7(struct tree *t)
{
    size_t p, b, row = t->chip->block_pages;
    t->free_pages = t->live = 0;
    for (p = 0; p < t->pages; p++) {
        t->free_pages += t->erased[p];
        t->live += t->levels[p] != 0;
    }
    if (t->free_pages >= row)
        return 0;
    for (b = 0; b < t->pages / row; b++) {
        size_t live = 0, erased = 0;
        for (p = b * row; p < (b + 1) * row; p++) {
            live += t->levels[p] != 0;
            erased += t->erased[p];
        }
        if (erased == 0 && live <= t->free_pages)
            return 0;
    }
    return 7;
}

/* Request 11: "always has T - L of at least 64 (128 in the large geometry)"; rule_7 has counted L. */
static int rule_8(const struct tree *t)
{
    return t->pages - t->live < t->chip->room + 1 ? 8 : 0;
}

int judge(struct tree *t, const struct chip *chip, const uint8_t *image, size_t length)
{
    int rule;
    if (length % length_of(chip, 1) || length < length_of(chip, 3) || length > length_of(chip, 1024))
        return -1;
    t->chip = chip;
    t->pages = length / chip->page;
    t->nodes = t->entries = 0;
    t->broken = 0;
    memset(t->levels, 0, t->pages);
    if ((rule = rule_1(t, image)) || (rule = rule_2(t)) || (rule = rule_3(t, image)) || (rule = rule_4(t, image))
        || (rule = node(t, image, t->root, t->height, 1, 0, (uint64_t)1 << 32)) || (rule = rule_6(t, image))
        || (rule = rule_7(t)))
        return rule;
    return rule_8(t);
}

/* Whether the node gains an entry for the one above; adds to k what it needs for itself. */
static int gains(const struct tree *t, const uint8_t *image, uint32_t page, unsigned level, uint32_t key, unsigned *k)
{
    const uint8_t *slot = slots_of(t, image, page, level);
    unsigned n = count_of(t, image, page, level), i = n;
    while (i > 1 && number_at(slot + 8 * (i - 1)) > key)
        i--;
    if (level == 1 ? n > 0 && number_at(slot + 8 * (i - 1)) == key
                   : !gains(t, image, number_at(slot + 8 * (i - 1) + 4), level - 1, key, k))
        return 0;
    if (n < most_of(t, level, level == t->height))
        return 0;
    *k += 1;
    return 1;
}

unsigned pages_needed(const struct tree *t, const uint8_t *image, uint32_t key)
{
    unsigned k = 1;
    gains(t, image, t->root, t->height, key, &k);
    return k;
}
