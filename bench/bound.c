/* bound.c: request 10 beside a run. From a formatted image absent keys are inserted, with the largest allowance.
 *
 * usage: bound [--quick]
 *   prints a table for each of three chips, with a line for each order of keys. The first chip takes 7,456 keys at most, the
 *   others as many as they can. Quick: 1,000 on the first and 7,456 on the others.
 *
 * n is the inserts that were finished. X is the pages they programmed beyond n, the collector's moves left out. After every
 * insert: 1,024 X <= 75 n; 1,024 (X + height - 1) <= 75 n; X is the splits and growths, counted on the tree before each
 * insert. Every 500th insert and after the last one the image is judged (tests/independent/judge.c): it has n keys and
 * X + height nodes. A check that fails ends the program with a line and status 1.
 *
 * The first chip is so large that nothing is collected. On the other two the collector works. All its moves come before the
 * insert's last erase: an insert that erased is made again on a copy, with other allowances, to find how many there are.
 */
#include "../c/mutree.h"
#include "../tests/independent/judge.h"

#include <stdio.h>
#include <stdlib.h>
#include <string.h>

enum { BOUND = 75, KEYS = 7456, QUICK_KEYS = 1000, NO_LIMIT = 1 << 30, JUDGED_EACH = 500, STEP = 1 << 18, ORDERS = 6, SETTINGS = 3 };

enum way { RISING, FALLING, RANDOM, BELOW_FULL };

struct order {
    const char *name;
    enum way way;
    uint32_t seed;
};

static const struct order orders[ORDERS] = {
    { "rising", RISING, 0 }, { "falling", FALLING, 0 }, { "random, seed 1", RANDOM, 1 }, { "random, seed 2", RANDOM, 2 },
    { "random, seed 3", RANDOM, 3 }, { "below full nodes", BELOW_FULL, 0 },
};

struct setting {
    size_t blocks;
    unsigned long most_keys;
    int collects;
};

/* Pages beyond so many inserts, or nodes below the root where they hold so many keys. */
struct ratio {
    unsigned long n, x;
};

struct run {
    const struct order *order;
    uint8_t *image, *before, *trial; /* the chip, and room for an insert made again */
    size_t length;
    uint32_t state;                  /* of the random keys */
    struct ratio now, most;          /* as it stands, and where X / n was largest */
    struct ratio most_nodes;         /* where (X + height - 1) / n was largest */
    unsigned long splits_and_growths, moved, erased;
    uint32_t ended;                  /* the answer that ended it, or DONE where it had keys enough */
};

static struct tree tree;

static void need(int ok, const struct run *r, const char *what)
{
    if (!ok) {
        fprintf(stderr, "bound: %s keys, n = %lu, X = %lu: %s\n", r->order->name, r->now.n, r->now.x, what);
        exit(1);
    }
}

/* ---- the tree: its root after each insert, and the leaf that the last order chooses */
#define SMALL (&chips[MUTREE_SMALL])

/* The page with the largest number of those whose byte 4 is a height; of an erased page that byte is 255. */
static void find_root(const struct run *r)
{
    uint32_t largest = 0;
    size_t page;
    tree.chip = SMALL;
    for (page = 0; page < r->length / SMALL->page; page++) {
        const uint8_t *spare = r->image + page * SMALL->page + SMALL->main;
        if (spare[4] >= 1 && spare[4] <= SMALL->top && number_at(spare) > largest) {
            largest = number_at(spare);
            tree.root = (uint32_t)page;
            tree.height = spare[4];
        }
    }
}

struct leaf {
    unsigned entries, full_above;
    uint32_t last_key;
    int is_last;
};

static int comes_before(const struct leaf *a, const struct leaf *b)
{
    return a->full_above != b->full_above ? a->full_above > b->full_above : a->entries >= b->entries;
}

/* A node and those below it. `best` is the leaf with the most full nodes above it in a row; of those the fullest, of those
 * the last. */
static void look(const uint8_t *image, uint32_t page, unsigned level, struct leaf here, struct leaf *best)
{
    const uint8_t *at = image + (size_t)page * SMALL->page, *slot = at + 8 * first_slot(SMALL, level);
    unsigned i, n = at[SMALL->main + 4 + level];
    unsigned most = level == tree.height ? most_root(SMALL, level) : most_below(SMALL, level);
    if (level == 1) {
        here.entries = n;
        here.last_key = n == 0 ? 0 : number_at(slot + 8 * (n - 1));
        if (comes_before(&here, best))
            *best = here;
        return;
    }
    here.full_above = n == most ? here.full_above + 1 : 0;
    for (i = 0; i < n; i++) {
        struct leaf below = here;
        below.is_last = here.is_last && i + 1 == n;
        look(image, number_at(slot + 8 * i + 4), level - 1, below, best);
    }
}

/* ---- the keys */
static uint32_t key_below_full_nodes(const struct run *r)
{
    struct leaf top = { 0, 0, 0, 1 }, best = { 0, 0, 0, 1 };
    look(r->image, tree.root, tree.height, top, &best);
    return best.last_key + (best.is_last ? STEP : 1);
}

/* Each is absent: the rule of the random keys meets every number of 32 bits once. */
static uint32_t next_key(struct run *r)
{
    switch (r->order->way) {
    case RISING:
        return (uint32_t)r->now.n + 1;
    case FALLING:
        return UINT32_MAX - (uint32_t)r->now.n;
    case RANDOM:
        r->state = r->state * 1664525u + 1013904223u;
        return r->state;
    default:
        return key_below_full_nodes(r);
    }
}

/* ---- an insert, and what is held against it */
static struct mutree_result insert(uint8_t *image, size_t length, uint32_t key, uint32_t allowance)
{
    static uint32_t live[MUTREE_MOST_LIVE_WORDS];
    uint8_t result[MUTREE_RESULT_BYTES];
    mutree_insert(MUTREE_SMALL, image, length, live, MUTREE_MOST_LIVE_WORDS, key, 1, allowance, result, sizeof result);
    return mutree_read_result(result);
}

/* The pages programmed before the last erase. The least allowance that reaches it is found by halving. */
static uint32_t pages_moved(struct run *r, uint32_t key, struct mutree_result made)
{
    uint32_t low = 1, high = made.programmed + made.erased;
    while (low < high) {
        uint32_t middle = low + (high - low) / 2;
        memcpy(r->trial, r->before, r->length);
        if (insert(r->trial, r->length, key, middle).erased < made.erased)
            low = middle + 1;
        else
            high = middle;
    }
    return low - made.erased;
}

static struct ratio larger(struct ratio a, struct ratio b)
{
    return (uint64_t)a.x * b.n > (uint64_t)b.x * a.n ? a : b;
}

static void check_bound(struct run *r)
{
    struct ratio nodes = r->now;
    nodes.x += tree.height - 1;
    need(1024 * r->now.x <= BOUND * r->now.n, r, "1024 X is above 75 n");
    need(1024 * nodes.x <= BOUND * nodes.n, r, "1024 (X + height - 1) is above 75 n");
    need(r->now.x == r->splits_and_growths, r, "X is not the splits and growths");
    r->most = larger(r->now, r->most);
    r->most_nodes = larger(nodes, r->most_nodes);
}

static void check_tree(struct run *r)
{
    need(judge(&tree, SMALL, r->image, r->length) == 0, r, "the image is not sound");
    need(tree.entries == r->now.n, r, "the tree has not n keys");
    need(tree.nodes == r->now.x + tree.height, r, "the tree has not X + height nodes");
}

/* One key more. Whether it was inserted. */
static int insert_next(struct run *r, int collects)
{
    uint32_t key = next_key(r), moved;
    unsigned needed = pages_needed(&tree, r->image, key);
    struct mutree_result made;
    if (collects)
        memcpy(r->before, r->image, r->length);
    made = insert(r->image, r->length, key, UINT32_MAX);
    r->ended = made.answer;
    if (made.answer != MUTREE_DONE)
        return 0;
    need(collects || made.erased == 0, r, "a block was erased where nothing should be");
    moved = made.erased > 0 ? pages_moved(r, key, made) : 0;
    r->now.n++;
    r->now.x += made.programmed - moved - 1;
    r->splits_and_growths += needed - 1;
    r->moved += moved;
    r->erased += made.erased;
    find_root(r);
    check_bound(r);
    if (r->now.n % JUDGED_EACH == 0)
        check_tree(r);
    return 1;
}

/* ---- a run: one order on one chip */
static uint8_t *room(const struct run *r)
{
    uint8_t *bytes = malloc(r->length);
    need(bytes != NULL, r, "out of memory");
    return bytes;
}

static void begin(struct run *r, const struct order *order, const struct setting *setting)
{
    uint8_t result[MUTREE_RESULT_BYTES];
    memset(r, 0, sizeof *r);
    r->order = order;
    r->length = setting->blocks * MUTREE_SMALL_BLOCK_BYTES;
    r->state = order->seed;
    r->most.n = r->most_nodes.n = 1;
    r->image = room(r);
    r->before = room(r);
    r->trial = room(r);
    need(mutree_format(MUTREE_SMALL, r->image, r->length, result, sizeof result) == MUTREE_DONE, r, "format was refused");
    find_root(r);
}

static void end(struct run *r)
{
    check_tree(r);
    need(r->ended == MUTREE_DONE || r->ended == MUTREE_HEIGHT || r->ended == MUTREE_ROOM, r, "an insert was refused");
    free(r->image);
    free(r->before);
    free(r->trial);
}

static const char *end_of(const struct run *r)
{
    return r->ended == MUTREE_HEIGHT ? "HEIGHT" : r->ended == MUTREE_ROOM ? "ROOM" : "keys enough";
}

static void play(struct run *r, const struct order *order, const struct setting *setting)
{
    begin(r, order, setting);
    while (r->now.n < setting->most_keys && insert_next(r, setting->collects))
        ;
    end(r);
}

static void print_ratio(struct ratio ratio)
{
    printf("%7lu%6lu%7.2f", ratio.n, ratio.x, 1024.0 * (double)ratio.x / (double)ratio.n);
}

static void print_run(const struct run *r)
{
    printf("%-16s", r->order->name);
    print_ratio(r->most);
    print_ratio(r->most_nodes);
    printf("%7lu%6lu%7lu%7lu  %s\n", r->now.n, r->now.x, r->moved, r->erased, end_of(r));
}

/* ---- the chips */
static struct ratio play_orders(const struct setting *setting, struct ratio most)
{
    struct run r;
    int i;
    printf("%u blocks\n", (unsigned)setting->blocks);
    printf("%-16s%7s%6s%7s%7s%6s%7s%7s%6s%7s%7s  %s\n", "order of keys", "n", "X", "ratio", "n", "nodes", "ratio", "n-end", "X-end", "moved",
           "erased", "ended by");
    for (i = 0; i < ORDERS; i++) {
        play(&r, &orders[i], setting);
        print_run(&r);
        most = larger(r.most, most);
    }
    printf("\n");
    return most;
}

/* The pages that so many inserts may program by the bound, format's own, and those that are left where collection begins. */
static size_t blocks_without_collection(unsigned long keys)
{
    size_t pages = 1 + keys + BOUND * keys / 1024 + MUTREE_SMALL_PAGES + SMALL->own_pages;
    return (pages + MUTREE_SMALL_PAGES - 1) / MUTREE_SMALL_PAGES;
}

int main(int count, char **words)
{
    struct setting settings[SETTINGS] = { { 0, KEYS, 0 }, { 40, NO_LIMIT, 1 }, { 8, NO_LIMIT, 1 } };
    struct ratio most = { 1, 0 };
    int i, quick = count == 2 && strcmp(words[1], "--quick") == 0;
    if (count > 1 && !quick) {
        fprintf(stderr, "usage: bound [--quick]\n");
        return 64;
    }
    if (quick) {
        settings[0].most_keys = QUICK_KEYS;
        settings[1].most_keys = settings[2].most_keys = KEYS;
    }
    settings[0].blocks = blocks_without_collection(settings[0].most_keys);
    for (i = 0; i < SETTINGS; i++)
        most = play_orders(&settings[i], most);
    printf("The largest 1024 X / n: %.2f, at n = %lu and X = %lu. The bound: %d.\n", 1024.0 * (double)most.x / (double)most.n, most.n, most.x,
           BOUND);
    return 0;
}
