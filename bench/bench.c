/* bench.c: how long the calls take, judged and with the record of an opening (request 8), in one run, at 3, 64 and 1,024 blocks of both chips;
 * beside them memcpy of the image as the yardstick, and get and put of the same keys in LMDB (built with -DWITH_LMDB -llmdb) as what a user
 * might pick instead. Then a table of carrying 4,096 records as a text (request 13), beside one judged insert, and one of inserts that
 * collect so many pages (request 7).
 *
 * usage: bench [--svg OUT OPENED]   prints a table for each chip; OUT takes a plot of time against blocks, OPENED one of the calls with and
 *                                   without a record
 *        bench --carry              the table of carrying alone
 *        bench --collect            the table of collecting alone
 *        bench --outdated           the longest calls on damaged images under a record that stands
 *
 * Put into a checkout of before request 7 or 8 it builds there too, so that both can be measured in one sitting.
 */
#define _POSIX_C_SOURCE 200809L
#include "../c/mutree.h"
#include "../tests/independent/built.h"
#include "../tests/independent/code.h"

#include <stdio.h>
#include <stdlib.h>
#include <string.h>
#include <time.h>
#ifdef WITH_LMDB
#include <lmdb.h>
#include <sys/stat.h>
#include <unistd.h>
#endif

/* What inserts and deletes are lent for live pages. The header of before request 7 has no such number, and its calls no such words. */
#ifdef MUTREE_MOST_LIVE_WORDS
static uint32_t live[MUTREE_MOST_LIVE_WORDS];
#define LENT live, MUTREE_MOST_LIVE_WORDS,
#else
#define LENT
#endif

enum { SIZES = 3 };
enum { LEFT = 90, SPAN = 300, PANEL = 390 }; /* of the plot, in pixels */

static const unsigned sizes[SIZES] = { 3, 64, 1024 };
static const char *const chip_names[CHIPS] = { "small pages", "large pages" };

enum {
    MEMCPY, READ, LOOKUP, DISORDER, INSERT, COLLECT, DELETE, FORMAT, PATROL,
    OPEN, LOOKUP_OPENED, LIST_OPENED, INSERT_OPENED, COLLECT_OPENED, DELETE_OPENED, INSERT_NEXT, DELETE_NEXT, /* in this order */
    LMDB_GET, LMDB_PUT, KINDS
};

static const char *const names[KINDS] = {
    "memcpy of the image", "reading the image", "lookup, judged", "lookup, a number out of order", "insert, no collection", "insert, with collection", "delete", "format",
    "patrol of the whole image", "opening", "lookup, opened", "list of 100 pairs, opened", "insert, opened, no collection", "insert, opened, with collection",
    "delete, opened", "insert, opened, the next one", "delete, opened, the next one", "LMDB get", "LMDB put, no sync"
};

/* What the plot of calls with and without a record shows. */
static const int in_opened_plot[KINDS] = { [MEMCPY] = 1, [LOOKUP] = 1, [INSERT] = 1, [COLLECT] = 1, [DELETE] = 1, [OPEN] = 1, [LOOKUP_OPENED] = 1,
                                           [INSERT_OPENED] = 1, [COLLECT_OPENED] = 1, [DELETE_OPENED] = 1, [INSERT_NEXT] = 1, [LMDB_GET] = 1 };

/* The insert with the most stores that there is: how long it takes, a memcpy of its image, its blocks, pages and erases. */
struct worst {
    double time, copy;
    unsigned blocks;
    uint32_t pages, erases;
};

/* What was measured on a chip at one size. */
struct figures {
    unsigned long keys;
    double time[KINDS];
};

static struct figures measured[CHIPS][SIZES];
static struct worst worst[CHIPS];

static double now(void)
{
    struct timespec t;
    clock_gettime(CLOCK_MONOTONIC, &t);
    return (double)t.tv_sec + 1e-9 * (double)t.tv_nsec;
}

static void need(int ok, const char *what)
{
    if (!ok) {
        fprintf(stderr, "bench: %s\n", what);
        exit(1);
    }
}

/* ---- an image with as many leaves as fit on the chip and in a tree, each three quarters full, spread over the programmed pages; an
 * inner node stands on the page of its first child, the other programmed pages are dead, and the wanted number of pages at the end
 * is erased */
struct builder {
    const struct mutree_geometry *chip;
    uint8_t *image;
    uint32_t programmed, leaves, made, key;
};

static uint32_t node_slots(const struct mutree_geometry *chip, unsigned level)
{
    return chip->slots >> level;
}

static uint32_t keys_a_leaf(const struct mutree_geometry *chip)
{
    return node_slots(chip, 1) * 3 / 4;
}

/* The most leaves below a node of this level. */
static uint32_t most_leaves(const struct mutree_geometry *chip, unsigned level)
{
    uint32_t product = 1;
    for (; level > 1; level--)
        product *= node_slots(chip, level);
    return product;
}

/* The same for a stored root: twice the slots, one fewer below the greatest height. */
static uint32_t most_leaves_of_root(const struct mutree_geometry *chip, unsigned height)
{
    return ((chip->slots >> (height - 1)) - (height < chip->top)) * most_leaves(chip, height - 1);
}

static void write_number(uint8_t *at, uint32_t n)
{
    int i;
    for (i = 0; i < 4; i++)
        at[i] = (uint8_t)(n >> (8 * i));
}

static uint32_t page_of(const struct builder *b, uint32_t leaf)
{
    return (uint32_t)((uint64_t)leaf * b->programmed / b->leaves);
}

static uint8_t *page_at(const struct builder *b, uint32_t page)
{
    return b->image + (size_t)page * b->chip->page_bytes;
}

static void add_entry(const struct builder *b, uint32_t leaf, unsigned level, uint32_t key, uint32_t address)
{
    uint8_t *page = page_at(b, page_of(b, leaf));
    uint32_t first = b->chip->slots - (b->chip->slots >> (level - 1)), count = page[b->chip->main_bytes + 4 + level]++;
    uint8_t *slot = page + MUTREE_SLOT_BYTES * (first + count);
    write_number(slot, key);
    write_number(slot + 4, address);
}

/* The node at a level with so many leaves below it; gives its first key. */
static uint32_t grow(struct builder *b, unsigned level, uint32_t below)
{
    uint32_t first = b->made, key = b->key + 16, least, i, n;
    if (level == 1) {
        b->made++;
        for (i = 0; i < keys_a_leaf(b->chip); i++) {
            b->key += 16;
            add_entry(b, first, 1, b->key, b->key);
        }
        return key;
    }
    least = most_leaves(b->chip, level - 1);
    n = (below + least - 1) / least;
    for (i = 0; i < n; i++) {
        uint32_t child = b->made, part = (below + n - 1 - i) / n;
        add_entry(b, first, level, grow(b, level - 1, part), page_of(b, child));
    }
    return key;
}

/* Two blocks' pages and a few more stay without a live node: no insert is ROOM. */
static uint32_t leaves_of(const struct mutree_geometry *chip, unsigned blocks)
{
    uint32_t room = chip->pages * blocks - 2 * chip->pages - 8, most = most_leaves_of_root(chip, chip->top);
    return room > most ? most : room;
}

static unsigned height_of_tree(const struct mutree_geometry *chip, uint32_t leaves)
{
    unsigned height = 2;
    while (leaves > most_leaves_of_root(chip, height))
        height++;
    return height;
}

static uint8_t *built(const struct mutree_geometry *chip, unsigned blocks, uint32_t erased, uint32_t leaves)
{
    struct builder b = { chip, NULL, chip->pages * blocks - erased, leaves, 0, 0 };
    size_t length = (size_t)blocks * chip->block_bytes;
    unsigned height = height_of_tree(chip, b.leaves);
    uint8_t result[MUTREE_RESULT_BYTES];
    uint32_t p;
    b.image = malloc(length);
    need(b.image != NULL, "out of memory");
    memset(b.image, 255, length);
    for (p = 0; p < b.programmed; p++) {
        uint8_t *spare = page_at(&b, p) + chip->main_bytes;
        write_number(spare, p + 1);
        memset(spare + 4, 0, 1 + chip->top);
    }
    grow(&b, height, b.leaves);
    b.image[chip->main_bytes + 4] = (uint8_t)height;
    put_all_codes(&chips[chip->number], b.image, length);
    need(mutree_lookup(chip->number, b.image, length, 16, result, sizeof result) == 0, "the image built is not sound");
    return b.image;
}

/* The same image, and the number of its first dead page has a bit more: no block's numbers are repeated, but they don't rise. */
static uint8_t *disordered(const struct mutree_geometry *chip, unsigned blocks, uint32_t erased)
{
    uint8_t *image = built(chip, blocks, erased, leaves_of(chip, blocks)), *spare = image + chip->main_bytes;
    while (spare[5] != 0)
        spare += chip->page_bytes;
    spare[2] |= 64;
    return image;
}

static uint64_t seed = 1;

static uint32_t some(uint32_t below)
{
    seed = seed * 6364136223846793005u + 1442695040888963407u;
    return (uint32_t)((seed >> 33) % below);
}

static volatile uint64_t sum; /* what read_all read */

/* All words of the image, added up: what reading alone costs. */
static uint32_t read_all(const uint8_t *image, size_t length)
{
    uint64_t word, all = 0;
    size_t at;
    for (at = 0; at + sizeof word <= length; at += sizeof word) {
        memcpy(&word, image + at, sizeof word);
        all += word;
    }
    sum = all;
    return MUTREE_DONE;
}

/* Every half of every page; all are clean. */
static uint32_t patrol_all(const struct mutree_geometry *chip, uint8_t *image, size_t length)
{
    uint8_t result[MUTREE_RESULT_BYTES];
    uint32_t page, half, found = MUTREE_CLEAN;
    for (page = 0; page < length / chip->page_bytes; page++)
        for (half = 0; half < chip->halves; half++) {
            mutree_patrol(chip->number, image, length, page, half, result, sizeof result);
            found |= (uint32_t)mutree_found(mutree_read_result(result));
        }
    return found;
}

/* ---- the calls with a record; before request 8 there are none */
#ifdef MUTREE_RECORD_BYTES
static uint8_t record[MUTREE_RECORD_BYTES], first_record[MUTREE_RECORD_BYTES]; /* of the image, and as it was at the start */

static void open_at_start(uint32_t chip, const uint8_t *start, size_t length)
{
    uint8_t result[MUTREE_RESULT_BYTES];
    need(mutree_open(chip, start, length, first_record, sizeof first_record, result, sizeof result) == MUTREE_DONE, "an opening was refused");
    memcpy(record, first_record, sizeof record);
}

static void take_first_record(void)
{
    memcpy(record, first_record, sizeof record);
}

static uint32_t call_opened(int kind, uint32_t chip, uint8_t *image, size_t length, uint32_t key)
{
    static uint32_t pairs[200];
    uint8_t result[MUTREE_RESULT_BYTES];
    if (kind >= INSERT_OPENED && kind <= DELETE_OPENED)
        take_first_record();
    switch (kind) {
    case OPEN: return mutree_open(chip, image, length, record, sizeof record, result, sizeof result);
    case LOOKUP_OPENED: return mutree_lookup_opened(chip, image, length, record, sizeof record, key, result, sizeof result);
    case LIST_OPENED: return mutree_list_opened(chip, image, length, record, sizeof record, key, key + 16 * 99, pairs, 200, result, sizeof result);
    case DELETE_OPENED:
    case DELETE_NEXT: return mutree_delete_opened(chip, image, length, record, sizeof record, LENT key, UINT32_MAX, result, sizeof result);
    default: return mutree_insert_opened(chip, image, length, record, sizeof record, LENT key + 1, key, UINT32_MAX, result, sizeof result);
    }
}

enum { OPENED_KINDS = 1 };
#else
static void open_at_start(uint32_t chip, const uint8_t *start, size_t length)
{
    (void)chip, (void)start, (void)length;
}

static void take_first_record(void)
{
}

static uint32_t call_opened(int kind, uint32_t chip, uint8_t *image, size_t length, uint32_t key)
{
    (void)kind, (void)chip, (void)image, (void)length, (void)key;
    return MUTREE_LENGTH;
}

enum { OPENED_KINDS = 0 };
#endif

static int is_opened(int kind)
{
    return kind >= OPEN && kind <= DELETE_NEXT;
}

/* Calls that write nothing: they need no copy back. Short ones are timed many at once. */
static int only_reads(int kind)
{
    return kind == LOOKUP || kind == DISORDER || (kind >= OPEN && kind <= LIST_OPENED);
}

static int times_at_once(int kind)
{
    return kind == LOOKUP_OPENED || kind == LIST_OPENED ? 1000 : 1;
}

/* ---- the calls, each on the same image again: the copy back is not counted */
static uint32_t call(int kind, uint32_t chip, const uint8_t *start, uint8_t *image, size_t length, uint32_t key)
{
    uint8_t result[MUTREE_RESULT_BYTES];
    if (is_opened(kind))
        return call_opened(kind, chip, image, length, key);
    switch (kind) {
    case MEMCPY: memcpy(image, start, length); return MUTREE_DONE;
    case READ: return read_all(image, length);
    case PATROL: return patrol_all(mutree_geometry_of(chip), image, length);
    case LOOKUP:
    case DISORDER: return mutree_lookup(chip, image, length, key, result, sizeof result);
    case DELETE: return mutree_delete(chip, image, length, LENT key, UINT32_MAX, result, sizeof result);
    case FORMAT: return mutree_format(chip, image, length, result, sizeof result);
    default: return mutree_insert(chip, image, length, LENT key + 1, key, UINT32_MAX, result, sizeof result);
    }
}

enum { MOST_ROUNDS = 200 };

static int rising(const void *a, const void *b)
{
    double x = *(const double *)a, y = *(const double *)b;
    return (x > y) - (x < y);
}

/* The one in the middle: a round in which the machine did something else does not count. */
static double median(double *times, int rounds)
{
    qsort(times, (size_t)rounds, sizeof *times, rising);
    return times[rounds / 2];
}

static int rounds_for(size_t length)
{
    return length > 4000000 ? 13 : MOST_ROUNDS;
}

static double time_call(int kind, uint32_t chip, const uint8_t *start, uint8_t *image, size_t length, uint32_t keys)
{
    double times[MOST_ROUNDS];
    int i, j, rounds = rounds_for(length), at_once = times_at_once(kind);
    memcpy(image, start, length);
    if (is_opened(kind))
        open_at_start(chip, start, length);
    for (i = 0; i < rounds; i++) {
        uint32_t answer = MUTREE_DONE;
        double from;
        if (!only_reads(kind))
            memcpy(image, start, length);
        from = now();
        for (j = 0; j < at_once; j++)
            answer |= call(kind, chip, start, image, length, 16 * (1 + some(keys)));
        times[i] = now() - from;
        need(answer == 0, "a call was refused");
    }
    return median(times, rounds) / at_once;
}

/* Updates one after another, as a camera makes them: the record goes on from each to the next, and what the one before read is in the
 * caches. The first after the copy back is not counted. Their keys lie far apart. */
static double time_next(int kind, uint32_t chip, const uint8_t *start, uint8_t *image, size_t length, uint32_t keys)
{
    enum { COUNTED = 8 };
    double times[MOST_ROUNDS];
    int i, rounds = rounds_for(length);
    uint32_t j;
    open_at_start(chip, start, length);
    for (i = 0; i < rounds; i++) {
        uint32_t answer, first = some(keys), apart = keys / (COUNTED + 1);
        double from;
        memcpy(image, start, length);
        take_first_record();
        answer = call(kind, chip, start, image, length, 16 * (1 + first));
        from = now();
        for (j = 1; j <= COUNTED; j++)
            answer |= call(kind, chip, start, image, length, 16 * (1 + (first + j * apart) % keys));
        times[i] = now() - from;
        need(answer == 0, "a call was refused");
    }
    return median(times, rounds) / COUNTED;
}

static int is_tight(int kind)
{
    return kind == COLLECT || kind == COLLECT_OPENED;
}

static void measure(const struct mutree_geometry *chip, int at)
{
    size_t length = (size_t)sizes[at] * chip->block_bytes;
    uint8_t *image = malloc(length);
    uint32_t leaves = leaves_of(chip, sizes[at]);
    uint8_t *roomy = built(chip, sizes[at], chip->pages * 3 / 2, leaves), *tight = built(chip, sizes[at], chip->pages, leaves);
    uint8_t *unsorted = disordered(chip, sizes[at], chip->pages * 3 / 2);
    struct figures *f = &measured[chip->number][at];
    int kind;
    need(image != NULL, "out of memory");
    f->keys = (unsigned long)leaves * keys_a_leaf(chip);
    for (kind = MEMCPY; kind <= (OPENED_KINDS ? DELETE_OPENED : PATROL); kind++)
        f->time[kind] = time_call(kind, chip->number, is_tight(kind) ? tight : kind == DISORDER ? unsorted : roomy, image, length,
                                  (uint32_t)f->keys);
    for (kind = INSERT_NEXT; OPENED_KINDS && kind <= DELETE_NEXT; kind++)
        f->time[kind] = time_next(kind, chip->number, roomy, image, length, (uint32_t)f->keys);
    free(image);
    free(roomy);
    free(tight);
    free(unsorted);
}

/* The image of tests/independent that reaches the bounds of an insert: all pages of each block live but one, a full path. */
static void measure_worst(uint32_t number)
{
    enum { ROUNDS = 40 };
    double copies[ROUNDS], times[ROUNDS];
    const struct chip *chip = &chips[number];
    struct worst *w = &worst[number];
    uint32_t row = chip->block_pages, blocks = row + chip->own_pages;
    struct built plan = { chip, blocks, chip->top, 3, FIRST_PATH, (blocks - 1) * (row - 1), (blocks - 1) * row + 1 };
    size_t length = length_of(chip, blocks);
    uint8_t *start = build(plan), *image = malloc(length), result[MUTREE_RESULT_BYTES];
    int i;
    need(image != NULL, "out of memory");
    w->blocks = blocks;
    for (i = 0; i < ROUNDS; i++) {
        double from = now();
        memcpy(image, start, length);
        copies[i] = now() - from;
        from = now();
        need(mutree_insert(number, image, length, LENT 3, 99, UINT32_MAX, result, sizeof result) == MUTREE_DONE, "the worst insert was refused");
        times[i] = now() - from;
    }
    w->copy = median(copies, ROUNDS);
    w->time = median(times, ROUNDS);
    w->pages = mutree_read_result(result).programmed;
    w->erases = mutree_read_result(result).erased;
    free(start);
    free(image);
}

/* ---- carrying 4,096 records, rising by 16, on the fewest blocks that take them and on 64 */
struct carrying {
    const struct mutree_geometry *chip;
    size_t length, text_length;
    uint8_t *image, *made, *text; /* `made` is what the import leaves */
};

enum { CARRY_INSERT, CARRY_EXPORT, CARRY_IMPORT, CARRY_KINDS };

static uint32_t carry(int kind, struct carrying *c)
{
    uint8_t result[MUTREE_RESULT_BYTES];
    uint32_t number = c->chip->number, key = 16 * (1 + some(MUTREE_MOST_RECORDS)); /* a present one */
    switch (kind) {
    case CARRY_INSERT: return mutree_insert(number, c->image, c->length, LENT key, key, UINT32_MAX, result, sizeof result);
    case CARRY_EXPORT: return mutree_export(number, c->image, c->length, c->text, c->text_length, result, sizeof result);
    default: return mutree_import(number, c->image, c->length, c->text, c->text_length, result, sizeof result);
    }
}

static double time_carry(int kind, struct carrying *c)
{
    double total = 0;
    int i, rounds = kind != CARRY_IMPORT ? 200 : c->length > 4000000 ? 1 : 3;
    for (i = 0; i < rounds; i++) {
        uint32_t answer;
        double from;
        memcpy(c->image, c->made, c->length);
        from = now();
        answer = carry(kind, c);
        total += now() - from;
        need(answer == 0, "a call was refused");
    }
    return total / rounds;
}

static void carry_row(const struct mutree_geometry *chip, unsigned blocks)
{
    struct carrying c = { chip, (size_t)blocks * chip->block_bytes, 0, NULL, NULL, NULL };
    double time[CARRY_KINDS];
    uint32_t i;
    int kind;
    c.image = malloc(c.length);
    c.made = malloc(c.length);
    c.text = malloc(MUTREE_MOST_RECORDS * MUTREE_LINE_BYTES + 1);
    need(c.image != NULL && c.made != NULL && c.text != NULL, "out of memory");
    for (i = 1; i <= MUTREE_MOST_RECORDS; i++)
        c.text_length += (size_t)sprintf((char *)c.text + c.text_length, "%lu\t%lu\n", 16 * (unsigned long)i, (unsigned long)i);
    need(carry(CARRY_IMPORT, &c) == 0, "the import was refused");
    memcpy(c.made, c.image, c.length);
    for (kind = 0; kind < CARRY_KINDS; kind++)
        time[kind] = time_carry(kind, &c);
    printf("| %s, %u blocks | %.1f | %.1f | %.1f | %.1f | %.0f |\n", chip_names[chip->number], blocks, 1e6 * time[CARRY_INSERT],
           1e6 * time[CARRY_EXPORT], 1e6 * time[CARRY_IMPORT], 1e6 * time[CARRY_IMPORT] / MUTREE_MOST_RECORDS,
           time[CARRY_IMPORT] / time[CARRY_INSERT]);
    fflush(stdout);
    free(c.image);
    free(c.made);
    free(c.text);
}

static void carry_table(void)
{
    printf("| carrying %u records: microseconds | one insert, judged | export | import | import, a record | import, in inserts |\n"
           "|---|---|---|---|---|---|\n", MUTREE_MOST_RECORDS);
    carry_row(mutree_geometry_of(MUTREE_SMALL), 10);
    carry_row(mutree_geometry_of(MUTREE_SMALL), 64);
    carry_row(mutree_geometry_of(MUTREE_LARGE), 3);
    carry_row(mutree_geometry_of(MUTREE_LARGE), 64);
    printf("\n");
}

/* ---- inserts that collect so many pages. Each block without an erased page has as many live pages as is moved from it, all on images of 64
 * and 1,024 blocks. Of 1,024 small blocks no more than 2 pages a block are live, as the tree has no more leaves; there one block has 1, and
 * after it one with 2 is collected too. Of 64 small blocks 32 pages are moved from two blocks. */
struct collection {
    uint32_t number;
    unsigned blocks;
    uint32_t leaves, erased, moved, erases;
};

static const struct collection collections[] = {
    { MUTREE_SMALL, 64, 3 * 63, 32, 3, 1 },     { MUTREE_SMALL, 64, 13 * 63, 32, 13, 1 },     { MUTREE_SMALL, 64, 16 * 63 + 8, 16, 32, 2 },
    { MUTREE_SMALL, 1024, 2046, 1, 3, 2 },      { MUTREE_LARGE, 64, 3 * 63, 64, 3, 1 },       { MUTREE_LARGE, 64, 13 * 63, 64, 13, 1 },
    { MUTREE_LARGE, 64, 32 * 63, 64, 32, 1 },   { MUTREE_LARGE, 1024, 3 * 1023, 64, 3, 1 },   { MUTREE_LARGE, 1024, 13 * 1023, 64, 13, 1 },
    { MUTREE_LARGE, 1024, 32 * 1023, 64, 32, 1 },
};

static void print_collection(uint32_t number, unsigned blocks, uint32_t moved, uint32_t erases, double time, double copy)
{
    printf("| %s, %u blocks | %u | %u | %.1f | %.2f |\n", chip_names[number], blocks, (unsigned)moved, (unsigned)erases, 1e6 * time, time / copy);
    fflush(stdout);
}

/* The planned pages are moved, and one more is programmed, the insert's own. */
static void moves_as_planned(const struct collection *c, const uint8_t *start, uint8_t *image, size_t length)
{
    uint8_t result[MUTREE_RESULT_BYTES];
    struct mutree_result made;
    memcpy(image, start, length);
    need(mutree_insert(c->number, image, length, LENT 17, 1, UINT32_MAX, result, sizeof result) == MUTREE_DONE, "an insert was refused");
    made = mutree_read_result(result);
    need(made.programmed == c->moved + 1 && made.erased == c->erases, "an insert does not move as many pages as planned");
}

static void collect_row(const struct collection *c)
{
    const struct mutree_geometry *chip = mutree_geometry_of(c->number);
    size_t length = (size_t)c->blocks * chip->block_bytes;
    uint8_t *start = built(chip, c->blocks, c->erased, c->leaves), *image = malloc(length);
    uint32_t keys = c->leaves * keys_a_leaf(chip);
    need(image != NULL, "out of memory");
    moves_as_planned(c, start, image, length);
    print_collection(c->number, c->blocks, c->moved, c->erases, time_call(COLLECT, c->number, start, image, length, keys),
                     time_call(MEMCPY, c->number, start, image, length, keys));
    free(start);
    free(image);
}

/* Last the inserts with the most stores, measured before. */
static void collect_table(void)
{
    size_t i;
    uint32_t number;
    printf("| inserts that collect | pages moved | blocks erased | microseconds | times memcpy |\n|---|---|---|---|---|\n");
    for (i = 0; i < sizeof collections / sizeof *collections; i++)
        collect_row(&collections[i]);
    for (number = 0; number < CHIPS; number++) {
        const struct worst *w = &worst[number];
        print_collection(number, w->blocks, w->pages - chips[number].own_pages, w->erases, w->time, w->copy);
    }
    printf("\n");
}

#ifdef WITH_LMDB
struct store {
    char folder[24];
    MDB_env *env;
    MDB_dbi dbi;
};

/* One transaction: a get, or a put of the key as its own value. */
static void lmdb_call(struct store *s, int puts, uint32_t key)
{
    uint32_t value = key;
    MDB_val k = { sizeof key, &key }, v = { sizeof value, &value };
    MDB_txn *txn;
    need(!mdb_txn_begin(s->env, NULL, puts ? 0 : MDB_RDONLY, &txn), "LMDB begin");
    if (puts) {
        need(!mdb_put(txn, s->dbi, &k, &v, 0) && !mdb_txn_commit(txn), "LMDB put");
    } else {
        need(!mdb_get(txn, s->dbi, &k, &v), "LMDB get");
        mdb_txn_abort(txn);
    }
}

static void lmdb_fill(struct store *s, uint32_t keys)
{
    uint32_t i, key;
    MDB_val k = { sizeof key, &key }, v = k;
    MDB_txn *txn;
    need(mkdtemp(strcpy(s->folder, "bench-lmdb-XXXXXX")) != NULL, "no temporary folder");
    need(!mdb_env_create(&s->env) && !mdb_env_set_mapsize(s->env, (size_t)1 << 30), "LMDB");
    need(!mdb_env_open(s->env, s->folder, MDB_NOSYNC, 0600), "LMDB open");
    need(!mdb_txn_begin(s->env, NULL, 0, &txn) && !mdb_dbi_open(txn, NULL, MDB_INTEGERKEY, &s->dbi), "LMDB begin");
    for (i = 1; i <= keys; i++) {
        key = 16 * i;
        need(!mdb_put(txn, s->dbi, &k, &v, 0), "LMDB fill");
    }
    need(!mdb_txn_commit(txn), "LMDB commit");
}

static void lmdb_remove(struct store *s)
{
    char file[40];
    mdb_env_close(s->env);
    snprintf(file, sizeof file, "%s/data.mdb", s->folder);
    unlink(file);
    snprintf(file, sizeof file, "%s/lock.mdb", s->folder);
    unlink(file);
    rmdir(s->folder);
}

static void measure_lmdb(struct figures *f)
{
    enum { ROUNDS = 20, AT_ONCE = 100 };
    double times[ROUNDS];
    struct store s;
    int kind, i, j;
    lmdb_fill(&s, (uint32_t)f->keys);
    for (kind = LMDB_GET; kind <= LMDB_PUT; kind++) {
        for (i = 0; i < ROUNDS; i++) {
            double from = now();
            for (j = 0; j < AT_ONCE; j++)
                lmdb_call(&s, kind == LMDB_PUT, 16 * (1 + some((uint32_t)f->keys)) + (kind == LMDB_PUT));
            times[i] = (now() - from) / AT_ONCE;
        }
        f->time[kind] = median(times, ROUNDS);
    }
    lmdb_remove(&s);
}
#else
static void measure_lmdb(struct figures *f)
{
    f->time[LMDB_GET] = f->time[LMDB_PUT] = 0;
}
#endif

static void table(uint32_t chip)
{
    const struct figures *f = measured[chip];
    int at, kind;
    printf("| %s: microseconds a call (and times memcpy) |", chip_names[chip]);
    for (at = 0; at < SIZES; at++)
        printf(" %u blocks, %lu keys |", sizes[at], f[at].keys);
    printf("\n|---|---|---|---|\n");
    for (kind = 0; kind < KINDS; kind++) {
        if (f[0].time[kind] == 0)
            continue;
        printf("| %s |", names[kind]);
        for (at = 0; at < SIZES; at++)
            printf(" %.*f (%.2f) |", f[at].time[kind] < 1e-6 ? 2 : 1, 1e6 * f[at].time[kind], f[at].time[kind] / f[at].time[MEMCPY]);
        printf("\n");
    }
    printf("\n");
}

/* The largest image of a chip. */
static void tell_largest(uint32_t number)
{
    const struct mutree_geometry *chip = mutree_geometry_of(number);
    const struct figures *f = &measured[number][SIZES - 1];
    printf("Judging %u blocks with %s, %lu bytes: %.1f ms, %.2f times a memcpy of the image, %.2f times reading it.\n", sizes[SIZES - 1],
           chip_names[number], (unsigned long)sizes[SIZES - 1] * chip->block_bytes, 1e3 * f->time[LOOKUP],
           f->time[LOOKUP] / f->time[MEMCPY], f->time[LOOKUP] / f->time[READ]);
}

static void tell_worst(uint32_t number)
{
    const struct worst *w = &worst[number];
    printf("The insert with the most stores, %u blocks with %s: %u pages and %u erases in %.1f microseconds, %.2f times a memcpy of the "
           "image.\n", w->blocks, chip_names[number], (unsigned)w->pages, (unsigned)w->erases, 1e6 * w->time, w->time / w->copy);
}

/* The decimal logarithm of x >= 1, to 20 binary places: a square doubles it. */
static double logarithm(double x)
{
    double sum = 0, place = 0.5;
    for (; x >= 10; x /= 10)
        sum += 1;
    for (; place > 1e-6; place /= 2) {
        x *= x;
        if (x >= 10) {
            sum += place;
            x /= 10;
        }
    }
    return sum;
}

/* Where a time stands in the plot: powers of ten from 0.1 to 1,000,000 microseconds are 54 apart, all between by logarithm. */
static double height_of(double seconds)
{
    double tenths = 1e7 * seconds;
    return 400 - 54 * (tenths < 1 ? 0 : logarithm(tenths));
}

/* The same across, from the fewest blocks to the most, a panel for each chip. */
static double across(uint32_t chip, unsigned blocks)
{
    return LEFT + PANEL * chip + SPAN * logarithm((double)blocks / sizes[0]) / logarithm((double)sizes[SIZES - 1] / sizes[0]);
}

static const char *const colours[KINDS] = { "#000000", "#999999", "#1b7837", "#7fbf7b", "#2166ac", "#b2182b", "#762a83", "#e08214", "#c51b7d",
                                            "#f1b6da", "#1b7837", "#a6d96a", "#2166ac", "#b2182b", "#762a83", "#67a9cf", "#af8dc3", "#4d9221", "#8073ac" };

/* A call with a record has the colour of the one without, and a broken line. */
static const char *dashes(int kind)
{
    return is_opened(kind) ? " stroke-dasharray='6 4'" : "";
}

/* One call's line through its three points. */
static void plot_line(FILE *f, uint32_t chip, int kind)
{
    int at;
    fprintf(f, "<!-- %s --><polyline fill='none' stroke='%s'%s stroke-width='2' points='", names[kind], colours[kind], dashes(kind));
    for (at = 0; at < SIZES; at++)
        fprintf(f, "%.1f,%.1f ", across(chip, sizes[at]), height_of(measured[chip][at].time[kind]));
    fprintf(f, "'/>\n");
    for (at = 0; at < SIZES; at++)
        fprintf(f, "<circle cx='%.1f' cy='%.1f' r='3' fill='%s'/>", across(chip, sizes[at]), height_of(measured[chip][at].time[kind]),
                colours[kind]);
    fprintf(f, "\n");
}

static int is_shown(const int *shown, int kind)
{
    return measured[0][0].time[kind] > 0 && (shown == NULL || shown[kind]);
}

static void plot_panel(FILE *f, uint32_t chip, const int *shown)
{
    int at, kind;
    fprintf(f, "<text x='%.1f' y='448' text-anchor='middle'>%s</text>\n", LEFT + PANEL * chip + SPAN / 2.0, chip_names[chip]);
    for (at = 0; at < SIZES; at++)
        fprintf(f, "<text x='%.1f' y='424' text-anchor='middle'>%u blocks</text>\n", across(chip, sizes[at]), sizes[at]);
    for (kind = 0; kind < KINDS; kind++)
        if (is_shown(shown, kind))
            plot_line(f, chip, kind);
}

/* The powers of ten across both panels, and the names of the lines. */
static void plot_frame(FILE *f, const int *shown)
{
    static const char *const powers[] = { "0.1 µs", "1 µs", "10 µs", "100 µs", "1 ms", "10 ms", "100 ms", "1 s" };
    int line, kind, at = 40, right = LEFT + PANEL * CHIPS;
    for (line = 0; line <= 7; line++)
        fprintf(f, "<line x1='70' x2='%d' y1='%d' y2='%d' stroke='#dddddd'/><text x='64' y='%d' text-anchor='end'>%s</text>\n",
                right - 20, 400 - 54 * line, 400 - 54 * line, 404 - 54 * line, powers[line]);
    for (kind = 0; kind < KINDS; kind++)
        if (is_shown(shown, kind)) {
            fprintf(f, "<line x1='%d' x2='%d' y1='%d' y2='%d' stroke='%s'%s stroke-width='2'/><text x='%d' y='%d'>%s</text>\n", right, right + 24,
                    at, at, colours[kind], dashes(kind), right + 30, at + 4, names[kind]);
            at += 20;
        }
}

/* All calls, or those that are shown. */
static void plot(const char *path, const char *title, const int *shown)
{
    FILE *f = fopen(path, "w");
    uint32_t chip;
    need(f != NULL, "cannot write the plot");
    fprintf(f, "<svg xmlns='http://www.w3.org/2000/svg' width='%d' height='460' font-family='sans-serif' font-size='12'>\n"
               "<rect width='100%%' height='100%%' fill='#ffffff'/>\n"
               "<text x='70' y='14'>%s, both axes logarithmic</text>\n", LEFT + PANEL * CHIPS + 250, title);
    plot_frame(f, shown);
    for (chip = 0; chip < CHIPS; chip++)
        plot_panel(f, chip, shown);
    fputs("</svg>\n", f);
    need(fclose(f) == 0, "cannot write the plot");
}

/* ---- the longest calls under a record that stands on a damaged image: a page that leads to itself at every level, as often as a node can,
 * with a full leaf or an empty one */
#ifdef MUTREE_RECORD_BYTES
static void spoil(const struct mutree_geometry *chip, uint8_t *image, uint8_t leaf)
{
    unsigned level, i;
    for (i = 0; i < chip->slots; i++) {
        write_number(image + MUTREE_SLOT_BYTES * i, i);
        write_number(image + MUTREE_SLOT_BYTES * i + 4, 0);
    }
    write_number(image + chip->main_bytes, 1);
    image[chip->main_bytes + 4] = (uint8_t)chip->top;
    for (level = 1; level <= chip->top; level++)
        image[chip->main_bytes + 4 + level] = level == 1 ? leaf : 255;
}

static void outdated_row(const struct mutree_geometry *chip, uint8_t *image, size_t length, uint8_t leaf)
{
    static uint32_t pairs[2];
    uint8_t result[MUTREE_RESULT_BYTES], bytes[MUTREE_RECORD_BYTES];
    double from, time[3];
    uint32_t listed;
    int i;
    for (i = 0; i < 3; i++) {
        memset(image, 255, length);
        spoil(chip, image, leaf);
        memset(bytes, 0, sizeof bytes);
        write_number(bytes + 4, 1);
        write_number(bytes + 8, 1);
        write_number(bytes + 12, chip->top);
        write_number(bytes + 16, 1);
        write_number(bytes + 20, (uint32_t)(length / chip->page_bytes) - 1);
        from = now();
        if (i == 0)
            mutree_insert_opened(chip->number, image, length, bytes, sizeof bytes, LENT 3, 3, UINT32_MAX, result, sizeof result);
        else if (i == 1)
            mutree_delete_opened(chip->number, image, length, bytes, sizeof bytes, LENT 3, UINT32_MAX, result, sizeof result);
        else
            mutree_list_opened(chip->number, image, length, bytes, sizeof bytes, 0, UINT32_MAX, pairs, 2, result, sizeof result);
        time[i] = now() - from;
    }
    listed = mutree_read_listed(result).exist;
    printf("| %s, a leaf with %u entries | %.1f | %.1f | %.1f | %lu |\n", chip_names[chip->number], (unsigned)leaf, 1e3 * time[0], 1e3 * time[1], 1e3 * time[2],
           (unsigned long)listed);
    fflush(stdout);
}

static void outdated_table(void)
{
    uint32_t number;
    printf("| damaged, under a record that stands: milliseconds | insert | delete | list | pairs listed |\n|---|---|---|---|---|\n");
    for (number = 0; number < CHIPS; number++) {
        const struct mutree_geometry *chip = mutree_geometry_of(number);
        size_t length = 1024 * (size_t)chip->block_bytes;
        uint8_t *image = malloc(length);
        need(image != NULL, "out of memory");
        outdated_row(chip, image, length, 255);
        outdated_row(chip, image, length, 0);
        free(image);
    }
    printf("\n");
}
#else
static void outdated_table(void)
{
    printf("there are no calls with a record\n");
}
#endif

int main(int count, char **words)
{
    uint32_t chip;
    int at;
    if (count == 2 && strcmp(words[1], "--carry") == 0) {
        carry_table();
        return 0;
    }
    if (count == 2 && strcmp(words[1], "--outdated") == 0) {
        outdated_table();
        return 0;
    }
    for (chip = 0; chip < CHIPS; chip++)
        measure_worst(chip);
    if (count == 2 && strcmp(words[1], "--collect") == 0) {
        collect_table();
        return 0;
    }
    for (chip = 0; chip < CHIPS; chip++)
        for (at = 0; at < SIZES; at++) {
            measure(mutree_geometry_of(chip), at);
            measure_lmdb(&measured[chip][at]);
        }
    for (chip = 0; chip < CHIPS; chip++)
        table(chip);
    for (chip = 0; chip < CHIPS; chip++)
        tell_largest(chip);
    for (chip = 0; chip < CHIPS; chip++)
        tell_worst(chip);
    printf("\n");
    carry_table();
    collect_table();
    if (count >= 3 && strcmp(words[1], "--svg") == 0)
        plot(words[2], "time of a call against blocks", NULL);
    if (count == 4 && strcmp(words[1], "--svg") == 0)
        plot(words[3], "time of a call against blocks, judged (whole lines) and with the record of an opening (broken lines)", in_opened_plot);
    return 0;
}
