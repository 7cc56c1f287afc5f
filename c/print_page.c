#include "print_page.h"
#include "flips.h"
#include "page.h"
#include "say.h"

#include <inttypes.h>
#include <stdio.h>

static void print_place(const struct image *image, uint32_t page)
{
    const struct mutree_geometry *g = image->geometry;
    size_t offset = (size_t)page * g->page_bytes;
    printf("page %" PRIu32 ": block %" PRIu32 ", page %" PRIu32 " of the block, bytes %zu to %zu of the file\n", page,
           page / g->pages, page % g->pages, offset, offset + g->page_bytes - 1);
}

static void print_height(const struct mutree_geometry *g, unsigned height)
{
    if (height > g->top)
        printf("height %u, and the greatest is %u\n", height, (unsigned)g->top);
    else
        printf("height %u, it carries %s\n", height, height > 0 ? "a root" : "no root");
}

/* Whether its nodes are reached from the root. */
static void print_life(const struct survey *s, uint32_t page)
{
    unsigned level;
    if (!s->sound) {
        puts("live or dead: that can't be told, the image is DAMAGED");
        return;
    }
    if (s->levels[page] == 0) {
        puts("dead: no node here is reached from the root");
        return;
    }
    fputs("live: reached from the root at level", stdout);
    for (level = 1; level <= s->geometry->top; level++)
        if (s->levels[page] >> (level - 1) & 1)
            printf(" %u", level);
    puts(survey_is_root(s, page) ? "; the root stands here" : "");
}

/* The spare bytes after the codes that are not 255. */
static void print_rest(const struct image *image, uint32_t page)
{
    const uint8_t *spare = spare_at(image, page);
    unsigned at;
    for (at = spare_rest(image->geometry); at < image->geometry->spare_bytes; at++)
        if (spare[at] != 255)
            printf("spare byte %u is %u, and should be 255\n", at, spare[at]);
}

/* The most entries that a node at this level may have here. */
static unsigned most_entries(const struct mutree_geometry *g, unsigned level, int is_root)
{
    unsigned slots = slots_left(g, level);
    if (is_root)
        return level < g->top ? slots - 1 : slots;
    return level < g->top ? slots / 2 : 0;
}

static void print_level(const struct image *image, uint32_t page, unsigned level)
{
    int is_root = level == height_of(image, page);
    unsigned count = count_of(image, page, level), most = most_entries(image->geometry, level, is_root);
    printf("level %u%s, from slot %u: %u %s, %s%u may stand here; key and %s\n", level, is_root ? ", a root" : "",
           first_slot(image->geometry, level), count, entries_word(count), count > most ? "and at most " : "at most ", most,
           level == 1 ? "address" : "page");
}

/* What could not stand in a live node: a key that does not rise, a page number that names no programmed page. */
static void print_doubts(const struct survey *s, const struct image *image, const uint8_t *slot, unsigned at, unsigned level)
{
    uint32_t address = number_at(slot + 4);
    if (at > 0 && number_at(slot) <= number_at(slot - MUTREE_SLOT_BYTES))
        fputs("  the key does not rise", stdout);
    if (level > 1 && address >= s->pages)
        fputs("  there is no such page", stdout);
    else if (level > 1 && is_erased(image, address))
        fputs("  this page is erased", stdout);
}

static void print_entries(const struct survey *s, const struct image *image, uint32_t page, unsigned level)
{
    unsigned count = count_of(image, page, level), room = slots_left(image->geometry, level), at;
    for (at = 0; at < count && at < room; at++) {
        const uint8_t *slot = slot_at(image, page, level, at);
        printf("  %10" PRIu32 " %10" PRIu32, number_at(slot), number_at(slot + 4));
        if (!s->sound)
            print_doubts(s, image, slot, at, level);
        putchar('\n');
    }
}

/* A level that has entries, or should have some because the page says that its root stands there. */
static int has_level(const struct image *image, uint32_t page, unsigned level)
{
    return count_of(image, page, level) > 0 || level == height_of(image, page);
}

void print_page(const struct survey *s, const struct image *image, uint32_t page)
{
    unsigned level;
    print_place(image, page);
    if (is_erased(image, page)) {
        printf("erased: all its %u bytes are 255\n", (unsigned)image->geometry->page_bytes);
        return;
    }
    printf("programmed: sequence number %" PRIu32 "%s, ", sequence_of(image, page),
           sequence_of(image, page) == 0 ? ", which no page may have" : "");
    print_height(image->geometry, height_of(image, page));
    print_life(s, page);
    fputs("entries by level, from 1 on:", stdout);
    for (level = 1; level <= image->geometry->top; level++)
        printf(" %u", count_of(image, page, level));
    putchar('\n');
    flips_print_page(image, page);
    print_rest(image, page);
    for (level = image->geometry->top; level >= 1; level--)
        if (has_level(image, page, level)) {
            print_level(image, page, level);
            print_entries(s, image, page, level);
        }
}
