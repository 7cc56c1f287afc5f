#include "survey.h"
#include "page.h"

#include <stdlib.h>
#include <string.h>

static void add_pair(struct survey *s, uint32_t key, uint32_t address)
{
    if (s->entries == s->room) {
        s->room = s->room ? 2 * s->room : 64;
        s->pairs = need(realloc(s->pairs, s->room * sizeof *s->pairs));
    }
    s->pairs[s->entries].key = key;
    s->pairs[s->entries].address = address;
    s->entries++;
}

/* The live nodes from one down, in key order. The image is sound: levels fall, and page numbers are in range. */
static void walk(struct survey *s, const struct image *image, uint32_t page, unsigned level)
{
    unsigned i;
    if (s->page[page] == PAGE_DEAD || s->page[page] > (int)level)
        s->page[page] = (signed char)level;
    s->levels[page] |= (unsigned char)(1 << (level - 1));
    for (i = 0; i < count_of(image, page, level); i++) {
        const uint8_t *slot = slot_at(image, page, level, i);
        if (level == 1)
            add_pair(s, number_at(slot), number_at(slot + 4));
        else
            walk(s, image, number_at(slot + 4), level - 1);
    }
}

/* Erased or not; and the root, where this page carries the newest one so far. */
static void look_at_page(struct survey *s, const struct image *image, uint32_t page, uint32_t *newest)
{
    uint32_t sequence = sequence_of(image, page);
    unsigned height = height_of(image, page);
    if (is_erased(image, page)) {
        s->page[page] = PAGE_ERASED;
        s->erased++;
        return;
    }
    if (sequence > s->largest)
        s->largest = sequence;
    if (height >= 1 && sequence > *newest) {
        *newest = sequence;
        s->root = page;
        s->height = height;
    }
}

static void count_levels(struct survey *s)
{
    size_t page;
    for (page = 0; page < s->pages; page++)
        if (s->page[page] > PAGE_DEAD) {
            s->level[(int)s->page[page]]++;
            s->live++;
        }
    s->dead = s->pages - s->erased - s->live;
}

struct survey survey_image(const struct image *image, struct mutree_result verdict)
{
    struct survey s;
    uint32_t page, newest = 0;
    memset(&s, 0, sizeof s);
    s.geometry = image->geometry;
    s.verdict = verdict;
    s.sound = verdict.answer == MUTREE_DONE;
    s.blocks = image->length / s.geometry->block_bytes;
    s.pages = s.blocks * s.geometry->pages;
    s.page = need(calloc(s.pages ? s.pages : 1, 1));
    s.levels = need(calloc(s.pages ? s.pages : 1, 1));
    for (page = 0; page < s.pages; page++)
        look_at_page(&s, image, page, &newest);
    if (s.sound) {
        walk(&s, image, s.root, s.height);
        count_levels(&s);
    }
    return s;
}

void survey_free(struct survey *s)
{
    free(s->page);
    free(s->levels);
    free(s->pairs);
    s->page = NULL;
    s->levels = NULL;
    s->pairs = NULL;
}

int same_map(const struct survey *a, const struct survey *b)
{
    return a->entries == b->entries
        && (a->entries == 0 || memcmp(a->pairs, b->pairs, a->entries * sizeof *a->pairs) == 0);
}

int survey_is_root(const struct survey *s, size_t page)
{
    return s->sound && page == s->root;
}

void survey_block(const struct survey *s, size_t block, unsigned *live, unsigned *erased)
{
    const signed char *page = s->page + block * s->geometry->pages;
    unsigned i;
    *live = *erased = 0;
    for (i = 0; i < s->geometry->pages; i++) {
        *live += page[i] > PAGE_DEAD;
        *erased += page[i] == PAGE_ERASED;
    }
}
