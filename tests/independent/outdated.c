/* outdated.c: request 8, "On other pairs the calls stay memory-safe and program erased pages only". Records that are not the image's, of every
 * kind, on sound images, damaged ones and any bytes: older ones, those of other images, any bytes, and right ones in which next page,
 * erased pages, largest number, number or height lie. All buffers stand against guard pages. Looked at is: STALE exactly where the page
 * that is named is not programmed with that number and height; lookups and lists write nothing; with one store more allowed, one erased page is
 * programmed or one block erased; a call that makes fewer stores than it may is STOPPED, and says how many it made; and how long the longest
 * call took, in processor time. */
#define _DEFAULT_SOURCE
#include "opened.h"
#include "code.h"
#include "marked.h"

#include <stdio.h>
#include <stdlib.h>
#include <string.h>
#include <time.h>

enum { STEPS = 40, ANSWERS = 10, FIRST_ONES = 6 };
enum { OLDER, OTHERS, ANY, ANY_STANDING, NEXT_LIES, ERASED_LIES, MOST_LIES, NUMBER_LIES, HEIGHT_LIES, ALL_LIE, KINDS };

static struct {
    unsigned long pairs, calls, answers[ANSWERS], stores, cuts, damaged, kinds[KINDS], left;
    double longest, longest_list;
} met;

/* A log, image by image, with the record of each; the last is what the other images are made of. */
static uint8_t *images[STEPS], records[STEPS][RECORD];
static size_t length;

static uint32_t number_of(const uint8_t *image, uint32_t page)
{
    return number_at(image + (size_t)page * chip->page + chip->main);
}

static int is_erased(const uint8_t *image, size_t page)
{
    return all_255(image + page * chip->page, chip->page);
}

int is_standing(const struct chip *on, const uint8_t *image, size_t bytes, const uint8_t *record)
{
    struct mutree_record r = mutree_read_record(record);
    const uint8_t *page = image + (size_t)r.root * on->page;
    return r.root < bytes / on->page && !all_255(page, on->page) && number_at(page + on->main) == r.number && page[on->main + 4] == r.height;
}

static void put_number(uint8_t *at, uint32_t n)
{
    int i;
    for (i = 0; i < 4; i++)
        at[i] = (uint8_t)(n >> (8 * i));
}

/* ---- one call */
static double now(void)
{
    struct timespec t;
    clock_gettime(CLOCK_PROCESS_CPUTIME_ID, &t);
    return (double)t.tv_sec + 1e-9 * (double)t.tv_nsec;
}

/* The buffers of a call, on copies. */
struct trial {
    struct guarded image, record, words, pairs;
    uint8_t result[RESULT];
    struct mutree_result told;
};

static struct trial prepared(const uint8_t *image, const uint8_t *record)
{
    struct trial t;
    t.image = guarded_make(length, (int)pick(2));
    memcpy(t.image.bytes, image, length);
    t.record = marked(RECORD + pick(3));
    memcpy(t.record.bytes, record, RECORD);
    t.words = marked(4 * (length / chip->page / 32 + pick(3)));
    t.pairs = marked(4 * pick(40));
    return t;
}

static void put_away(struct trial *t)
{
    guarded_free(&t->image);
    guarded_free(&t->record);
    guarded_free(&t->words);
    guarded_free(&t->pairs);
}

enum { LOOKUP, LIST, INSERT, DELETE };

static uint32_t make(int which, struct trial *t, uint32_t key, uint32_t allowance)
{
    uint32_t *live = numbers_of(&t->words), *pairs = numbers_of(&t->pairs);
    size_t words = t->words.length / 4;
    switch (which) {
    case LOOKUP: return mutree_lookup_opened(chip->number, t->image.bytes, length, t->record.bytes, t->record.length, key, t->result, RESULT);
    case LIST:
        return mutree_list_opened(chip->number, t->image.bytes, length, t->record.bytes, t->record.length, key, key + 50, pairs, t->pairs.length / 4,
                                  t->result, RESULT);
    case INSERT:
        return mutree_insert_opened(chip->number, t->image.bytes, length, t->record.bytes, t->record.length, live, words, key, 7, allowance, t->result,
                                    RESULT);
    default:
        return mutree_delete_opened(chip->number, t->image.bytes, length, t->record.bytes, t->record.length, live, words, key, allowance, t->result,
                                    RESULT);
    }
}

/* Makes the call, takes its time, and looks at what every call must leave. */
static void called(int which, struct trial *t, const uint8_t *record, uint32_t key, uint32_t allowance, int standing)
{
    double from = now();
    uint32_t answer = make(which, t, key, allowance);
    double took = now() - from, *longest = which == LIST ? &met.longest_list : &met.longest;
    *longest = took > *longest ? took : *longest;
    t->told = mutree_read_result(t->result);
    if (answer != t->told.answer || answer > MUTREE_STALE || answer == MUTREE_LENGTH || answer == MUTREE_DAMAGED || t->told.rule || t->told.page)
        fail("a call with any record gives no answer that is its own");
    if ((answer == MUTREE_STALE) == standing)
        fail("STALE is told exactly where the page is not programmed with the record's number and height");
    stay_from(&t->record, RECORD, "a call with any record wrote past it");
    stay_from(&t->words, standing ? 4 * (length / chip->page / 32) : 0, "a call with any record wrote a word past the image's, or was STALE and wrote one");
    if ((answer == MUTREE_STALE || which < INSERT) && memcmp(t->record.bytes, record, RECORD) != 0)
        fail("a STALE call, a lookup or a list wrote to the record");
    met.calls++;
    met.answers[answer]++;
}

/* ---- stores */
/* One store leads from old to new, or none where both are alike: an erased page programmed, or a block erased. */
static void is_one_store(const uint8_t *old, const uint8_t *new)
{
    size_t p, pages = length / chip->page, changed = 0, which = 0, from;
    for (p = 0; p < pages; p++)
        if (memcmp(old + p * chip->page, new + p * chip->page, chip->page) != 0) {
            changed++;
            which = p;
        }
    if (changed == 0 || (changed == 1 && is_erased(old, which)))
        return;
    from = which - which % chip->block_pages;
    for (p = 0; p < pages; p++)
        if (p >= from && p < from + chip->block_pages ? !is_erased(new, p) : memcmp(old + p * chip->page, new + p * chip->page, chip->page) != 0)
            fail("a page was programmed that was not erased, under a record that is not the image's");
}

/* Where pages changed that were not erased, their blocks were erased: no more of them than the call says. */
static void is_covered(const uint8_t *old, const uint8_t *new, struct mutree_result told)
{
    size_t b, p, row = chip->block_pages, blocks = 0, programmed = 0;
    for (b = 0; b < length / chip->page / row; b++) {
        int again = 0;
        for (p = b * row; p < (b + 1) * row; p++) {
            int differs = memcmp(old + p * chip->page, new + p * chip->page, chip->page) != 0;
            again |= differs && !is_erased(old, p);
            programmed += (size_t)(differs && !is_erased(new, p));
        }
        blocks += (size_t)again;
    }
    if (blocks > told.erased || programmed > told.programmed)
        fail("more blocks or pages changed than a call says, under a record that is not the image's");
}

/* A call that made fewer stores than it was allowed is STOPPED there. */
static int is_cut(struct mutree_result told, uint32_t allowance)
{
    if (told.answer == MUTREE_STOPPED && told.programmed + told.erased > allowance)
        fail("a call made more stores than it was allowed");
    return told.answer == MUTREE_STOPPED && told.programmed + told.erased < allowance;
}

/* An update with 0, 1, 2 .. stores, so many as are tried, and with no limit. */
static void stores_are_careful(int which, const uint8_t *image, const uint8_t *record, uint32_t key, int standing)
{
    uint8_t *last = copy_of(image, length);
    uint32_t allowance, made;
    struct trial t;
    int more = 1;
    for (allowance = 0; more; allowance = allowance == FIRST_ONES ? UINT32_MAX : allowance + 1) {
        t = prepared(image, record);
        called(which, &t, record, key, allowance, standing);
        made = t.told.programmed + t.told.erased;
        if ((t.told.answer != MUTREE_DONE && t.told.answer != MUTREE_STOPPED && (made > 0 || memcmp(t.image.bytes, image, length) != 0))
            || (allowance == 0 && memcmp(t.image.bytes, image, length) != 0))
            fail("a refused call, or one without an allowance, wrote under a record that is not the image's");
        if (allowance <= FIRST_ONES)
            is_one_store(last, t.image.bytes);
        is_covered(image, t.image.bytes, t.told);
        met.stores += allowance == UINT32_MAX ? 0 : allowance > 0;
        met.cuts += (unsigned long)is_cut(t.told, allowance);
        more = t.told.answer == MUTREE_STOPPED && allowance != UINT32_MAX;
        memcpy(last, t.image.bytes, length);
        put_away(&t);
    }
    free(last);
}

static void reads_are_reads(int which, const uint8_t *image, const uint8_t *record, uint32_t key, int standing)
{
    struct trial t = prepared(image, record);
    called(which, &t, record, key, 0, standing);
    if (memcmp(t.image.bytes, image, length) != 0 || (which == LOOKUP && t.told.answer == MUTREE_STOPPED))
        fail("a lookup or a list wrote to the image");
    if (which == LIST) {
        struct mutree_listed listed = mutree_read_listed(t.result);
        if (listed.written > t.pairs.length / 8 || listed.written > listed.exist || (listed.answer == MUTREE_STALE && listed.exist))
            fail("a list with any record says that it wrote more pairs than there is room for");
        stay_from(&t.pairs, 8 * (size_t)listed.written, "a list with any record wrote past its pairs");
    }
    put_away(&t);
}

/* All calls with a pair of image and record. */
static void pair(int kind, const uint8_t *image, const uint8_t *record)
{
    int standing = is_standing(chip, image, length, record), which;
    uint32_t keys[2];
    keys[0] = pick(300);
    keys[1] = pick(65536) * 65521u;
    for (which = LOOKUP; which <= LIST; which++)
        reads_are_reads(which, image, record, keys[pick(2)], standing);
    for (which = INSERT; which <= DELETE; which++)
        stores_are_careful(which, image, record, keys[which == INSERT ? pick(2) : 0], standing);
    met.pairs++;
    met.kinds[kind] += (unsigned long)standing;
}

/* ---- the records */
static uint32_t a_lie(uint32_t right)
{
    uint32_t pages = (uint32_t)(length / chip->page);
    switch (pick(8)) {
    case 0: return 0;
    case 1: return 4294967295u;
    case 2: return right + 1;
    case 3: return right - 1;
    case 4: return pages;
    case 5: return pages + pick(1000);
    case 6: return pick(pages);
    default: return pick(65536) * 65537u;
    }
}

/* A programmed page of the image, if one is met soon. */
static uint32_t a_programmed_page(const uint8_t *image)
{
    uint32_t page = pick(length / chip->page), tries = 1000;
    while (is_erased(image, page) && --tries > 0)
        page = pick(length / chip->page);
    return page;
}

/* A record of this kind for an image; number and height are written to the image's page where they lie, so that they stand. */
static void make_record(int kind, int step, uint8_t *image, uint8_t *record)
{
    uint8_t *spare = image + (size_t)mutree_read_record(records[step]).root * chip->page + chip->main;
    uint32_t page = a_programmed_page(image);
    size_t i;
    memcpy(record, records[step], RECORD);
    switch (kind) {
    case OLDER: memcpy(record, records[pick((size_t)step + 1)], RECORD); break;
    case OTHERS: memcpy(record, records[pick(STEPS)], RECORD); break;
    case NEXT_LIES: put_number(record + 16, a_lie(number_at(record + 16))); break;
    case ERASED_LIES: put_number(record + 20, a_lie(number_at(record + 20))); break;
    case MOST_LIES: put_number(record + 8, pick(4) ? a_lie(number_at(record + 8)) : chip->worn + pick(3) - 1); break;
    case NUMBER_LIES:
        put_number(record + 4, a_lie(number_at(record + 4)));
        memcpy(spare, record + 4, 4);
        break;
    case HEIGHT_LIES:
        spare[4] = (uint8_t)(pick(3) ? pick(256) : pick(chip->top + 3));
        put_number(record + 12, spare[4]);
        break;
    case ALL_LIE:
        put_number(record + 8, a_lie(number_at(record + 8)));
        put_number(record + 16, a_lie(number_at(record + 16)));
        put_number(record + 20, a_lie(number_at(record + 20)));
        break;
    default: /* ANY, ANY_STANDING */
        for (i = 0; i < RECORD; i++)
            record[i] = (uint8_t)pick(256);
    }
    if (kind == ANY_STANDING) {
        put_number(record, page);
        put_number(record + 4, number_of(image, page));
        put_number(record + 12, image[(size_t)page * chip->page + chip->main + 4]);
    }
}

/* ---- the images: as the log left one, with bytes changed, with pages exchanged, with page numbers changed, or any bytes */
static void spoil(uint8_t *image)
{
    size_t pages = length / chip->page, times = 1 + pick(200), at, i;
    uint32_t a = pick(pages), b = pick(pages);
    uint8_t kept[2112];
    switch (pick(5)) {
    case 0: return;
    case 1:
        for (; times > 0; times--)
            image[pick(length)] = (uint8_t)pick(256);
        break;
    case 2:
        memcpy(kept, image + a * chip->page, chip->page);
        memcpy(image + a * chip->page, image + b * chip->page, chip->page);
        memcpy(image + b * chip->page, kept, chip->page);
        break;
    case 3: /* entries that lead to other pages, and counts */
        for (; times > 0; times--) {
            at = pick(pages) * chip->page;
            put_number(image + at + 8 * pick(chip->slots) + 4, pick(pages));
            image[at + chip->main + 5 + pick(chip->top)] = (uint8_t)pick(256);
        }
        break;
    default:
        for (i = 0; i < length; i++)
            image[i] = (uint8_t)pick(256);
        for (at = 0; at < pages; at++) /* some pages are erased, and numbers lead to pages that are there */
            if (pick(2))
                memset(image + at * chip->page, 255, chip->page);
            else
                for (i = 0; i < chip->slots; i++)
                    put_number(image + at * chip->page + 8 * i + 4, pick(pages));
    }
    met.damaged++;
}

/* The log: STEPS images on three to five blocks. */
static void make_log(void)
{
    uint32_t live[MUTREE_MOST_LIVE_WORDS / 128], key = 0, i;
    uint8_t *image, result[RESULT];
    int step;
    length = length_of(chip, 3 + pick(3));
    image = room_for(length);
    mutree_format(chip->number, image, length, result, RESULT);
    for (step = 0; step < STEPS; step++) {
        for (i = pick(step % 4 ? 3 : 30); i > 0; i--)
            mutree_insert(chip->number, image, length, live, sizeof live / sizeof *live, pick(2) ? pick(300) : pick(65536) * 65521u, ++key,
                          pick(5) ? UINT32_MAX : pick(3), result, RESULT);
        if (mutree_open(chip->number, image, length, records[step], RECORD, result, RESULT) != MUTREE_DONE)
            fail("an image of a log could not be opened");
        images[step] = copy_of(image, length);
    }
    free(image);
}

/* A page that leads to itself at every level, as many entries as there can be, a leaf with none: the longest walk that there is. */
static void leads_to_itself(void)
{
    uint8_t *image = images[STEPS - 1], *page, record[RECORD];
    uint32_t root = mutree_read_record(records[STEPS - 1]).root;
    unsigned level, i;
    page = image + (size_t)root * chip->page;
    for (i = 0; i < chip->slots; i++) {
        put_number(page + 8 * i, i);
        put_number(page + 8 * i + 4, root);
    }
    page[chip->main + 4] = (uint8_t)chip->top;
    for (level = 1; level <= chip->top; level++)
        page[chip->main + 4 + level] = level == 1 ? 0 : 255;
    memcpy(record, records[STEPS - 1], RECORD);
    put_number(record + 12, chip->top);
    pair(ALL_LIE, image, record);
}

static void one_log(unsigned rounds)
{
    uint8_t record[RECORD], *image;
    int step, kind;
    make_log();
    for (; rounds > 0; rounds--)
        for (kind = 0; kind < KINDS; kind++) {
            step = (int)pick(STEPS);
            image = copy_of(images[step], length);
            if (kind != OLDER && kind != OTHERS && pick(3) == 0)
                spoil(image);
            make_record(kind, step, image, record);
            if (pick(3) == 0)
                spoil(image);
            pair(kind, image, record);
            free(image);
        }
    leads_to_itself();
    for (step = 0; step < STEPS; step++)
        free(images[step]);
}

void outdated_records_are_safe(int quick)
{
    unsigned logs;
    for (logs = 0; logs < (quick ? 2u : 6u); logs++)
        one_log(quick ? 10 : 40);
}

void tell_outdated(void)
{
    static const char *const names[KINDS] = { "older", "another's", "any bytes", "any bytes, standing", "next lies", "erased lies", "most lies",
                                              "number lies", "height lies", "all lie" };
    int kind;
    printf("independent: %s chip: %lu other pairs of image and record, %lu of the images spoiled; %lu calls, %lu STALE, %lu DONE, %lu STOPPED, "
           "%lu of them at a page that was not erased; the longest took %.1f ms, the longest list %.1f; records that stood:", chip->name, met.pairs,
           met.damaged, met.calls, met.answers[STALE], met.answers[MUTREE_DONE], met.answers[MUTREE_STOPPED], met.cuts, 1e3 * met.longest,
           1e3 * met.longest_list);
    for (kind = 0; kind < KINDS; kind++) {
        printf(" %s %lu", names[kind], met.kinds[kind]);
        if (met.kinds[kind] == 0 && kind != ANY)
            fail("a kind of record never stood");
    }
    puts("");
    if (met.cuts == 0 || met.answers[STALE] == 0 || met.damaged == 0)
        fail("a call that ends at a page that is not erased, a STALE one or a spoiled image was not met");
    if (met.longest > 5)
        fail("a lookup or an update under a record that is not the image's took longer than five seconds");
    memset(&met, 0, sizeof met);
}
