/* opened.c: request 8. On a sound image with the record that opening gives for it, answers, result, image and words of a call with the record
 * are those of the call without it, and the record that is returned is what opening would then give, after every answer, STOPPED too. What
 * opening gives is held to the judge's tree. Every insert and delete of all tests of this folder is made both ways (words.c). All buffers
 * stand against a guard page, with something in them beforehand. */
#define _DEFAULT_SOURCE
#include "opened.h"
#include "marked.h"

#include <stdio.h>
#include <stdlib.h>
#include <string.h>

enum { ANSWERS = 8, MORE = 4 }; /* bytes lent after a record */

static struct tree state;

static struct {
    unsigned long answers[ANSWERS], openings, none_left, not_the_root, lookups, lists, chained, collected, stopped;
} met;

size_t words_needed(const struct chip *on, size_t length)
{
    return length / on->page / 32;
}

/* ---- what opening gives, from the judge's tree */
static uint32_t largest_number(const struct chip *on, const uint8_t *image, size_t *block)
{
    uint32_t most = 0;
    size_t p;
    for (p = 0; p < state.pages; p++) {
        uint32_t number = number_at(image + p * on->page + on->main);
        if (!state.erased[p] && number > most) {
            most = number;
            *block = p / on->block_pages;
        }
    }
    return most;
}

/* "next page (T if none)": the first erased page of the block that has both, or else page 0 of the first wholly erased block met after the
 * block of the largest number, going round. */
static uint32_t next_page(const struct chip *on, size_t block)
{
    size_t p, tries;
    for (p = 1; p < state.pages; p++)
        if (p % on->block_pages != 0 && state.erased[p] && !state.erased[p - 1])
            return (uint32_t)p;
    for (tries = state.pages / on->block_pages; tries > 0; tries--) {
        block = (block + 1) % (state.pages / on->block_pages);
        if (state.erased[block * on->block_pages])
            return (uint32_t)(block * on->block_pages);
    }
    return (uint32_t)state.pages;
}

/* The record against the image: "root page, its sequence number, the largest one on the image, height, next page (T if none), erased
 * pages". */
static void is_the_images(const struct chip *on, const uint8_t *record, const uint8_t *image, size_t length)
{
    struct mutree_record r = mutree_read_record(record);
    size_t block = 0;
    uint32_t most;
    if (judge(&state, on, image, length))
        fail("an image that is not sound was opened");
    most = largest_number(on, image, &block);
    if (r.root != state.root || r.number != number_at(image + (size_t)state.root * on->page + on->main) || r.height != state.height)
        fail("a record does not name the root");
    if (r.most != most || r.erased != state.free_pages || r.next != next_page(on, block))
        fail("largest number, next page or erased pages of a record are not the image's");
    met.openings++;
    met.none_left += r.next == state.pages;
    met.not_the_root += r.most != r.number;
}

/* Opens an image; the record has something in it beforehand. Bytes after the 24 stay. */
uint32_t opened_record(uint32_t number, const uint8_t *image, size_t length, uint8_t *record, uint8_t *result)
{
    struct guarded lent = marked(RECORD + pick(MORE));
    uint32_t answer = mutree_open(number, image, length, lent.bytes, lent.length, result, RESULT);
    static const uint8_t zeros[RECORD];
    struct mutree_result r = mutree_read_result(result);
    stay_from(&lent, RECORD, "an opening wrote past the record");
    if (r.answer != answer || r.address || r.programmed || r.erased || (answer != MUTREE_DAMAGED && (r.rule || r.page)))
        fail("an opening has no other numbers than its answer, and rule and page where it is DAMAGED");
    if (answer != MUTREE_DONE && memcmp(lent.bytes, zeros, RECORD) != 0)
        fail("a refused opening gives zeros");
    memcpy(record, lent.bytes, RECORD);
    guarded_free(&lent);
    return answer;
}

/* ---- one update, both ways */
struct guarded lent_record(const uint8_t *record)
{
    struct guarded lent = marked(RECORD + pick(MORE));
    memcpy(lent.bytes, record, RECORD);
    return lent;
}

uint32_t update_by_record(struct twin *t, struct update u, uint32_t allowance)
{
    uint32_t *live = numbers_of(&t->words);
    return u.adds ? mutree_insert_opened(t->number, t->image.bytes, t->image.length, t->record.bytes, t->record.length, live, t->words.length / 4,
                                         u.key, u.address, allowance, t->result.bytes, t->result.length)
                  : mutree_delete_opened(t->number, t->image.bytes, t->image.length, t->record.bytes, t->record.length, live, t->words.length / 4,
                                         u.key, allowance, t->result.bytes, t->result.length);
}

struct twin update_opened(struct update u, uint32_t number, const uint8_t *image, size_t length, uint32_t allowance, const uint8_t *result,
                          size_t room, size_t words)
{
    struct twin t;
    uint8_t told[RESULT];
    t.number = number;
    t.opening = opened_record(number, image, length, t.given, told);
    t.image = guarded_copy(image, length);
    t.record = lent_record(t.given);
    t.result = guarded_copy(result, room);
    t.words = marked(4 * words);
    t.answer = update_by_record(&t, u, allowance);
    return t;
}

/* Nothing but the result was written. */
static void left_all(struct twin *t, const uint8_t *image)
{
    if (memcmp(t->image.bytes, image, t->image.length) != 0 || memcmp(t->record.bytes, t->given, RECORD) != 0)
        fail("LENGTH or STALE changed the image or the record");
    stay_from(&t->words, 0, "LENGTH or STALE changed a word");
}

/* The record that is left is what opening would then give, and no byte after it changed. */
static void is_up_to_date(const struct twin *t)
{
    uint8_t fresh[RECORD], told[RESULT];
    stay_from(&t->record, RECORD, "a call wrote past its record");
    if (opened_record(t->number, t->image.bytes, t->image.length, fresh, told) != MUTREE_DONE)
        fail("a call with a record left an image that is not sound");
    if (memcmp(fresh, t->record.bytes, RECORD) != 0)
        fail("the record returned is not what opening would then give");
    is_the_images(&chips[t->number], fresh, t->image.bytes, t->image.length);
}

void is_alike(struct twin *t, uint32_t answer, const uint8_t *image, const uint8_t *result, const struct guarded *words)
{
    if (t->opening == MUTREE_DAMAGED && answer == MUTREE_DAMAGED) {
        if (t->answer == MUTREE_STALE)
            left_all(t, image);
    } else {
        if (t->answer != answer || memcmp(t->result.bytes, result, t->result.length) != 0)
            fail("a call with a record gives another answer or other numbers");
        if (memcmp(t->image.bytes, image, t->image.length) != 0)
            fail("a call with a record leaves another image");
        if (memcmp(t->words.bytes, words->bytes, words->length) != 0)
            fail("a call with a record leaves other words");
        if (answer == MUTREE_LENGTH)
            left_all(t, image);
        else
            is_up_to_date(t);
        met.answers[t->answer]++;
    }
    guarded_free(&t->image);
    guarded_free(&t->record);
    guarded_free(&t->result);
    guarded_free(&t->words);
}

void lookup_is_alike(uint32_t number, const uint8_t *image, size_t length, uint32_t key, uint32_t answer, const uint8_t *result)
{
    uint8_t record[RECORD], again[RESULT];
    struct guarded lent;
    if (opened_record(number, image, length, record, again) != MUTREE_DONE)
        fail("a sound image could not be opened");
    lent = lent_record(record);
    if (mutree_lookup_opened(number, image, length, lent.bytes, lent.length, key, again, RESULT) != answer || memcmp(again, result, RESULT) != 0)
        fail("a lookup with a record gives another answer or other numbers");
    if (memcmp(lent.bytes, record, RECORD) != 0)
        fail("a lookup wrote to its record");
    stay_from(&lent, RECORD, "a lookup wrote past its record");
    met.lookups++;
    guarded_free(&lent);
}

void list_is_alike(uint32_t number, const uint8_t *image, size_t length, uint32_t low, uint32_t high, const struct guarded *pairs,
                   uint32_t answer, const uint8_t *result)
{
    uint8_t record[RECORD], again[RESULT];
    struct guarded lent, listed = marked(pairs->length);
    if (opened_record(number, image, length, record, again) != MUTREE_DONE)
        fail("a sound image could not be opened");
    lent = lent_record(record);
    if (mutree_list_opened(number, image, length, lent.bytes, lent.length, low, high, numbers_of(&listed), listed.length / 4, again, RESULT) != answer
        || memcmp(again, result, RESULT) != 0)
        fail("a list with a record gives another answer or other numbers");
    if (memcmp(listed.bytes, pairs->bytes, pairs->length) != 0)
        fail("a list with a record gives other pairs");
    if (memcmp(lent.bytes, record, RECORD) != 0)
        fail("a list wrote to its record");
    met.lists++;
    guarded_free(&lent);
    guarded_free(&listed);
}

/* ---- a log with one opening: the record goes from call to call */
static uint32_t a_key(int way, uint32_t step)
{
    return way == 0 ? step : way == 1 ? pick(300) : pick(65536) * 65521u;
}

/* One update by the record of the call before, and without it on the other image. */
static void goes_on(uint8_t *image, uint8_t *judged, size_t length, uint8_t *record, struct update u, uint32_t allowance)
{
    static uint32_t live[MUTREE_MOST_LIVE_WORDS], other[MUTREE_MOST_LIVE_WORDS];
    uint8_t result[RESULT], wanted[RESULT], fresh[RECORD];
    struct twin t = { { image, length, NULL, 0 }, { record, RECORD, NULL, 0 }, { result, RESULT, NULL, 0 }, { (uint8_t *)live, sizeof live, NULL, 0 },
                      0, 0, 0, { 0 } };
    uint32_t answer = u.adds ? mutree_insert(chip->number, judged, length, other, MUTREE_MOST_LIVE_WORDS, u.key, u.address, allowance, wanted, RESULT)
                             : mutree_delete(chip->number, judged, length, other, MUTREE_MOST_LIVE_WORDS, u.key, allowance, wanted, RESULT);
    t.number = chip->number;
    if (update_by_record(&t, u, allowance) != answer || memcmp(result, wanted, RESULT) != 0 || memcmp(image, judged, length) != 0
        || memcmp(live, other, 4 * words_needed(chip, length)) != 0)
        fail("a log with one opening differs from the same log without a record");
    if (opened_record(chip->number, image, length, fresh, wanted) != MUTREE_DONE || memcmp(fresh, record, RECORD) != 0)
        fail("the record of a log is not what opening would then give");
    met.chained++;
    met.collected += mutree_read_result(result).erased > 0;
    met.stopped += answer == MUTREE_STOPPED;
}

/* Now and then an update is stopped, and the log goes on from there. */
static void log_of(unsigned blocks, int way, unsigned steps)
{
    size_t length = length_of(chip, blocks);
    uint8_t *image = room_for(length), *judged, record[RECORD], result[RESULT];
    struct update u;
    unsigned step;
    mutree_format(chip->number, image, length, result, RESULT);
    judged = copy_of(image, length);
    if (opened_record(chip->number, image, length, record, result) != MUTREE_DONE)
        fail("a formatted image could not be opened");
    for (step = 1; step <= steps; step++) {
        u.adds = pick(10) < 7;
        u.key = a_key(way, u.adds ? step : pick(step));
        u.address = pick(1000000);
        goes_on(image, judged, length, record, u, pick(8) == 0 ? pick(4) : UINT32_MAX);
    }
    is_the_images(chip, record, image, length);
    free(image);
    free(judged);
}

/* The image of the bounds, whose erased pages are all taken by the moves from its first victim: then there is no next page. */
static void no_next_page(void)
{
    uint32_t row = chip->block_pages, blocks = row + chip->own_pages;
    struct built plan = { chip, blocks, chip->top, 3, FIRST_PATH, (blocks - 1) * (row - 1), (blocks - 1) * row + 1 };
    struct update u = { 1, 3, 99 };
    size_t length = length_of(chip, blocks);
    uint8_t *image = build(plan), record[RECORD], result[RESULT];
    image[chip->main + 3] = 0; /* the largest number: far below the WORN limit */
    if (run(u, image, length, row - 1).answer != MUTREE_STOPPED || opened_record(chip->number, image, length, record, result) != MUTREE_DONE
        || mutree_read_record(record).next != length / chip->page)
        fail("an image whose erased pages are all taken has no next page");
    u.key = 2;
    if (run(u, image, length, 1).answer != MUTREE_STOPPED || run(u, image, length, UINT32_MAX).answer != MUTREE_DONE)
        fail("an update goes on where there is no next page");
    free(image);
}

void opened_calls_are_the_calls(void)
{
    unsigned blocks;
    int way;
    for (blocks = 3; blocks <= 5; blocks++)
        for (way = 0; way < 3; way++)
            log_of(blocks, way, (blocks == 3 ? 20 : 10) * chip->block_pages);
    log_of(64, 1, 2 * chip->block_pages);
    no_next_page();
    stale_is_told();
}

void tell_opened(void)
{
    static const char *const names[ANSWERS] = { "DONE", "LENGTH", "DAMAGED", "WORN", "ABSENT", "HEIGHT", "ROOM", "STOPPED" };
    int answer;
    printf("independent: %s chip: %lu records are the image's, %lu of them with no next page, %lu with a larger number than the root's; "
           "%lu lookups and %lu lists by the record; %lu updates in logs with one opening, %lu with a collection, %lu stopped; updates by the "
           "record:", chip->name, met.openings, met.none_left, met.not_the_root, met.lookups, met.lists, met.chained, met.collected, met.stopped);
    for (answer = 0; answer < ANSWERS; answer++) {
        if (answer == MUTREE_DAMAGED)
            continue;
        printf(" %s %lu", names[answer], met.answers[answer]);
        if (met.answers[answer] == 0)
            fail("an answer was never met by a call with a record");
    }
    puts("");
    if (met.not_the_root == 0 || met.collected == 0 || met.stopped == 0 || met.none_left == 0)
        fail("a number above the root's, a collection, a stopped update or an image with no next page was not met by a record");
    memset(&met, 0, sizeof met);
    tell_stale();
}
