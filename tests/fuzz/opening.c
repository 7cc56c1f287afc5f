/* opening.c: an opening, and a lookup, list, insert or delete with a record of any kind and any length. Checked: LENGTH where a buffer or a
 * number is none's, then STALE exactly where the page that is named is not programmed so; both leave record and words. With the record that
 * opening gives the call is the one without a record: answer, result, image, words and numbers; and the record that is left is what opening
 * then gives. With another one lookups and lists write nothing, and pages that were not erased change only where blocks were erased. */
#define _DEFAULT_SOURCE
#include "opening.h"

#include <stdlib.h>
#include <string.h>

enum { MARK = 0x5c };

/* The buffers of a call, and a copy of each as it was. */
struct lent {
    struct guarded image, record, words, pairs, result;
};

static struct guarded marked(size_t length, int at_end)
{
    struct guarded lent = guarded_make(length, at_end);
    memset(lent.bytes, MARK, length);
    return lent;
}

static struct guarded copied(struct guarded from)
{
    struct guarded copy = guarded_make(from.length, 1);
    if (from.length)
        memcpy(copy.bytes, from.bytes, from.length);
    return copy;
}

static uint32_t *numbers_of(struct guarded lent)
{
    return (uint32_t *)(void *)lent.bytes;
}

static void need(int ok)
{
    if (!ok)
        abort();
}

static int same(struct guarded a, struct guarded b)
{
    return a.length == b.length && (a.length == 0 || memcmp(a.bytes, b.bytes, a.length) == 0);
}

static uint32_t opened(uint32_t geometry, struct guarded image, uint8_t *record)
{
    uint8_t result[MUTREE_RESULT_BYTES];
    return mutree_open(geometry, image.bytes, image.length, record, MUTREE_RECORD_BYTES, result, sizeof result);
}

static void put_number(uint8_t *at, uint32_t n)
{
    int i;
    for (i = 0; i < 4; i++)
        at[i] = (uint8_t)(n >> (8 * i));
}

static int is_erased(const uint8_t *page, size_t bytes)
{
    return page[0] == 255 && memcmp(page, page + 1, bytes - 1) == 0;
}

/* ---- the record. Returns whether it is the one that opening gives for a sound image */
static int fill_record(uint32_t geometry, struct guarded image, struct trial trial, uint8_t *record)
{
    const struct mutree_geometry *chip = mutree_geometry_of(geometry);
    size_t pages = chip != NULL ? image.length / chip->page_bytes : 0, page;
    uint32_t answer = opened(geometry, image, record);
    if (trial.kind >= ANY_BYTES)
        memcpy(record, trial.bytes, MUTREE_RECORD_BYTES);
    if (trial.kind == NEARLY_RIGHT) {
        record[trial.bytes[0] % MUTREE_RECORD_BYTES] = trial.bytes[1];
        record[trial.bytes[2] % MUTREE_RECORD_BYTES] = trial.bytes[3];
    }
    if (trial.kind == STANDING && pages > 0) {
        page = mutree_read_record(trial.bytes).root % pages;
        put_number(record, (uint32_t)page);
        memcpy(record + 4, image.bytes + page * chip->page_bytes + chip->main_bytes, 4);
        put_number(record + 12, image.bytes[page * chip->page_bytes + chip->main_bytes + 4]);
    }
    return trial.kind == RIGHT && answer == MUTREE_DONE;
}

static int is_standing(const struct mutree_geometry *chip, struct guarded image, const uint8_t *record)
{
    struct mutree_record r = mutree_read_record(record);
    const uint8_t *page = image.bytes + (size_t)r.root * chip->page_bytes;
    return r.root < image.length / chip->page_bytes && !is_erased(page, chip->page_bytes)
        && memcmp(page + chip->main_bytes, record + 4, 4) == 0 && page[chip->main_bytes + 4] == r.height;
}

/* ---- the calls, with a record and without */
static uint32_t call_with(uint32_t geometry, struct trial t, struct lent l)
{
    uint8_t *image = l.image.bytes, *record = l.record.bytes, *result = l.result.bytes;
    size_t length = l.image.length, bytes = l.record.length, room = l.result.length;
    switch (t.which) {
    case OPEN: return mutree_open(geometry, image, length, record, bytes, result, room);
    case LOOKUP_OPENED: return mutree_lookup_opened(geometry, image, length, record, bytes, t.key, result, room);
    case LIST_OPENED:
        return mutree_list_opened(geometry, image, length, record, bytes, t.key, t.high, numbers_of(l.pairs), t.numbers, result, room);
    case INSERT_OPENED:
        return mutree_insert_opened(geometry, image, length, record, bytes, numbers_of(l.words), t.words, t.key, ~t.key, t.allowance, result, room);
    default: return mutree_delete_opened(geometry, image, length, record, bytes, numbers_of(l.words), t.words, t.key, t.allowance, result, room);
    }
}

static uint32_t call_without(uint32_t geometry, struct trial t, struct lent l)
{
    uint8_t *image = l.image.bytes, *result = l.result.bytes;
    size_t length = l.image.length, room = l.result.length;
    switch (t.which) {
    case LOOKUP_OPENED: return mutree_lookup(geometry, image, length, t.key, result, room);
    case LIST_OPENED: return mutree_list(geometry, image, length, t.key, t.high, numbers_of(l.pairs), t.numbers, result, room);
    case INSERT_OPENED:
        return mutree_insert(geometry, image, length, numbers_of(l.words), t.words, t.key, ~t.key, t.allowance, result, room);
    default: return mutree_delete(geometry, image, length, numbers_of(l.words), t.words, t.key, t.allowance, result, room);
    }
}

/* ---- what is checked */
static int is_length(uint32_t geometry, struct trial t, struct lent l)
{
    size_t words = mutree_live_words(geometry, l.image.length);
    return words == 0 || l.record.length < MUTREE_RECORD_BYTES || l.result.length < MUTREE_RESULT_BYTES || (t.which >= INSERT_OPENED && t.words < words);
}

/* The record that is left, by what opening gives then. */
static void check_record(uint32_t geometry, struct lent after)
{
    uint8_t fresh[MUTREE_RECORD_BYTES];
    need(opened(geometry, after.image, fresh) == MUTREE_DONE && memcmp(fresh, after.record.bytes, sizeof fresh) == 0);
}

static void check_open(uint32_t geometry, uint32_t answer, struct lent before, struct lent after)
{
    static const uint8_t zeros[MUTREE_RECORD_BYTES];
    need(same(before.image, after.image));
    if (before.record.length < MUTREE_RECORD_BYTES || before.result.length < MUTREE_RESULT_BYTES)
        need(answer == MUTREE_LENGTH && same(before.record, after.record));
    else if (answer != MUTREE_DONE)
        need(memcmp(after.record.bytes, zeros, sizeof zeros) == 0);
    else
        check_record(geometry, after);
}

/* `before` is used up: the call without a record is made on it. */
static void check_right(uint32_t geometry, struct trial t, uint32_t answer, struct lent before, struct lent after)
{
    need(call_without(geometry, t, before) == answer && same(before.image, after.image) && same(before.words, after.words)
         && same(before.pairs, after.pairs) && same(before.result, after.result));
    check_record(geometry, after);
}

/* Blocks with a page that changed and was not erased are as many as were erased, at most; the others' pages were programmed. */
static void check_stores(const struct mutree_geometry *chip, struct lent before, struct lent after)
{
    struct mutree_result told = mutree_read_result(after.result.bytes);
    size_t block, page, programmed = 0, erased = 0;
    for (block = 0; block < before.image.length / chip->block_bytes; block++) {
        int again = 0;
        for (page = block * chip->pages; page < (block + 1) * chip->pages; page++) {
            const uint8_t *old = before.image.bytes + page * chip->page_bytes, *new = after.image.bytes + page * chip->page_bytes;
            int differs = memcmp(old, new, chip->page_bytes) != 0;
            again |= differs && !is_erased(old, chip->page_bytes);
            programmed += (size_t)(differs && !is_erased(new, chip->page_bytes));
        }
        erased += (size_t)again;
    }
    need(erased <= told.erased && programmed <= told.programmed);
}

static void check_other(uint32_t geometry, struct trial t, uint32_t answer, struct lent before, struct lent after)
{
    const struct mutree_geometry *chip = mutree_geometry_of(geometry);
    int standing = is_standing(chip, before.image, before.record.bytes);
    need((answer == MUTREE_STALE) == !standing && answer != MUTREE_LENGTH && answer != MUTREE_DAMAGED);
    if (answer == MUTREE_STALE)
        need(same(before.image, after.image) && same(before.record, after.record) && same(before.words, after.words)
             && same(before.pairs, after.pairs));
    else if (t.which <= LIST_OPENED)
        need(same(before.image, after.image) && same(before.record, after.record));
    else
        check_stores(chip, before, after);
}

static void check(uint32_t geometry, struct trial t, int right, uint32_t answer, struct lent before, struct lent after)
{
    size_t i, needed = mutree_live_words(geometry, after.image.length);
    for (i = MUTREE_RECORD_BYTES; i < after.record.length; i++)
        need(after.record.bytes[i] == MARK);
    for (i = 4 * needed; i < after.words.length; i++)
        need(after.words.bytes[i] == MARK);
    if (t.which == OPEN)
        check_open(geometry, answer, before, after);
    else if (is_length(geometry, t, before))
        need(answer == MUTREE_LENGTH && same(before.image, after.image) && same(before.record, after.record) && same(before.words, after.words)
             && same(before.pairs, after.pairs));
    else if (right)
        check_right(geometry, t, answer, before, after);
    else
        check_other(geometry, t, answer, before, after);
}

uint32_t opened_checked(uint32_t geometry, struct guarded image, struct trial trial, int at_end, struct guarded result)
{
    struct lent after = { image, marked(trial.record_length, at_end), marked(4 * trial.words, at_end), marked(4 * trial.numbers, at_end), result };
    struct lent before;
    uint8_t record[MUTREE_RECORD_BYTES];
    int right = fill_record(geometry, image, trial, record);
    uint32_t answer;
    memcpy(after.record.bytes, record, trial.record_length < sizeof record ? trial.record_length : sizeof record);
    before.image = copied(image);
    before.record = copied(after.record);
    before.words = copied(after.words);
    before.pairs = copied(after.pairs);
    before.result = copied(result);
    answer = call_with(geometry, trial, after);
    check(geometry, trial, right, answer, before, after);
    guarded_free(&before.image);
    guarded_free(&before.record);
    guarded_free(&before.words);
    guarded_free(&before.pairs);
    guarded_free(&before.result);
    guarded_free(&after.record);
    guarded_free(&after.words);
    guarded_free(&after.pairs);
    return answer;
}
