#include "opening.h"

#include <stdlib.h>
#include <string.h>

enum { ROOT = 0, NUMBER = 4, MOST = 8, HEIGHT = 12, NEXT = 16, ERASED = 20 }; /* places in a record */

static volatile uint8_t seen; /* what fault 54 reads */

static uint32_t number_at(const uint8_t *at)
{
    return (uint32_t)at[0] | (uint32_t)at[1] << 8 | (uint32_t)at[2] << 16 | (uint32_t)at[3] << 24;
}

static void put_number(uint8_t *at, uint32_t n)
{
    int i;
    for (i = 0; i < 4; i++)
        at[i] = (uint8_t)(n >> (8 * i));
}

static void *copied(const void *from, size_t length)
{
    void *copy = malloc(length ? length : 1);
    if (copy == NULL)
        abort();
    return memcpy(copy, from, length);
}

/* ---- opening */
uint32_t open_wrongly(int fault, uint32_t geometry, const uint8_t *image, size_t image_len, uint8_t *record, size_t record_len, uint8_t *result,
                      size_t result_len)
{
    uint8_t *kept = copied(record, record_len), longer[MUTREE_RECORD_BYTES];
    int takes = fault == 52 && record_len == MUTREE_RECORD_BYTES - 1;
    uint32_t answer = real_open(geometry, image, image_len, takes ? longer : record, takes ? sizeof longer : record_len, result, result_len);
    if (takes)
        memcpy(record, longer, record_len);
    if (fault == 51 && answer != MUTREE_DONE)
        memcpy(record, kept, record_len);
    if (fault == 55 && answer == MUTREE_DONE)
        memcpy(record + MOST, record + NUMBER, 4);
    if (fault == 56 && answer == MUTREE_DONE && number_at(record + NEXT) == image_len / mutree_geometry_of(geometry)->page_bytes)
        put_number(record + NEXT, 0);
    free(kept);
    return answer;
}

/* ---- the calls with a record */
static uint32_t call_rightly(struct opened_call c)
{
    switch (c.which) {
    case A_LOOKUP: return real_lookup_opened(c.geometry, c.image, c.image_len, c.record, c.record_len, c.key, c.result, c.result_len);
    case A_LIST:
        return real_list_opened(c.geometry, c.image, c.image_len, c.record, c.record_len, c.key, c.address, c.lent, c.lent_len, c.result, c.result_len);
    case AN_INSERT:
        return real_insert_opened(c.geometry, c.image, c.image_len, c.record, c.record_len, c.lent, c.lent_len, c.key, c.address, c.allowance, c.result,
                                  c.result_len);
    default:
        return real_delete_opened(c.geometry, c.image, c.image_len, c.record, c.record_len, c.lent, c.lent_len, c.key, c.allowance, c.result,
                                  c.result_len);
    }
}

/* The call with another record, which is lent as it is left. */
static uint32_t call_with(struct opened_call c, const uint8_t *other)
{
    uint8_t record[MUTREE_RECORD_BYTES];
    memcpy(record, other, sizeof record);
    c.record = record;
    c.record_len = sizeof record;
    return call_rightly(c);
}

static void say(struct opened_call c, uint32_t answer)
{
    memset(c.result, 0, MUTREE_RESULT_BYTES);
    c.result[0] = (uint8_t)answer;
}

/* The page that the record names, where there is one. */
static const uint8_t *named(struct opened_call c)
{
    const struct mutree_geometry *chip = mutree_geometry_of(c.geometry);
    uint32_t root = number_at(c.record);
    return root < c.image_len / chip->page_bytes ? c.image + (size_t)root * chip->page_bytes + chip->main_bytes : NULL;
}

/* 48: another height is taken for the right one. 62: an erased page stands. */
static uint32_t take_stale(int fault, struct opened_call c)
{
    const uint8_t *spare = named(c);
    uint8_t other[MUTREE_RECORD_BYTES];
    memcpy(other, c.record, sizeof other);
    if (fault == 48 && spare != NULL)
        put_number(other + HEIGHT, spare[4]);
    if (fault == 62 && spare != NULL && number_at(spare) == UINT32_MAX && spare[4] == 255 && number_at(other + NUMBER) == UINT32_MAX
        && number_at(other + HEIGHT) == 255) {
        say(c, c.which == A_LIST ? MUTREE_DONE : MUTREE_ABSENT);
        return number_at(c.result);
    }
    return fault == 48 ? call_with(c, other) : MUTREE_STALE;
}

/* 49: the page that is not erased is programmed all the same. */
static void program_next(struct opened_call c, const uint8_t *before)
{
    const struct mutree_geometry *chip = mutree_geometry_of(c.geometry);
    uint32_t next = number_at(before + NEXT);
    struct mutree_result made = mutree_read_result(c.result);
    if (made.programmed + made.erased > 0 || made.programmed + made.erased >= c.allowance || next >= c.image_len / chip->page_bytes)
        return;
    memset(c.image + (size_t)next * chip->page_bytes, 0, chip->page_bytes);
    c.result[8]++;
}

/* After an update that was made: the record that is left. */
static void spoil_record(int fault, struct opened_call c, uint32_t answer, const uint8_t *before)
{
    int made = answer == MUTREE_DONE;
    if (fault == 46 && made)
        memcpy(c.record + NEXT, before + NEXT, 4);
    if (fault == 47 && made)
        memcpy(c.record + NUMBER, before + NUMBER, 4);
    if (fault == 50 && answer == MUTREE_STOPPED)
        memcpy(c.record, before, MUTREE_RECORD_BYTES);
    if (fault == 59 && made && mutree_read_result(c.result).erased > 0)
        c.record[ERASED]++;
    if (fault == 49 && answer == MUTREE_STOPPED)
        program_next(c, before);
}

static int is_short(struct opened_call c)
{
    return c.result_len < MUTREE_RESULT_BYTES || c.record_len < MUTREE_RECORD_BYTES || mutree_live_words(c.geometry, c.image_len) == 0;
}

/* 52: a record of 23 bytes will do. 58: STALE is told before too few words. 57: a call judges the image. */
static uint32_t call_first(int fault, struct opened_call c)
{
    uint8_t longer[MUTREE_RECORD_BYTES] = { 0 }, again[MUTREE_RESULT_BYTES];
    uint32_t key = c.key;
    if (fault == 52 && c.record_len == sizeof longer - 1 && c.result_len >= MUTREE_RESULT_BYTES) {
        memcpy(longer, c.record, c.record_len);
        return call_with(c, longer);
    }
    if (fault == 58 && !is_short(c) && c.which >= AN_INSERT && c.lent_len < mutree_live_words(c.geometry, c.image_len)
        && real_lookup_opened(c.geometry, c.image, c.image_len, c.record, c.record_len, key, again, sizeof again) == MUTREE_STALE) {
        say(c, MUTREE_STALE);
        return MUTREE_STALE;
    }
    if (fault == 57 && !is_short(c) && (c.which < AN_INSERT || c.lent_len >= mutree_live_words(c.geometry, c.image_len))
        && real_open(c.geometry, c.image, c.image_len, longer, sizeof longer, again, sizeof again) == MUTREE_DAMAGED) {
        memcpy(c.result, again, sizeof again);
        return MUTREE_DAMAGED;
    }
    return call_rightly(c);
}

uint32_t call_wrongly(int fault, struct opened_call c)
{
    uint8_t *before = copied(c.record, c.record_len);
    uint32_t *words = copied(c.lent, sizeof *words * c.lent_len), answer = call_first(fault, c);
    if (answer == MUTREE_STALE && (fault == 48 || fault == 62))
        answer = take_stale(fault, c);
    if (answer == MUTREE_STALE && fault == 53 && c.which >= AN_INSERT)
        c.lent[0] ^= 1;
    if (answer == MUTREE_STALE && fault == 61 && c.which >= AN_INSERT)
        memset(c.record, 0, MUTREE_RECORD_BYTES);
    if (fault == 54)
        seen = c.record[c.record_len];
    if (fault == 60 && c.which == A_LIST && answer == MUTREE_DONE && c.result[4] > 0)
        c.result[4]--;
    if (fault == 63 && c.which >= AN_INSERT && answer == MUTREE_DONE)
        memcpy(c.lent, words, sizeof *words * c.lent_len);
    if (fault == 64 && c.which == A_LOOKUP && answer == MUTREE_DONE)
        c.result[4]++;
    if (c.which >= AN_INSERT && (answer == MUTREE_DONE || answer == MUTREE_STOPPED))
        spoil_record(fault, c, answer, before);
    free(before);
    free(words);
    return answer;
}
