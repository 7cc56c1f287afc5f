/* target.c: any bytes, any lengths, small buffers, through the calls; for libFuzzer with sanitizers, or for main.c.
 *
 * The first bytes choose the call, the chip or a number that is none's, the key, the allowance, the result buffer's length, the words of
 * live pages and which guard page the buffers stand against; the rest is the image. Where the input says so the image is a formatted one with
 * the rest laid over it, so that sound and nearly sound images are met. The library itself has no sanitizers in it. So the
 * image and the result buffer lie in mapped memory before a guard page, or after one: a byte read or written past their ends
 * ends the run. Checked besides: a number that is no chip's gives LENGTH, refused calls leave the image, a finished call leaves
 * one that is not DAMAGED, a short result buffer stays as it was, and so do the bytes after the 24; rule and page are 0 but for
 * DAMAGED, and then a rule's number and a page of the image. A patrol that mended is clean when it is called again, and what it
 * changed is one bit; else it changes nothing. marking.c has what is checked of the words of live pages, listing.c of a list, carrying.c of
 * an export and an import, opening.c of an opening and the calls with a record; the text of an import is what follows the first bytes too. */
#define _DEFAULT_SOURCE
#include "../../c/mutree.h"
#include "../guarded.h"
#include "carrying.h"
#include "listing.h"
#include "marking.h"
#include "opening.h"

#include <stdlib.h>
#include <string.h>

/* The first bytes of an input. */
struct head {
    uint32_t geometry;
    int kind, over_format, at_end;
    int lists; /* a list in place of a lookup */
    struct wish wish;
    size_t lent; /* bytes for an export */
    const uint8_t *text;
    size_t text_length;
    size_t room;
    uint32_t key;
    struct change change;
    struct trial trial;
};

enum { HEAD = 8, INSERT = 2, DELETE = 3, PATROL = 4, EXPORT = 5, IMPORT = 6, OPENED = 7, MOST_TEXT = 100000 };

/* What the inserts that make an image are lent. */
static uint32_t live[MUTREE_MOST_LIVE_WORDS];

static uint32_t number(const uint8_t *at)
{
    return (uint32_t)at[0] | (uint32_t)at[1] << 8 | (uint32_t)at[2] << 16 | (uint32_t)at[3] << 24;
}

static int kind_of(const uint8_t *data)
{
    if ((data[0] >> 3 & 3) == 2)
        return OPENED;
    switch (data[7] >> 2 & 3) {
    case 1: return PATROL;
    case 3: return data[0] & 1 ? EXPORT : IMPORT;
    default: return data[0] & 3;
    }
}

/* Around the 3 and 6 words of three blocks, and more than any image that is made here needs. */
static struct change change_of(const uint8_t *data)
{
    static const size_t words[] = { 0, 2, 3, 5, 6, 7, 40, 3000 };
    struct change change;
    change.adds = kind_of(data) == INSERT;
    change.key = number(data + 2) % 1024;
    change.allowance = data[6] == 255 ? UINT32_MAX : data[6];
    change.words = words[data[1] / 33];
    return change;
}

/* The record's own bytes are the last of the input. */
static struct trial trial_of(const uint8_t *data, size_t size, struct head head)
{
    static const enum opened_call calls[] = { OPEN, LOOKUP_OPENED, INSERT_OPENED, DELETE_OPENED };
    struct trial trial;
    trial.which = (data[0] & 3) == 1 && data[7] & 4 ? LIST_OPENED : calls[data[0] & 3];
    trial.kind = (enum record_kind)(data[5] >> 6);
    trial.record_length = data[4] & 7 ? MUTREE_RECORD_BYTES + (data[4] >> 5) : data[4] >> 3;
    trial.words = head.change.words;
    trial.numbers = head.wish.numbers;
    trial.key = head.key;
    trial.high = head.wish.high;
    trial.allowance = head.change.allowance;
    memset(trial.bytes, 0, sizeof trial.bytes);
    if (size >= HEAD + sizeof trial.bytes)
        memcpy(trial.bytes, data + size - sizeof trial.bytes, sizeof trial.bytes);
    return trial;
}

static struct head head_of(const uint8_t *data, size_t size)
{
    struct head head;
    head.kind = kind_of(data);
    head.geometry = data[0] >> 2 & 1;
    if (data[0] >> 3 >= 30) /* now and then no chip */
        head.geometry = data[1] + MUTREE_GEOMETRIES;
    head.room = data[1] % 33;
    head.key = number(data + 2) % 1024;
    head.change = change_of(data);
    head.over_format = data[7] & 1;
    head.at_end = !(data[7] & 2);
    head.lists = (data[7] >> 2 & 3) == 2;
    head.wish.low = head.key;
    head.wish.high = data[7] >> 4 == 15 ? UINT32_MAX : number(data + 2) >> 12 & 1023;
    head.wish.numbers = data[6];
    head.lent = data[7] >> 4 == 15 ? 20000 : (size_t)data[6] << (data[7] >> 6);
    head.text = data + HEAD;
    head.text_length = size - HEAD < MOST_TEXT ? size - HEAD : MOST_TEXT;
    head.trial = trial_of(data, size, head);
    return head;
}

/* Five bytes a change: an insert, or one byte of the image. */
static void lay_over(struct guarded image, uint32_t geometry, const uint8_t *data, size_t size)
{
    uint8_t result[MUTREE_RESULT_BYTES];
    size_t i;
    for (i = 0; i + 5 <= size; i += 5) {
        uint32_t n = number(data + i + 1);
        if (data[i] & 1)
            mutree_insert(geometry, image.bytes, image.length, live, MUTREE_MOST_LIVE_WORDS, n % 512, n, UINT32_MAX, result, sizeof result);
        else
            image.bytes[n % image.length] = data[i];
    }
}

static struct guarded make_image(const uint8_t *data, size_t size, struct head head)
{
    uint8_t result[MUTREE_RESULT_BYTES];
    const struct mutree_geometry *chip = mutree_geometry_of(head.geometry % MUTREE_GEOMETRIES);
    struct guarded image = guarded_make(head.over_format ? MUTREE_LEAST_BLOCKS * chip->block_bytes : size, head.at_end);
    if (!head.over_format) {
        memcpy(image.bytes, data, size);
        return image;
    }
    memset(image.bytes, 255, image.length);
    mutree_format(chip->number, image.bytes, image.length, result, sizeof result);
    if (head.kind == IMPORT) /* the rest is the text; the index has something in it */
        mutree_insert(chip->number, image.bytes, image.length, live, MUTREE_MOST_LIVE_WORDS, 5, 5, UINT32_MAX, result, sizeof result);
    else
        lay_over(image, chip->number, data, size);
    return image;
}

static uint32_t call(struct head head, struct guarded image, struct guarded result)
{
    switch (head.kind) {
    case 0: return mutree_format(head.geometry, image.bytes, image.length, result.bytes, result.length);
    case 1:
        if (head.lists)
            return list_checked(head.geometry, image, head.wish, head.at_end, result);
        return mutree_lookup(head.geometry, image.bytes, image.length, head.key, result.bytes, result.length);
    case INSERT:
    case DELETE: return update_checked(head.geometry, image, head.change, head.at_end, result);
    case PATROL:
        return mutree_patrol(head.geometry, image.bytes, image.length, head.key % 256, head.key / 256 % 10, result.bytes, result.length);
    case EXPORT: return export_checked(head.geometry, image, head.lent, head.at_end, result);
    case OPENED: return opened_checked(head.geometry, image, head.trial, head.at_end, result);
    default: return import_checked(head.geometry, image, head.text, head.text_length, head.at_end, result);
    }
}

/* With DAMAGED a rule, and a page of the image where the rule has one; else 0 and 0. */
static void check_damage(uint32_t geometry, uint32_t answer, size_t length, const uint8_t *result)
{
    struct mutree_result r = mutree_read_result(result);
    if (r.answer != answer || (answer == MUTREE_DAMAGED) != (mutree_rule_words(r.rule) != NULL))
        abort();
    if (r.rule == 0 ? r.page != 0 : r.page >= length / mutree_geometry_of(geometry)->page_bytes)
        abort();
    if (!mutree_rule_has_page(r.rule) && r.page != 0)
        abort();
}

/* A result buffer that is too short stays as it was, and so do the bytes after the 24. */
static void check_result(struct guarded result)
{
    size_t i;
    for (i = result.length < MUTREE_RESULT_BYTES ? 0 : MUTREE_RESULT_BYTES; i < result.length; i++)
        if (result.bytes[i] != 7)
            abort();
}

/* An import that an insert ended: the only refused call that writes. */
static int is_halfway(int kind, uint32_t answer)
{
    return kind == IMPORT && answer >= MUTREE_WORN && answer <= MUTREE_ROOM;
}

static void check_image(int kind, uint32_t geometry, uint32_t answer, struct guarded image, const uint8_t *before)
{
    uint8_t judged[MUTREE_RESULT_BYTES];
    if (geometry >= MUTREE_GEOMETRIES && answer != MUTREE_LENGTH)
        abort();
    if (answer == MUTREE_TEXT ? kind != IMPORT : answer == MUTREE_STALE ? kind != OPENED : answer > MUTREE_STOPPED)
        abort();
    if (answer >= MUTREE_LENGTH && answer != MUTREE_STOPPED && !is_halfway(kind, answer) && memcmp(before, image.bytes, image.length) != 0)
        abort();
    if (kind != PATROL && kind != OPENED && (answer == MUTREE_DONE || answer == MUTREE_STOPPED || is_halfway(kind, answer))
        && mutree_lookup(geometry, image.bytes, image.length, 0, judged, sizeof judged) == MUTREE_DAMAGED)
        abort();
}

static unsigned bits_changed(const uint8_t *before, struct guarded image)
{
    unsigned bits = 0;
    size_t i;
    for (i = 0; i < image.length; i++) {
        unsigned differ = before[i] ^ image.bytes[i];
        for (; differ > 0; differ >>= 1)
            bits += differ & 1;
    }
    return bits;
}

/* What the patrol said that it changed, it changed; and then the half is clean. */
static void check_patrol(struct head head, struct guarded image, const uint8_t *before, const uint8_t *result)
{
    uint8_t again[MUTREE_RESULT_BYTES];
    struct guarded second = { again, sizeof again, NULL, 0 };
    struct mutree_result r = mutree_read_result(result);
    int mended = r.answer == MUTREE_DONE && (mutree_found(r) == MUTREE_DATA_MENDED || mutree_found(r) == MUTREE_CODE_MENDED);
    if (bits_changed(before, image) != (unsigned)mended)
        abort();
    if (mended && (call(head, image, second) != MUTREE_DONE || mutree_found(mutree_read_result(again)) != MUTREE_CLEAN))
        abort();
}

int LLVMFuzzerTestOneInput(const uint8_t *data, size_t size);

int LLVMFuzzerTestOneInput(const uint8_t *data, size_t size)
{
    struct guarded image, result;
    struct head head;
    uint8_t *before;
    uint32_t answer;
    if (size < HEAD)
        return 0;
    head = head_of(data, size);
    image = make_image(data + HEAD, size - HEAD, head);
    result = guarded_make(head.room, head.at_end);
    before = malloc(image.length ? image.length : 1);
    if (before == NULL)
        abort();
    memcpy(before, image.bytes, image.length);
    memset(result.bytes, 7, result.length);
    answer = call(head, image, result);
    check_image(head.kind, head.geometry, answer, image, before);
    check_result(result);
    if (result.length >= MUTREE_RESULT_BYTES)
        check_damage(head.geometry, answer, image.length, result.bytes);
    if (head.kind == PATROL && result.length >= MUTREE_RESULT_BYTES)
        check_patrol(head, image, before, result.bytes);
    free(before);
    guarded_free(&image);
    guarded_free(&result);
    return 0;
}
