/* importing.c: request 13. An import reads the whole text first, and refuses its lowest bad line before any store (text.c says which it is).
 * Else the image is what format and one insert for each record leave, with their counts; an insert that is refused ends it, with its
 * answer and the records stored so far. The export of what a finished import made is the same text. All buffers stand against a guard
 * page. defects.c has the texts that must be refused. */
#define _DEFAULT_SOURCE
#include "importing.h"
#include "carry.h"
#include "demands.h"
#include "marked.h"
#include "text.h"

#include <stdio.h>
#include <stdlib.h>
#include <string.h>

static struct tree state;
static struct records records;

static struct {
    unsigned long imports, done, refused, halfway, lengths, across;
    size_t most;
} met;

/* What an import must leave and say. */
struct expected {
    uint8_t *image;
    uint32_t answer, second, programmed, erased;
};

static void expect_inserts(struct expected *e, uint32_t number, size_t length)
{
    uint8_t result[RESULT];
    e->answer = mutree_format(number, e->image, length, result, sizeof result);
    e->second = 0;
    e->programmed = mutree_read_result(result).programmed;
    e->erased = mutree_read_result(result).erased;
    while (e->answer == MUTREE_DONE && e->second < records.count) {
        struct update u = { 1, records.list[e->second].key, records.list[e->second].address };
        e->answer = update_with_words(u, number, e->image, length, UINT32_MAX, result, sizeof result);
        e->programmed += mutree_read_result(result).programmed;
        e->erased += mutree_read_result(result).erased;
        e->second += e->answer == MUTREE_DONE;
    }
}

/* By the request's words; `before` is the image as it is lent. */
static struct expected expect(const struct chip *on, const struct guarded *text, const uint8_t *before, size_t length)
{
    struct expected e = { copy_of(before, length), MUTREE_TEXT, 0, 0, 0 };
    e.second = (uint32_t)refused_line(text->bytes, text->length, &records);
    if (e.second == 0)
        expect_inserts(&e, on->number, length);
    return e;
}

/* The records stored so far, in a sound image; with DONE the text comes back. */
static void look_inside(const struct chip *on, const struct guarded *text, const struct guarded *image, const struct expected *e)
{
    const struct chip *tested = chip;
    uint8_t *again = room_for(text->length + 1), result[RESULT];
    if (judge(&state, on, image->bytes, image->length) || state.entries != e->second
        || (e->second && memcmp(state.map, records.list, e->second * sizeof *state.map)))
        fail("an import left other records than those stored, or no sound image");
    chip = on;
    is_exported(image->bytes, image->length, state.map, state.entries);
    chip = tested;
    if (e->answer == MUTREE_DONE
        && (mutree_export(on->number, image->bytes, image->length, again, text->length, result, sizeof result) != MUTREE_DONE
            || mutree_read_exported(result).written != text->length || memcmp(again, text->bytes, text->length)))
        fail("the export of what a finished import made is another text");
    free(again);
    met.most = e->second > met.most ? e->second : met.most;
}

static void said(const struct expected *e, uint32_t answer, const uint8_t *result)
{
    struct mutree_result r = mutree_read_result(result);
    struct mutree_imported i = mutree_read_imported(result);
    if (answer != e->answer || r.answer != answer || r.rule || r.page)
        fail("an import gives another answer than the text and the inserts do, or a rule or page");
    if (r.address != e->second || i.records != (answer == MUTREE_TEXT ? 0 : e->second) || i.line != (answer == MUTREE_TEXT ? e->second : 0))
        fail("an import says the records stored, or the lowest line that is refused");
    if (r.programmed != e->programmed || r.erased != e->erased || i.programmed != r.programmed || i.erased != r.erased)
        fail("the counts of an import are not those of format and its inserts");
    if (number_at(result + RESULT) != 0x09090909u)
        fail("bytes after the 24 changed");
}

/* One import on a chip, which need not be the one that is tested, into an image with something in it. */
static uint32_t import_on(const struct chip *on, const uint8_t *bytes, size_t length, size_t blocks)
{
    struct guarded text = guarded_copy(bytes, length), image = guarded_make(length_of(on, blocks), (int)pick(2));
    struct guarded result = guarded_make(RESULT + 4, (int)pick(2));
    struct expected e;
    uint32_t answer;
    memset(image.bytes, (int)pick(256), image.length);
    memset(result.bytes, 9, result.length);
    e = expect(on, &text, image.bytes, image.length);
    answer = mutree_import(on->number, image.bytes, image.length, text.bytes, text.length, result.bytes, result.length);
    said(&e, answer, result.bytes);
    if (memcmp(image.bytes, e.image, image.length))
        fail(answer == MUTREE_TEXT ? "an import that refused its text wrote" : "an import left another image than format and inserts");
    if (length && memcmp(text.bytes, bytes, length))
        fail("an import wrote to its text");
    if (answer != MUTREE_TEXT)
        look_inside(on, &text, &image, &e);
    met.imports++;
    met.done += answer == MUTREE_DONE;
    met.refused += answer == MUTREE_TEXT;
    met.halfway += answer == MUTREE_ROOM;
    free(e.image);
    guarded_free(&text);
    guarded_free(&image);
    guarded_free(&result);
    return answer;
}

uint32_t is_imported(const uint8_t *text, size_t length, size_t blocks)
{
    return import_on(chip, text, length, blocks);
}

void is_refused_at(const uint8_t *text, size_t length, size_t line)
{
    if (refused_line(text, length, &records) != line)
        fail("the text to be refused is not as planned");
    is_imported(text, length, 3);
}

void is_carried_across(const uint8_t *image, size_t length, const struct entry *map, size_t entries)
{
    uint8_t *text = room_for(MOST_LINE * entries + 1), result[RESULT];
    size_t bytes;
    uint32_t to;
    if (mutree_export(chip->number, image, length, text, MOST_LINE * entries, result, sizeof result) != MUTREE_DONE)
        fail("an export was refused");
    bytes = mutree_read_exported(result).written;
    for (to = 0; to < CHIPS; to++)
        if (import_on(&chips[to], text, bytes, 5) != MUTREE_DONE || state.entries != entries
            || (entries && memcmp(state.map, map, entries * sizeof *map)))
            fail("an index carried across has another map");
    met.across++;
    free(text);
}

uint32_t import_any(uint32_t number, uint8_t *image, size_t length, uint8_t *result, size_t room)
{
    static const uint8_t texts[2][9] = { "1\t2\n3\t4\n", "1\t2\n1\t4\n" };
    uint32_t answer;
    struct guarded text = guarded_copy(texts[pick(2)], 8), kept = guarded_copy(text.bytes, 8);
    answer = mutree_import(number, image, length, text.bytes, text.length, result, room);
    if (memcmp(text.bytes, kept.bytes, 8))
        fail("an import wrote to its text");
    guarded_free(&text);
    guarded_free(&kept);
    return answer;
}

/* ---- texts that are taken */
/* Rising keys, close together or far apart, some at the ends. */
size_t some_text(size_t count, uint8_t *text)
{
    struct entry *map = (struct entry *)(void *)room_for((count + 1) * sizeof *map);
    uint32_t gap = pick(2) ? 1 + pick(9) : count ? 4294967295u / (uint32_t)count : 1, key = pick(gap);
    size_t i, length;
    for (i = 0; i < count; i++) {
        map[i].key = key;
        map[i].address = pick(2) ? pick(100) : 256 * pick(16777216) + pick(256);
        key += 1 + (gap > 1 ? pick(gap - 1 < 16777216 ? gap - 1 : 16777216) : 0);
    }
    if (count && pick(4) == 0)
        map[count - 1].key = 4294967295u;
    if (pick(4) == 0)
        map[0].key = 0;
    length = text_of(map, count, text);
    free(map);
    return length;
}

static void round_trips(void)
{
    static const size_t counts[] = { 0, 1, 2, 31, 32, 33, 63, 64, 65, 127, 128, 129, 255, 256, 257, 300, 400, 500 };
    uint8_t *text = room_for(MOST_LINE * MOST_RECORDS);
    size_t i;
    for (i = 0; i < sizeof counts / sizeof *counts + 10; i++) {
        size_t count = i < sizeof counts / sizeof *counts ? counts[i] : pick(528);
        if (is_imported(text, some_text(count, text), 3) != MUTREE_DONE)
            fail("a text of so many records fits on three blocks");
    }
    free(text);
}

/* Of the small chip's blocks, from three on, so many records are taken (c/mutree.h); the large chip takes all on three. */
static void as_many_as_the_header_says(int quick)
{
    static const size_t small[] = { 528, 1056, 1568, 2080, 2592, 3104, 3616, 4096 };
    size_t blocks, most = chip->number ? 3 : 10, step = quick ? 7 : 1;
    uint8_t *text = room_for(MOST_LINE * MOST_RECORDS);
    for (blocks = 3; blocks <= most; blocks += step) {
        size_t taken = chip->number ? MOST_RECORDS : small[blocks - 3];
        if (is_imported(text, some_text(taken, text), blocks) != MUTREE_DONE)
            fail("an import takes fewer records than c/mutree.h says");
        if (taken < MOST_RECORDS && (is_imported(text, some_text(taken + 1, text), blocks) != MUTREE_ROOM || state.entries != taken))
            fail("an import takes more records than c/mutree.h says, or does not store them");
        if (taken < MOST_RECORDS && blocks == 3
            && (is_imported(text, some_text(MOST_RECORDS, text), 3) != MUTREE_ROOM || state.entries != taken))
            fail("an import that lacks room stores the records up to there");
    }
    free(text);
}

/* ---- what comes before the text */
static void is_length(size_t length)
{
    struct guarded image = guarded_make(length, (int)pick(2));
    uint8_t result[RESULT + 4], written[RESULT + 4] = { MUTREE_LENGTH }, *kept;
    memset(image.bytes, 77, length);
    kept = copy_of(image.bytes, length + !length);
    memset(result, 9, sizeof result);
    memset(written + RESULT, 9, 4);
    if (import_any(chip->number, image.bytes, length, result, sizeof result) != MUTREE_LENGTH || memcmp(result, written, sizeof result))
        fail("an import of a bad length is LENGTH, whatever its text is, and the result says so");
    if (length && memcmp(image.bytes, kept, length))
        fail("an import of a bad length wrote to the image");
    free(kept);
    guarded_free(&image);
    met.lengths++;
}

static void bad_lengths(void)
{
    size_t block = length_of(chip, 1), i;
    for (i = 0; i < 4; i++) {
        is_length(1);
        is_length(block);
        is_length(2 * block);
        is_length(3 * block - 1);
        is_length(3 * block + 1);
        is_length(3 * block + chip->page);
    }
    if (chip->number == 0)
        is_length(1025 * block);
}

/* LENGTH, and no buffer changes. */
static uint32_t import_into_copy(uint32_t number, const uint8_t *image, size_t length, uint8_t *result, size_t room)
{
    uint8_t *copy = copy_of(image, length);
    uint32_t answer = import_any(number, copy, length, result, room);
    if (memcmp(copy, image, length))
        fail("an import with a short result buffer wrote to the image");
    free(copy);
    return answer;
}

static void short_results(void)
{
    size_t length = length_of(chip, 3);
    uint8_t *image = room_for(length);
    int times;
    memset(image, 3, length);
    for (times = 0; times < 4; times++)
        short_results_stay(import_into_copy, image, length, "an import with a short result buffer is LENGTH and writes nothing");
    free(image);
}

void texts_are_imported(int quick)
{
    memset(&met, 0, sizeof met);
    bad_lengths();
    short_results();
    round_trips();
    as_many_as_the_header_says(quick);
    bad_texts_are_refused(quick);
}

void tell_imports(void)
{
    if (met.done == 0 || met.refused == 0 || (met.halfway == 0) != (chip->number == 1) || met.most != MOST_RECORDS)
        fail("an import of 4,096 records, one refused, or on the small chip one that lacked room was not met; or one lacked it on the large");
    printf("independent: %s chip: %lu imports: %lu came back as the same text, %lu texts refused at their lowest bad line, %lu cut halfway "
           "by ROOM, %lu bad lengths; %lu indexes carried to both chips\n", chip->name, met.imports, met.done, met.refused, met.halfway,
           met.lengths, met.across);
}
