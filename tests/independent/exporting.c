/* exporting.c: request 13. An export is the map's text: a line for each record, rising keys, all of it or nothing; it says how many
 * records and bytes there are and how many bytes were written. Bytes beyond those stay. The text stands against a guard page, behind it
 * or before it. */
#define _DEFAULT_SOURCE
#include "carry.h"
#include "demands.h"
#include "marked.h"
#include "text.h"

#include <stdio.h>
#include <string.h>

static struct {
    unsigned long exports, whole, too_short, asked, empty;
} met;

static const char *const beyond = "an export changed a byte beyond the text";

uint32_t export_any(uint32_t number, const uint8_t *image, size_t length, uint8_t *result, size_t room)
{
    struct guarded text = marked(7);
    uint32_t answer = mutree_export(number, image, length, text.bytes, text.length, result, room);
    if (answer != MUTREE_DONE)
        stay_from(&text, 0, beyond);
    guarded_free(&text);
    return answer;
}

/* The map's own text. */
static uint8_t *wanted;
static size_t wanted_length;

static void take_text(const struct entry *map, size_t entries)
{
    wanted = room_for(MOST_LINE * entries + 1);
    wanted_length = text_of(map, entries, wanted);
}

/* One export into so many bytes, with all that the request and c/mutree.h say of it. */
static void one_export(const uint8_t *image, size_t length, size_t entries, size_t lent)
{
    struct guarded text = marked(lent);
    uint8_t result[RESULT + 4];
    struct mutree_exported e;
    uint32_t answer;
    memset(result, 9, sizeof result);
    answer = mutree_export(chip->number, image, length, text.bytes, lent, result, sizeof result);
    e = mutree_read_exported(result);
    if (answer != MUTREE_DONE || e.answer != MUTREE_DONE || e.rule || e.page)
        fail("an export of a sound image is DONE, with no rule or page");
    if (e.records != entries || e.bytes != wanted_length || e.written != (lent < wanted_length ? 0 : wanted_length))
        fail("an export says how many records and bytes there are, and how many bytes were written");
    if (e.written && memcmp(text.bytes, wanted, wanted_length))
        fail("an export is not the map's text");
    if (number_at(result + RESULT) != 0x09090909u)
        fail("bytes after the 24 changed");
    stay_from(&text, e.written, beyond);
    guarded_free(&text);
    met.exports++;
    met.whole += e.written > 0;
    met.too_short += lent > 0 && lent < wanted_length;
    met.asked += lent == 0 && wanted_length > 0;
    met.empty += entries == 0;
}

void is_exported(const uint8_t *image, size_t length, const struct entry *map, size_t entries)
{
    take_text(map, entries);
    one_export(image, length, entries, wanted_length);
    free(wanted);
}

void some_exports(const uint8_t *image, size_t length, const struct entry *map, size_t entries)
{
    take_text(map, entries);
    switch (pick(5)) {
    case 0: one_export(image, length, entries, 0); break;
    case 1: one_export(image, length, entries, wanted_length + pick(30)); break;
    case 2: one_export(image, length, entries, wanted_length ? wanted_length - 1 : 0); break;
    case 3: one_export(image, length, entries, pick(wanted_length + 1)); break;
    default: one_export(image, length, entries, wanted_length); break;
    }
    free(wanted);
}

/* Every length from 0 to one above the text's, and against both guard pages. */
static void every_length(const uint8_t *image, size_t length, const struct entry *map, size_t entries)
{
    size_t lent;
    take_text(map, entries);
    for (lent = 0; lent <= wanted_length + 1; lent++)
        one_export(image, length, entries, lent);
    free(wanted);
}

/* A few records whose numbers have one digit to ten, the largest among them. */
static void few_records(void)
{
    static const struct entry map[] = {
        { 0, 0 }, { 1, 10 }, { 9, 99 }, { 10, 9 }, { 99, 100 }, { 100, 4294967295u }, { 65535, 65536 }, { 999999999, 1000000000 },
        { 1000000000, 999999999 }, { 4294967290u, 1 }, { 4294967294u, 4294967294u }, { 4294967295u, 0 }
    };
    enum { FEW = sizeof map / sizeof *map };
    size_t length = length_of(chip, 3), i;
    uint8_t *image = room_for(length), result[RESULT];
    if (mutree_format(chip->number, image, length, result, sizeof result))
        fail("format");
    every_length(image, length, map, 0);
    for (i = 0; i < FEW; i++) {
        struct update u = { 1, 0, 0 };
        u.key = map[FEW - 1 - i].key;
        u.address = map[FEW - 1 - i].address;
        run(u, image, length, UINT32_MAX);
        every_length(image, length, map + FEW - 1 - i, i + 1);
    }
    free(image);
}

static void export_tree(const uint8_t *image, size_t length, const struct entry *map, size_t entries)
{
    int times;
    is_exported(image, length, map, entries);
    for (times = 0; times < 10; times++)
        some_exports(image, length, map, entries);
    short_results_stay(export_any, image, length, "an export with a short result buffer is LENGTH and writes nothing");
}

void exports_are_the_maps_text(void)
{
    memset(&met, 0, sizeof met);
    few_records();
    on_full_trees(export_tree, "an export wrote to the image");
}

void tell_exports(void)
{
    if (met.whole == 0 || met.too_short == 0 || met.asked == 0 || met.empty == 0)
        fail("an export of a whole text, one into too few bytes, one that asks, or one of no records was not met");
    printf("independent: %s chip: %lu exports are the map's text: %lu whole, %lu into too few bytes, %lu asked how many, %lu of an empty "
           "map\n", chip->name, met.exports, met.whole, met.too_short, met.asked, met.empty);
}
