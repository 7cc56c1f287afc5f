/* listing.c: request 1. A list is exactly the map's part between two keys, both taken in: each pair once, rising; it says how many pairs
 * exist and how many were written; numbers beyond those stay. The map is a plain sorted array. The buffer of numbers stands against a
 * guard page, behind it or before it. */
#define _DEFAULT_SOURCE
#include "demands.h"
#include "listing.h"
#include "marked.h"
#include "opened.h"

#include <stdio.h>
#include <string.h>

/* The image that is listed, and its map. */
static const uint8_t *image;
static size_t length, entries;
static const struct entry *map;

static struct {
    unsigned long lists, empty, cut_short, odd, upside_down, joined;
} met;

static const char *const beyond = "a list changed a number beyond the pairs written";

static uint32_t list(uint32_t number, uint32_t low, uint32_t high, struct guarded *pairs, uint8_t *result, size_t room)
{
    return mutree_list(number, image, length, low, high, numbers_of(pairs), pairs->length / 4, result, room);
}

uint32_t list_of_all(uint32_t number, const uint8_t *of, size_t of_length, uint8_t *result, size_t room)
{
    struct guarded pairs = marked(5 * 4);
    uint32_t answer;
    image = of;
    length = of_length;
    answer = list(number, 0, 4294967295u, &pairs, result, room);
    if (answer != MUTREE_DONE)
        stay_from(&pairs, 0, beyond);
    guarded_free(&pairs);
    return answer;
}

/* The pairs against the map, one after the other; how many there are. */
static size_t compared(uint32_t low, uint32_t high, const struct guarded *pairs)
{
    const uint32_t *n = numbers_of(pairs);
    size_t exist = 0, i;
    for (i = 0; i < entries; i++) {
        if (i > 0 && map[i - 1].key >= map[i].key)
            fail("the map's keys do not rise");
        if (map[i].key < low || map[i].key > high)
            continue;
        if (exist < pairs->length / 8 && (n[2 * exist] != map[i].key || n[2 * exist + 1] != map[i].address))
            fail("a list is not the map's part between its keys");
        exist++;
    }
    return exist;
}

static void count(uint32_t low, uint32_t high, size_t numbers, size_t exist)
{
    met.lists++;
    met.empty += exist == 0;
    met.cut_short += exist > numbers / 2;
    met.odd += numbers % 2 == 1 && exist > numbers / 2;
    met.upside_down += low > high && entries > 0;
}

/* One list, with all that request 1 says of it. */
static void is_the_maps_part(uint32_t low, uint32_t high, size_t numbers)
{
    struct guarded pairs = marked(4 * numbers);
    uint8_t result[RESULT + 4];
    uint32_t answer;
    struct mutree_listed r;
    size_t exist;
    memset(result, 9, sizeof result);
    answer = list(chip->number, low, high, &pairs, result, sizeof result);
    list_is_alike(chip->number, image, length, low, high, &pairs, answer, result);
    r = mutree_read_listed(result);
    exist = compared(low, high, &pairs);
    if (answer != MUTREE_DONE || r.answer != MUTREE_DONE || r.rule || r.page || mutree_read_result(result).erased)
        fail("a list of a sound image is DONE, with no rule, page or fourth number");
    if (r.exist != exist || r.written != (exist < numbers / 2 ? exist : numbers / 2))
        fail("a list says how many pairs exist, and how many of them were written");
    if (number_at(result + RESULT) != 0x09090909u)
        fail("bytes after the 24 changed");
    stay_from(&pairs, 8 * (size_t)r.written, beyond);
    guarded_free(&pairs);
    count(low, high, numbers, exist);
}

/* ---- which lists */
static uint32_t an_end(void)
{
    uint32_t key = entries ? map[pick(entries)].key : pick(1000);
    switch (pick(6)) {
    case 0: return 0;
    case 1: return 4294967295u;
    case 2: return key - (key > 0);
    case 3: return key + (key < 4294967295u);
    default: return key;
    }
}

/* Around twice the pairs that there may be, or none, or few. */
static size_t some_numbers(void)
{
    static const size_t few[] = { 0, 1, 2, 3, 5 };
    return pick(2) ? few[pick(5)] : pick(2) ? 2 * entries + pick(3) : pick(2 * entries + 4);
}

static void some_list(void)
{
    uint32_t low = an_end(), high = an_end();
    if (low > high && pick(4)) {
        uint32_t kept = low;
        low = high;
        high = kept;
    }
    is_the_maps_part(low, high, some_numbers());
}

/* What c/mutree.h says of a small buffer: the parts, from the key after the last on, are the whole. */
static void parts_are_the_whole(size_t numbers)
{
    uint32_t low = 0;
    size_t done = 0;
    struct mutree_listed r;
    do {
        struct guarded pairs = marked(4 * numbers);
        uint8_t result[RESULT];
        size_t i;
        if (list(chip->number, low, 4294967295u, &pairs, result, sizeof result) != MUTREE_DONE)
            fail("a part of a list was refused");
        r = mutree_read_listed(result);
        for (i = 0; i < r.written; i++)
            if (done + i >= entries || numbers_of(&pairs)[2 * i] != map[done + i].key)
                fail("the parts of a list are not the whole");
        done += r.written;
        low = r.written ? numbers_of(&pairs)[2 * (size_t)r.written - 2] + 1 : low;
        guarded_free(&pairs);
    } while (r.written < r.exist);
    if (done != entries)
        fail("the parts of a list end early");
    met.joined++;
}

static void take(const uint8_t *of, size_t of_length, const struct entry *its_map, size_t its_entries)
{
    image = of;
    length = of_length;
    map = its_map;
    entries = its_entries;
}

void some_lists(const uint8_t *of, size_t of_length, const struct entry *its_map, size_t its_entries)
{
    take(of, of_length, its_map, its_entries);
    some_list();
    some_list();
    if (pick(64) == 0)
        parts_are_the_whole(2 + pick(2 * entries + 8));
}

/* Every key, the gap after it, all up to it and all from it on: each edge of each subtree is among them. */
static void around_every_key(void)
{
    size_t i;
    for (i = 0; i < entries; i++) {
        uint32_t key = map[i].key;
        is_the_maps_part(key, key, 2);
        is_the_maps_part(key + 1, key + 1, 2);
        is_the_maps_part(key + 1, key + 2, 3);
        is_the_maps_part(0, key, 2 * i + 3);
        is_the_maps_part(key, 4294967295u, 2 * (entries - i) - 1);
        is_the_maps_part(key - 1, key + pick(300), some_numbers());
    }
    parts_are_the_whole(7);
}

static void list_tree(const uint8_t *of, size_t of_length, const struct entry *its_map, size_t its_entries)
{
    take(of, of_length, its_map, its_entries);
    around_every_key();
    short_results_stay(list_of_all, of, of_length, "a list with a short result buffer is LENGTH and writes nothing");
}

void lists_are_the_maps_part(void)
{
    memset(&met, 0, sizeof met);
    on_full_trees(list_tree, "a list wrote to the image");
}

void tell_lists(void)
{
    if (met.empty == 0 || met.cut_short == 0 || met.odd == 0 || met.upside_down == 0 || met.joined == 0)
        fail("a list without pairs, one cut short, one cut at an odd length, low above high, or parts joined were not met");
    printf("independent: %s chip: %lu lists are the map's part: %lu empty, %lu cut short, %lu of them at an odd length, %lu with low above "
           "high; %lu whole maps joined from parts\n", chip->name, met.lists, met.empty, met.cut_short, met.odd, met.upside_down, met.joined);
}
