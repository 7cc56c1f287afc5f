/* stale.c: request 8. LENGTH comes first, then STALE: "both return the record as given", leave the words and write nothing but the result. A record
 * is STALE exactly where the page that it names is not programmed with its number and height. A refused opening gives zeros. Buffers that are too
 * short are LENGTH. All of them stand against a guard page, with something in them beforehand. */
#define _DEFAULT_SOURCE
#include "opened.h"
#include "marked.h"

#include <stdio.h>
#include <stdlib.h>
#include <string.h>

static unsigned long stale, refused; /* records that are STALE, in four calls each; calls that are LENGTH */

/* ---- buffers */
uint32_t any_opened(int which, uint32_t number, const uint8_t *image, size_t length, uint8_t *result, size_t room)
{
    struct guarded pairs = marked(5 * 4), words = marked(4 * (number < CHIPS ? words_needed(&chips[number], length) : 3)), record;
    uint8_t zeros[RECORD] = { 0 }, *copy = copy_of(image, length);
    uint32_t answer;
    record = lent_record(zeros);
    switch (which) {
    case 0: answer = mutree_open(number, copy, length, record.bytes, record.length, result, room); break;
    case 1: answer = mutree_lookup_opened(number, copy, length, record.bytes, record.length, 7, result, room); break;
    case 2:
        answer = mutree_list_opened(number, copy, length, record.bytes, record.length, 0, UINT32_MAX, numbers_of(&pairs), 5, result, room);
        break;
    case 3:
        answer = mutree_insert_opened(number, copy, length, record.bytes, record.length, numbers_of(&words), words.length / 4, 7, 7, UINT32_MAX,
                                      result, room);
        break;
    default:
        answer = mutree_delete_opened(number, copy, length, record.bytes, record.length, numbers_of(&words), words.length / 4, 7, UINT32_MAX,
                                      result, room);
    }
    if (memcmp(copy, image, length) != 0 || memcmp(record.bytes, zeros, RECORD) != 0)
        fail("a refused call with a record wrote to the image or the record");
    stay_from(&pairs, 0, "a refused list with a record wrote a number");
    stay_from(&words, 0, "a refused update with a record wrote a word");
    guarded_free(&pairs);
    guarded_free(&words);
    guarded_free(&record);
    free(copy);
    return answer;
}

/* One call with a record of so many bytes and so many words, on copies: gives the answer, and fails where a buffer changed. */
static uint32_t refused_with(int which, const uint8_t *image, size_t length, const uint8_t *right, size_t bytes, size_t words, uint8_t *result,
                             size_t room)
{
    struct twin t = { guarded_copy(image, length), marked(bytes), { result, room, NULL, 0 }, marked(4 * words), 0, 0, 0, { 0 } };
    struct guarded pairs = marked(16);
    struct update u = { which == 3, 7, 7 };
    uint32_t answer;
    t.number = chip->number;
    if (right != NULL)
        memcpy(t.record.bytes, right, bytes < RECORD ? bytes : RECORD);
    memcpy(t.given, t.record.bytes, bytes < RECORD ? bytes : RECORD);
    switch (which) {
    case 0: answer = mutree_open(t.number, t.image.bytes, length, t.record.bytes, bytes, result, room); break;
    case 1: answer = mutree_lookup_opened(t.number, t.image.bytes, length, t.record.bytes, bytes, 7, result, room); break;
    case 2:
        answer = mutree_list_opened(t.number, t.image.bytes, length, t.record.bytes, bytes, 0, UINT32_MAX, numbers_of(&pairs), 4, result, room);
        break;
    default: answer = update_by_record(&t, u, UINT32_MAX);
    }
    if (memcmp(t.image.bytes, image, length) != 0 || memcmp(t.record.bytes, t.given, bytes < RECORD ? bytes : RECORD) != 0)
        fail("a refused call with a record wrote to the image or the record");
    stay_from(&t.words, 0, "a refused call with a record wrote a word");
    stay_from(&pairs, 0, "a refused call with a record wrote a number");
    guarded_free(&t.image);
    guarded_free(&t.record);
    guarded_free(&t.words);
    guarded_free(&pairs);
    return answer;
}

/* The answer, and the result says so. */
static void says(int which, const uint8_t *image, size_t length, const uint8_t *right, size_t bytes, size_t words, uint32_t answer,
                 const char *what)
{
    uint8_t result[RESULT + 4], wanted[RESULT + 4] = { 0 };
    memset(result, 9, sizeof result);
    memset(wanted + RESULT, 9, 4);
    wanted[0] = (uint8_t)answer;
    if (refused_with(which, image, length, right, bytes, words, result, sizeof result) != answer || memcmp(result, wanted, sizeof result) != 0)
        fail(what);
    refused += answer == MUTREE_LENGTH;
}

/* Records, words and lengths that are too short: LENGTH, before STALE; and with a short result nothing changes at all. */
static void short_buffers(const uint8_t *image, size_t length, const uint8_t *record)
{
    static const size_t bytes[] = { 0, 1, 4, 16, RECORD - 1 }, rooms[] = { 0, 1, 16, RESULT - 1 };
    size_t need_words = words_needed(chip, length), i;
    uint8_t result[RESULT], kept[RESULT];
    int which;
    memset(kept, 9, sizeof kept);
    for (which = 0; which < OPENED_CALLS; which++) {
        for (i = 0; i < sizeof bytes / sizeof *bytes; i++)
            says(which, image, length, record, bytes[i], need_words, MUTREE_LENGTH, "a record that is too short is LENGTH");
        for (i = 0; i < sizeof rooms / sizeof *rooms; i++) {
            memset(result, 9, sizeof result);
            if (refused_with(which, image, length, record, RECORD, need_words, result, rooms[i]) != MUTREE_LENGTH
                || memcmp(result, kept, sizeof result) != 0)
                fail("a call with a record and a short result buffer is LENGTH and writes nothing");
        }
        if (which > 0)
            says(which, image, length - 1, record, RECORD, need_words, MUTREE_LENGTH, "an image one byte short is LENGTH");
        if (which > 0)
            says(which, image, length - 1, NULL, RECORD, need_words, MUTREE_LENGTH, "LENGTH comes before STALE");
        if (which >= 3)
            for (i = 0; i < need_words; i++)
                says(which, image, length, i % 2 ? record : NULL, RECORD, i, MUTREE_LENGTH, "too few words are LENGTH, before STALE");
    }
}

/* ---- STALE */
static void put_number(uint8_t *at, uint32_t n)
{
    int i;
    for (i = 0; i < 4; i++)
        at[i] = (uint8_t)(n >> (8 * i));
}

/* A record with other numbers for root, number and height is STALE exactly where the page is not programmed so. */
static void is_told(const uint8_t *image, size_t length, const uint8_t *right, uint32_t root, uint32_t number, uint32_t height)
{
    uint8_t record[RECORD];
    int which;
    memcpy(record, right, RECORD);
    put_number(record, root);
    put_number(record + 4, number);
    put_number(record + 12, height);
    if (is_standing(chip, image, length, record))
        return;
    for (which = 1; which < OPENED_CALLS; which++)
        says(which, image, length, record, RECORD + which % 2, words_needed(chip, length), MUTREE_STALE, "a record that is not the image's is STALE");
    stale++;
}

/* Every page for the root's; numbers and heights beside the right ones, and with a bit more. */
static void stale_records(const uint8_t *image, size_t length, const uint8_t *record)
{
    struct mutree_record r = mutree_read_record(record);
    uint32_t pages = (uint32_t)(length / chip->page), page;
    unsigned bit;
    for (page = 0; page < pages; page++)
        is_told(image, length, record, page, r.number, r.height);
    is_told(image, length, record, pages, r.number, r.height);
    is_told(image, length, record, pages + r.root, r.number, r.height);
    is_told(image, length, record, 4294967295u, r.number, r.height);
    for (bit = 0; bit < 32; bit++) {
        is_told(image, length, record, r.root ^ (uint32_t)1 << bit, r.number, r.height);
        is_told(image, length, record, r.root, r.number ^ (uint32_t)1 << bit, r.height);
        is_told(image, length, record, r.root, r.number, r.height ^ (uint32_t)1 << bit);
    }
    for (page = 0; page < pages; page++) { /* an erased page reads as 255 in number and height */
        is_told(image, length, record, page, 4294967295u, 255);
        is_told(image, length, record, page, 0, 0);
    }
}

/* A log's end, the same with a damaged page, and a built tree of the greatest height. */
static void buffers_and_stale(void)
{
    size_t length = length_of(chip, 3), tall;
    uint8_t *image = room_for(length), *tree = full_tree(chip->top, FIRST_PATH, &tall), record[RECORD], result[RESULT];
    uint32_t live[64], key;
    mutree_format(chip->number, image, length, result, RESULT);
    for (key = 1; key < 3 * chip->block_pages; key++)
        mutree_insert(chip->number, image, length, live, 64, key % 200, key, UINT32_MAX, result, RESULT);
    if (opened_record(chip->number, image, length, record, result) != MUTREE_DONE)
        fail("an image could not be opened");
    short_buffers(image, length, record);
    stale_records(image, length, record);
    image[(size_t)mutree_read_record(record).root * chip->page] ^= 1;
    short_buffers(image, length, record);
    stale_records(image, length, record);
    opened_record(chip->number, tree, tall, record, result);
    is_told(tree, tall, record, mutree_read_record(record).root + 1, mutree_read_record(record).number, chip->top);
    free(image);
    free(tree);
}

/* A refused opening of every kind gives zeros, and the same rule and page as a lookup. */
static void refused_openings(void)
{
    size_t length = length_of(chip, 3), lengths[4];
    uint8_t *image = room_for(length + 1), record[RECORD], told[RESULT], wanted[RESULT];
    size_t i;
    lengths[0] = 0;
    lengths[1] = length - 1;
    lengths[2] = length + 1;
    lengths[3] = length_of(chip, 2);
    mutree_format(chip->number, image, length, told, RESULT);
    for (i = 0; i < 4; i++)
        if (opened_record(chip->number, image, lengths[i], record, told) != MUTREE_LENGTH || told[0] != MUTREE_LENGTH)
            fail("an opening of a length that is no index's is LENGTH");
    for (i = 0; i < 300; i++) {
        image[pick(length)] ^= (uint8_t)(1 + pick(255));
        if (opened_record(chip->number, image, length, record, told) != mutree_lookup(chip->number, image, length, 0, wanted, RESULT)
            && wanted[0] != MUTREE_ABSENT)
            fail("an opening and a lookup judge differently");
        if (told[0] == MUTREE_DAMAGED && memcmp(told, wanted, RESULT) != 0)
            fail("an opening names another rule or page than a lookup");
    }
    free(image);
}

void stale_is_told(void)
{
    buffers_and_stale();
    refused_openings();
}

void tell_stale(void)
{
    printf("independent: %s chip: %lu records STALE in four calls, %lu calls with a record LENGTH for a short buffer\n", chip->name, stale, refused);
    if (stale == 0 || refused == 0)
        fail("no record was STALE, or no buffer too short");
    stale = refused = 0;
}
