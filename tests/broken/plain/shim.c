/* shim.c: the plain tree's calls made wrong on purpose, so that their tests can be seen to fail. The real calls have been renamed to
 * real_plain_format and so on. FAULT says what is wrong:
 * 1 an insert that says DONE and writes nothing   2 one page more told than programmed
 * 3 an insert that also turns over a bit of a programmed page   4 a delete that pretends   5 a lookup one address off
 * 6 an update that makes one store more than its allowance   7 a lookup that reads one byte past the image
 * 8 an insert that reads one byte past the result buffer   9 ROOM where exactly as many pages are erased as the update needs
 * 10 HEIGHT told as ROOM   11 a result buffer of 16 bytes is taken   12 DAMAGED without rule and page
 * 13 DAMAGED, rule 7, where no page is erased   14 WORN from the limit on   15 DONE before the root is programmed
 * 16 a block told as erased   17 a format that leaves a bit of its page turned over   18 ABSENT comes after ROOM
 * 19 a stopped insert that tells no page   20 a present key that is inserted programs one page less than the tree is high */
#include "../../../c/mutree.h"
#include "../../plain/plain.h"
#include "../../plain/seen.h"

#include <stdlib.h>
#include <string.h>

uint32_t real_plain_format(uint8_t *image, size_t image_len, uint8_t *result, size_t result_len);
uint32_t real_plain_lookup(const uint8_t *image, size_t image_len, uint32_t key, uint8_t *result, size_t result_len);
uint32_t real_plain_insert(uint8_t *image, size_t image_len, uint32_t key, uint32_t address, uint32_t allowance, uint8_t *result, size_t result_len);
uint32_t real_plain_delete(uint8_t *image, size_t image_len, uint32_t key, uint32_t allowance, uint8_t *result, size_t result_len);

static volatile uint8_t seen; /* what faults 7 and 8 read */

static const uint32_t worn_limit = 4294967000u;

static void write_number(uint8_t *at, uint32_t n)
{
    int i;
    for (i = 0; i < 4; i++)
        at[i] = (uint8_t)(n >> (8 * i));
}

/* Another answer, and no stores. */
static uint32_t say(uint8_t *result, uint32_t answer, uint32_t rule)
{
    write_number(result, answer);
    memset(result + 4, 0, 20);
    write_number(result + 16, rule);
    return answer;
}

static uint32_t largest_number(const uint8_t *image, size_t length)
{
    uint32_t largest = 0;
    size_t at;
    for (at = 512; at < length; at += 528)
        if (image[at + 4] != 255) {
            uint32_t n = (uint32_t)image[at] | (uint32_t)image[at + 1] << 8 | (uint32_t)image[at + 2] << 16 | (uint32_t)image[at + 3] << 24;
            largest = n > largest ? n : largest;
        }
    return largest;
}

/* A buffer of 16 bytes is taken, by a call into a longer one. */
static int takes_short(size_t result_len)
{
    return FAULT == 11 && result_len >= 16 && result_len < MUTREE_RESULT_BYTES;
}

uint32_t plain_format(uint8_t *image, size_t image_len, uint8_t *result, size_t result_len)
{
    uint32_t answer = real_plain_format(image, image_len, result, result_len);
    if (FAULT == 17 && answer == MUTREE_DONE)
        image[100] ^= 1;
    return answer;
}

uint32_t plain_lookup(const uint8_t *image, size_t image_len, uint32_t key, uint8_t *result, size_t result_len)
{
    uint8_t longer[MUTREE_RESULT_BYTES];
    int takes = takes_short(result_len);
    uint32_t answer = real_plain_lookup(image, image_len, key, takes ? longer : result, takes ? sizeof longer : result_len);
    if (takes)
        memcpy(result, longer, result_len);
    if (FAULT == 7)
        seen = image[image_len];
    if (FAULT == 5 && answer == MUTREE_DONE)
        result[4]++;
    if (FAULT == 12 && answer == MUTREE_DAMAGED)
        memset(result + 16, 0, 8);
    return answer;
}

struct update {
    int is_delete;
    uint32_t key, address, allowance;
};

static uint32_t real(uint8_t *image, size_t length, struct update u, uint8_t *result, size_t result_len)
{
    return u.is_delete ? real_plain_delete(image, length, u.key, u.allowance, result, result_len)
                       : real_plain_insert(image, length, u.key, u.address, u.allowance, result, result_len);
}

/* The stores that the update needs, or 0 where it is refused; the image stays. */
static uint32_t stores_of(const uint8_t *image, size_t length, struct update u)
{
    uint8_t result[MUTREE_RESULT_BYTES], *copy = malloc(length ? length : 1);
    uint32_t stores;
    if (copy == NULL)
        abort();
    memcpy(copy, image, length);
    u.allowance = UINT32_MAX;
    stores = real(copy, length, u, result, sizeof result) == MUTREE_DONE ? mutree_read_result(result).programmed : 0;
    free(copy);
    return stores;
}

static int is_there(const uint8_t *image, size_t length, uint32_t key)
{
    uint8_t result[MUTREE_RESULT_BYTES];
    return real_plain_lookup(image, length, key, result, sizeof result) == MUTREE_DONE;
}

static void turn_a_bit(uint8_t *image, size_t length)
{
    size_t at;
    for (at = 0; at < length; at += 528)
        if (image[at + 516] != 255) {
            image[at + 300] ^= 1;
            return;
        }
}

/* An update whose faults come before the call; whether it was answered. */
static int answered(uint8_t *image, size_t length, struct update *u, uint8_t *result, uint32_t *answer)
{
    uint32_t stores = stores_of(image, length, *u);
    int pretends = (FAULT == 1 && !u->is_delete) || (FAULT == 4 && u->is_delete);
    *answer = MUTREE_DONE;
    if (FAULT == 6 && u->allowance < stores)
        u->allowance++;
    if ((FAULT == 15 || (FAULT == 20 && !u->is_delete && is_there(image, length, u->key))) && stores > 1 && u->allowance >= stores) {
        u->allowance = stores - 1;
        real(image, length, *u, result, MUTREE_RESULT_BYTES);
        *answer = say(result, MUTREE_DONE, 0);
        write_number(result + 8, FAULT == 15 ? stores : stores - 1);
    } else if (pretends && stores > 0 && u->allowance >= stores) {
        *answer = say(result, MUTREE_DONE, 0);
        write_number(result + 8, stores);
    } else if (FAULT == 9 && stores > 0 && stores == pages_erased(image, length))
        *answer = say(result, MUTREE_ROOM, 0);
    else if (FAULT == 14 && stores > 0 && largest_number(image, length) == worn_limit)
        *answer = say(result, MUTREE_WORN, 0);
    else if (FAULT == 13 && length > 0 && pages_erased(image, length) == 0)
        *answer = say(result, MUTREE_DAMAGED, 7);
    else
        return 0;
    return 1;
}

static uint32_t update(uint8_t *image, size_t length, struct update u, uint8_t *result, size_t result_len)
{
    uint8_t longer[MUTREE_RESULT_BYTES];
    int takes = takes_short(result_len);
    uint32_t answer;
    if (result_len >= MUTREE_RESULT_BYTES && answered(image, length, &u, result, &answer))
        return answer;
    answer = real(image, length, u, takes ? longer : result, takes ? sizeof longer : result_len);
    if (takes)
        memcpy(result, longer, result_len);
    if (FAULT == 8 && !u.is_delete)
        seen = result[result_len];
    if (result_len < MUTREE_RESULT_BYTES)
        return answer;
    if (FAULT == 2 && answer == MUTREE_DONE)
        result[8]++;
    if (FAULT == 3 && !u.is_delete && answer == MUTREE_DONE)
        turn_a_bit(image, length);
    if (FAULT == 10 && answer == MUTREE_HEIGHT)
        answer = say(result, MUTREE_ROOM, 0);
    if (FAULT == 12 && answer == MUTREE_DAMAGED)
        memset(result + 16, 0, 8);
    if (FAULT == 16 && answer == MUTREE_DONE)
        result[12]++;
    if (FAULT == 18 && answer == MUTREE_ABSENT && pages_erased(image, length) == 0)
        answer = say(result, MUTREE_ROOM, 0);
    if (FAULT == 19 && answer == MUTREE_STOPPED)
        memset(result + 8, 0, 4);
    return answer;
}

uint32_t plain_insert(uint8_t *image, size_t image_len, uint32_t key, uint32_t address, uint32_t allowance, uint8_t *result, size_t result_len)
{
    struct update u = { 0, 0, 0, 0 };
    u.key = key;
    u.address = address;
    u.allowance = allowance;
    return update(image, image_len, u, result, result_len);
}

uint32_t plain_delete(uint8_t *image, size_t image_len, uint32_t key, uint32_t allowance, uint8_t *result, size_t result_len)
{
    struct update u = { 1, 0, 0, 0 };
    u.key = key;
    u.allowance = allowance;
    return update(image, image_len, u, result, result_len);
}
