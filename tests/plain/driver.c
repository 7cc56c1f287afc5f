/* driver.c: the calls of both trees for serving.h, call 0 to 3: format, lookup, insert, delete. Geometry 2 is the plain tree, 0 the library's
 * small chip; an insert or delete of the library is lent its words. */
#define _DEFAULT_SOURCE
#include "../../c/mutree.h"
#include "../serving.h"
#include "plain.h"

enum { PLAIN = 2 };

static uint32_t plain_call(const uint32_t *n, uint8_t *image, uint8_t *result)
{
    size_t length = n[IMAGE_LENGTH], room = n[RESULT_LENGTH];
    switch (n[CALL]) {
    case 0: return plain_format(image, length, result, room);
    case 1: return plain_lookup(image, length, n[KEY], result, room);
    case 2: return plain_insert(image, length, n[KEY], n[ADDRESS], n[ALLOWANCE], result, room);
    default: return plain_delete(image, length, n[KEY], n[ALLOWANCE], result, room);
    }
}

static uint32_t library_call(const uint32_t *n, uint8_t *image, uint8_t *result, uint8_t *lent)
{
    uint32_t *words = (uint32_t *)(void *)lent;
    size_t count = n[LENT_LENGTH] / 4, length = n[IMAGE_LENGTH], room = n[RESULT_LENGTH];
    switch (n[CALL]) {
    case 0: return mutree_format(MUTREE_SMALL, image, length, result, room);
    case 1: return mutree_lookup(MUTREE_SMALL, image, length, n[KEY], result, room);
    case 2: return mutree_insert(MUTREE_SMALL, image, length, words, count, n[KEY], n[ADDRESS], n[ALLOWANCE], result, room);
    default: return mutree_delete(MUTREE_SMALL, image, length, words, count, n[KEY], n[ALLOWANCE], result, room);
    }
}

static uint32_t call(const uint32_t *n, uint8_t *image, uint8_t *result, uint8_t *lent, uint8_t *record)
{
    (void)record;
    return n[GEOMETRY] == PLAIN ? plain_call(n, image, result) : library_call(n, image, result, lent);
}

int main(void)
{
    return serve(call);
}
