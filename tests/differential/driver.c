/* driver.c: the library's calls for serving.h, call 0 to 12: format, lookup, insert, delete, patrol, list, export, import, open, then lookup,
 * insert, delete and list with a record. What else is lent are the words of an insert or delete, list's numbers, or the text of an export or
 * import. A patrol's page and half, and a list's low and high, stand for key and address. The numbers are this processor's, least byte
 * first. */
#define _DEFAULT_SOURCE
#include "../../c/mutree.h"
#include "../serving.h"

/* The calls with a record. */
static uint32_t call_opened(const uint32_t *n, uint8_t *image, uint8_t *result, uint8_t *lent, uint8_t *record)
{
    uint32_t *words = (uint32_t *)(void *)lent, geometry = n[GEOMETRY];
    size_t count = n[LENT_LENGTH] / 4, length = n[IMAGE_LENGTH], bytes = n[RECORD_LENGTH], room = n[RESULT_LENGTH];
    switch (n[CALL]) {
    case 8: return mutree_open(geometry, image, length, record, bytes, result, room);
    case 9: return mutree_lookup_opened(geometry, image, length, record, bytes, n[KEY], result, room);
    case 10:
        return mutree_insert_opened(geometry, image, length, record, bytes, words, count, n[KEY], n[ADDRESS], n[ALLOWANCE], result, room);
    case 11: return mutree_delete_opened(geometry, image, length, record, bytes, words, count, n[KEY], n[ALLOWANCE], result, room);
    default: return mutree_list_opened(geometry, image, length, record, bytes, n[KEY], n[ADDRESS], words, count, result, room);
    }
}

static uint32_t call(const uint32_t *n, uint8_t *image, uint8_t *result, uint8_t *lent)
{
    uint32_t *words = (uint32_t *)(void *)lent;
    size_t count = n[LENT_LENGTH] / 4;
    switch (n[CALL]) {
    case 0: return mutree_format(n[GEOMETRY], image, n[IMAGE_LENGTH], result, n[RESULT_LENGTH]);
    case 1: return mutree_lookup(n[GEOMETRY], image, n[IMAGE_LENGTH], n[KEY], result, n[RESULT_LENGTH]);
    case 2:
        return mutree_insert(n[GEOMETRY], image, n[IMAGE_LENGTH], words, count, n[KEY], n[ADDRESS], n[ALLOWANCE], result, n[RESULT_LENGTH]);
    case 4: return mutree_patrol(n[GEOMETRY], image, n[IMAGE_LENGTH], n[KEY], n[ADDRESS], result, n[RESULT_LENGTH]);
    case 5:
        return mutree_list(n[GEOMETRY], image, n[IMAGE_LENGTH], n[KEY], n[ADDRESS], words, count, result, n[RESULT_LENGTH]);
    case 6: return mutree_export(n[GEOMETRY], image, n[IMAGE_LENGTH], lent, n[LENT_LENGTH], result, n[RESULT_LENGTH]);
    case 7: return mutree_import(n[GEOMETRY], image, n[IMAGE_LENGTH], lent, n[LENT_LENGTH], result, n[RESULT_LENGTH]);
    default: return mutree_delete(n[GEOMETRY], image, n[IMAGE_LENGTH], words, count, n[KEY], n[ALLOWANCE], result, n[RESULT_LENGTH]);
    }
}

static uint32_t any_call(const uint32_t *n, uint8_t *image, uint8_t *result, uint8_t *lent, uint8_t *record)
{
    return n[CALL] < 8 ? call(n, image, result, lent) : call_opened(n, image, result, lent, record);
}

int main(void)
{
    return serve(any_call);
}
