#include "image.h"
#include "status.h"

#include <stdio.h>
#include <stdlib.h>
#include <string.h>

void *need(void *pointer)
{
    if (pointer == NULL) {
        fputs("mutree: out of memory\n", stderr);
        exit(NO_MEMORY);
    }
    return pointer;
}

struct image image_erased(const struct mutree_geometry *geometry, uint32_t blocks)
{
    struct image image;
    image.name = NULL;
    image.geometry = geometry;
    image.length = (size_t)blocks * geometry->block_bytes;
    image.bytes = need(malloc(image.length ? image.length : 1));
    memset(image.bytes, 255, image.length);
    return image;
}

struct image image_copy(const struct image *image)
{
    struct image copy = *image;
    copy.bytes = need(malloc(image->length ? image->length : 1));
    memcpy(copy.bytes, image->bytes, image->length);
    return copy;
}

void image_free(struct image *image)
{
    free(image->bytes);
    image->bytes = NULL;
    image->length = 0;
}

int all_255(const uint8_t *bytes, size_t count)
{
    while (count > 0)
        if (bytes[--count] != 255)
            return 0;
    return 1;
}

struct mutree_result image_format(struct image *image)
{
    uint8_t result[MUTREE_RESULT_BYTES];
    mutree_format(image->geometry->number, image->bytes, image->length, result, sizeof result);
    return mutree_read_result(result);
}

struct mutree_result image_lookup(const struct image *image, uint32_t key)
{
    uint8_t result[MUTREE_RESULT_BYTES];
    mutree_lookup(image->geometry->number, image->bytes, image->length, key, result, sizeof result);
    return mutree_read_result(result);
}

struct mutree_listed image_list(const struct image *image, uint32_t low, uint32_t high, uint32_t *pairs, size_t numbers)
{
    uint8_t result[MUTREE_RESULT_BYTES];
    mutree_list(image->geometry->number, image->bytes, image->length, low, high, pairs, numbers, result, sizeof result);
    return mutree_read_listed(result);
}

/* What inserts and deletes are lent for the live pages; enough for every image. */
static uint32_t live[MUTREE_MOST_LIVE_WORDS];

struct mutree_result image_insert(struct image *image, uint32_t key, uint32_t address, uint32_t allowance)
{
    uint8_t result[MUTREE_RESULT_BYTES];
    mutree_insert(image->geometry->number, image->bytes, image->length, live, MUTREE_MOST_LIVE_WORDS, key, address, allowance, result,
                  sizeof result);
    return mutree_read_result(result);
}

struct mutree_result image_delete(struct image *image, uint32_t key, uint32_t allowance)
{
    uint8_t result[MUTREE_RESULT_BYTES];
    mutree_delete(image->geometry->number, image->bytes, image->length, live, MUTREE_MOST_LIVE_WORDS, key, allowance, result, sizeof result);
    return mutree_read_result(result);
}

struct mutree_result image_open(const struct image *image, uint8_t *record)
{
    uint8_t result[MUTREE_RESULT_BYTES];
    mutree_open(image->geometry->number, image->bytes, image->length, record, MUTREE_RECORD_BYTES, result, sizeof result);
    return mutree_read_result(result);
}

struct mutree_result image_lookup_opened(const struct image *image, const uint8_t *record, uint32_t key)
{
    uint8_t result[MUTREE_RESULT_BYTES];
    mutree_lookup_opened(image->geometry->number, image->bytes, image->length, record, MUTREE_RECORD_BYTES, key, result, sizeof result);
    return mutree_read_result(result);
}

struct mutree_result image_insert_opened(struct image *image, uint8_t *record, uint32_t key, uint32_t address)
{
    uint8_t result[MUTREE_RESULT_BYTES];
    mutree_insert_opened(image->geometry->number, image->bytes, image->length, record, MUTREE_RECORD_BYTES, live, MUTREE_MOST_LIVE_WORDS, key,
                         address, UINT32_MAX, result, sizeof result);
    return mutree_read_result(result);
}

struct mutree_result image_delete_opened(struct image *image, uint8_t *record, uint32_t key)
{
    uint8_t result[MUTREE_RESULT_BYTES];
    mutree_delete_opened(image->geometry->number, image->bytes, image->length, record, MUTREE_RECORD_BYTES, live, MUTREE_MOST_LIVE_WORDS, key,
                         UINT32_MAX, result, sizeof result);
    return mutree_read_result(result);
}

struct mutree_result image_patrol(struct image *image, uint32_t page, uint32_t half)
{
    uint8_t result[MUTREE_RESULT_BYTES];
    mutree_patrol(image->geometry->number, image->bytes, image->length, page, half, result, sizeof result);
    return mutree_read_result(result);
}

struct mutree_exported image_export(const struct image *image, uint8_t *text, size_t room)
{
    uint8_t result[MUTREE_RESULT_BYTES];
    mutree_export(image->geometry->number, image->bytes, image->length, text, room, result, sizeof result);
    return mutree_read_exported(result);
}

struct mutree_imported image_import(struct image *image, const uint8_t *text, size_t length)
{
    uint8_t result[MUTREE_RESULT_BYTES];
    mutree_import(image->geometry->number, image->bytes, image->length, text, length, result, sizeof result);
    return mutree_read_imported(result);
}

struct mutree_result image_judge(const struct image *image)
{
    struct mutree_result result = image_lookup(image, 0);
    if (result.answer == MUTREE_ABSENT)
        result.answer = MUTREE_DONE;
    result.address = 0;
    return result;
}

int image_is_sound(const struct image *image)
{
    return image_judge(image).answer == MUTREE_DONE;
}
