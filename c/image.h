/* image.h: an image in memory. */
#ifndef MUTREE_IMAGE_H
#define MUTREE_IMAGE_H

#include "mutree.h"

#include <stddef.h>
#include <stdint.h>

struct image {
    const char *name; /* the file that it was read from, as the user wrote it; NULL for none */
    uint8_t *bytes;
    size_t length;
    const struct mutree_geometry *geometry; /* the chip; NULL where it is not known yet */
};

/* The pointer itself, or an end with status 71 where it is NULL. */
void *need(void *pointer);

/* An image of so many blocks, whose bytes are all 255. */
struct image image_erased(const struct mutree_geometry *geometry, uint32_t blocks);
struct image image_copy(const struct image *image);
void image_free(struct image *image);

/* Whether `count` bytes are all 255. */
int all_255(const uint8_t *bytes, size_t count);

/* What the library says of an image whose chip is known: MUTREE_DONE for a sound one, MUTREE_LENGTH, or MUTREE_DAMAGED with the
 * rule and the page. */
struct mutree_result image_judge(const struct image *image);
int image_is_sound(const struct image *image);

/* The library's calls on an image whose chip is known. */
struct mutree_result image_format(struct image *image);
struct mutree_result image_lookup(const struct image *image, uint32_t key);
struct mutree_listed image_list(const struct image *image, uint32_t low, uint32_t high, uint32_t *pairs, size_t numbers);
struct mutree_result image_insert(struct image *image, uint32_t key, uint32_t address, uint32_t allowance);
struct mutree_result image_delete(struct image *image, uint32_t key, uint32_t allowance);
struct mutree_result image_patrol(struct image *image, uint32_t page, uint32_t half);
struct mutree_exported image_export(const struct image *image, uint8_t *text, size_t room);
struct mutree_imported image_import(struct image *image, const uint8_t *text, size_t length);

/* For many calls on one image, which is then judged once: image_open fills a record of MUTREE_RECORD_BYTES, and the others go by it. */
struct mutree_result image_open(const struct image *image, uint8_t *record);
struct mutree_result image_lookup_opened(const struct image *image, const uint8_t *record, uint32_t key);
struct mutree_result image_insert_opened(struct image *image, uint8_t *record, uint32_t key, uint32_t address);
struct mutree_result image_delete_opened(struct image *image, uint8_t *record, uint32_t key);

#endif
