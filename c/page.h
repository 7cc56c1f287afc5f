/* page.h: what stands where on a page. */
#ifndef MUTREE_PAGE_H
#define MUTREE_PAGE_H

#include "image.h"

/* A number of 32 bits, least byte first. */
uint32_t number_at(const uint8_t *at);

/* The first byte of a page, and of its spare bytes. */
const uint8_t *page_at(const struct image *image, uint32_t page);
const uint8_t *spare_at(const struct image *image, uint32_t page);

uint32_t sequence_of(const struct image *image, uint32_t page);
unsigned height_of(const struct image *image, uint32_t page);
unsigned count_of(const struct image *image, uint32_t page, unsigned level);
int is_erased(const struct image *image, uint32_t page);

/* The first spare byte after the codes; the index writes 255 from there on. */
unsigned spare_rest(const struct mutree_geometry *geometry);

/* The first slot of a level, and how many there are from it to the page's end. */
unsigned first_slot(const struct mutree_geometry *geometry, unsigned level);
unsigned slots_left(const struct mutree_geometry *geometry, unsigned level);

/* The first byte of a level's slot: its key, then its address. */
const uint8_t *slot_at(const struct image *image, uint32_t page, unsigned level, unsigned slot);

#endif
