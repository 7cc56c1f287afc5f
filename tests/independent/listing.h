/* listing.h: request 1's lists, for the tests of this folder. */
#ifndef LISTING_H
#define LISTING_H

#include "judge.h"

/* A list of all keys, with this number for the chip, into five numbers. Fails where it is not DONE and a number changed. */
uint32_t list_of_all(uint32_t number, const uint8_t *image, size_t length, uint8_t *result, size_t room);

/* Some lists of an image that holds this map, whose keys rise: each is the map's part. */
void some_lists(const uint8_t *image, size_t length, const struct entry *map, size_t entries);

/* Lists of trees of every height. */
void lists_are_the_maps_part(void);

/* What was met on the chip; fails where something was not. */
void tell_lists(void);

#endif
