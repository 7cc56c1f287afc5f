/* seen.h: what can be seen of a small chip's image without reading its tree. */
#ifndef SEEN_H
#define SEEN_H

#include <stddef.h>
#include <stdint.h>

/* The height of the tree: the height byte of the page with the largest number of those that have one of 1 to 5. */
unsigned height_seen(const uint8_t *image, size_t length);

/* How many pages are not as before, or SIZE_MAX where one of these was not erased before. */
size_t pages_programmed(const uint8_t *before, const uint8_t *image, size_t length);

/* How many pages are erased. */
size_t pages_erased(const uint8_t *image, size_t length);

#endif
