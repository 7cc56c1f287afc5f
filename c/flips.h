/* flips.h: flipped bits of an image: the patrol of all its halves. */
#ifndef MUTREE_FLIPS_H
#define MUTREE_FLIPS_H

#include "image.h"

/* How many halves a patrol found clean, with a flipped data bit, with a flipped code bit, beyond repair: by enum mutree_finding. */
struct flips {
    size_t found[MUTREE_BEYOND_REPAIR + 1];
};

/* Patrols every half of an image, and mends it where that can be done. Prints a line for each half that is not clean. */
struct flips flips_mend(struct image *image);

/* Prints on which pages of an image codes do not fit, and returns how many these are. The image stays as it is. */
uint32_t flips_print_pages(const struct image *image);

/* Prints a line for each half of a page whose code does not fit, and what it is taken for. The image stays as it is. */
void flips_print_page(const struct image *image, uint32_t page);

#endif
