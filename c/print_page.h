/* print_page.h: one page in words and numbers. */
#ifndef MUTREE_PRINT_PAGE_H
#define MUTREE_PRINT_PAGE_H

#include "survey.h"

/* Where the page stands, its numbers, whether it is live, and its entries, the highest level first. Of an image that is not sound
 * it also says beside a count, a key or a page number that it could not stand in a live node. */
void print_page(const struct survey *survey, const struct image *image, uint32_t page);

#endif
