/* picture.h: a chip as a picture in the terminal. */
#ifndef MUTREE_PICTURE_H
#define MUTREE_PICTURE_H

#include "survey.h"

/* A character a page, a line a block. */
void picture_of_pages(const struct survey *survey);

/* A character a block, for chips with many. */
void picture_of_blocks(const struct survey *survey);

#endif
