/* summary.h: an image in two lines. */
#ifndef MUTREE_SUMMARY_H
#define MUTREE_SUMMARY_H

#include "survey.h"

/* Blocks, chip, whether it is sound or what is broken, counts of pages. */
void summary_print(const struct survey *survey);

#endif
