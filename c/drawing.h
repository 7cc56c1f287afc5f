/* drawing.h: a chip as an SVG picture. */
#ifndef MUTREE_DRAWING_H
#define MUTREE_DRAWING_H

#include "survey.h"

#include <stdio.h>

/* What every drawing begins with. */
#define DRAWING_BEGINS "<svg xmlns='http://www.w3.org/2000/svg'"

/* A row a block, laid out in columns so that the picture comes near 3:2; equal pages that follow one another are one stroke. */
void draw_survey(FILE *out, const struct survey *survey);

#endif
