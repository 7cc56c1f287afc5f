/* nearest.h: which name a mistyped word comes closest to. */
#ifndef MUTREE_NEAREST_H
#define MUTREE_NEAREST_H

#include <stddef.h>

/* How many letters must be added, taken out or exchanged for others to get from one word to the other. */
unsigned distance(const char *word, const char *name);

#endif
