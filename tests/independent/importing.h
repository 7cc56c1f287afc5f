/* importing.h: single imports, for defects.c. */
#ifndef IMPORTING_H
#define IMPORTING_H

#include "judge.h"

/* One import into an image of so many blocks with something in it, held to all that is said of it. Gives the answer. */
uint32_t is_imported(const uint8_t *text, size_t length, size_t blocks);

/* The same with a text whose lowest bad line is known. */
void is_refused_at(const uint8_t *text, size_t length, size_t line);

/* A text of so many records that fits. Gives its length. */
size_t some_text(size_t count, uint8_t *text);

/* defects.c: texts with each defect at each place, two defects, too many lines, and all that is one byte away from a text. */
void bad_texts_are_refused(int quick);

#endif
