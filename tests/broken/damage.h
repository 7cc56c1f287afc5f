/* damage.h: a result that names the wrong place of a damage. */
#ifndef BROKEN_DAMAGE_H
#define BROKEN_DAMAGE_H

#include "../../c/mutree.h"

/* The page of the root of a sound image. */
uint32_t root_of(uint32_t geometry, const uint8_t *image, size_t length);

/* Changes the page of a DAMAGED result as faults 14 to 16 say (shim.c); leaves all else alone. */
void tell_wrongly(int fault, uint32_t geometry, const uint8_t *image, size_t length, uint32_t answer,
                  uint8_t *result);

#endif
