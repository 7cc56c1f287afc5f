/* listing.h: a list made wrong on purpose. */
#ifndef BROKEN_LISTING_H
#define BROKEN_LISTING_H

#include "../../c/mutree.h"

uint32_t real_list(uint32_t geometry, const uint8_t *image, size_t image_len, uint32_t low, uint32_t high, uint32_t *pairs,
                   size_t pairs_len, uint8_t *result, size_t result_len);

/* The list with faults 20 to 22 (shim.c). */
uint32_t list_wrongly(int fault, uint32_t geometry, const uint8_t *image, size_t image_len, uint32_t low, uint32_t high,
                      uint32_t *pairs, size_t pairs_len, uint8_t *result, size_t result_len);

#endif
