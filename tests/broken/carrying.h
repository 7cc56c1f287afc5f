/* carrying.h: exports and imports made wrong on purpose. */
#ifndef BROKEN_CARRYING_H
#define BROKEN_CARRYING_H

#include "../../c/mutree.h"

uint32_t real_format(uint32_t geometry, uint8_t *image, size_t image_len, uint8_t *result, size_t result_len);
uint32_t real_export(uint32_t geometry, const uint8_t *image, size_t image_len, uint8_t *text, size_t text_len, uint8_t *result,
                     size_t result_len);
uint32_t real_import(uint32_t geometry, uint8_t *image, size_t image_len, const uint8_t *text, size_t text_len, uint8_t *result,
                     size_t result_len);

/* The calls with faults 23 to 33 (shim.c). */
uint32_t export_wrongly(int fault, uint32_t geometry, const uint8_t *image, size_t image_len, uint8_t *text, size_t text_len,
                        uint8_t *result, size_t result_len);
uint32_t import_wrongly(int fault, uint32_t geometry, uint8_t *image, size_t image_len, const uint8_t *text, size_t text_len,
                        uint8_t *result, size_t result_len);

#endif
