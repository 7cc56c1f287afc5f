/* marking.h: inserts and deletes whose words of live pages are wrong on purpose. */
#ifndef BROKEN_MARKING_H
#define BROKEN_MARKING_H

#include "../../c/mutree.h"

uint32_t real_lookup(uint32_t geometry, const uint8_t *image, size_t image_len, uint32_t key, uint8_t *result, size_t result_len);
uint32_t real_insert(uint32_t geometry, uint8_t *image, size_t image_len, uint32_t *live, size_t live_len, uint32_t key, uint32_t address,
                     uint32_t allowance, uint8_t *result, size_t result_len);
uint32_t real_delete(uint32_t geometry, uint8_t *image, size_t image_len, uint32_t *live, size_t live_len, uint32_t key, uint32_t allowance,
                     uint8_t *result, size_t result_len);

/* A call of insert or delete. */
struct update {
    int adds;
    uint32_t geometry;
    uint8_t *image;
    size_t image_len;
    uint32_t *live;
    size_t live_len;
    uint32_t key, address, allowance;
    uint8_t *result;
    size_t result_len;
};

/* The real call. */
uint32_t update_rightly(struct update u);

/* The call with faults 34 to 45 (shim.c). */
uint32_t update_wrongly(int fault, struct update u);

#endif
