/* opening.h: openings and calls with a record that are wrong on purpose. */
#ifndef BROKEN_OPENING_H
#define BROKEN_OPENING_H

#include "../../c/mutree.h"

uint32_t real_open(uint32_t geometry, const uint8_t *image, size_t image_len, uint8_t *record, size_t record_len, uint8_t *result,
                   size_t result_len);
uint32_t real_lookup_opened(uint32_t geometry, const uint8_t *image, size_t image_len, const uint8_t *record, size_t record_len, uint32_t key,
                            uint8_t *result, size_t result_len);
uint32_t real_list_opened(uint32_t geometry, const uint8_t *image, size_t image_len, const uint8_t *record, size_t record_len, uint32_t low,
                          uint32_t high, uint32_t *pairs, size_t pairs_len, uint8_t *result, size_t result_len);
uint32_t real_insert_opened(uint32_t geometry, uint8_t *image, size_t image_len, uint8_t *record, size_t record_len, uint32_t *live,
                            size_t live_len, uint32_t key, uint32_t address, uint32_t allowance, uint8_t *result, size_t result_len);
uint32_t real_delete_opened(uint32_t geometry, uint8_t *image, size_t image_len, uint8_t *record, size_t record_len, uint32_t *live,
                            size_t live_len, uint32_t key, uint32_t allowance, uint8_t *result, size_t result_len);

/* A call with a record. */
struct opened_call {
    enum { A_LOOKUP, A_LIST, AN_INSERT, A_DELETE } which;
    uint32_t geometry;
    uint8_t *image;
    size_t image_len;
    uint8_t *record;
    size_t record_len;
    uint32_t *lent; /* an update's words, a list's numbers */
    size_t lent_len;
    uint32_t key, address, allowance; /* a list's low and high are key and address */
    uint8_t *result;
    size_t result_len;
};

uint32_t open_wrongly(int fault, uint32_t geometry, const uint8_t *image, size_t image_len, uint8_t *record, size_t record_len, uint8_t *result,
                      size_t result_len);
uint32_t call_wrongly(int fault, struct opened_call c);

#endif
