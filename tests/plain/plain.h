/* plain.h: the calls of request 12's plain tree, a tree with one node to a page that stands beside the index to be compared with it. For
 * tests and measurements alone: they are no part of the library, and c/mutree.h does not have them.
 *
 * An image is 3 to 1,024 blocks of the small chip, 16,896 bytes each. Answers and the 24 bytes of the result are c/mutree.h's; a shorter
 * buffer gives MUTREE_LENGTH and changes nothing. The plain tree does not collect: no call but plain_format erases a block. */
#ifndef PLAIN_H
#define PLAIN_H

#include <stddef.h>
#include <stdint.h>

uint32_t plain_format(uint8_t *image, size_t image_len, uint8_t *result, size_t result_len);
uint32_t plain_lookup(const uint8_t *image, size_t image_len, uint32_t key, uint8_t *result, size_t result_len);
uint32_t plain_insert(uint8_t *image, size_t image_len, uint32_t key, uint32_t address, uint32_t allowance, uint8_t *result, size_t result_len);
uint32_t plain_delete(uint8_t *image, size_t image_len, uint32_t key, uint32_t allowance, uint8_t *result, size_t result_len);

#endif
