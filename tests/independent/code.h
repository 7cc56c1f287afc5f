/* code.h: request 4's code of 256 bytes, written bit by bit as the request says it. */
#ifndef CODE_H
#define CODE_H

#include "judge.h"

enum { HALF = 256, HALF_BITS = 2048, CODE_BYTES = 3, CODE_BITS = 24 };

/* The place of a half's code on its page. */
unsigned code_place(const struct chip *chip, unsigned half);

/* The code of 256 bytes, and the stored one: 24 bits, the least byte first. */
uint32_t code_of(const uint8_t *half);
uint32_t stored_code(const uint8_t *at);

/* Whether all codes of a page fit. */
int codes_fit(const struct chip *chip, const uint8_t *page);

/* The same of an image's page. What fitted is remembered, byte for byte, and not worked out again while it stays as it is. */
int codes_fit_again(const struct chip *chip, const uint8_t *image, size_t page);

/* Gives a page fitting codes, and every programmed page of an image. */
void put_codes(const struct chip *chip, uint8_t *page);
void put_all_codes(const struct chip *chip, uint8_t *image, size_t length);

/* Turns a bit of the bytes over, the least bit of a byte first. */
void flip(uint8_t *bytes, unsigned bit);

#endif
