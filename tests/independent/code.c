#include "code.h"

#include <stdlib.h>
#include <string.h>

/* "Spare bytes 10 to 12 and 13 to 15", on the large chip "12 to 35". */
unsigned code_place(const struct chip *chip, unsigned half)
{
    return chip->main + chip->code + CODE_BYTES * half;
}

/* "E is the exclusive or of the numbers of all set bits, G that of 2,047 minus those numbers. Stored inverted: E in bits 0 to 10,
 * G in bits 11 to 21, bits 22 and 23 set." */
uint32_t code_of(const uint8_t *half)
{
    uint32_t e = 0, g = 0, n;
    for (n = 0; n < HALF_BITS; n++)
        if (half[n / 8] >> n % 8 & 1) {
            e ^= n;
            g ^= 2047 - n;
        }
    return (~(e | g << 11) & 0x3FFFFF) | (uint32_t)3 << 22;
}

uint32_t stored_code(const uint8_t *at)
{
    return (uint32_t)at[0] | (uint32_t)at[1] << 8 | (uint32_t)at[2] << 16;
}

int codes_fit(const struct chip *chip, const uint8_t *page)
{
    unsigned half;
    for (half = 0; half < chip->halves; half++)
        if (stored_code(page + code_place(chip, half)) != code_of(page + HALF * half))
            return 0;
    return 1;
}

/* Room for the pages whose codes were seen to fit, each at its place. */
static uint8_t *room_of(const struct chip *chip)
{
    static uint8_t *room[CHIPS];
    if (room[chip->number] == NULL)
        room[chip->number] = malloc((size_t)MOST_PAGES * chip->page);
    if (room[chip->number] == NULL)
        exit(71);
    return room[chip->number];
}

int codes_fit_again(const struct chip *chip, const uint8_t *image, size_t page)
{
    static unsigned char is_known[CHIPS][MOST_PAGES];
    uint8_t *known = room_of(chip) + page * chip->page;
    image += page * chip->page;
    if (is_known[chip->number][page] && memcmp(known, image, chip->page) == 0)
        return 1;
    if (!codes_fit(chip, image))
        return 0;
    memcpy(known, image, chip->page);
    is_known[chip->number][page] = 1;
    return 1;
}

void put_codes(const struct chip *chip, uint8_t *page)
{
    unsigned half, i;
    for (half = 0; half < chip->halves; half++)
        for (i = 0; i < CODE_BYTES; i++)
            page[code_place(chip, half) + i] = (uint8_t)(code_of(page + HALF * half) >> (8 * i));
}

void put_all_codes(const struct chip *chip, uint8_t *image, size_t length)
{
    size_t at;
    for (at = 0; at < length; at += chip->page)
        if (!all_255(image + at, chip->page))
            put_codes(chip, image + at);
}

void flip(uint8_t *bytes, unsigned bit)
{
    bytes[bit / 8] ^= (uint8_t)(1 << bit % 8);
}
