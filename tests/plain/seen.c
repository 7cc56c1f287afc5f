#include "seen.h"

#include <string.h>

enum { PAGE = 528, MAIN = 512, TOP = 5 };

static uint32_t number_at(const uint8_t *at)
{
    return (uint32_t)at[0] | (uint32_t)at[1] << 8 | (uint32_t)at[2] << 16 | (uint32_t)at[3] << 24;
}

static int is_erased(const uint8_t *page)
{
    size_t i;
    for (i = 0; i < PAGE; i++)
        if (page[i] != 255)
            return 0;
    return 1;
}

/* An erased page's height byte is 255. */
unsigned height_seen(const uint8_t *image, size_t length)
{
    uint32_t largest = 0;
    unsigned height = 0;
    size_t at;
    for (at = MAIN; at < length; at += PAGE)
        if (image[at + 4] >= 1 && image[at + 4] <= TOP && number_at(image + at) > largest) {
            largest = number_at(image + at);
            height = image[at + 4];
        }
    return height;
}

size_t pages_programmed(const uint8_t *before, const uint8_t *image, size_t length)
{
    size_t at, pages = 0;
    for (at = 0; at < length; at += PAGE)
        if (memcmp(image + at, before + at, PAGE) != 0) {
            if (!is_erased(before + at))
                return SIZE_MAX;
            pages++;
        }
    return pages;
}

size_t pages_erased(const uint8_t *image, size_t length)
{
    size_t at, pages = 0;
    for (at = 0; at < length; at += PAGE)
        pages += (size_t)is_erased(image + at);
    return pages;
}
