#include "damage.h"

static const struct mutree_geometry *chip;
static const uint8_t *image;

static const uint8_t *spare_at(uint32_t page)
{
    return image + (size_t)page * chip->page_bytes + chip->main_bytes;
}

static uint32_t number_of(uint32_t page)
{
    const uint8_t *at = spare_at(page);
    return (uint32_t)at[0] | (uint32_t)at[1] << 8 | (uint32_t)at[2] << 16 | (uint32_t)at[3] << 24;
}

static int is_erased(uint32_t page)
{
    const uint8_t *at = image + (size_t)page * chip->page_bytes;
    uint32_t i;
    for (i = 0; i < chip->page_bytes; i++)
        if (at[i] != 255)
            return 0;
    return 1;
}

static uint32_t lower_of_the_pair(uint32_t page)
{
    uint32_t other = 0;
    while (is_erased(other) || number_of(other) != number_of(page))
        other++;
    return other;
}

/* A programmed page follows, so the row of erased ones ends. */
static uint32_t last_erased_in_a_row(uint32_t page)
{
    while (is_erased(page) && is_erased(page + 1))
        page++;
    return page;
}

static uint32_t page_of_the_root(uint32_t pages)
{
    uint32_t page, root = 0, largest = 0;
    for (page = 0; page < pages; page++)
        if (!is_erased(page) && spare_at(page)[4] >= 1 && number_of(page) > largest) {
            largest = number_of(page);
            root = page;
        }
    return root;
}

uint32_t root_of(uint32_t geometry, const uint8_t *of, size_t length)
{
    chip = mutree_geometry_of(geometry);
    image = of;
    return page_of_the_root((uint32_t)(length / chip->page_bytes));
}

void tell_wrongly(int fault, uint32_t geometry, const uint8_t *of, size_t length, uint32_t answer, uint8_t *result)
{
    struct mutree_result r;
    int i;
    if (answer != MUTREE_DAMAGED || fault < 14)
        return;
    r = mutree_read_result(result);
    chip = mutree_geometry_of(geometry);
    image = of;
    if (fault == 14 && r.rule == 3)
        r.page = lower_of_the_pair(r.page);
    if (fault == 15 && r.rule == 2)
        r.page = last_erased_in_a_row(r.page);
    if (fault == 16 && r.rule == 5)
        r.page = page_of_the_root((uint32_t)(length / chip->page_bytes));
    for (i = 0; i < 4; i++)
        result[20 + i] = (uint8_t)(r.page >> (8 * i));
}
