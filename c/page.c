#include "page.h"

uint32_t number_at(const uint8_t *at)
{
    return (uint32_t)at[0] | (uint32_t)at[1] << 8 | (uint32_t)at[2] << 16 | (uint32_t)at[3] << 24;
}

const uint8_t *page_at(const struct image *image, uint32_t page)
{
    return image->bytes + (size_t)page * image->geometry->page_bytes;
}

const uint8_t *spare_at(const struct image *image, uint32_t page)
{
    return page_at(image, page) + image->geometry->main_bytes;
}

uint32_t sequence_of(const struct image *image, uint32_t page)
{
    return number_at(spare_at(image, page));
}

unsigned height_of(const struct image *image, uint32_t page)
{
    return spare_at(image, page)[4];
}

unsigned count_of(const struct image *image, uint32_t page, unsigned level)
{
    return spare_at(image, page)[4 + level];
}

int is_erased(const struct image *image, uint32_t page)
{
    return all_255(page_at(image, page), image->geometry->page_bytes);
}

unsigned spare_rest(const struct mutree_geometry *geometry)
{
    return geometry->first_code + MUTREE_CODE_BYTES * geometry->halves;
}

unsigned slots_left(const struct mutree_geometry *geometry, unsigned level)
{
    return geometry->slots >> (level - 1);
}

unsigned first_slot(const struct mutree_geometry *geometry, unsigned level)
{
    return geometry->slots - slots_left(geometry, level);
}

const uint8_t *slot_at(const struct image *image, uint32_t page, unsigned level, unsigned slot)
{
    return page_at(image, page) + MUTREE_SLOT_BYTES * (first_slot(image->geometry, level) + slot);
}
