#include "flips.h"
#include "page.h"

#include <inttypes.h>
#include <stdio.h>
#include <string.h>

static uint32_t pages_of(const struct image *image)
{
    return (uint32_t)(image->length / image->geometry->page_bytes);
}

/* What stands on a half, in words; its bits are those of the half, or of its code. */
static void print_found(struct mutree_result result)
{
    switch (mutree_found(result)) {
    case MUTREE_DATA_MENDED:
        printf("data bit %" PRIu32 " flipped (bit %" PRIu32 " of byte %" PRIu32 " of the half)\n", mutree_bit(result),
               mutree_bit(result) % 8, mutree_bit(result) / 8);
        break;
    case MUTREE_CODE_MENDED: printf("code bit %" PRIu32 " flipped\n", mutree_bit(result)); break;
    default: puts("beyond repair: more than one bit flipped");
    }
}

struct flips flips_mend(struct image *image)
{
    struct flips flips = { { 0 } };
    uint32_t page, half;
    for (page = 0; page < pages_of(image); page++)
        for (half = 0; half < image->geometry->halves; half++) {
            struct mutree_result result = image_patrol(image, page, half);
            flips.found[mutree_found(result)]++;
            if (mutree_found(result) == MUTREE_CLEAN)
                continue;
            printf("page %" PRIu32 ", half %" PRIu32 ": ", page, half);
            print_found(result);
        }
    return flips;
}

/* An image whose page 0 is this page: what a patrol of it changes is thrown away. */
static struct image copy_of_page(const struct image *image, uint32_t page)
{
    struct image copy = image_erased(image->geometry, MUTREE_LEAST_BLOCKS);
    memcpy(copy.bytes, page_at(image, page), image->geometry->page_bytes);
    return copy;
}

/* Whether all codes of a page fit. The scratch image has room for it as its page 0. */
static int codes_fit(struct image *scratch, const struct image *image, uint32_t page)
{
    uint32_t half;
    memcpy(scratch->bytes, page_at(image, page), image->geometry->page_bytes);
    for (half = 0; half < image->geometry->halves; half++)
        if (mutree_found(image_patrol(scratch, 0, half)) != MUTREE_CLEAN)
            return 0;
    return 1;
}

/* The codes of a page are 255, as versions before 0.5.0 left them. */
static int has_no_codes(const struct image *image, uint32_t page)
{
    return all_255(spare_at(image, page) + image->geometry->first_code, image->geometry->halves * MUTREE_CODE_BYTES);
}

/* The pages from `first` on to before `end`, one or several. */
static void print_range(uint32_t first, uint32_t end)
{
    if (end == first + 1)
        printf(" %" PRIu32, first);
    else
        printf(" %" PRIu32 "-%" PRIu32, first, end - 1);
}

uint32_t flips_print_pages(const struct image *image)
{
    struct image scratch = image_erased(image->geometry, MUTREE_LEAST_BLOCKS);
    uint32_t page, first = 0, unfit = 0, without = 0;
    for (page = 0; page <= pages_of(image); page++) {
        int fit = page == pages_of(image) || codes_fit(&scratch, image, page);
        if (fit && first < page)
            print_range(first, page);
        if (fit)
            first = page + 1;
        else if (unfit++ == 0)
            fputs("Pages with codes that do not fit:", stdout);
        without += !fit && has_no_codes(image, page);
    }
    puts(unfit == 0 ? "The codes of all pages fit." : "");
    if (unfit > 0 && without == unfit)
        puts("On these pages no codes stand at all: this index was made by a version before 0.5.0, or its spare bytes were left out.");
    image_free(&scratch);
    return unfit;
}

void flips_print_page(const struct image *image, uint32_t page)
{
    struct image copy = copy_of_page(image, page);
    uint32_t half;
    for (half = 0; half < image->geometry->halves; half++) {
        struct mutree_result result = image_patrol(&copy, 0, half);
        if (mutree_found(result) == MUTREE_CLEAN)
            continue;
        printf("half %" PRIu32 ": its code does not fit: ", half);
        print_found(result);
    }
    image_free(&copy);
}
