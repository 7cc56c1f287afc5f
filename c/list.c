#include "posix.h"

#include "commands.h"
#include "file.h"
#include "mutree.h"
#include "say.h"
#include "status.h"

#include <inttypes.h>
#include <stdio.h>
#include <stdlib.h>

/* Both keys taken in. */
struct range {
    uint32_t low, high;
};

/* Without LOW and HIGH the range is all keys. */
static int read_range(const struct arguments *arguments, struct range *range)
{
    range->low = 0;
    range->high = UINT32_MAX;
    return arguments->word[1] != NULL
        && (read_number(arguments->word[1], "low key", &range->low) || read_number(arguments->word[2], "high key", &range->high));
}

/* A line for each pair: key, tab, address. Ends early where nothing can be printed. */
static void print_pairs(const uint32_t *pairs, uint32_t count)
{
    uint32_t i;
    for (i = 0; i < count && !ferror(stdout); i++)
        printf("%" PRIu32 "\t%" PRIu32 "\n", pairs[2 * (size_t)i], pairs[2 * (size_t)i + 1]);
}

/* The first call counts, the second fills a buffer of that size. */
static void list_pairs(const struct image *image, struct range range, uint32_t count)
{
    size_t numbers = 2 * (size_t)count;
    uint32_t *pairs = need(malloc((numbers ? numbers : 1) * sizeof *pairs));
    print_pairs(pairs, image_list(image, range.low, range.high, pairs, numbers).written);
    free(pairs);
}

/* Prints an answer that is not DONE. */
static int refuse(const struct image *image, struct mutree_listed listed)
{
    struct mutree_result result = { listed.answer, 0, 0, 0, listed.rule, listed.page };
    return say_refused(image, result);
}

int list_command(const struct arguments *arguments)
{
    struct image image;
    struct range range;
    struct mutree_listed listed;
    uint32_t none = 0;
    int status;
    if (read_range(arguments, &range))
        return BAD_USAGE;
    status = file_load_named(arguments->word[0], arguments->geometry, &image);
    if (status != 0)
        return status;
    listed = image_list(&image, range.low, range.high, &none, 0);
    if (listed.answer != MUTREE_DONE)
        status = refuse(&image, listed);
    else if (arguments->count)
        printf("%" PRIu32 "\n", listed.exist);
    else
        list_pairs(&image, range, listed.exist);
    image_free(&image);
    return status;
}
