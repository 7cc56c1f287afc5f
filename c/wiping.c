#include "posix.h"

#include "wiping.h"
#include "geometry.h"
#include "say.h"
#include "status.h"
#include "survey.h"

#include <inttypes.h>

const struct mutree_geometry *geometry_asked(const struct arguments *arguments)
{
    return arguments->geometry != NULL ? arguments->geometry : mutree_geometry_of(MUTREE_SMALL);
}

int read_blocks(const char *word, uint32_t *blocks)
{
    if (read_number(word, "blocks", blocks))
        return BAD_USAGE;
    if (*blocks >= MUTREE_LEAST_BLOCKS && *blocks <= MUTREE_MOST_BLOCKS)
        return 0;
    complain("an index has 3 to 1024 blocks, not %" PRIu32, *blocks);
    return MUTREE_LENGTH;
}

/* What stands in a file of an index's length, and that it needs --force. */
static void tell_index(const char *name, struct image *image)
{
    struct survey s;
    image->geometry = geometry_of_image(image);
    if (image->geometry == NULL || !image_is_sound(image)) {
        complain("%s holds a damaged index, or none (%zu bytes); --force wipes it", name, image->length);
        return;
    }
    s = survey_image(image, image_judge(image));
    complain("%s holds an index of %zu blocks, %s, with %zu %s (%zu bytes); --force wipes it", name, s.blocks,
             geometry_words(s.geometry), s.entries, entries_word(s.entries), image->length);
    survey_free(&s);
}

int wiping_refused(const struct file *file, size_t wanted)
{
    uintmax_t length = (uintmax_t)file->state.st_size;
    struct image image;
    int blank, status;
    if (length == 0)
        return 0;
    if (!length_fits(NULL, length)) {
        complain("%s holds other bytes, no index (%" PRIuMAX " bytes); --force wipes it", file->name, length);
        return BAD_USAGE;
    }
    status = file_read(file, &image);
    if (status != 0)
        return status;
    blank = all_255(image.bytes, image.length);
    if (blank && image.length != wanted)
        complain("%s holds an erased chip of another size, %zu bytes and not %zu; --force replaces it", file->name, image.length,
                 wanted);
    else if (!blank)
        tell_index(file->name, &image);
    status = blank && image.length == wanted ? 0 : BAD_USAGE;
    image_free(&image);
    return status;
}
