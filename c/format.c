#include "posix.h"

#include "commands.h"
#include "geometry.h"
#include "replace.h"
#include "say.h"
#include "status.h"
#include "wiping.h"

#include <inttypes.h>
#include <stdio.h>

static int write_empty_index(struct file *file, struct image *image)
{
    struct mutree_result result = image_format(image);
    int status = file_replace(file, image->bytes, image->length);
    if (status != 0)
        return status;
    say_changed();
    printf("%s: %" PRIu32 " programmed, %" PRIu32 " erased; a chip with %s, %zu bytes\n", answer_name(result.answer),
           result.programmed, result.erased, geometry_words(image->geometry), image->length);
    return (int)result.answer;
}

/* Opens the file and writes the index, where nothing else stands there or it is to be wiped. */
static int format_file(const struct arguments *arguments, struct image *image)
{
    struct file file;
    int status = file_open_to_change(arguments->word[0], 1, arguments->no_wait, &file);
    if (status != 0)
        return status;
    status = arguments->force ? 0 : wiping_refused(&file, image->length);
    if (status == 0)
        status = write_empty_index(&file, image);
    file_close(&file);
    return status;
}

int format_command(const struct arguments *arguments)
{
    struct image image;
    uint32_t blocks;
    int status = read_blocks(arguments->word[1], &blocks);
    if (status != 0)
        return status;
    image = image_erased(geometry_asked(arguments), blocks);
    status = format_file(arguments, &image);
    image_free(&image);
    return status;
}
