#include "posix.h"

#include "commands.h"
#include "file.h"
#include "flips.h"
#include "geometry.h"
#include "replace.h"
#include "say.h"
#include "status.h"

#include <stdio.h>

/* The halves with one flipped bit, which can be mended. */
static size_t mendable(const struct flips *flips)
{
    return flips->found[MUTREE_DATA_MENDED] + flips->found[MUTREE_CODE_MENDED];
}

/* What was found, and what became of it. */
static void print_summary(const struct flips *flips, int mended)
{
    printf("%zu halves clean, %zu with a flipped data bit, %zu with a flipped code bit, %zu beyond repair%s\n",
           flips->found[MUTREE_CLEAN], flips->found[MUTREE_DATA_MENDED], flips->found[MUTREE_CODE_MENDED],
           flips->found[MUTREE_BEYOND_REPAIR],
           mendable(flips) == 0 ? "" : mended ? "; the flipped bits are mended in the file" : "; the file is left as it is");
}

/* Patrols a loaded image. With a file it is replaced where something was mended. */
static int patrol_image(struct image *image, struct file *file)
{
    struct flips flips = flips_mend(image);
    int status = 0;
    if (file != NULL && mendable(&flips) > 0) {
        status = file_replace(file, image->bytes, image->length);
        if (status != 0)
            return status;
        say_changed();
    }
    print_summary(&flips, file != NULL);
    if (file == NULL && mendable(&flips) > 0)
        complain("'mutree patrol %s %s --mend' mends what has one flipped bit", image->name, geometry_option(image->geometry));
    return flips.found[MUTREE_BEYOND_REPAIR] > 0 || (file == NULL && mendable(&flips) > 0) ? FLIPPED : 0;
}

static int patrol_and_mend(const struct arguments *arguments)
{
    struct file file;
    struct image image;
    int status = file_open_to_change(arguments->word[0], 0, arguments->no_wait, &file);
    if (status != 0)
        return status;
    status = file_load(&file, arguments->geometry, &image);
    if (status == 0) {
        status = patrol_image(&image, &file);
        image_free(&image);
    }
    file_close(&file);
    return status;
}

int patrol_command(const struct arguments *arguments)
{
    struct image image;
    int status;
    if (arguments->mend)
        return patrol_and_mend(arguments);
    status = file_load_named(arguments->word[0], arguments->geometry, &image);
    if (status != 0)
        return status;
    status = patrol_image(&image, NULL);
    image_free(&image);
    return status;
}
