#include "posix.h"

#include "commands.h"
#include "mutree.h"
#include "replace.h"
#include "say.h"
#include "status.h"
#include "text.h"

#include <inttypes.h>
#include <stdio.h>
#include <stdlib.h>
#include <string.h>

/* Nonzero, after a line, where the text can't or must not be written to what stands there. */
static int refused_place(const char *name, const struct stat *index)
{
    struct stat there;
    if (stat(name, &there) != 0)
        return 0;
    if (same_file(&there, index))
        complain("%s is the index itself; name another file for the text", name);
    else if (!S_ISREG(there.st_mode))
        complain("%s is no regular file; write - for standard output", name);
    else
        return 0;
    return BAD_FILE;
}

/* Nonzero, after a line, where the file holds something. */
static int refused_content(const struct file *file)
{
    if (file->state.st_size == 0)
        return 0;
    complain("%s is there (%" PRIuMAX " bytes); --force replaces it", file->name, (uintmax_t)file->state.st_size);
    return BAD_USAGE;
}

static int save(const struct arguments *arguments, const struct stat *index, const uint8_t *text, struct mutree_exported exported)
{
    struct file file;
    int status = refused_place(arguments->word[1], index);
    if (status == 0)
        status = file_open_to_change(arguments->word[1], 1, 0, &file);
    if (status != 0)
        return status;
    status = arguments->force ? 0 : refused_content(&file);
    if (status == 0)
        status = file_replace(&file, text, exported.written);
    file_close(&file);
    if (status != 0)
        return status;
    say_changed();
    printf("DONE: %" PRIu32 " %s, %" PRIu32 " bytes\n", exported.records, records_word(exported.records), exported.written);
    return 0;
}

/* The first call asks how long the text is, the second writes it. */
static int export_image(const struct arguments *arguments, const struct stat *index, const struct image *image)
{
    uint8_t none = 0, *text;
    struct mutree_exported exported = image_export(image, &none, 0);
    struct mutree_result refused = { exported.answer, 0, 0, 0, exported.rule, exported.page };
    int status = 0;
    if (exported.answer != MUTREE_DONE)
        return say_refused(image, refused);
    text = need(malloc(exported.bytes + (size_t)1));
    exported = image_export(image, text, exported.bytes);
    if (arguments->word[1] != NULL && strcmp(arguments->word[1], "-") != 0)
        status = save(arguments, index, text, exported);
    else
        fwrite(text, 1, exported.written, stdout);
    free(text);
    if (status == 0 && exported.records > MUTREE_MOST_RECORDS)
        say_many();
    return status;
}

int export_command(const struct arguments *arguments)
{
    struct stat state;
    struct image image;
    int status = file_load_with_state(arguments->word[0], arguments->geometry, &image, &state);
    if (status != 0)
        return status;
    status = export_image(arguments, &state, &image);
    image_free(&image);
    return status;
}
