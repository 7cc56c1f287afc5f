#include "posix.h"

#include "commands.h"
#include "drawing.h"
#include "picture.h"
#include "replace.h"
#include "say.h"
#include "status.h"
#include "summary.h"

#include <stdio.h>
#include <stdlib.h>
#include <string.h>
#include <unistd.h>

enum { MOST_BLOCKS_BY_PAGE = 64 };

/* Nonzero, after a line, where a drawing would wipe the index itself. */
static int is_index(const char *name, const struct stat *index)
{
    struct stat out;
    if (stat(name, &out) != 0 || !same_file(&out, index))
        return 0;
    complain("%s is the index itself; name another file for the picture", name);
    return 1;
}

/* Nonzero, after a line, where the file holds something that is no drawing. */
static int is_other(const struct file *file)
{
    char begin[sizeof DRAWING_BEGINS] = "";
    ssize_t got = pread(file->descriptor, begin, sizeof begin - 1, 0);
    if (got == 0 || (got > 0 && strcmp(begin, DRAWING_BEGINS) == 0))
        return 0;
    complain("%s is there and is no picture made by mutree; name another file for the picture", file->name);
    return 1;
}

static int save_drawing(struct file *file, const struct survey *s)
{
    char *text = NULL;
    size_t length = 0;
    FILE *memory = open_memstream(&text, &length);
    int status;
    if (memory == NULL)
        need(NULL);
    draw_survey(memory, s);
    if (fclose(memory) != 0)
        need(NULL);
    status = file_replace(file, (const uint8_t *)text, length);
    free(text);
    return status;
}

static int draw(const char *name, const struct stat *index, const struct survey *s)
{
    struct file file;
    int status = is_index(name, index) ? BAD_FILE : file_open_to_change(name, 1, 0, &file);
    if (status != 0)
        return status;
    status = is_other(&file) ? BAD_FILE : save_drawing(&file, s);
    file_close(&file);
    return status;
}

/* Draws first: a picture that is refused ends the command. */
static int show_survey(const struct arguments *arguments, const struct stat *index, const struct survey *s)
{
    int status = arguments->svg == NULL ? 0 : draw(arguments->svg, index, s);
    if (status != 0)
        return status;
    summary_print(s);
    if (s->blocks <= MOST_BLOCKS_BY_PAGE || arguments->pages)
        picture_of_pages(s);
    else
        picture_of_blocks(s);
    return 0;
}

int show_command(const struct arguments *arguments)
{
    struct stat state;
    struct image image;
    struct survey s;
    struct mutree_result verdict;
    int status = file_load_with_state(arguments->word[0], arguments->geometry, &image, &state);
    if (status != 0)
        return status;
    verdict = image_judge(&image);
    s = survey_image(&image, verdict);
    status = show_survey(arguments, &state, &s);
    if (status == 0) {
        say_check(&image, verdict);
        status = (int)verdict.answer;
    }
    survey_free(&s);
    image_free(&image);
    return status;
}
