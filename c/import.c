#include "posix.h"

#include "commands.h"
#include "geometry.h"
#include "mutree.h"
#include "replace.h"
#include "say.h"
#include "status.h"
#include "text.h"
#include "wiping.h"

#include <inttypes.h>
#include <stdio.h>

/* A line of the text that is refused. */
static int say_text(const struct text *text, uint32_t line)
{
    complain("TEXT: line %" PRIu32 " of %s: %s; nothing was changed", line, text->name, line_fault(text, line));
    if (line > MUTREE_MOST_RECORDS)
        say_many();
    return MUTREE_TEXT;
}

/* The fewest blocks that take every text. */
static uint32_t enough_for_all(const struct mutree_geometry *geometry)
{
    return geometry->number == MUTREE_SMALL ? 10 : 3;
}

/* An index with the entries of another one, keys rising: format and one insert each, by a record, as mutree_import does without one. */
static struct mutree_imported insert_all(struct image *image, const struct image *from)
{
    static uint32_t pairs[2 * MUTREE_MOST_RECORDS];
    uint8_t record[MUTREE_RECORD_BYTES];
    uint32_t count = image_list(from, 0, UINT32_MAX, pairs, 2 * MUTREE_MOST_RECORDS).written;
    struct mutree_result result = image_format(image);
    struct mutree_imported imported = { MUTREE_DONE, 0, 0, 0, 0 };
    imported.programmed = result.programmed;
    imported.erased = result.erased;
    imported.answer = image_open(image, record).answer;
    while (imported.answer == MUTREE_DONE && imported.records < count) {
        result = image_insert_opened(image, record, pairs[2 * imported.records], pairs[2 * imported.records + 1]);
        imported.answer = result.answer;
        imported.programmed += result.programmed;
        imported.erased += result.erased;
        imported.records += result.answer == MUTREE_DONE;
    }
    return imported;
}

/* mutree_import judges the image at each of its inserts, which takes long where there are many blocks. There the text is imported into the
 * fewest that take every text, and its entries are inserted from there: the same answer, counts and bytes. */
static struct mutree_imported import_into(struct image *image, const struct text *text)
{
    struct mutree_imported imported;
    struct image few;
    if (image->length <= enough_for_all(image->geometry) * (size_t)image->geometry->block_bytes)
        return image_import(image, text->bytes, text->length);
    few = image_erased(image->geometry, enough_for_all(image->geometry));
    imported = image_import(&few, text->bytes, text->length);
    if (imported.answer == MUTREE_DONE)
        imported = insert_all(image, &few);
    image_free(&few);
    return imported;
}

/* The least number of blocks, above so many, that all records fit on, or 0. */
static uint32_t enough_blocks(const struct text *text, const struct mutree_geometry *geometry, uint32_t blocks)
{
    uint32_t answer = MUTREE_ROOM;
    while (answer == MUTREE_ROOM && blocks < MUTREE_MOST_BLOCKS) {
        struct image image = image_erased(geometry, ++blocks);
        answer = image_import(&image, text->bytes, text->length).answer;
        image_free(&image);
    }
    return answer == MUTREE_DONE ? blocks : 0;
}

/* An insert that was refused halfway. */
static int say_halfway(const struct text *text, const struct image *image, struct mutree_imported imported)
{
    uint32_t blocks = (uint32_t)(image->length / image->geometry->block_bytes);
    uint32_t enough = imported.answer == MUTREE_ROOM ? enough_blocks(text, image->geometry, blocks) : 0;
    complain("%s: %" PRIu32 " of %zu records fit on %" PRIu32 " blocks with %s; nothing was changed", answer_name(imported.answer),
             imported.records, text_lines(text), blocks, geometry_words(image->geometry));
    if (enough > 0)
        complain("%" PRIu32 " blocks take them all", enough);
    return (int)imported.answer;
}

static int save(const struct arguments *arguments, const struct text *text, const struct image *image)
{
    struct file file;
    int status = file_open_to_change(arguments->word[0], 1, arguments->no_wait, &file);
    if (status != 0)
        return status;
    if (same_file(&file.state, &text->state)) {
        complain("%s is the text itself; name another file for the index", file.name);
        status = BAD_FILE;
    } else if (!arguments->force) {
        status = wiping_refused(&file, image->length);
    }
    if (status == 0)
        status = file_replace(&file, image->bytes, image->length);
    file_close(&file);
    if (status == 0)
        say_changed();
    return status;
}

/* The file is opened when the index is whole: nothing is written unless every record is stored. */
static int import_text(const struct arguments *arguments, const struct text *text, struct image *image)
{
    struct mutree_imported imported = import_into(image, text);
    int status;
    if (imported.answer == MUTREE_TEXT)
        return say_text(text, imported.line);
    if (imported.answer != MUTREE_DONE)
        return say_halfway(text, image, imported);
    status = save(arguments, text, image);
    if (status == 0)
        printf("DONE: %" PRIu32 " %s, %" PRIu32 " programmed, %" PRIu32 " erased; a chip with %s, %zu bytes\n", imported.records,
               records_word(imported.records), imported.programmed, imported.erased, geometry_words(image->geometry), image->length);
    return status;
}

int import_command(const struct arguments *arguments)
{
    struct text text;
    struct image image;
    uint32_t blocks;
    int status = read_blocks(arguments->word[2], &blocks);
    if (status == 0)
        status = text_read(arguments->word[1], &text);
    if (status != 0)
        return status;
    image = image_erased(geometry_asked(arguments), blocks);
    status = import_text(arguments, &text, &image);
    image_free(&image);
    text_free(&text);
    return status;
}
