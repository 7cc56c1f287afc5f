/* carrying.c: an export into any number of bytes, an import of any text. Checked: the text is written whole or not at all, and bytes beyond it
 * stay; its records are as many as a list counts. After a finished import the export is the same text. A text that is refused at a
 * line is not refused up to there, and refused at that line where it ends with it. */
#define _DEFAULT_SOURCE
#include "carrying.h"

#include <stdlib.h>
#include <string.h>

static const uint8_t mark = 0x5c;

static uint32_t exported(uint32_t geometry, struct guarded image, uint8_t *text, size_t lent, struct mutree_exported *e)
{
    uint8_t result[MUTREE_RESULT_BYTES];
    uint32_t answer = mutree_export(geometry, image.bytes, image.length, text, lent, result, sizeof result);
    *e = mutree_read_exported(result);
    return answer;
}

/* The counts: a call that is lent nothing says the same, and so does a list. */
static void check_counts(uint32_t geometry, struct guarded image, struct mutree_exported e)
{
    struct mutree_exported asked;
    uint8_t counted[MUTREE_RESULT_BYTES], none = mark;
    uint32_t no_numbers = 0;
    if (exported(geometry, image, &none, 0, &asked) != MUTREE_DONE || none != mark || asked.records != e.records
        || asked.bytes != e.bytes || asked.written != 0)
        abort();
    if (mutree_list(geometry, image.bytes, image.length, 0, UINT32_MAX, &no_numbers, 0, counted, sizeof counted) != MUTREE_DONE
        || mutree_read_listed(counted).exist != e.records)
        abort();
}

uint32_t export_checked(uint32_t geometry, struct guarded image, size_t lent, int at_end, struct guarded result)
{
    struct guarded text = guarded_make(lent, at_end);
    struct mutree_exported e = { MUTREE_LENGTH, 0, 0, 0, 0, 0 };
    size_t i, lines = 0;
    uint32_t answer;
    memset(text.bytes, mark, lent);
    answer = mutree_export(geometry, image.bytes, image.length, text.bytes, lent, result.bytes, result.length);
    if (answer == MUTREE_DONE) {
        e = mutree_read_exported(result.bytes);
        if (e.written != (lent < e.bytes ? 0 : e.bytes))
            abort();
        check_counts(geometry, image, e);
    }
    for (i = 0; i < e.written; i++)
        lines += text.bytes[i] == '\n';
    if (e.written && (lines != e.records || text.bytes[e.written - 1] != '\n'))
        abort();
    for (i = e.written; i < lent; i++)
        if (text.bytes[i] != mark)
            abort();
    guarded_free(&text);
    return answer;
}

/* How many bytes the lines before this one have. */
static size_t lines_before(const uint8_t *text, size_t length, uint32_t line)
{
    size_t at = 0;
    for (; line > 1; line--) {
        const uint8_t *stop = memchr(text + at, '\n', length - at);
        if (stop == NULL)
            abort();
        at = (size_t)(stop - text) + 1;
    }
    return at;
}

/* An import into another image. Gives the line that is refused, or 0. */
static uint32_t refused_line(uint32_t geometry, size_t image_len, const uint8_t *text, size_t length)
{
    uint8_t result[MUTREE_RESULT_BYTES], *image = malloc(image_len);
    if (image == NULL)
        abort();
    mutree_import(geometry, image, image_len, text, length, result, sizeof result);
    free(image);
    return mutree_read_imported(result).line;
}

/* Where the last line of a text is the refused one and lacks byte 10, there is no text that ends with it. */
static void check_refusal(uint32_t geometry, size_t image_len, const uint8_t *text, size_t length, uint32_t line)
{
    size_t before = line == 0 ? length : lines_before(text, length, line);
    const uint8_t *stop = before < length ? memchr(text + before, '\n', length - before) : NULL;
    if (line == 0 || line > MUTREE_MOST_RECORDS + 1 || before >= length)
        abort();
    if (refused_line(geometry, image_len, text, before) != 0)
        abort();
    if (stop != NULL && refused_line(geometry, image_len, text, (size_t)(stop - text) + 1) != line)
        abort();
}

static void check_text(uint32_t geometry, struct guarded image, struct guarded text, uint32_t records)
{
    struct mutree_exported e;
    uint8_t *again = malloc(text.length + 1);
    if (again == NULL)
        abort();
    if (exported(geometry, image, again, text.length, &e) != MUTREE_DONE || e.written != text.length || e.records != records
        || memcmp(again, text.bytes, text.length) != 0)
        abort();
    free(again);
}

uint32_t import_checked(uint32_t geometry, struct guarded image, const uint8_t *bytes, size_t length, int at_end, struct guarded result)
{
    struct guarded text = guarded_make(length, at_end);
    struct mutree_imported i;
    uint32_t answer;
    if (length)
        memcpy(text.bytes, bytes, length);
    answer = mutree_import(geometry, image.bytes, image.length, text.bytes, length, result.bytes, result.length);
    if (length && memcmp(text.bytes, bytes, length) != 0)
        abort();
    if (result.length >= MUTREE_RESULT_BYTES) {
        i = mutree_read_imported(result.bytes);
        if (answer == MUTREE_TEXT)
            check_refusal(geometry, image.length, bytes, length, i.line);
        else if (i.line != 0)
            abort();
        if (answer == MUTREE_DONE)
            check_text(geometry, image, text, i.records);
    }
    guarded_free(&text);
    return answer;
}
