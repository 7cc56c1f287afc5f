#include "carrying.h"

#include <stdlib.h>
#include <string.h>

static volatile uint8_t seen; /* what fault 32 reads */

static uint8_t *copied(const uint8_t *bytes, size_t length)
{
    uint8_t *copy = malloc(length + 1);
    if (copy == NULL)
        abort();
    memcpy(copy, bytes, length);
    return copy;
}

static void put_number(uint8_t *at, uint32_t n)
{
    int i;
    for (i = 0; i < 4; i++)
        at[i] = (uint8_t)(n >> (8 * i));
}

/* The text's beginning in too short a buffer, and said to be written. */
static void write_what_fits(uint32_t geometry, const uint8_t *image, size_t image_len, uint8_t *text, size_t text_len, uint8_t *result)
{
    uint32_t bytes = mutree_read_exported(result).bytes;
    uint8_t *whole = malloc(bytes + (size_t)1), ignored[MUTREE_RESULT_BYTES];
    if (whole == NULL)
        abort();
    real_export(geometry, image, image_len, whole, bytes, ignored, sizeof ignored);
    memcpy(text, whole, text_len);
    put_number(result + 12, (uint32_t)text_len);
    free(whole);
}

uint32_t export_wrongly(int fault, uint32_t geometry, const uint8_t *image, size_t image_len, uint8_t *text, size_t text_len,
                        uint8_t *result, size_t result_len)
{
    uint32_t answer = real_export(geometry, image, image_len, text, text_len, result, result_len);
    struct mutree_exported e;
    if (answer != MUTREE_DONE)
        return answer;
    e = mutree_read_exported(result);
    if (fault == 27 && e.written < e.bytes)
        write_what_fits(geometry, image, image_len, text, text_len, result);
    if (fault == 28 && e.written > 0 && text_len > e.written)
        text[e.written] = 0;
    if (fault == 29 && e.written == text_len && text_len > 0) { /* asks for one byte more than the text has */
        memset(text, 0, text_len);
        put_number(result + 12, 0);
    }
    return answer;
}

/* How many bytes the lines before this one have. */
static size_t lines_before(const uint8_t *text, uint32_t line)
{
    size_t at = 0;
    for (; line > 1; at++)
        line -= text[at] == '\n';
    return at;
}

/* Whether two lines begin with the same number. */
static int same_key(const uint8_t *text, size_t text_len, size_t one, size_t other)
{
    for (; one < text_len && other < text_len && text[one] == text[other]; one++, other++)
        if (text[one] == '\t')
            return 1;
    return 0;
}

/* The text without the line before the refused one, if both have one key; with byte 10 at its end; or with spaces, returns and leading zeros
 * taken out of the refused line. NULL where the fault does not change it. */
static uint8_t *other_text(int fault, const uint8_t *text, size_t *length, uint32_t line)
{
    size_t at = lines_before(text, line), before = line > 1 ? lines_before(text, line - 1) : at;
    uint8_t *other = copied(text, *length);
    if (fault == 23 && line > 1 && same_key(text, *length, before, at)) {
        memmove(other + before, other + at, *length - at);
        *length -= at - before;
        return other;
    }
    if (fault == 26 && text[*length - 1] != '\n') {
        other[(*length)++] = '\n';
        return other;
    }
    if (fault == 30 && at < *length && text[at] == '0') {
        memmove(other + at, other + at + 1, --*length - at);
        return other;
    }
    free(other);
    return NULL;
}

/* After a refused text: what the fault makes of it. */
static uint32_t refuse_wrongly(int fault, uint32_t geometry, uint8_t *image, size_t image_len, const uint8_t *text, size_t text_len,
                               uint8_t *result, size_t result_len)
{
    uint32_t line = mutree_read_imported(result).line, answer = MUTREE_TEXT;
    uint8_t *other = other_text(fault, text, &text_len, line), ignored[MUTREE_RESULT_BYTES];
    if (other != NULL)
        answer = real_import(geometry, image, image_len, other, text_len, result, result_len);
    if (fault == 24)
        put_number(result + 4, line - 1);
    if (fault == 25 && line > 2)
        real_format(geometry, image, image_len, ignored, sizeof ignored);
    free(other);
    return answer;
}

uint32_t import_wrongly(int fault, uint32_t geometry, uint8_t *image, size_t image_len, const uint8_t *text, size_t text_len,
                        uint8_t *result, size_t result_len)
{
    uint8_t *before = fault == 31 ? copied(image, image_len) : NULL;
    uint32_t answer = real_import(geometry, image, image_len, text, text_len, result, result_len);
    if (answer == MUTREE_TEXT)
        answer = refuse_wrongly(fault, geometry, image, image_len, text, text_len, result, result_len);
    if (fault == 31 && answer == MUTREE_ROOM)
        memcpy(image, before, image_len);
    if (fault == 32)
        seen = text[text_len];
    if (fault == 33 && answer == MUTREE_DONE && mutree_read_imported(result).records > 0)
        put_number(result + 8, mutree_read_imported(result).programmed - 1);
    free(before);
    return answer;
}
