#include "posix.h"

#include "text.h"
#include "arguments.h"
#include "mutree.h"

#include <inttypes.h>
#include <stdio.h>
#include <string.h>

enum { WORD = 40, WORDS = 200 };

/* A line without its byte 10. */
struct line {
    const uint8_t *bytes;
    size_t length;
    int ended;
};

static struct line line_at(const struct text *text, size_t number)
{
    const uint8_t *at = text->bytes, *end = text->bytes + text->length, *stop;
    struct line line;
    for (; number > 1; number--)
        at = (const uint8_t *)memchr(at, '\n', (size_t)(end - at)) + 1;
    stop = memchr(at, '\n', (size_t)(end - at));
    line.bytes = at;
    line.length = (size_t)((stop != NULL ? stop : end) - at);
    line.ended = stop != NULL;
    return line;
}

static size_t count_of(struct line line, uint8_t byte)
{
    size_t i, count = 0;
    for (i = 0; i < line.length; i++)
        count += line.bytes[i] == byte;
    return count;
}

/* A part of a line as a word; bytes that a terminal would not show become '?', and the end of a long one is left out. */
static void word_of(const uint8_t *bytes, size_t length, char *word)
{
    size_t i;
    for (i = 0; i < length && i < WORD; i++)
        word[i] = (char)(bytes[i] >= ' ' && bytes[i] < 127 ? bytes[i] : '?');
    word[i] = '\0';
}

/* The key and the address of a line with one tab, as words. */
static void part(struct line line, char *key, char *address)
{
    const uint8_t *tab = memchr(line.bytes, '\t', line.length);
    size_t before = (size_t)(tab - line.bytes);
    word_of(line.bytes, before, key);
    word_of(tab + 1, line.length - before - 1, address);
}

/* Of a line with one tab. `before` is the line before it, which fits, if there is one. */
static const char *number_faults(struct line line, const struct line *before, char *words)
{
    char key[WORD + 1], address[WORD + 1], last[WORD + 1], ignored[WORD + 1];
    uint32_t number, below;
    const char *fault;
    part(line, key, address);
    fault = number_fault(key, &number);
    if (fault != NULL)
        snprintf(words, WORDS, "key '%s' %s", key, fault);
    else if ((fault = number_fault(address, &below)) != NULL)
        snprintf(words, WORDS, "address '%s' %s", address, fault);
    if (fault != NULL || before == NULL)
        return words;
    part(*before, last, ignored);
    if (number_fault(last, &below) == NULL && number <= below)
        snprintf(words, WORDS, "key %" PRIu32 " is not above the one before, %" PRIu32, number, below);
    return words;
}

const char *line_fault(const struct text *text, size_t number)
{
    static char words[WORDS];
    struct line line = line_at(text, number), before;
    strcpy(words, "it does not fit");
    if (number > MUTREE_MOST_RECORDS)
        return "there are too many lines";
    if (!line.ended)
        return text->cut ? "it is longer than any record" : "it does not end with a line feed (byte 10), as if the text were cut short";
    if (count_of(line, '\r') > 0)
        return "it has a carriage return (byte 13), and a line ends with byte 10 alone; tr -d '\\r' takes them out";
    if (count_of(line, '\t') != 1)
        return line.length == 0 ? "it is empty" : "it should be KEY, one tab, ADDRESS";
    if (number == 1)
        return number_faults(line, NULL, words);
    before = line_at(text, number - 1);
    return number_faults(line, &before, words);
}
