#include "text.h"

#include <string.h>

size_t put_decimal(uint64_t number, uint8_t *at)
{
    uint8_t turned[20];
    size_t digits = 0, i;
    do
        turned[digits++] = (uint8_t)('0' + number % 10);
    while ((number /= 10) > 0);
    for (i = 0; i < digits; i++)
        at[i] = turned[digits - 1 - i];
    return digits;
}

size_t text_of(const struct entry *map, size_t entries, uint8_t *text)
{
    size_t length = 0, i;
    for (i = 0; i < entries; i++) {
        length += put_decimal(map[i].key, text + length);
        text[length++] = '\t';
        length += put_decimal(map[i].address, text + length);
        text[length++] = '\n';
    }
    return length;
}

/* "decimal without leading zeros", not "above 4,294,967,295": of ten digits those that come after it in the dictionary. */
static int is_number(const uint8_t *word, size_t length, uint32_t *number)
{
    size_t i;
    if (length == 0 || length > 10 || (word[0] == '0' && length > 1))
        return 0;
    for (i = 0, *number = 0; i < length; i++) {
        if (strchr("0123456789", word[i]) == NULL || word[i] == '\0')
            return 0;
        *number = *number * 10 + (uint32_t)(word[i] - '0');
    }
    return length < 10 || memcmp(word, "4294967295", 10) <= 0;
}

/* "key, tab, address" */
static int is_record(const uint8_t *line, size_t length, struct entry *record)
{
    const uint8_t *tab = length ? memchr(line, '\t', length) : NULL;
    size_t before = tab != NULL ? (size_t)(tab - line) : 0;
    return tab != NULL && is_number(line, before, &record->key) && is_number(tab + 1, length - before - 1, &record->address);
}

size_t refused_line(const uint8_t *text, size_t length, struct records *records)
{
    const uint8_t *at = text, *end = text + length, *stop;
    struct entry *list = records->list, record;
    size_t i;
    for (records->count = i = 0; at < end; records->count = ++i, at = stop + 1) {
        stop = memchr(at, '\n', (size_t)(end - at));
        if (i == MOST_RECORDS || stop == NULL || !is_record(at, (size_t)(stop - at), &record))
            return i + 1;
        if (i > 0 && record.key <= list[i - 1].key)
            return i + 1;
        list[i] = record;
    }
    return 0;
}
