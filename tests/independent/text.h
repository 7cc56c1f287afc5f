/* text.h: request 13's text, written and read from its words alone. */
#ifndef TEXT_H
#define TEXT_H

#include "judge.h"

enum { MOST_RECORDS = 4096, MOST_LINE = 22 };

struct records {
    struct entry list[MOST_RECORDS];
    size_t count;
};

/* The text of a map whose keys rise, which has room for MOST_LINE bytes a record. Gives its length. */
size_t text_of(const struct entry *map, size_t entries, uint8_t *text);

/* A number in decimal, without leading zeros, of up to 20 digits. Gives how many bytes it has. */
size_t put_decimal(uint64_t number, uint8_t *at);

/* The lowest line that the request refuses, or 0 where it takes the text; the records of the lines before it. */
size_t refused_line(const uint8_t *text, size_t length, struct records *records);

#endif
