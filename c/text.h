/* text.h: the text that an import reads: a line for each record. */
#ifndef MUTREE_TEXT_FILE_H
#define MUTREE_TEXT_FILE_H

#include <stddef.h>
#include <stdint.h>
#include <sys/stat.h>

struct text {
    const char *name;  /* as the user wrote it, or "standard input" */
    uint8_t *bytes;
    size_t length;
    int cut;           /* there is more, which was not read: it can't change what an import says */
    struct stat state; /* of what it was read from */
};

/* Reads the text, with the name "-" from standard input. Returns 0, or an exit status after a line. */
int text_read(const char *name, struct text *text);
void text_free(struct text *text);

/* How many lines the text has, the last one counted without its byte 10 too. */
size_t text_lines(const struct text *text);

/* Why a line, counted from 1, was refused. The words stay until the next call. */
const char *line_fault(const struct text *text, size_t line);

/* What to do with more records than one import takes. */
void say_many(void);

#endif
