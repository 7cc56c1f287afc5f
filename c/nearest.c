#include "nearest.h"

#include <string.h>

enum { MOST_LETTERS = 31 };

static unsigned least(unsigned a, unsigned b)
{
    return a < b ? a : b;
}

/* Row `row` holds the distances of the beginnings of `name` to a beginning of the word; this adds one letter to it. */
static void add_letter(unsigned *row, char letter, const char *name)
{
    unsigned diagonal = row[0]++;
    size_t i;
    for (i = 0; i < MOST_LETTERS && name[i] != '\0'; i++) {
        unsigned above = row[i + 1];
        row[i + 1] = least(least(above, row[i]) + 1, diagonal + (letter != name[i]));
        diagonal = above;
    }
}

static void start(unsigned *row)
{
    unsigned i;
    for (i = 0; i <= MOST_LETTERS; i++)
        row[i] = i;
}

unsigned distance(const char *word, const char *name)
{
    unsigned row[MOST_LETTERS + 1];
    size_t i, length = strlen(name);
    start(row);
    for (i = 0; i < MOST_LETTERS && word[i] != '\0'; i++)
        add_letter(row, word[i], name);
    return row[length < MOST_LETTERS ? length : MOST_LETTERS];
}
