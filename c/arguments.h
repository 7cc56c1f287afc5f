/* arguments.h: the words of a command line. */
#ifndef MUTREE_ARGUMENTS_H
#define MUTREE_ARGUMENTS_H

#include "mutree.h"

#include <stdint.h>

enum { MOST_WORDS = 3 };

/* Which options a command takes. */
enum { TAKES_ALLOW = 1, TAKES_FORCE = 2, TAKES_NO_WAIT = 4, TAKES_PAGES = 8, TAKES_SVG = 16, TAKES_CHIP = 32, TAKES_MEND = 64 };
enum { TAKES_COUNT = 128, TAKES_RANGE = 256, TAKES_NAME = 512 };
/* with TAKES_RANGE the last two words may be left out, both of them; with TAKES_NAME the last one */

struct arguments {
    const char *word[MOST_WORDS]; /* FILE and what follows, without the options; NULL where left out */
    uint32_t allowance;           /* --allow, else UINT32_MAX */
    int force, no_wait, pages, mend, count;
    const char *svg;              /* --svg, else NULL */
    const struct mutree_geometry *geometry; /* --small or --large, else NULL */
};

struct command {
    const char *name, *words, *does; /* as the help prints them */
    unsigned takes;
    int word_count;
    int (*run)(const struct arguments *arguments);
};

/* Sorts the words after the command's name. On a mistake says what is wrong and returns nonzero. */
int arguments_read(const struct command *command, int count, char **words, struct arguments *arguments);

/* A decimal number of at most 32 bits without leading zeros. On a mistake says so and returns nonzero. */
int read_number(const char *word, const char *what, uint32_t *number);

/* The same without a line: what is wrong with the word, or NULL. */
const char *number_fault(const char *word, uint32_t *number);

#endif
