/* help.h: what the tool says of itself. */
#ifndef MUTREE_HELP_H
#define MUTREE_HELP_H

#include "arguments.h"

#include <stdio.h>

void print_help(FILE *out, const struct command *commands, size_t count);

#endif
