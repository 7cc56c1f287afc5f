/* mtd_commands.h: the commands on a chip under Linux's MTD. */
#ifndef MUTREE_MTD_COMMANDS_H
#define MUTREE_MTD_COMMANDS_H

#include <stdio.h>

/* The words after --mtd: DEVICE COMMAND .. Returns an exit status. */
int mtd_run(int count, char **words);

/* The part of the help that lists them. */
void mtd_print_help(FILE *out);

#endif
