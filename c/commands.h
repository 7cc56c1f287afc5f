/* commands.h: the tool's commands. Each takes its words and gives an exit status. */
#ifndef MUTREE_COMMANDS_H
#define MUTREE_COMMANDS_H

#include "arguments.h"

int format_command(const struct arguments *arguments);
int insert_command(const struct arguments *arguments);
int delete_command(const struct arguments *arguments);
int lookup_command(const struct arguments *arguments);
int list_command(const struct arguments *arguments);
int export_command(const struct arguments *arguments);
int import_command(const struct arguments *arguments);
int apply_command(const struct arguments *arguments);
int show_command(const struct arguments *arguments);
int cut_command(const struct arguments *arguments);
int check_command(const struct arguments *arguments);
int page_command(const struct arguments *arguments);
int patrol_command(const struct arguments *arguments);

#endif
