/* mutree: the index at the bench. Works on a raw dump, pages with their spare bytes one after another, as
 * `nanddump --oob` writes it. help.c says what it takes and which exit statuses it gives. */
#include "posix.h"

#include "commands.h"
#include "help.h"
#include "mtd_commands.h"
#include "mutree.h"
#include "nearest.h"
#include "say.h"
#include "status.h"

#include <fcntl.h>
#include <signal.h>
#include <stdio.h>
#include <string.h>
#include <unistd.h>

#define CHIP "[--small | --large]"

static const struct command commands[] = {
    { "format", "FILE BLOCKS " CHIP " [--force] [--no-wait]",
      "an empty index of 3 to 1024 blocks, small pages if nothing is said; --force wipes what stands in FILE",
      TAKES_CHIP | TAKES_FORCE | TAKES_NO_WAIT, 2, format_command },
    { "insert", "FILE KEY ADDRESS " CHIP " [--allow N] [--no-wait]", "give KEY an address, in at most N stores",
      TAKES_CHIP | TAKES_ALLOW | TAKES_NO_WAIT, 3, insert_command },
    { "delete", "FILE KEY " CHIP " [--allow N] [--no-wait]", "take KEY out, in at most N stores",
      TAKES_CHIP | TAKES_ALLOW | TAKES_NO_WAIT, 2, delete_command },
    { "lookup", "FILE KEY " CHIP, "print the address of KEY", TAKES_CHIP, 2, lookup_command },
    { "list", "FILE [LOW HIGH] " CHIP " [--count]",
      "print key and address of each entry from LOW to HIGH, or of all, keys rising; --count: only how many there are",
      TAKES_CHIP | TAKES_COUNT | TAKES_RANGE, 3, list_command },
    { "export", "FILE [TEXT] " CHIP " [--force]",
      "write all entries to TEXT, key, tab, address a line, or print them; --force replaces what stands in TEXT",
      TAKES_CHIP | TAKES_FORCE | TAKES_NAME, 2, export_command },
    { "import", "FILE TEXT BLOCKS " CHIP " [--force] [--no-wait]",
      "make FILE an index of so many blocks with the entries of TEXT; --force wipes what stands in FILE",
      TAKES_CHIP | TAKES_FORCE | TAKES_NO_WAIT, 3, import_command },
    { "apply", "FILE " CHIP " [--no-wait] < COMMANDS", "many commands, the file read once and replaced once",
      TAKES_CHIP | TAKES_NO_WAIT, 1, apply_command },
    { "show", "FILE " CHIP " [--pages] [--svg OUT]",
      "numbers and a picture of the chip; --pages: of every page above 64 blocks too",
      TAKES_CHIP | TAKES_PAGES | TAKES_SVG, 1, show_command },
    { "check", "FILE " CHIP, "whether FILE is a sound index; where it is not, what is broken, and the page where it is",
      TAKES_CHIP, 1, check_command },
    { "page", "FILE N " CHIP, "print page N: its place, numbers and entries, and whether it is live",
      TAKES_CHIP, 2, page_command },
    { "patrol", "FILE " CHIP " [--mend] [--no-wait]",
      "look for flipped bits by the codes of all pages; --mend writes what could be put right back to FILE",
      TAKES_CHIP | TAKES_MEND | TAKES_NO_WAIT, 1, patrol_command },
    { "cut", "FILE KEY ADDRESS " CHIP, "what a battery loss after each store of this insert leaves; FILE stays as it is",
      TAKES_CHIP, 3, cut_command },
};

enum { COMMANDS = sizeof commands / sizeof *commands };

static const struct command *nearest_command(const char *word)
{
    const struct command *best = commands, *c;
    for (c = commands + 1; c < commands + COMMANDS; c++)
        if (distance(word, c->name) < distance(word, best->name))
            best = c;
    return best;
}

static int is_one_of(const char *word, const char *a, const char *b, const char *c)
{
    return strcmp(word, a) == 0 || strcmp(word, b) == 0 || strcmp(word, c) == 0;
}

/* Whether a word of the command asks for help. */
static int asks_help(int count, char **words)
{
    int i;
    for (i = 1; i < count; i++)
        if (strcmp(words[i], "--help") == 0)
            return 1;
    return is_one_of(words[1], "help", "-h", "--help");
}

static int run(int count, char **words)
{
    const struct command *command;
    struct arguments arguments;
    if (count < 2) {
        print_help(stderr, commands, COMMANDS);
        return BAD_USAGE;
    }
    if (asks_help(count, words)) {
        print_help(stdout, commands, COMMANDS);
        return 0;
    }
    if (is_one_of(words[1], "--version", "version", "-V")) {
        puts("mutree " MUTREE_VERSION);
        return 0;
    }
    if (strcmp(words[1], "--mtd") == 0)
        return mtd_run(count - 2, words + 2);
    command = nearest_command(words[1]);
    if (strcmp(words[1], command->name) != 0) {
        complain("there is no command '%s'; the nearest is '%s', and 'mutree help' lists them all", words[1], command->name);
        return BAD_USAGE;
    }
    return arguments_read(command, count - 2, words + 2, &arguments) ? BAD_USAGE : command->run(&arguments);
}

/* A file that is opened must not take the place of a closed standard stream: what is printed would go into it. */
static int hold_standard_streams(void)
{
    int stream;
    for (stream = STDIN_FILENO; stream <= STDERR_FILENO; stream++)
        if (fcntl(stream, F_GETFD) < 0 && open("/dev/null", O_RDONLY) != stream)
            return 1;
    return 0;
}

int main(int count, char **words)
{
    if (hold_standard_streams())
        return BAD_FILE;
    signal(SIGPIPE, SIG_IGN);
    signal(SIGXFSZ, SIG_IGN);
    return say_finished(run(count, words));
}
