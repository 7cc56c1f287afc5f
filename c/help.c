#include "help.h"
#include "geometry.h"
#include "mtd_commands.h"

static void print_commands(FILE *out, const struct command *commands, size_t count)
{
    size_t i;
    for (i = 0; i < count; i++)
        fprintf(out, "  mutree %s %s\n        %s\n", commands[i].name, commands[i].words, commands[i].does);
}

static void print_chips(FILE *out)
{
    uint32_t number;
    for (number = 0; number < MUTREE_GEOMETRIES; number++) {
        const struct mutree_geometry *g = mutree_geometry_of(number);
        fprintf(out, "A chip with %s has blocks of %u pages, %u main and %u spare bytes each: %u bytes a block.\n",
                geometry_words(g), (unsigned)g->pages, (unsigned)g->main_bytes, (unsigned)g->spare_bytes, (unsigned)g->block_bytes);
    }
    fputs("Without --small or --large the chip is told from the file: by its length, and where that fits both by which of them\n"
          "finds a sound index in it. A file that is sound on neither is refused until it is said. show says which it is.\n\n", out);
}

void print_help(FILE *out, const struct command *commands, size_t count)
{
    fputs("usage: mutree COMMAND FILE ..       the index at the bench\n\n", out);
    print_commands(out, commands, count);
    mtd_print_help(out);
    fputs("  mutree help, mutree --version\n\n"
          "FILE is a raw dump with spare bytes, as nanddump --oob writes it: a regular file. KEY, ADDRESS, LOW, HIGH\n"
          "and N are 0 to 4294967295 without leading zeros. A change holds a lock and replaces the file whole, or leaves\n"
          "it as it was; a second change waits for the first, and with --no-wait it is refused.\n\n", out);
    fputs("DEVICE is a NAND chip under Linux's MTD, /dev/mtd0 for example, read and written raw with its spare bytes. All its\n"
          "blocks are the index's, and none may be marked bad. A change goes to it store by store, so that a loss of power\n"
          "between two stores leaves the old index or the new one.\n\n", out);
    print_chips(out);
    fputs("apply reads a command a line: insert KEY ADDRESS, delete KEY or lookup KEY; empty lines and lines that begin\n"
          "with # are passed over, the last line ends like the others. Every line must be understood and DONE, else\n"
          "nothing is changed and the line is named. Lookups print key and address.\n\n"
          "list prints a line for each entry: key, tab, address. LOW above HIGH gives none, and status 0 as well.\n\n"
          "export and import carry an index from one chip to another as a text: a line for each entry, key, tab, address,\n"
          "keys rising, each line ended by byte 10. TEXT - is standard output or input; export without TEXT prints. import\n"
          "takes at most 4096 lines. A line that does not fit is named; then, and where the blocks are too few (ROOM),\n"
          "nothing is changed. import makes small pages if nothing is said.\n\n"
          "Exit status: 0 DONE, 1 LENGTH, 2 DAMAGED, 3 WORN, 4 ABSENT, 5 HEIGHT, 6 ROOM, 7 STOPPED, 9 TEXT; 64 the command was\n"
          "not understood or needs --force, 65 patrol found flipped bits and not all are mended in the file, 66 a file can't\n"
          "be read or written, 71 out of memory, 74 the output can't be printed, 75 another process is changing the file.\n", out);
}
