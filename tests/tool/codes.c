/* codes.c: for the tests of the tool: gives the pages of a file that were made by byte edits their codes, and flips bits.
 *
 * usage: codes fit small|large FILE        fitting codes on every programmed page
 *        codes flip FILE BYTE BIT..        turns bits over, numbered from a byte of the file on
 */
#include "../independent/code.h"

#include <stdio.h>
#include <stdlib.h>
#include <string.h>

static uint8_t *bytes;
static size_t length;

static void end(const char *what)
{
    fprintf(stderr, "codes: %s\n", what);
    exit(1);
}

static void load(const char *name)
{
    FILE *file = fopen(name, "rb");
    long end_of_file;
    if (file == NULL || fseek(file, 0, SEEK_END) || (end_of_file = ftell(file)) < 0 || fseek(file, 0, SEEK_SET))
        end("cannot open the file");
    length = (size_t)end_of_file;
    bytes = malloc(length + 1);
    if (bytes == NULL || fread(bytes, 1, length, file) != length)
        end("cannot read the file");
    fclose(file);
}

static void save(const char *name)
{
    FILE *file = fopen(name, "wb");
    if (file == NULL || fwrite(bytes, 1, length, file) != length || fclose(file))
        end("cannot write the file");
}

static void fit(const char *name, const char *file)
{
    const struct chip *chip = strcmp(name, chips[0].name) == 0 ? &chips[0] : &chips[1];
    load(file);
    put_all_codes(chip, bytes, length / chip->page * chip->page);
    save(file);
}

static void flip_bits(const char *file, int count, char **words)
{
    unsigned long at = strtoul(words[0], NULL, 10);
    int i;
    load(file);
    for (i = 1; i < count; i++) {
        unsigned long bit = strtoul(words[i], NULL, 10);
        if (at + bit / 8 >= length)
            end("there is no such byte");
        flip(bytes + at, (unsigned)bit);
    }
    save(file);
}

int main(int count, char **words)
{
    if (count == 4 && strcmp(words[1], "fit") == 0)
        fit(words[2], words[3]);
    else if (count >= 5 && strcmp(words[1], "flip") == 0)
        flip_bits(words[2], count - 3, words + 3);
    else
        end("usage: codes fit small|large FILE, codes flip FILE BYTE BIT..");
    return 0;
}
