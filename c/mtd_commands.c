#include "posix.h"

#include "mtd_commands.h"

#include "arguments.h"
#include "file.h"
#include "geometry.h"
#include "mtd.h"
#include "replace.h"
#include "say.h"
#include "status.h"

#include <inttypes.h>
#include <string.h>

#ifdef __linux__

/* The device, read into memory. */
struct loaded {
    struct mtd mtd;
    struct image image, copy;
    struct mutree_nand nand;
};

static const char *device;

static void unload_device(struct loaded *loaded)
{
    image_free(&loaded->image);
    image_free(&loaded->copy);
    mtd_close(&loaded->mtd);
}

/* Mends in memory what has one flipped bit, and tells how much that was. */
static void mend(struct loaded *loaded)
{
    uint32_t found[4], mended;
    mutree_nand_patrol(&loaded->nand, found);
    mended = found[MUTREE_DATA_MENDED] + found[MUTREE_CODE_MENDED];
    if (mended + found[MUTREE_BEYOND_REPAIR] > 0)
        complain("%s: %" PRIu32 " halves with a flipped bit, mended in memory and not on the chip; %" PRIu32 " beyond repair", device, mended,
                 found[MUTREE_BEYOND_REPAIR]);
}

/* Opens the device, reads it and judges what is there, once: the commands then go by the record. A damaged index is loaded too. Returns 0,
 * or an exit status after a line. */
static int load_device(struct loaded *loaded, const struct arguments *arguments, int to_change)
{
    struct mutree_nand_result result;
    int status = mtd_open(device, to_change, arguments->no_wait, &loaded->mtd);
    if (status != 0)
        return status;
    loaded->image = image_erased(loaded->mtd.geometry, loaded->mtd.blocks);
    loaded->copy = image_erased(loaded->mtd.geometry, loaded->mtd.blocks);
    loaded->image.name = device;
    loaded->nand = mtd_nand(&loaded->mtd, &loaded->image, &loaded->copy);
    result = mutree_nand_read(&loaded->nand);
    if (result.answer == MUTREE_NAND_FAILED) {
        status = mtd_say_failed(&loaded->mtd, result);
        unload_device(loaded);
    } else if (arguments->mend) {
        mend(loaded);
    }
    return status;
}

/* Where the answer is DAMAGED: how to see more. */
static void say_dump(uint32_t answer)
{
    if (answer == MUTREE_DAMAGED)
        complain("%s is not a sound index; 'mutree --mtd %s dump FILE' writes it to a file, which 'mutree check' and 'mutree patrol' take; "
                 "with --mend what has one flipped bit is mended in memory first", device, device);
}

/* Prints the answer of an update or a format. Returns it as an exit status. */
static int say_carried(struct loaded *loaded, struct mutree_nand_result made)
{
    struct mutree_result result = { 0, 0, 0, 0, 0, 0 };
    int status;
    if (made.answer >= MUTREE_NAND_FAILED) {
        status = mtd_say_failed(&loaded->mtd, made);
        complain("%" PRIu32 " programmed, %" PRIu32 " erased before that", made.programmed, made.erased);
        return status;
    }
    if (made.programmed + made.erased > 0)
        say_changed();
    result.answer = made.answer;
    result.rule = made.rule;
    result.page = made.page;
    if (made.answer == MUTREE_DONE)
        printf("%s: %" PRIu32 " programmed, %" PRIu32 " erased\n", answer_name(made.answer), made.programmed, made.erased);
    else
        complain("%s: %s", answer_name(made.answer), answer_meaning(result));
    say_dump(made.answer);
    return (int)made.answer;
}

/* An insert (address given) or a delete (none). */
static int update(const struct arguments *arguments, uint32_t key, const uint32_t *address)
{
    struct loaded loaded;
    int status = load_device(&loaded, arguments, 1);
    if (status != 0)
        return status;
    status = say_carried(&loaded, address != NULL ? mutree_nand_insert(&loaded.nand, key, *address) : mutree_nand_delete(&loaded.nand, key));
    unload_device(&loaded);
    return status;
}

static int insert_on_mtd(const struct arguments *arguments)
{
    uint32_t key, address;
    if (read_number(arguments->word[0], "key", &key) || read_number(arguments->word[1], "address", &address))
        return BAD_USAGE;
    return update(arguments, key, &address);
}

static int delete_on_mtd(const struct arguments *arguments)
{
    uint32_t key;
    return read_number(arguments->word[0], "key", &key) ? BAD_USAGE : update(arguments, key, NULL);
}

static int lookup_on_mtd(const struct arguments *arguments)
{
    struct loaded loaded;
    struct mutree_result result;
    uint32_t key;
    int status;
    if (read_number(arguments->word[0], "key", &key))
        return BAD_USAGE;
    status = load_device(&loaded, arguments, 0);
    if (status != 0)
        return status;
    result = mutree_nand_lookup(&loaded.nand, key);
    if (result.answer == MUTREE_DONE)
        printf("%" PRIu32 "\n", result.address);
    else
        complain("%s: %s", answer_name(result.answer), answer_meaning(result));
    say_dump(result.answer);
    unload_device(&loaded);
    return (int)result.answer;
}

static int format_on_mtd(const struct arguments *arguments)
{
    struct loaded loaded;
    int status = load_device(&loaded, arguments, 1);
    if (status != 0)
        return status;
    if (!arguments->force && !all_255(loaded.image.bytes, loaded.image.length)) {
        complain("%s holds %s; --force wipes it", device, image_is_sound(&loaded.image) ? "an index" : "other bytes, or a damaged index");
        status = BAD_USAGE;
    } else {
        status = say_carried(&loaded, mutree_nand_format(&loaded.nand));
    }
    unload_device(&loaded);
    return status;
}

/* Writes the image to a file where nothing stands, or with --force. */
static int write_dump(const struct image *image, const struct arguments *arguments)
{
    struct file file;
    int status = file_open_to_change(arguments->word[0], 1, arguments->no_wait, &file);
    if (status != 0)
        return status;
    if (file.state.st_size > 0 && !arguments->force) {
        complain("something stands in %s; --force replaces it", file.name);
        status = BAD_USAGE;
    } else {
        status = file_replace(&file, image->bytes, image->length);
    }
    if (status == 0)
        printf("%zu bytes of a chip with %s\n", image->length, geometry_words(image->geometry));
    file_close(&file);
    return status;
}

static int dump_mtd(const struct arguments *arguments)
{
    struct loaded loaded;
    int status = load_device(&loaded, arguments, 0);
    if (status != 0)
        return status;
    status = write_dump(&loaded.image, arguments);
    unload_device(&loaded);
    return status;
}

static const struct command commands[] = {
    { "--mtd DEVICE format", "[--force] [--no-wait]", "an empty index on all blocks of the device; --force wipes what stands there",
      TAKES_FORCE | TAKES_NO_WAIT, 0, format_on_mtd },
    { "--mtd DEVICE insert", "KEY ADDRESS [--mend] [--no-wait]", "give KEY an address, store by store; --mend mends flipped bits in memory first",
      TAKES_MEND | TAKES_NO_WAIT, 2, insert_on_mtd },
    { "--mtd DEVICE delete", "KEY [--mend] [--no-wait]", "take KEY out, store by store", TAKES_MEND | TAKES_NO_WAIT, 1, delete_on_mtd },
    { "--mtd DEVICE lookup", "KEY [--mend]", "print the address of KEY", TAKES_MEND, 1, lookup_on_mtd },
    { "--mtd DEVICE dump", "FILE [--force]", "write the chip to FILE as nanddump --oob does; all commands above take it", TAKES_FORCE, 1, dump_mtd },
};

enum { COMMANDS = sizeof commands / sizeof *commands };

void mtd_print_help(FILE *out)
{
    size_t i;
    for (i = 0; i < COMMANDS; i++)
        fprintf(out, "  mutree %s %s\n        %s\n", commands[i].name, commands[i].words, commands[i].does);
}

int mtd_run(int count, char **words)
{
    struct arguments arguments;
    size_t i;
    if (count < 2) {
        complain("--mtd needs a device and a command; 'mutree help' lists them");
        return BAD_USAGE;
    }
    device = words[0];
    for (i = 0; i < COMMANDS; i++)
        if (strcmp(strrchr(commands[i].name, ' ') + 1, words[1]) == 0)
            return arguments_read(&commands[i], count - 2, words + 2, &arguments) ? BAD_USAGE : commands[i].run(&arguments);
    complain("there is no command '%s' on a device; write it to a file with 'mutree --mtd %s dump FILE', and 'mutree help' lists them all",
             words[1], device);
    return BAD_USAGE;
}

#else

void mtd_print_help(FILE *out)
{
    (void)out;
}

int mtd_run(int count, char **words)
{
    (void)count;
    (void)words;
    complain("--mtd is of Linux; there is no MTD on this system");
    return BAD_USAGE;
}

#endif
