#include "posix.h"

#include "commands.h"
#include "mutree.h"
#include "orders.h"
#include "progress.h"
#include "replace.h"
#include "say.h"
#include "status.h"

#include <inttypes.h>
#include <stdio.h>
#include <unistd.h>

/* What all lines together did. */
struct tally {
    size_t kind[ORDER_KINDS];
    uint64_t programmed, erased;
};

static struct mutree_result obey(struct image *image, uint8_t *record, const struct order *order)
{
    switch (order->kind) {
    case ORDER_INSERT: return image_insert_opened(image, record, order->key, order->address);
    case ORDER_DELETE: return image_delete_opened(image, record, order->key);
    default: return image_lookup_opened(image, record, order->key);
    }
}

/* All lines, on the image in memory, which is judged once. The first that is not DONE ends it; a damaged image ends the first line. */
static struct mutree_result obey_all(struct image *image, struct orders *orders, struct tally *tally, size_t *at)
{
    uint8_t record[MUTREE_RECORD_BYTES];
    struct mutree_result result = image_open(image, record);
    progress_begin();
    for (*at = 0; result.answer == MUTREE_DONE && *at < orders->count; ++*at) {
        struct order *order = &orders->list[*at];
        result = obey(image, record, order);
        if (result.answer != MUTREE_DONE)
            break;
        if (order->kind == ORDER_LOOKUP)
            order->address = result.address;
        tally->kind[order->kind]++;
        tally->programmed += result.programmed;
        tally->erased += result.erased;
        progress_show("commands", *at + 1, orders->count);
    }
    progress_end();
    return result;
}

/* The lookups' answers, key and address, in the order of the lines. */
static void tell_lookups(const struct orders *orders)
{
    size_t i;
    for (i = 0; i < orders->count; i++)
        if (orders->list[i].kind == ORDER_LOOKUP)
            printf("%" PRIu32 " %" PRIu32 "\n", orders->list[i].key, orders->list[i].address);
}

/* The line that was not DONE. Returns the answer as an exit status. */
static int say_line(const struct image *image, const struct order *order, struct mutree_result result)
{
    complain("line %zu: %s %" PRIu32 ": %s: %s; nothing was changed", order->line, order_name(order->kind), order->key,
             answer_name(result.answer), answer_meaning(result));
    say_check(image, result);
    return (int)result.answer;
}

/* Nothing is written unless every line was DONE; the answers are printed when the file is replaced. */
static int apply_to(struct file *file, struct image *image, struct orders *orders)
{
    struct tally tally = { { 0, 0, 0 }, 0, 0 };
    size_t at;
    struct mutree_result result = obey_all(image, orders, &tally, &at);
    int status = 0;
    if (result.answer != MUTREE_DONE)
        return say_line(image, &orders->list[at], result);
    if (tally.programmed + tally.erased > 0) {
        status = file_replace(file, image->bytes, image->length);
        if (status != 0)
            return status;
        say_changed();
    }
    tell_lookups(orders);
    printf("DONE: %zu inserted, %zu deleted, %zu looked up: %" PRIu64 " programmed, %" PRIu64 " erased\n",
           tally.kind[ORDER_INSERT], tally.kind[ORDER_DELETE], tally.kind[ORDER_LOOKUP], tally.programmed, tally.erased);
    return 0;
}

/* A mistake in the file's name is told before any line is read. */
static int read_orders(const char *name, struct orders *orders)
{
    struct file file;
    int status = file_open_to_read(name, &file);
    if (status != 0)
        return status;
    file_close(&file);
    if (isatty(STDIN_FILENO) && isatty(STDERR_FILENO))
        fputs("mutree: type a command a line: insert KEY ADDRESS, delete KEY or lookup KEY; end with Ctrl-D\n", stderr);
    return orders_read(stdin, orders);
}

int apply_command(const struct arguments *arguments)
{
    struct file file;
    struct image image;
    struct orders orders = { NULL, 0, 0 };
    int status = read_orders(arguments->word[0], &orders);
    if (status == 0)
        status = file_open_to_change(arguments->word[0], 0, arguments->no_wait, &file);
    if (status != 0) {
        orders_free(&orders);
        return status;
    }
    status = file_load(&file, arguments->geometry, &image);
    if (status == 0) {
        status = apply_to(&file, &image, &orders);
        image_free(&image);
    }
    file_close(&file);
    orders_free(&orders);
    return status;
}
