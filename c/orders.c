#include "posix.h"

#include "orders.h"
#include "arguments.h"
#include "image.h"
#include "nearest.h"
#include "say.h"
#include "status.h"

#include <stdlib.h>
#include <string.h>

enum { WORDS_A_LINE = 4 };

static const char *const names[ORDER_KINDS] = { "insert", "delete", "lookup" };
static const int word_counts[ORDER_KINDS] = { 3, 2, 2 };
static const char *const forms[ORDER_KINDS] = { "insert KEY ADDRESS", "delete KEY", "lookup KEY" };

const char *order_name(enum order_kind kind)
{
    return names[kind];
}

/* Parts a line at blanks and tabs. Gives the number of words; more than WORDS_A_LINE are not counted. */
static int part(char *text, char **words)
{
    int count = 0;
    char *word = strtok(text, " \t\n");
    while (word != NULL && count < WORDS_A_LINE) {
        words[count++] = word;
        word = strtok(NULL, " \t\n");
    }
    return count;
}

static enum order_kind nearest_kind(const char *word)
{
    unsigned kind, best = 0;
    for (kind = 1; kind < ORDER_KINDS; kind++)
        if (distance(word, names[kind]) < distance(word, names[best]))
            best = kind;
    return (enum order_kind)best;
}

/* One number of a line. */
static int read_part(const char *word, const char *what, size_t line, uint32_t *number)
{
    const char *fault = number_fault(word, number);
    if (fault != NULL)
        complain("line %zu: %s '%s' %s; nothing was changed", line, what, word, fault);
    return fault != NULL;
}

/* The words of a line that has some. Nonzero, after a line, where they are not understood. */
static int understand(char **words, int count, struct order *order)
{
    order->kind = nearest_kind(words[0]);
    if (strcmp(words[0], names[order->kind]) != 0) {
        complain("line %zu: there is no command '%s' here, the nearest is '%s'; nothing was changed", order->line, words[0],
                 names[order->kind]);
        return 1;
    }
    if (count != word_counts[order->kind]) {
        complain("line %zu: it should read '%s'; nothing was changed", order->line, forms[order->kind]);
        return 1;
    }
    order->address = 0;
    return read_part(words[1], "key", order->line, &order->key)
        || (order->kind == ORDER_INSERT && read_part(words[2], "address", order->line, &order->address));
}

static void add_order(struct orders *orders, struct order order)
{
    if (orders->count == orders->room) {
        orders->room = orders->room ? 2 * orders->room : 256;
        orders->list = need(realloc(orders->list, orders->room * sizeof *orders->list));
    }
    orders->list[orders->count++] = order;
}

/* A line as read. Empty ones and those that begin with # say nothing. */
static int read_line(struct orders *orders, char *text, size_t length, size_t line)
{
    struct order order;
    char *words[WORDS_A_LINE];
    int count;
    order.line = line;
    if (text[length - 1] != '\n') {
        complain("line %zu does not end; was the input cut short? nothing was changed", line);
        return 1;
    }
    if (strlen(text) != length) {
        complain("line %zu holds a byte 0; nothing was changed", line);
        return 1;
    }
    if (length > 1 && text[length - 2] == '\r')
        text[length - 2] = ' ';
    count = part(text, words);
    if (count == 0 || words[0][0] == '#')
        return 0;
    if (understand(words, count, &order))
        return 1;
    add_order(orders, order);
    return 0;
}

int orders_read(FILE *in, struct orders *orders)
{
    char *text = NULL;
    size_t room = 0, line = 0;
    ssize_t length;
    int bad = 0;
    memset(orders, 0, sizeof *orders);
    while (!bad && (length = getline(&text, &room, in)) > 0)
        bad = read_line(orders, text, (size_t)length, ++line);
    free(text);
    if (bad)
        return BAD_USAGE;
    if (ferror(in)) {
        complain_of("standard input", "cannot read");
        return BAD_FILE;
    }
    if (orders->count == 0) {
        complain("there is no command on standard input; nothing was changed");
        return BAD_USAGE;
    }
    return 0;
}

void orders_free(struct orders *orders)
{
    free(orders->list);
    orders->list = NULL;
    orders->count = orders->room = 0;
}
