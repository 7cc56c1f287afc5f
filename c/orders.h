/* orders.h: the lines that `mutree apply` reads. */
#ifndef MUTREE_ORDERS_H
#define MUTREE_ORDERS_H

#include <stddef.h>
#include <stdint.h>
#include <stdio.h>

enum order_kind { ORDER_INSERT, ORDER_DELETE, ORDER_LOOKUP, ORDER_KINDS };

struct order {
    enum order_kind kind;
    uint32_t key, address; /* a lookup's address is filled in by its answer */
    size_t line;           /* counted from 1 */
};

struct orders {
    struct order *list;
    size_t count, room;
};

/* "insert", "delete", "lookup" */
const char *order_name(enum order_kind kind);

/* Reads all lines. Returns 0, or an exit status after a line that names the first one that isn't understood. */
int orders_read(FILE *in, struct orders *orders);
void orders_free(struct orders *orders);

#endif
