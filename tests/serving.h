/* serving.h: the loop of a driver, which calls a library on what standard input says, so that a script can hold it against another
 * implementation.
 *
 * A request: nine 32-bit numbers (which call; geometry; key; address; allowance; image length; result length; bytes of what else is lent; of
 * the record), least byte first, then the image, the result buffer, what else is lent, and the record. The reply: the returned number, then
 * these four as the call left them. All stand against a guard page (guarded.h), so that a byte read too far ends the driver: with an even key
 * the one behind them, with an odd key the one before. */
#ifndef SERVING_H
#define SERVING_H

#include "guarded.h"

#include <stdio.h>

/* The nine numbers of a request; the last are the lengths of its buffers. */
enum { CALL, GEOMETRY, KEY, ADDRESS, ALLOWANCE, IMAGE_LENGTH, RESULT_LENGTH, LENT_LENGTH, RECORD_LENGTH, NUMBERS, BUFFERS = NUMBERS - IMAGE_LENGTH };

/* What a driver does with a request: its numbers, its buffers. */
typedef uint32_t served_call(const uint32_t *n, uint8_t *image, uint8_t *result, uint8_t *lent, uint8_t *record);

static uint32_t number(const uint8_t *at)
{
    return (uint32_t)at[0] | (uint32_t)at[1] << 8 | (uint32_t)at[2] << 16 | (uint32_t)at[3] << 24;
}

static int read_request(uint32_t *n)
{
    uint8_t head[4 * NUMBERS];
    int i;
    if (fread(head, 1, sizeof head, stdin) != sizeof head)
        return 0;
    for (i = 0; i < NUMBERS; i++)
        n[i] = number(head + 4 * i);
    return 1;
}

static void reply(uint32_t answer, const struct guarded *buffers)
{
    uint8_t bytes[4];
    int i;
    for (i = 0; i < 4; i++)
        bytes[i] = (uint8_t)(answer >> (8 * i));
    fwrite(bytes, 1, 4, stdout);
    for (i = 0; i < BUFFERS; i++)
        fwrite(buffers[i].bytes, 1, buffers[i].length, stdout);
    fflush(stdout);
}

static int serve(served_call *call)
{
    uint32_t n[NUMBERS];
    while (read_request(n)) {
        struct guarded b[BUFFERS];
        int i;
        for (i = 0; i < BUFFERS; i++) {
            b[i] = guarded_make(n[IMAGE_LENGTH + i], n[KEY] % 2 == 0);
            if (fread(b[i].bytes, 1, b[i].length, stdin) != b[i].length)
                return 1;
        }
        reply(call(n, b[0].bytes, b[1].bytes, b[2].bytes, b[3].bytes), b);
        for (i = 0; i < BUFFERS; i++)
            guarded_free(&b[i]);
    }
    return 0;
}

#endif
