#include "posix.h"

#include "progress.h"

#include <stdio.h>
#include <time.h>
#include <unistd.h>

static double next; /* when the line is shown again */
static int shown, terminal;

static double now(void)
{
    struct timespec t;
    clock_gettime(CLOCK_MONOTONIC, &t);
    return (double)t.tv_sec + 1e-9 * (double)t.tv_nsec;
}

void progress_begin(void)
{
    terminal = isatty(STDERR_FILENO);
    shown = 0;
    next = now() + 1;
}

void progress_show(const char *what, size_t done, size_t total)
{
    if (!terminal || now() < next)
        return;
    if (total > 0)
        fprintf(stderr, "\rmutree: %s: %zu of %zu ", what, done, total);
    else
        fprintf(stderr, "\rmutree: %s: %zu ", what, done);
    fflush(stderr);
    shown = 1;
    next = now() + 0.25;
}

void progress_end(void)
{
    if (shown)
        fputs("\r                                                  \r", stderr);
}
