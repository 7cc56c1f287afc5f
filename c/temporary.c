#include "posix.h"

#include "temporary.h"
#include "image.h"

#include <errno.h>
#include <signal.h>
#include <stdio.h>
#include <stdlib.h>
#include <string.h>
#include <unistd.h>

static const int caught[] = { SIGINT, SIGTERM, SIGHUP, SIGQUIT };

enum { CAUGHT = sizeof caught / sizeof *caught };

/* Read by the signal handler; changed with the signals blocked. */
static char *volatile temporary;
static char *volatile made;
static volatile sig_atomic_t became;

static void clean_up(int number)
{
    static const char kept[] = "mutree: stopped by a signal; the file is as it was\n";
    static const char changed[] = "mutree: stopped by a signal; the new file is in place\n";
    ssize_t ignored;
    if (temporary != NULL)
        unlink(temporary);
    if (made != NULL)
        unlink(made);
    ignored = became ? write(STDERR_FILENO, changed, sizeof changed - 1) : write(STDERR_FILENO, kept, sizeof kept - 1);
    (void)ignored;
    raise(number); /* the handler is reset: this ends the process */
}

static void caught_set(sigset_t *set)
{
    size_t i;
    sigemptyset(set);
    for (i = 0; i < CAUGHT; i++)
        sigaddset(set, caught[i]);
}

void temporary_catch_signals(void)
{
    struct sigaction action, old;
    size_t i;
    memset(&action, 0, sizeof action);
    action.sa_handler = clean_up;
    action.sa_flags = SA_RESETHAND | SA_RESTART;
    caught_set(&action.sa_mask);
    for (i = 0; i < CAUGHT; i++)
        if (sigaction(caught[i], NULL, &old) == 0 && old.sa_handler != SIG_IGN)
            sigaction(caught[i], &action, NULL);
}

static void hold_signals(sigset_t *before)
{
    sigset_t set;
    caught_set(&set);
    sigprocmask(SIG_BLOCK, &set, before);
}

static void release_signals(const sigset_t *before)
{
    int reason = errno;
    sigprocmask(SIG_SETMASK, before, NULL);
    errno = reason;
}

/* Forgets a name. The signals are held. */
static void forget(char *volatile *name)
{
    char *old = *name;
    *name = NULL;
    free(old);
}

int temporary_make(const char *path)
{
    char *name = need(malloc(strlen(path) + sizeof ".mutree-XXXXXX"));
    sigset_t before;
    int descriptor;
    sprintf(name, "%s.mutree-XXXXXX", path);
    hold_signals(&before);
    descriptor = mkstemp(name);
    if (descriptor >= 0)
        temporary = name;
    else
        free(name);
    release_signals(&before);
    return descriptor;
}

int temporary_become(const char *path)
{
    sigset_t before;
    int bad;
    hold_signals(&before);
    bad = rename(temporary, path);
    if (!bad) {
        became = 1;
        forget(&temporary);
        forget(&made);
    }
    release_signals(&before);
    return bad;
}

void temporary_remove(void)
{
    sigset_t before;
    hold_signals(&before);
    unlink(temporary);
    forget(&temporary);
    release_signals(&before);
}

void temporary_watch_made(const char *path)
{
    char *copy = need(malloc(strlen(path) + 1));
    sigset_t before;
    strcpy(copy, path);
    hold_signals(&before);
    forget(&made);
    made = copy;
    release_signals(&before);
}

void temporary_remove_made(void)
{
    sigset_t before;
    hold_signals(&before);
    if (made != NULL)
        unlink(made);
    forget(&made);
    release_signals(&before);
}
