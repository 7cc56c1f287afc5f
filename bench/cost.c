/* cost.c: what a list costs after the image is judged, counted and not timed. An opening judges the same image, so the instructions of a
 * list of no pairs less an opening's are those of its walk less those of the record; longer lists are held to the list of no pairs. The
 * calls are made by a child, and its parent steps it one instruction at a time (ptrace; Linux). The count is the same at every run,
 * whatever else the machine does.
 *
 * Fails where a walk takes more than A_LEVEL instructions for each level of the tree and A_PAIR for each pair, however large the image.
 *
 * usage: cost [--quick]      prints a table; --quick: the two smallest images, no list of over 10 pairs
 */
#define _DEFAULT_SOURCE
#include "../c/mutree.h"

#include <signal.h>
#include <stdio.h>
#include <stdlib.h>
#include <string.h>
#include <sys/ptrace.h>
#include <sys/types.h>
#include <sys/wait.h>
#include <unistd.h>

enum { A_LEVEL = 300, A_PAIR = 200 };
enum { LISTS = 6, CALLS = LISTS + 2, NOTHING = 0, OPENING = 1, NO_PAIRS = 2 }; /* from NO_PAIRS on lists */
enum { STEP = 16 };                                                            /* between two keys */
enum { MAY_NOT_TRACE = 3 };                                                    /* the child's status where the machine forbids it */

static const uint32_t wishes[LISTS] = { 0, 1, 10, 100, 1000, UINT32_MAX };
static const char *const chip_names[MUTREE_GEOMETRIES] = { "small", "large" };

/* Images by the library's own calls: rising keys. */
static const struct {
    uint32_t chip, blocks, keys;
} images[] = {
    { MUTREE_SMALL, 3, 300 }, { MUTREE_SMALL, 8, 2400 }, { MUTREE_SMALL, 24, 7200 }, { MUTREE_LARGE, 3, 4000 },
};

enum { IMAGES = sizeof images / sizeof *images };

static const struct mutree_geometry *chip;
static uint8_t *image;
static size_t length;
static uint32_t keys, *pairs;

static void need(int ok, const char *what)
{
    if (!ok) {
        fprintf(stderr, "cost: %s\n", what);
        exit(1);
    }
}

static void build(int which)
{
    static uint32_t live[MUTREE_MOST_LIVE_WORDS];
    uint8_t result[MUTREE_RESULT_BYTES];
    uint32_t i;
    chip = mutree_geometry_of(images[which].chip);
    length = (size_t)images[which].blocks * chip->block_bytes;
    keys = images[which].keys;
    image = malloc(length);
    pairs = malloc(2 * (size_t)keys * sizeof *pairs);
    need(image != NULL && pairs != NULL, "out of memory");
    memset(pairs, 0, 2 * (size_t)keys * sizeof *pairs);
    mutree_format(chip->number, image, length, result, sizeof result);
    for (i = 1; i <= keys; i++)
        need(mutree_insert(chip->number, image, length, live, MUTREE_MOST_LIVE_WORDS, STEP * i, i, UINT32_MAX, result, sizeof result) == MUTREE_DONE,
             "a key was refused");
}

/* The height byte of the page with the largest sequence number: an insert programs the root last. */
static unsigned height_of_tree(void)
{
    uint32_t largest = 0;
    unsigned height = 0;
    size_t at;
    for (at = chip->main_bytes; at < length; at += chip->page_bytes) {
        const uint8_t *n = image + at;
        uint32_t number = (uint32_t)n[0] | (uint32_t)n[1] << 8 | (uint32_t)n[2] << 16 | (uint32_t)n[3] << 24;
        if (number != UINT32_MAX && number > largest) {
            largest = number;
            height = n[4];
        }
    }
    return height;
}

/* ---- the child: each call between two stops */

/* How many pairs a call lists: around the middle of the map, where there are fewer than all. */
static uint32_t pairs_of(int call)
{
    return call <= OPENING ? 0 : wishes[call - 2] < keys ? wishes[call - 2] : keys;
}

static void make(int call)
{
    uint8_t result[MUTREE_RESULT_BYTES], record[MUTREE_RECORD_BYTES];
    uint32_t count = pairs_of(call), low = STEP * ((keys - count) / 2) + 1, high = low + STEP * count - (count > 0);
    uint32_t answer = MUTREE_DONE;
    raise(SIGSTOP);
    if (call == OPENING)
        answer = mutree_open(chip->number, image, length, record, sizeof record, result, sizeof result);
    else if (call > OPENING)
        answer = mutree_list(chip->number, image, length, low, high, pairs, 2 * (size_t)keys, result, sizeof result);
    raise(SIGSTOP);
    if (answer != MUTREE_DONE || (call > OPENING && mutree_read_listed(result).written != count))
        _exit(1);
}

static void child(int calls)
{
    int call;
    if (ptrace(PTRACE_TRACEME, 0, NULL, NULL) != 0)
        _exit(MAY_NOT_TRACE);
    make(NOTHING); /* so that all is linked when it counts */
    for (call = 0; call < calls; call++)
        make(call);
    _exit(0);
}

/* ---- the parent */

/* Waits for the child; nonzero where it stopped by itself and not after a step. */
static int stopped(pid_t pid)
{
    int status;
    need(waitpid(pid, &status, 0) == pid, "cannot wait for the child");
    if (WIFEXITED(status) && WEXITSTATUS(status) == MAY_NOT_TRACE) {
        puts("cost: not counted, since no program may trace its child here");
        exit(0);
    }
    need(WIFSTOPPED(status), "the child ended: a call was refused");
    return WSTOPSIG(status) == SIGSTOP;
}

/* The instructions from one stop to the next. */
static unsigned long stepped(pid_t pid)
{
    unsigned long count = 0;
    while (!stopped(pid))
        need(ptrace(PTRACE_CONT, pid, NULL, NULL) == 0, "cannot go on");
    do {
        need(ptrace(PTRACE_SINGLESTEP, pid, NULL, NULL) == 0, "cannot step");
        count++;
    } while (!stopped(pid));
    need(ptrace(PTRACE_CONT, pid, NULL, NULL) == 0, "cannot go on");
    return count;
}

static void count_calls(int calls, unsigned long *counts)
{
    int call;
    pid_t pid = fork();
    need(pid >= 0, "cannot start a child");
    if (pid == 0)
        child(calls);
    stepped(pid);
    for (call = 0; call < calls; call++)
        counts[call] = stepped(pid);
    need(waitpid(pid, NULL, 0) == pid, "the child did not end");
}

/* A row of the table. */
static void tell(int which, int calls)
{
    unsigned long counts[CALLS];
    unsigned height = height_of_tree();
    int call;
    count_calls(calls, counts);
    printf("| %s, %u blocks, %u keys, height %u | %lu |", chip_names[chip->number], (unsigned)images[which].blocks, (unsigned)keys, height,
           counts[OPENING] - counts[NOTHING]);
    for (call = NO_PAIRS; call < calls; call++) {
        long beyond = (long)counts[call] - (long)counts[call == NO_PAIRS ? OPENING : NO_PAIRS];
        printf(" %ld |", beyond);
        fflush(stdout);
        need(beyond <= A_LEVEL * (long)height + A_PAIR * (long)pairs_of(call), "a list takes more than its levels and pairs allow");
    }
    printf("\n");
}

int main(int count, char **words)
{
    int quick = count > 1 && strcmp(words[1], "--quick") == 0, calls = quick ? 5 : CALLS, which;
    printf("| instructions | an opening | a list of no pairs beyond that | beyond that 1 pair | 10 |%s\n", quick ? "" : " 100 | 1,000 | all |");
    printf("|---|---|---|---|---|%s\n", quick ? "" : "---|---|---|");
    for (which = 0; which < (quick ? 2 : IMAGES); which++) {
        fflush(stdout);
        build(which);
        tell(which, calls);
        free(image);
        free(pairs);
    }
    return 0;
}
