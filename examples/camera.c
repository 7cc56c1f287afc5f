/* camera.c: a camera that keeps its last frames on flash and finds each by the time it was taken. The frames lie in a ring of slots, and the
 * index leads from a time to a slot. The chip of the index is simulated; power is lost now and then, also in the middle of a store.
 * What to look at: put_frame (the order of delete, frame and insert), act_on (what to do at each answer), start (after a crash).
 * The index is judged once at each start, and then every call goes by the record that nand.h keeps of it in RAM (request 8).
 *
 * usage: camera CHIP FRAMES        CHIP is the geometry's number, 0 or 1
 */
#include "simulated.h"

#include <stdio.h>
#include <stdlib.h>
#include <string.h>

enum { SLOTS = 600, BLOCKS = 3 };
enum todo { GO_ON, AGAIN, RESTART };

/* What outlives a loss of power: the chip with the index, and the frames. A frame has its time with it. */
static struct simulated chip;
static uint32_t frame[SLOTS]; /* stands for the frames: the time at which each was taken, 0 for none */

/* What does not. */
static struct mutree_nand nand;
static uint32_t next_slot, pairs[2 * SLOTS];
static unsigned crashes, rebuilt, full; /* for the last line */

static struct mutree_listed list(uint32_t low, uint32_t high)
{
    return mutree_nand_list(&nand, low, high, pairs, 2 * SLOTS);
}

/* The frame of a time, or 0. A lookup reads the image in RAM, never the chip, and judges nothing. STALE is not seen here: where the record is
 * not the image's, nand.h opens the image and asks again. Who calls mutree_lookup_opened with a record of his own does just that. */
static uint32_t find_frame(uint32_t time)
{
    struct mutree_result found = mutree_nand_lookup(&nand, time);
    return found.answer == MUTREE_DONE ? frame[found.address] : 0;
}

/* Whether the index is sound and every key leads to the frame of its time. */
static int fits_frames(void)
{
    struct mutree_listed listed = list(0, UINT32_MAX);
    uint32_t i;
    for (i = 0; i < listed.written; i++)
        if (frame[pairs[2 * i + 1] % SLOTS] != pairs[2 * i])
            return 0;
    return listed.answer == MUTREE_DONE;
}

/* DAMAGED or WORN: a new index from the frames themselves, newest first. Power may be lost here too; the next start begins it again. */
static enum todo rebuild(void)
{
    uint32_t answer = mutree_nand_format(&nand).answer, newest = 0, slot, i;
    rebuilt++;
    for (slot = 1; slot < SLOTS; slot++)
        newest = frame[slot] > frame[newest] ? slot : newest;
    for (i = 0; i < SLOTS && answer == MUTREE_DONE; i++) {
        slot = (newest + SLOTS - i) % SLOTS;
        if (frame[slot] != 0)
            answer = mutree_nand_insert(&nand, frame[slot], slot).answer;
    }
    return answer == MUTREE_DONE || answer == MUTREE_ROOM || answer == MUTREE_HEIGHT ? GO_ON : RESTART;
}

/* What to do at each answer of an update. */
static enum todo act_on(struct mutree_nand_result made)
{
    switch (made.answer) {
    case MUTREE_DONE:
    case MUTREE_ABSENT: return GO_ON; /* ABSENT: a crash came between delete and insert */
    case MUTREE_ROOM:
    case MUTREE_HEIGHT: /* the index is full before the ring is: the oldest frame goes */
        full++;
        list(0, UINT32_MAX);
        return act_on(mutree_nand_delete(&nand, pairs[0])) == GO_ON ? AGAIN : RESTART;
    case MUTREE_WORN:
    case MUTREE_DAMAGED: return rebuild() == GO_ON ? AGAIN : RESTART;
    case MUTREE_NAND_FAILED: return RESTART; /* the old map is on the chip and in RAM. Here power is gone; where it is not, try again */
    default: abort(); /* LENGTH, MUTREE_NAND_CHANGED: the program is wrong. nand.h never gives STOPPED or STALE */
    }
}

/* First the key of the frame that gives way, then the frame, then the new key: no key ever leads to another frame than its own. */
static enum todo put_frame(uint32_t time)
{
    enum todo todo = GO_ON;
    if (frame[next_slot] != 0)
        while ((todo = act_on(mutree_nand_delete(&nand, frame[next_slot]))) == AGAIN)
            continue;
    if (todo == GO_ON) {
        frame[next_slot] = time;
        while ((todo = act_on(mutree_nand_insert(&nand, time, next_slot))) == AGAIN)
            continue;
    }
    next_slot = todo == GO_ON ? (next_slot + 1) % SLOTS : next_slot;
    return todo;
}

/* After the power came back: read the chip, which opens the index, and find where the ring stood. A flipped bit is mended; a page that was
 * cut in the middle may look like one, so the frames are asked once more. */
static enum todo start(void)
{
    uint32_t found[4], newest, answer = mutree_nand_read(&nand).answer;
    if (answer == MUTREE_NAND_FAILED)
        return RESTART;
    if (answer == MUTREE_DAMAGED)
        mutree_nand_patrol(&nand, found);
    if (!fits_frames() && rebuild() != GO_ON)
        return RESTART;
    newest = list(0, UINT32_MAX).written;
    next_slot = newest > 0 ? (pairs[2 * newest - 1] + 1) % SLOTS : 0;
    return GO_ON;
}

static void look_at_all(void)
{
    if (fits_frames() && find_frame(pairs[0]) == pairs[0])
        return;
    printf("camera: a key leads to another frame\n");
    exit(1);
}

int main(int words, char **word)
{
    const struct mutree_geometry *g = words == 3 ? mutree_geometry_of((uint32_t)strtoul(word[1], NULL, 10)) : NULL;
    uint32_t frames = words == 3 ? (uint32_t)strtoul(word[2], NULL, 10) : 0, time;
    if (g == NULL || simulated_make(&chip, g, BLOCKS) != 0)
        return 64;
    nand = simulated_nand(&chip, malloc(chip.length), malloc(chip.length));
    if (nand.image == NULL || nand.copy == NULL || mutree_nand_format(&nand).answer != MUTREE_DONE)
        return 71;
    for (time = 1; time <= frames; time++) {
        if (time % 50 == 0) { /* power will be lost after some stores more, at times in the middle of one */
            chip.power_after = time / 50 % 7;
            chip.tear = time % 500 == 0 ? TEAR_BITS : TEAR_BEFORE;
        }
        if (put_frame(time) == GO_ON)
            continue;
        crashes++;
        do
            simulated_start(&chip); /* power is back */
        while (start() != GO_ON);
        look_at_all();
    }
    look_at_all();
    printf("camera: chip %u: %u frames taken, %u crashes, the index made anew %u times, %u old frames given up; %u keys with their own frames\n",
           (unsigned)g->number, (unsigned)frames, crashes, rebuilt, full, (unsigned)list(0, UINT32_MAX).exist);
    return 0;
}
