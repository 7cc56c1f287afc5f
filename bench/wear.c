/* wear.c: plays a year of a camera's life on a chip, twice, and counts how often each block is erased.
 *
 * usage: wear [--stay DAYS] [--svg OUT BEFORE]
 *   prints a table with a line for each block. DAYS is how long a frame stays on the chip, 7 if it is not said.
 *   OUT takes a picture of two tables, bar beside bar: the one in the file BEFORE and the one of this run.
 *
 * A call tells how many blocks it erased, not which. So an update that erased is made again on a copy of the image before
 * it, with an allowance of 1, 2, 3 and so on: neighbours then differ by one store. The random numbers are the life's
 * own (life.h), so two runs with the same library print the same table.
 */
#include "../c/mutree.h"
#include "life.h"

#include <stdio.h>
#include <stdlib.h>
#include <string.h>

enum { BLOCKS = 16, LIVES = 2 };

#define LENGTH ((size_t)BLOCKS * MUTREE_SMALL_BLOCK_BYTES)

static void need(int ok, const char *what)
{
    if (!ok) {
        fprintf(stderr, "wear: %s\n", what);
        exit(1);
    }
}

/* ---- the chip: every update, and the blocks that it erases */
struct chip {
    uint8_t *image, *before, *last, *now;   /* the chip, and room for an update made again */
    unsigned long updates, programmed, erased;
    unsigned long bare;                     /* blocks erased from which no page was moved first: none was live */
    unsigned long erases[BLOCKS];
};

static uint8_t *room(void)
{
    uint8_t *bytes = malloc(LENGTH);
    need(bytes != NULL, "out of memory");
    return bytes;
}

static struct mutree_result call(uint8_t *image, struct update u, uint32_t allowance)
{
    static uint32_t live[BLOCKS * MUTREE_SMALL_BLOCK_WORDS];
    uint8_t result[MUTREE_RESULT_BYTES];
    if (u.kind == INSERT)
        mutree_insert(MUTREE_SMALL, image, LENGTH, live, BLOCKS * MUTREE_SMALL_BLOCK_WORDS, u.key, u.address, allowance, result, sizeof result);
    else
        mutree_delete(MUTREE_SMALL, image, LENGTH, live, BLOCKS * MUTREE_SMALL_BLOCK_WORDS, u.key, allowance, result, sizeof result);
    return mutree_read_result(result);
}

static int page_is_erased(const uint8_t *page)
{
    size_t i;
    for (i = 0; i < MUTREE_SMALL_PAGE_BYTES; i++)
        if (page[i] != 255)
            return 0;
    return 1;
}

/* One store leads from last to now. The block that it erased, or BLOCKS if it programmed a page. */
static unsigned block_erased(const uint8_t *last, const uint8_t *now)
{
    size_t at = 0;
    while (at < LENGTH && memcmp(last + at, now + at, MUTREE_SMALL_PAGE_BYTES) == 0)
        at += MUTREE_SMALL_PAGE_BYTES;
    need(at < LENGTH, "a store changed nothing");
    return page_is_erased(now + at) ? (unsigned)(at / MUTREE_SMALL_BLOCK_BYTES) : BLOCKS;
}

static void make_again(struct chip *c, struct update u, struct mutree_result made)
{
    uint32_t allowance, erased = 0, moved = 0;
    memcpy(c->last, c->before, LENGTH);
    for (allowance = 1; allowance <= made.programmed + made.erased; allowance++) {
        uint8_t *swap = c->last;
        unsigned block;
        memcpy(c->now, c->before, LENGTH);
        call(c->now, u, allowance);
        block = block_erased(c->last, c->now);
        moved++;
        if (block < BLOCKS) {
            c->erases[block]++;
            c->bare += moved == 1;
            erased++;
            moved = 0;
        }
        c->last = c->now;
        c->now = swap;
    }
    need(erased == made.erased && memcmp(c->last, c->image, LENGTH) == 0, "an update made again differs");
}

static void make(void *chip, struct update u)
{
    struct chip *c = chip;
    struct mutree_result made;
    memcpy(c->before, c->image, LENGTH);
    made = call(c->image, u, UINT32_MAX);
    need(made.answer == MUTREE_DONE, "an update was refused");
    c->updates++;
    c->programmed += made.programmed;
    c->erased += made.erased;
    if (made.erased > 0)
        make_again(c, u, made);
}

/* ---- the lives */
struct life {
    struct chip chip;
    struct camera camera;
};

/* The frames that are left, each of which must be found. */
static unsigned long frames_left(const struct life *l)
{
    const struct camera *c = &l->camera;
    uint8_t result[MUTREE_RESULT_BYTES];
    unsigned long left = 0;
    unsigned at;
    for (at = 0; at < c->taken; at++)
        if (c->frames[at].there) {
            uint32_t answer = mutree_lookup(MUTREE_SMALL, l->chip.image, LENGTH, c->frames[at].key, result, sizeof result);
            need(answer == MUTREE_DONE, "a frame is lost");
            left++;
        }
    return left;
}

static void play_year(struct life *l)
{
    uint8_t result[MUTREE_RESULT_BYTES];
    unsigned day;
    l->chip.image = room();
    l->chip.before = room();
    l->chip.last = room();
    l->chip.now = room();
    need(mutree_format(MUTREE_SMALL, l->chip.image, LENGTH, result, sizeof result) == MUTREE_DONE, "format was refused");
    l->camera.make = make;
    l->camera.owner = &l->chip;
    begin_life(&l->camera);
    for (day = 0; day < DAYS; day++)
        play_day(&l->camera, day);
}

/* ---- tables: a column for each life */
static const char *const words_of[LIVES] = { "", ", those of a patient's first visit all year" };

struct summary {
    unsigned long least, most, sum;
};

static struct summary summary_of(const unsigned long *erases)
{
    struct summary s;
    unsigned block;
    s.least = s.most = erases[0];
    s.sum = 0;
    for (block = 0; block < BLOCKS; block++) {
        s.least = erases[block] < s.least ? erases[block] : s.least;
        s.most = erases[block] > s.most ? erases[block] : s.most;
        s.sum += erases[block];
    }
    return s;
}

static void print_life(const struct life *l, int life)
{
    const struct chip *c = &l->chip;
    struct summary s = summary_of(c->erases);
    printf("# life %d: a frame stays %u days%s\n", life + 1, l->camera.stay, words_of[life]);
    printf("#   %lu updates, %lu pages programmed, %lu blocks erased (%lu without a live page), %lu frames left\n", c->updates,
           c->programmed, c->erased, c->bare, frames_left(l));
    printf("#   erases of a block: least %lu, most %lu, mean %.1f\n", s.least, s.most, (double)s.sum / BLOCKS);
}

static void print_table(const struct life *lives)
{
    unsigned block;
    int life;
    printf("# %d blocks, %d days\n", BLOCKS, DAYS);
    for (life = 0; life < LIVES; life++)
        print_life(&lives[life], life);
    printf("block erases-in-life-1 erases-in-life-2\n");
    for (block = 0; block < BLOCKS; block++)
        printf("%u %lu %lu\n", block, lives[0].chip.erases[block], lives[1].chip.erases[block]);
}

/* Lines that are not three numbers are passed over. */
static void read_table(const char *path, unsigned long erases[LIVES][BLOCKS])
{
    FILE *f = fopen(path, "r");
    char line[512];
    unsigned block = 0, number;
    need(f != NULL, "cannot read the table of before");
    while (fgets(line, sizeof line, f) != NULL)
        if (block < BLOCKS && sscanf(line, "%u %lu %lu", &number, &erases[0][block], &erases[1][block]) == 3)
            need(number == block++, "the table of before is out of order");
    fclose(f);
    need(block == BLOCKS, "the table of before is too short");
}

/* ---- the picture: a panel for each life, two bars for each block */
enum { LEFT = 70, RIGHT = 910, TOP = 62, BOTTOM = 282, PANEL = 350, HEAD = 76, BAR = 24 };

static const char *const colours[2] = { "#d08770", "#2a5f9e" };
static const char *const names[2] = { "before", "after" };

/* The distance of the lines across: 1, 2 or 5 and noughts, at most 8 lines. */
static unsigned long step_of(unsigned long most)
{
    unsigned long ten = 1;
    for (;; ten *= 10) {
        if (most <= 8 * ten)
            return ten;
        if (most <= 16 * ten)
            return 2 * ten;
        if (most <= 40 * ten)
            return 5 * ten;
    }
}

static double y_of(double erases, unsigned long top)
{
    return BOTTOM - (BOTTOM - TOP) * erases / (double)top;
}

static int middle_of(int block)
{
    return LEFT + (RIGHT - LEFT) * (2 * block + 1) / (2 * BLOCKS);
}

static void draw_lines(FILE *f, unsigned long step, unsigned long top)
{
    unsigned long at;
    int block;
    for (at = 0; at <= top; at += step)
        fprintf(f, "<line x1='%d' x2='%d' y1='%.1f' y2='%.1f' stroke='%s'/><text x='%d' y='%.1f' text-anchor='end'>%lu</text>\n", LEFT, RIGHT,
                y_of((double)at, top), y_of((double)at, top), at ? "#dddddd" : "#000000", LEFT - 8, y_of((double)at, top) + 4, at);
    for (block = 0; block < BLOCKS; block++)
        fprintf(f, "<text x='%d' y='%d' text-anchor='middle'>%d</text>\n", middle_of(block), BOTTOM + 18, block);
    fprintf(f, "<text x='%d' y='%d' text-anchor='middle'>number of the block</text>\n", (LEFT + RIGHT) / 2, BOTTOM + 38);
    fprintf(f, "<text transform='translate(20 %d) rotate(-90)' text-anchor='middle'>erases in the year</text>\n", (TOP + BOTTOM) / 2);
}

static void draw_bars(FILE *f, const unsigned long *erases, int which, unsigned long top)
{
    int block;
    for (block = 0; block < BLOCKS; block++) {
        int x = middle_of(block) + (which ? 0 : -BAR);
        double y = y_of((double)erases[block], top);
        fprintf(f, "<rect x='%d' y='%.1f' width='%d' height='%.1f' fill='%s'/>", x + 1, y, BAR - 2, BOTTOM - y, colours[which]);
        fprintf(f, "<text x='%d' y='%.1f' font-size='10' fill='%s' text-anchor='middle'>%lu</text>\n", x + BAR / 2, y - 3, colours[which],
                erases[block]);
    }
}

static void draw_legend(FILE *f, const unsigned long *erases, int which)
{
    struct summary s = summary_of(erases);
    int x = LEFT + 300 * which;
    fprintf(f, "<rect x='%d' y='28' width='12' height='12' fill='%s'/><text x='%d' y='39'>%s: least %lu, most %lu, mean %.1f</text>\n", x,
            colours[which], x + 18, names[which], s.least, s.most, (double)s.sum / BLOCKS);
}

/* What each block would have if all were erased equally often. */
static void draw_mean(FILE *f, const unsigned long *erases, unsigned long top)
{
    double y = y_of((double)summary_of(erases).sum / BLOCKS, top);
    fprintf(f, "<line x1='%d' x2='%d' y1='%.1f' y2='%.1f' stroke='#444444' stroke-dasharray='6 4'/>", LEFT, RIGHT, y, y);
    fprintf(f, "<text x='%d' y='%.1f' fill='#444444'>mean</text>\n", RIGHT + 4, y + 4);
}

static void draw_panel(FILE *f, const struct life *l, int life, const unsigned long *before)
{
    const unsigned long *after = l->chip.erases;
    unsigned long most = summary_of(before).most, step, top;
    if (summary_of(after).most > most)
        most = summary_of(after).most;
    step = step_of(most);
    top = (most / step + 1) * step;
    fprintf(f, "<g transform='translate(0 %d)'>\n<text x='%d' y='18' font-size='14'>%d. A frame stays %u days%s</text>\n", HEAD + PANEL * life, LEFT,
            life + 1, l->camera.stay, words_of[life]);
    draw_lines(f, step, top);
    draw_bars(f, before, 0, top);
    draw_bars(f, after, 1, top);
    draw_mean(f, after, top);
    draw_legend(f, before, 0);
    draw_legend(f, after, 1);
    fputs("</g>\n", f);
}

static void draw(const char *path, const struct life *lives, unsigned long before[LIVES][BLOCKS])
{
    FILE *f = fopen(path, "w");
    int life, height = HEAD + PANEL * LIVES;
    need(f != NULL, "cannot write the picture");
    fprintf(f, "<svg xmlns='http://www.w3.org/2000/svg' width='960' height='%d' viewBox='0 0 960 %d' font-family='sans-serif' font-size='13'>\n"
               "<rect width='960' height='%d' fill='#ffffff'/>\n", height, height, height);
    fprintf(f, "<text x='%d' y='28' font-size='18'>How often each block is erased in a year of a camera's life, %d blocks</text>\n", LEFT, BLOCKS);
    fprintf(f, "<text x='%d' y='50' fill='#444444'>Before: of the wholly erased blocks the lowest is taken. After: the first one met after the block "
               "written last, going round.</text>\n", LEFT);
    for (life = 0; life < LIVES; life++)
        draw_panel(f, &lives[life], life, before[life]);
    fputs("</svg>\n", f);
    need(fclose(f) == 0, "cannot write the picture");
}

int main(int count, char **words)
{
    static struct life lives[LIVES];
    unsigned long before[LIVES][BLOCKS], stay = 7;
    const char *picture = NULL;
    int at = 1, life;
    if (at + 1 < count && strcmp(words[at], "--stay") == 0) {
        stay = strtoul(words[at + 1], NULL, 10);
        at += 2;
    }
    if (at + 2 < count && strcmp(words[at], "--svg") == 0) {
        picture = words[at + 1];
        read_table(words[at + 2], before);
        at += 3;
    }
    need(at == count && stay >= 1 && stay <= DAYS, "usage: wear [--stay DAYS] [--svg OUT BEFORE]");
    for (life = 0; life < LIVES; life++) {
        lives[life].camera.stay = (unsigned)stay;
        lives[life].camera.first_stays = life == 1;
        play_year(&lives[life]);
    }
    print_table(lives);
    if (picture != NULL)
        draw(picture, lives, before);
    return 0;
}
