/* pages.c: how many pages an update programs: the index's μ-Tree beside the plain tree of request 12, one node to a page, over three logs.
 *
 * usage: pages [--quick | --svg OUT SMALL]
 *   prints a line for each log, tree and 250 updates: height, and so far pages of the updates themselves, pages moved by collection, blocks
 *   erased; then docs/BENCHMARKS.md's table. OUT takes a picture of it, SMALL a small one. Quick: the plain tree's first 1,000 updates, the
 *   μ-Tree's all, and no table.
 *
 * The logs: rising keys, random keys, and a camera's life (life.h). Both trees have 1,024 blocks, where neither runs short of pages in
 * 10,000 updates, so nothing is collected. The plain tree does not collect: its pages are those of the updates alone, and where they end
 * it is ROOM. What collection costs the μ-Tree is told by the same logs on 20 blocks, which the tree fills by up to three quarters. There
 * the pages of an update are told apart: all moves come before its last erase, so an update that erased is made again on a copy, with other
 * allowances, to find how many they are.
 */
#include "../c/mutree.h"
#include "../tests/plain/plain.h"
#include "../tests/plain/seen.h"
#include "life.h"

#include <stdio.h>
#include <stdlib.h>
#include <string.h>

enum { UPDATES = 10000, QUICK_UPDATES = 1000, ROW = 250, SAMPLES = 100, STAY = 60 };
enum { MANY_BLOCKS = 1024, FEW_BLOCKS = 20 };

static void need(int ok, const char *what)
{
    if (!ok) {
        fprintf(stderr, "pages: %s\n", what);
        exit(1);
    }
}

/* ---- the logs */
enum which { RISING, RANDOM, CAMERA, LOGS };

static const char *const log_names[LOGS] = { "rising", "random", "camera" };

struct log {
    struct update updates[UPDATES];
    unsigned long n;
};

static void add(void *owner, struct update u)
{
    struct log *l = owner;
    if (l->n < UPDATES)
        l->updates[l->n++] = u;
}

static void live(struct log *l)
{
    static struct camera camera;
    unsigned day;
    memset(&camera, 0, sizeof camera);
    camera.make = add;
    camera.owner = l;
    camera.stay = STAY;
    begin_life(&camera);
    for (day = 0; l->n < UPDATES && day < DAYS; day++)
        play_day(&camera, day);
}

/* Rising keys are 1, 2, 3 and so on; the rule of the random ones meets every number of 32 bits once. */
static void write_log(struct log *l, enum which which)
{
    struct update u = { INSERT, 1, 0 };
    l->n = 0;
    if (which == CAMERA)
        live(l);
    while (l->n < UPDATES) {
        u.key = which == RISING ? (uint32_t)l->n + 1 : u.key * 1664525u + 1013904223u;
        u.address = (uint32_t)l->n;
        add(l, u);
    }
}

/* ---- a tree on a chip */
enum tree { PLAIN, MU, COLLECTING, TREES };

static const char *const tree_names[TREES] = { "plain", "mu", "mu" };
static const size_t tree_blocks[TREES] = { MANY_BLOCKS, MANY_BLOCKS, FEW_BLOCKS };

struct sums {
    unsigned long own, moved, erased; /* pages of the updates themselves, pages moved, blocks erased */
};

struct run {
    enum tree tree;
    size_t length;
    uint8_t *image, *before;
    uint8_t record[MUTREE_RECORD_BYTES], record_before[MUTREE_RECORD_BYTES];
    unsigned long n;                   /* updates made */
    uint32_t ended;                    /* the answer that ended it, or DONE */
    struct sums sums[UPDATES + 1];     /* after so many updates */
    unsigned height[UPDATES / ROW + 1];
};

static struct mutree_result call_mu(struct run *r, struct update u, uint32_t allowance)
{
    static uint32_t words[MUTREE_MOST_LIVE_WORDS];
    uint8_t result[MUTREE_RESULT_BYTES];
    if (u.kind == INSERT)
        mutree_insert_opened(MUTREE_SMALL, r->image, r->length, r->record, sizeof r->record, words, MUTREE_MOST_LIVE_WORDS, u.key, u.address,
                             allowance, result, sizeof result);
    else
        mutree_delete_opened(MUTREE_SMALL, r->image, r->length, r->record, sizeof r->record, words, MUTREE_MOST_LIVE_WORDS, u.key, allowance,
                             result, sizeof result);
    return mutree_read_result(result);
}

static struct mutree_result call_plain(struct run *r, struct update u)
{
    uint8_t result[MUTREE_RESULT_BYTES];
    if (u.kind == INSERT)
        plain_insert(r->image, r->length, u.key, u.address, UINT32_MAX, result, sizeof result);
    else
        plain_delete(r->image, r->length, u.key, UINT32_MAX, result, sizeof result);
    return mutree_read_result(result);
}

static void remember(struct run *r)
{
    memcpy(r->before, r->image, r->length);
    memcpy(r->record_before, r->record, sizeof r->record);
}

/* The pages programmed before the last erase. The least allowance that reaches it is found by halving, and the update made once more. */
static uint32_t pages_moved(struct run *r, struct update u, struct mutree_result made)
{
    uint32_t low = 1, high = made.programmed + made.erased;
    while (low < high) {
        uint32_t middle = low + (high - low) / 2;
        memcpy(r->image, r->before, r->length);
        memcpy(r->record, r->record_before, sizeof r->record);
        if (call_mu(r, u, middle).erased < made.erased)
            low = middle + 1;
        else
            high = middle;
    }
    memcpy(r->image, r->before, r->length);
    memcpy(r->record, r->record_before, sizeof r->record);
    need(call_mu(r, u, UINT32_MAX).answer == MUTREE_DONE, "an update made again was refused");
    return low - made.erased;
}

/* One update. Whether it was made. */
static int make(struct run *r, struct update u)
{
    struct sums *now = &r->sums[r->n + 1];
    struct mutree_result made;
    uint32_t moved = 0;
    if (r->tree == COLLECTING)
        remember(r);
    made = r->tree == PLAIN ? call_plain(r, u) : call_mu(r, u, UINT32_MAX);
    r->ended = made.answer;
    if (made.answer != MUTREE_DONE)
        return 0;
    need(r->tree == COLLECTING || made.erased == 0, "a block was erased where nothing should be");
    if (made.erased > 0)
        moved = pages_moved(r, u, made);
    *now = r->sums[r->n];
    now->own += made.programmed - moved;
    now->moved += moved;
    now->erased += made.erased;
    r->n++;
    return 1;
}

/* What the log leaves at a key after so many of its updates. */
static const struct update *last_update(const struct log *l, unsigned long n, uint32_t key)
{
    while (n-- > 0)
        if (l->updates[n].key == key)
            return &l->updates[n];
    return NULL;
}

/* Some keys of the log are found as it left them. */
static void check_map(const struct run *r, const struct log *l)
{
    uint8_t result[MUTREE_RESULT_BYTES];
    unsigned long i;
    for (i = 0; i < SAMPLES && r->n > 0; i++) {
        uint32_t key = l->updates[i * (r->n - 1) / SAMPLES].key, answer;
        const struct update *last = last_update(l, r->n, key);
        if (r->tree == PLAIN)
            answer = plain_lookup(r->image, r->length, key, result, sizeof result);
        else
            answer = mutree_lookup(MUTREE_SMALL, r->image, r->length, key, result, sizeof result);
        if (last->kind == DELETE)
            need(answer == MUTREE_ABSENT, "a deleted key is there");
        else
            need(answer == MUTREE_DONE && mutree_read_result(result).address == last->address, "a key is not found as the log left it");
    }
}

static uint8_t *room(size_t length)
{
    uint8_t *bytes = malloc(length);
    need(bytes != NULL, "out of memory");
    return bytes;
}

static void begin(struct run *r, enum tree tree)
{
    uint8_t result[MUTREE_RESULT_BYTES];
    memset(r, 0, sizeof *r);
    r->tree = tree;
    r->length = tree_blocks[tree] * MUTREE_SMALL_BLOCK_BYTES;
    r->image = room(r->length);
    r->before = room(r->length);
    if (tree == PLAIN) {
        need(plain_format(r->image, r->length, result, sizeof result) == MUTREE_DONE, "format was refused");
        return;
    }
    need(mutree_format(MUTREE_SMALL, r->image, r->length, result, sizeof result) == MUTREE_DONE, "format was refused");
    need(mutree_open(MUTREE_SMALL, r->image, r->length, r->record, sizeof r->record, result, sizeof result) == MUTREE_DONE, "opening was refused");
}

static void play(struct run *r, enum tree tree, const struct log *l, unsigned long most)
{
    begin(r, tree);
    while (r->n < most && make(r, l->updates[r->n]))
        if (r->n % ROW == 0)
            r->height[r->n / ROW] = height_seen(r->image, r->length);
    need(r->ended == MUTREE_DONE || r->ended == MUTREE_HEIGHT || r->ended == MUTREE_ROOM, "an update was refused");
    check_map(r, l);
    free(r->image);
    free(r->before);
}

/* ---- the table */
static void print_rows(const struct run *r, enum which which)
{
    unsigned long n;
    for (n = ROW; n <= r->n; n += ROW)
        printf("%s %s %u %lu %u %lu %lu %lu\n", log_names[which], tree_names[r->tree], (unsigned)tree_blocks[r->tree], n, r->height[n / ROW],
               r->sums[n].own, r->sums[n].moved, r->sums[n].erased);
}

static double mean(unsigned long pages, unsigned long updates)
{
    return (double)pages / (double)updates;
}

/* The updates that every tree made. */
static unsigned long common(const struct run *runs)
{
    unsigned long n = UPDATES;
    int tree;
    for (tree = 0; tree < TREES; tree++)
        n = runs[tree].n < n ? runs[tree].n : n;
    return n;
}

/* How many updates of a log the plain tree takes on so few blocks: format has one page. */
static unsigned long updates_on(const struct run *plain, unsigned long pages)
{
    unsigned long n = 0;
    while (n < plain->n && plain->sums[n + 1].own + 1 <= pages)
        n++;
    return n;
}

static void print_head(void)
{
    printf("| log | updates | plain tree: height, pages an update | \316\274-Tree: height, pages an update | plain to \316\274 | \316\274-Tree on %d blocks: "
           "by collection | in all | plain to that | plain tree on %d blocks: ROOM after |\n", FEW_BLOCKS, FEW_BLOCKS);
    printf("|---|---|---|---|---|---|---|---|---|\n");
}

static void print_summary(const struct run *runs, enum which which)
{
    unsigned long n = common(runs);
    const struct sums *plain = &runs[PLAIN].sums[n], *mu = &runs[MU].sums[n], *few = &runs[COLLECTING].sums[n];
    need(mu->own == few->own, "the updates themselves have other pages where the tree collects");
    printf("| %s | %lu | %u, %.3f | %u, %.3f | %.2f | %.3f | %.3f | %.2f | %lu |\n", log_names[which], n, runs[PLAIN].height[n / ROW],
           mean(plain->own, n), runs[MU].height[n / ROW], mean(mu->own, n), mean(plain->own, mu->own), mean(few->moved, n),
           mean(few->own + few->moved, n), mean(plain->own, few->own + few->moved),
           updates_on(&runs[PLAIN], FEW_BLOCKS * MUTREE_SMALL_PAGES));
}

/* ---- the pictures */
static const char *const colours[TREES] = { "#d08770", "#2a5f9e", "#7fa7d1" };
static const char *const legends[TREES] = { "plain tree, 1,024 blocks", "\316\274-Tree, 1,024 blocks", "\316\274-Tree, 20 blocks, with collection" };
static const char *const titles[LOGS] = { "Rising keys", "Random keys", "A camera's life" };

enum { PLOT_WIDTH = 960, PLOT_HEIGHT = 430, TOP_EDGE = 130, BOTTOM_EDGE = 370, FIRST_LEFT = 70, PANEL = 300, PANEL_WIDTH = 250, MOST_PAGES = 4 };

static double x_of(enum which which, double updates)
{
    return FIRST_LEFT + PANEL * which + PANEL_WIDTH * updates / UPDATES;
}

static double y_of(double pages)
{
    return BOTTOM_EDGE - (BOTTOM_EDGE - TOP_EDGE) * pages / MOST_PAGES;
}

static void draw_axes(FILE *f, enum which which)
{
    unsigned long at;
    int pages;
    for (pages = 0; pages <= MOST_PAGES; pages++)
        fprintf(f, "<line x1='%.1f' x2='%.1f' y1='%.1f' y2='%.1f' stroke='%s'/><text x='%.1f' y='%.1f' text-anchor='end'>%d</text>\n", x_of(which, 0),
                x_of(which, UPDATES), y_of(pages), y_of(pages), pages ? "#dddddd" : "#000000", x_of(which, 0) - 8, y_of(pages) + 4, pages);
    for (at = 0; at <= UPDATES; at += UPDATES / 4)
        fprintf(f, "<line x1='%.1f' x2='%.1f' y1='%d' y2='%d' stroke='#000000'/><text x='%.1f' y='%d' text-anchor='middle'>%lu</text>\n",
                x_of(which, (double)at), x_of(which, (double)at), BOTTOM_EDGE, BOTTOM_EDGE + 5, x_of(which, (double)at), BOTTOM_EDGE + 20, at);
    fprintf(f, "<text x='%.1f' y='%d' text-anchor='middle'>updates so far</text>\n", x_of(which, UPDATES / 2), BOTTOM_EDGE + 42);
    fprintf(f, "<text x='%.1f' y='%d' font-size='14'>%s</text>\n", x_of(which, 0), TOP_EDGE - 14, titles[which]);
}

/* The pages of the last 250 updates before the n-th, a mean. */
static double recent(const struct run *r, unsigned long n)
{
    const struct sums *now = &r->sums[n], *then = &r->sums[n - ROW];
    return mean(now->own + now->moved - then->own - then->moved, ROW);
}

/* The tree's name stands before its line: a test holds the line to the table. */
static void draw_line(FILE *f, const struct run *r, enum which which)
{
    unsigned long n;
    fprintf(f, "<!-- %s %s %u --><polyline fill='none' stroke='%s' stroke-width='2' points='", log_names[which], tree_names[r->tree],
            (unsigned)tree_blocks[r->tree], colours[r->tree]);
    for (n = ROW; n <= r->n; n += ROW)
        fprintf(f, "%s%.1f,%.1f", n > ROW ? " " : "", x_of(which, (double)n), y_of(recent(r, n)));
    fputs("'/>\n", f);
    if (r->ended != MUTREE_DONE)
        fprintf(f, "<circle cx='%.1f' cy='%.1f' r='4' fill='%s'/>\n", x_of(which, (double)(n - ROW)), y_of(recent(r, n - ROW)), colours[r->tree]);
}

static void open_picture(FILE *f, int width, int height)
{
    need(f != NULL, "cannot write the picture");
    fprintf(f, "<svg xmlns='http://www.w3.org/2000/svg' width='%d' height='%d' viewBox='0 0 %d %d' font-family='sans-serif' font-size='13'>\n"
               "<rect width='%d' height='%d' fill='#ffffff'/>\n", width, height, width, height, width, height);
}

static void close_picture(FILE *f)
{
    fputs("</svg>\n", f);
    need(fclose(f) == 0, "cannot write the picture");
}

static void draw(const char *path, struct run runs[LOGS][TREES])
{
    FILE *f = fopen(path, "w");
    int which, tree;
    open_picture(f, PLOT_WIDTH, PLOT_HEIGHT);
    fprintf(f, "<text x='%d' y='30' font-size='18'>Pages programmed by an update, mean of the last %d</text>\n", FIRST_LEFT, ROW);
    for (tree = 0; tree < TREES; tree++)
        fprintf(f, "<rect x='%d' y='52' width='24' height='4' fill='%s'/><text x='%d' y='59'>%s</text>\n", FIRST_LEFT + 230 * tree, colours[tree],
                FIRST_LEFT + 230 * tree + 30, legends[tree]);
    fprintf(f, "<text x='%d' y='84' fill='#444444'>The plain tree does not collect. A dot: the tree refused the next update (HEIGHT).</text>\n", FIRST_LEFT);
    fprintf(f, "<text transform='translate(22 %d) rotate(-90)' text-anchor='middle'>pages an update</text>\n", (TOP_EDGE + BOTTOM_EDGE) / 2);
    for (which = 0; which < LOGS; which++) {
        draw_axes(f, (enum which)which);
        for (tree = TREES - 1; tree >= 0; tree--)
            draw_line(f, &runs[which][tree], (enum which)which);
    }
    close_picture(f);
}

/* A bar for each tree and log: the mean over all updates that both make. */
enum { SMALL_WIDTH = 360, SMALL_HEIGHT = 220, SMALL_TOP = 56, SMALL_BOTTOM = 190, SMALL_BAR = 40, SMALL_GROUP = 112, SMALL_MOST = 3 };

static void draw_bar(FILE *f, const struct run *runs, int which, enum tree tree)
{
    unsigned long n = common(runs);
    double pages = mean(runs[tree].sums[n].own, n), height = (SMALL_BOTTOM - SMALL_TOP - 18) * pages / SMALL_MOST;
    int x = 28 + SMALL_GROUP * which + (tree == MU ? SMALL_BAR + 4 : 0);
    fprintf(f, "<rect x='%d' y='%.1f' width='%d' height='%.1f' fill='%s'/>", x, SMALL_BOTTOM - height, SMALL_BAR, height, colours[tree]);
    fprintf(f, "<text x='%d' y='%.1f' text-anchor='middle'>%.2f</text>\n", x + SMALL_BAR / 2, SMALL_BOTTOM - height - 5, pages);
}

static void draw_small(const char *path, struct run runs[LOGS][TREES])
{
    FILE *f = fopen(path, "w");
    int which, tree;
    open_picture(f, SMALL_WIDTH, SMALL_HEIGHT);
    fprintf(f, "<text x='14' y='22' font-size='14'>Pages programmed by an update</text>\n");
    for (tree = PLAIN; tree <= MU; tree++)
        fprintf(f, "<rect x='%d' y='34' width='12' height='12' fill='%s'/><text x='%d' y='45'>%s</text>\n", 14 + 110 * tree, colours[tree],
                14 + 110 * tree + 18, tree == PLAIN ? "plain tree" : "\316\274-Tree");
    for (which = 0; which < LOGS; which++) {
        for (tree = PLAIN; tree <= MU; tree++)
            draw_bar(f, runs[which], which, (enum tree)tree);
        fprintf(f, "<text x='%d' y='%d' text-anchor='middle'>%s</text>\n", 28 + SMALL_GROUP * which + SMALL_BAR + 2, SMALL_BOTTOM + 18, titles[which]);
    }
    fprintf(f, "<line x1='14' x2='%d' y1='%d' y2='%d' stroke='#000000'/>\n", SMALL_WIDTH - 14, SMALL_BOTTOM, SMALL_BOTTOM);
    close_picture(f);
}

int main(int count, char **words)
{
    static struct run runs[LOGS][TREES];
    static struct log l;
    int which, tree, quick = count > 1 && strcmp(words[1], "--quick") == 0, svg = count > 3 && strcmp(words[1], "--svg") == 0;
    if (count != 1 + quick + 3 * svg) {
        fprintf(stderr, "usage: pages [--quick | --svg OUT SMALL]\n");
        return 64;
    }
    printf("# log, tree, blocks, updates so far, height, pages of the updates, pages moved by collection, blocks erased\n");
    for (which = 0; which < LOGS; which++) {
        write_log(&l, (enum which)which);
        for (tree = 0; tree < TREES; tree++) {
            play(&runs[which][tree], (enum tree)tree, &l, quick && tree == PLAIN ? QUICK_UPDATES : UPDATES);
            print_rows(&runs[which][tree], (enum which)which);
        }
    }
    if (!quick)
        print_head();
    for (which = 0; which < LOGS && !quick; which++)
        print_summary(runs[which], (enum which)which);
    if (svg) {
        draw(words[2], runs);
        draw_small(words[3], runs);
    }
    return 0;
}
