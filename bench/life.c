#include "life.h"

static uint32_t some(struct camera *c, uint32_t below)
{
    c->seed = c->seed * 6364136223846793005u + 1442695040888963407u;
    return (uint32_t)((c->seed >> 33) % below);
}

/* Numbers are all over the range and no two are alike. */
static void meet_patient(struct camera *c, unsigned place)
{
    c->patients[place].number = ++c->patients_met * 40503u % 65536u;
    c->patients[place].frames = 0;
}

void begin_life(struct camera *c)
{
    unsigned place;
    c->seed = 1;
    for (place = 0; place < PATIENTS; place++)
        meet_patient(c, place);
}

static void store_frame(struct camera *c, struct frame *frame)
{
    struct update u = { INSERT, 0, 0 };
    u.key = frame->key;
    u.address = some(c, UINT32_MAX);
    c->make(c->owner, u);
    frame->there = 1;
}

static void delete_frame(struct camera *c, struct frame *frame)
{
    struct update u = { DELETE, 0, 0 };
    u.key = frame->key;
    c->make(c->owner, u);
    frame->there = 0;
}

/* 3 to 8 frames. One of eight is taken again, so its address is replaced; one of sixteen is thrown away. */
static void play_visit(struct camera *c, struct patient *patient)
{
    unsigned frames = 3 + some(c, 6);
    int first = patient->frames == 0;
    while (frames-- > 0) {
        struct frame *frame = &c->frames[c->taken++];
        frame->key = patient->number * 65536u + patient->frames++;
        frame->of_first_visit = first;
        store_frame(c, frame);
        if (some(c, 8) == 0)
            store_frame(c, frame);
        if (some(c, 16) == 0)
            delete_frame(c, frame);
    }
}

/* The frames of a day are deleted, but for those that stay all year. */
static void clear_day(struct camera *c, unsigned day)
{
    unsigned at;
    for (at = c->first_of_day[day]; at < c->first_of_day[day + 1]; at++)
        if (c->frames[at].there && !(c->first_stays && c->frames[at].of_first_visit))
            delete_frame(c, &c->frames[at]);
}

/* 4 to 8 visits. Every second day the care of one patient ends and that of another begins. */
void play_day(struct camera *c, unsigned day)
{
    unsigned visits = 4 + some(c, 5);
    c->first_of_day[day] = c->taken;
    if (day >= c->stay)
        clear_day(c, day - c->stay);
    if (day % 2 == 0)
        meet_patient(c, day / 2 % PATIENTS);
    while (visits-- > 0)
        play_visit(c, &c->patients[some(c, PATIENTS)]);
    c->first_of_day[day + 1] = c->taken;
}
