/* life.h: a camera's life as a list of updates: patients under care come for visits of a few frames, whose keys are neighbours. The random
 * numbers are its own, so two lives of one kind have the same updates. What an update does is its owner's. */
#ifndef LIFE_H
#define LIFE_H

#include <stdint.h>

enum { DAYS = 365, PATIENTS = 24, MOST_FRAMES = DAYS * 8 * 8 };

enum kind { INSERT, DELETE };

struct update {
    enum kind kind;
    uint32_t key, address;
};

struct patient {
    uint32_t number;      /* the upper half of a key */
    unsigned frames;      /* so far */
};

struct frame {
    uint32_t key;
    int there, of_first_visit;
};

struct camera {
    void (*make)(void *owner, struct update u); /* each update, in order */
    void *owner;
    uint64_t seed;
    unsigned stay;                    /* how many days a frame stays */
    int first_stays;                  /* whether the frames of a patient's first visit stay all year */
    struct patient patients[PATIENTS];
    unsigned patients_met;
    struct frame frames[MOST_FRAMES]; /* all that were taken, in order */
    unsigned taken;
    unsigned first_of_day[DAYS + 1];
};

/* The first patients come. `make`, `owner`, `stay` and `first_stays` stand already, all else is 0. */
void begin_life(struct camera *c);

/* Days are played in order, from 0 on. */
void play_day(struct camera *c, unsigned day);

#endif
