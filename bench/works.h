/* The works that are timed: a call of the library, and the same in plain C. Each side fills rooms
 * of its own. */
#ifndef WORKS_H
#define WORKS_H

#include <stdint.h>

/* The two sides of a comparison. */
enum { LIBRARY, PLAIN, SIDES };

/* How many works there are in a table: of calls that answer, of the one that mends, of those that
 * look for repeats, of the one for a reason, of those that read and write numbers, and of those to
 * a catalogue and back; and the most of them. */
enum { WORKS = 3, MENDING_WORKS = 1, SEARCHING_WORKS = 4, REASON_WORKS = 1, NUMBER_WORKS = 2 };
enum { CATALOGUE_WORKS = 2, MOST_WORKS = SEARCHING_WORKS };

struct work {
    const char *name;
    /* each leaves its answer in its rooms */
    void (*sides[SIDES])(void);
    /* whether it accepts what the others refuse */
    int mends;
};

extern const struct work works_on_all[WORKS];
extern const struct work works_on_one[WORKS];
extern const struct work works_on_old[MENDING_WORKS];
extern const struct work works_on_repeats[SEARCHING_WORKS];
extern const struct work works_on_reasons[REASON_WORKS];
extern const struct work works_on_numbers[NUMBER_WORKS];
extern const struct work works_on_catalogues[CATALOGUE_WORKS];

/* Whether both sides answer the drawn register with this refusal, at the same place if it has one,
 * and fill their rooms alike. */
int sides_agree(const struct work *work, uint32_t refusal);

#endif
