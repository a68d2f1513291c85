/* The library's calls, held against what plain C answers. They are made by the caller of tests/,
 * which is started once and asked over pipes: the library may be code for another processor, and is
 * not instrumented. */
#ifndef LIBRARY_H
#define LIBRARY_H

#include "batqemulo.h"

/* The numbers by which the caller knows the calls. */
enum call {
    PAIRS_LABELS = 0,
    PAIRS_LENGTHS = 1,
    PAIRS_KINDS = 2,
    MOVES_LABELS = 3,
    MOVES_LENGTHS = 4,
    PAIRS_LINE = 5,
    PAIRS_EXERCISE = 6,
    TEXT_LABELS = 20,
    TEXT_LENGTHS = 21,
    LISTING = 22,
    TEXT_LINE = 23,
    TEXT_EXERCISE = 24,
    REASON = 25,
    SHEET = 26,
    SHEET_UPDATE = 27,
    MEND = 28,
    CATALOGUE = 29,
    UNCATALOGUE = 30,
    NUMBER = 40,
    NUMBER_TEXT = 41
};

/* The most arrays that a call takes. */
enum { ARRAYS = 5 };

/* An array that is lent to a call, in entries of so many bytes. */
struct array {
    size_t width;
    size_t len;
    /* an input: its entries; a room: what the answer writes there */
    const void *entries;
    /* how many of them: all of an input; of a room those of the answer, none after a refusal */
    size_t written;
    int is_room;
    /* all entries of a room that holds something before the call; else NULL */
    const void *found;
};

struct request {
    enum call call;
    uint32_t statement;
    uint32_t turns;
    size_t count;
    struct array arrays[ARRAYS];
};

/* Makes the call. If the answer, any byte of a room or of the guards around it, or an input is not
 * as it ought to be, says so and aborts, which is what the fuzzer takes for a finding. */
void hold(const struct request *request, batqemulo_answer right);

/* Unless this is so, says what is wrong and aborts. */
void must(int good, const char *what);

/* Adds an input to a request. */
void lend(struct request *request, size_t width, const void *entries, size_t len);

/* Adds a room of so many entries, for an answer of so many; answers whether it is too short. */
int lend_room(struct request *request, size_t width, size_t len, const void *answer, size_t needed);

/* Adds a room that holds so many entries; of the answer it gets so many. */
void lend_held(struct request *request, size_t width, size_t len, const void *found,
               const void *answer, size_t written);

/* A number that the input alone decides, so that a finding can be run again. */
uint32_t dice(const uint8_t *bytes, size_t count);

/* A room's length near the answer's: now and then one entry short, or some longer. */
size_t near(size_t needed, uint32_t thrown);

#endif
