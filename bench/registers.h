/* The registers that are timed. One at a time is drawn, as lists and as a text. */
#ifndef REGISTERS_H
#define REGISTERS_H

#include "batqemulo.h"

/* At every size there are twice the statements of the size before, the last being the limit. */
enum { SIZES = 4 };

/* The shapes for calls that answer for all statements, for those that are asked for one, which is
 * the first, for the call that mends, for the search for repeats, for the call for a reason, for
 * numbers of both forms, and for catalogues; and the most of them. */
enum { SHAPES_OF_ALL = 6, SHAPES_OF_ONE = 4, SHAPES_OF_OLD = 6, SHAPES_OF_REPEATS = 5 };
enum { SHAPES_OF_REASONS = 4, SHAPES_OF_NUMBERS = 5, SHAPES_OF_CATALOGUES = 3 };
enum { MOST_SHAPES = SHAPES_OF_ALL };

/* The numbers of a text: plain ones of four digits, of eight, or that go up from 1; or year numbers
 * alone, of eight bytes, or of seven, eight and nine by turns. */
enum numbers { FOUR_DIGITS, EIGHT_DIGITS, SMALL_NUMBERS, YEAR_NUMBERS, UNEVEN_YEAR_NUMBERS };

struct shape {
    const char *name;
    void (*draw)(void);
    enum numbers numbers;
    /* fills what is left of the text, for a shape that is to be mended; else NULL */
    void (*wear)(void);
    /* the answer of the works that are timed on it, but for mending, which accepts all */
    uint32_t refusal;
    /* whether a reason is asked for */
    int asks_reason;
    /* whether the register is drawn as its catalogue too */
    int is_catalogued;
};

extern const struct shape shapes_of_all[SHAPES_OF_ALL];
extern const struct shape shapes_of_one[SHAPES_OF_ONE];
extern const struct shape shapes_of_old[SHAPES_OF_OLD];
extern const struct shape shapes_of_repeats[SHAPES_OF_REPEATS];
extern const struct shape shapes_of_reasons[SHAPES_OF_REASONS];
extern const struct shape shapes_of_numbers[SHAPES_OF_NUMBERS];
extern const struct shape shapes_of_catalogues[SHAPES_OF_CATALOGUES];

struct drawn {
    size_t statements;
    size_t pairs;
    size_t most_pairs;
    uint8_t marks[BATQEMULO_MAX_STATEMENTS];
    uint32_t objectors[BATQEMULO_MAX_OBJECTIONS];
    uint32_t targets[BATQEMULO_MAX_OBJECTIONS];
    enum numbers numbers;
    uint8_t text[BATQEMULO_MAX_TEXT_BYTES];
    size_t bytes;
    size_t most_bytes;
    /* the catalogue, for a shape that is drawn as one too */
    uint8_t catalogue[BATQEMULO_MAX_TEXT_BYTES];
    size_t catalogue_bytes;
    /* the code of the statement that has the longest reason, for a shape that asks for one */
    uint32_t asked;
    /* whether a pair is there, so that none is there twice */
    uint8_t taken[BATQEMULO_MAX_STATEMENTS][BATQEMULO_MAX_STATEMENTS];
};

extern struct drawn drawn;

void draw(const struct shape *shape, size_t size);

#endif
