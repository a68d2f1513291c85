/* A register text turned into its catalogue, and a catalogue into its text: by plain C and by the
 * library, which must agree. */
#ifndef TURN_H
#define TURN_H

#include "library.h"

/* What plain C makes of a text in the other form. */
struct turned {
    uint8_t bytes[BATQEMULO_MAX_TEXT_BYTES];
    batqemulo_answer answer;
};

/* Turns a text by one of the two calls, CATALOGUE or UNCATALOGUE. */
void turn(enum call call, const uint8_t *text, size_t len, struct turned *turned, uint32_t thrown);

/* Turns a catalogue into its text; if it is accepted, the catalogue of that has the same bytes. */
void turn_back(const uint8_t *catalogue, size_t len, struct turned *back, uint32_t thrown);

/* The same with a catalogue of which some bytes are lost, or others. */
void turn_damaged(const struct turned *catalogue, uint32_t thrown);

#endif
