/* How the fuzzer changes a text, besides what it does to bytes by itself: lines are added, doubled
 * and lost. */
#ifndef LINES_H
#define LINES_H

#include <stddef.h>
#include <stdint.h>

struct text;

/* Adds an objection to a register text: a line. */
void add_objection(struct text *text);

/* Adds an objection to a catalogue: a field at the end of a card. */
void add_objector(struct text *text);

/* Changes a text of up to so many bytes, and answers how many it has then. Objections are added as
 * its form has them. */
size_t change_lines(uint8_t *bytes, size_t size, size_t most, unsigned seed,
                    void (*add)(struct text *));

#endif
