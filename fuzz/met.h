/* What guides the fuzzer besides branches: it keeps inputs in which something is met more often
 * than before, or for the first time. */
#ifndef MET_H
#define MET_H

#include <stdint.h>

/* What an input is refused for; 0 where it is accepted. */
void meet_refusal(uint32_t refusal);

void meet_statement(uint8_t label, uint16_t length);

/* An objection, by the labels of its two ends. */
void meet_objection(uint8_t objector, uint8_t target);

#endif
