/* The counters that the fuzzer reads after each input and clears before the next. Lengths are
 * counted one by one up to a limit, and above it together with what has none. */
#include "met.h"

enum { REFUSALS = 16, LABELS = 3, LENGTHS = 32 };

static struct {
    uint8_t refusals[REFUSALS];
    uint8_t statements[LABELS][LENGTHS];
    uint8_t objections[LABELS][LABELS];
} met __attribute__((section("__libfuzzer_extra_counters")));

static void count(uint8_t *counter) {
    if (*counter < UINT8_MAX)
        ++*counter;
}

void meet_refusal(uint32_t refusal) {
    count(&met.refusals[refusal % REFUSALS]);
}

void meet_statement(uint8_t label, uint16_t length) {
    count(&met.statements[label][length < LENGTHS ? length : LENGTHS - 1]);
}

void meet_objection(uint8_t objector, uint8_t target) {
    count(&met.objections[objector][target]);
}
