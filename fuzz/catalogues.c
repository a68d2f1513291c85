/* The fuzzer's target for catalogues. Plain C reads each, instrumented, so that its branches guide
 * the fuzzer; then the library turns it into a register text, and that into a catalogue again. The
 * other way round is with the other calls on a register text. */
#include "lines.h"
#include "met.h"
#include "turn.h"

size_t LLVMFuzzerCustomMutator(uint8_t *bytes, size_t size, size_t most, unsigned seed) {
    return change_lines(bytes, size, most, seed, add_objector);
}

int LLVMFuzzerTestOneInput(const uint8_t *catalogue, size_t len) {
    static struct turned back;
    turn_back(catalogue, len, &back, dice(catalogue, len));
    meet_refusal(back.answer.refusal);
    return 0;
}
