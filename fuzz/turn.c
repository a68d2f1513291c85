/* Both calls between a register text and its catalogue are held here, for the targets of both
 * forms. Refused ones get a room too, in which there is something to be left as found. */
#include "turn.h"

#include "../bench/plain.h"

#include <string.h>

void turn(enum call call, const uint8_t *text, size_t len, struct turned *turned, uint32_t thrown) {
    struct request request = {.call = call};
    turned->answer = call == CATALOGUE
                         ? plain_catalogue(text, len, turned->bytes, sizeof turned->bytes)
                         : plain_uncatalogue(text, len, turned->bytes, sizeof turned->bytes);
    batqemulo_answer right = turned->answer;
    lend(&request, 1, text, len);
    if (right.refusal != BATQEMULO_ACCEPTED)
        lend_room(&request, 1, len + thrown % 40, NULL, 0);
    else if (lend_room(&request, 1, near(right.value, thrown), turned->bytes, right.value))
        right = answer(BATQEMULO_ROOM_TOO_SHORT, 0);
    hold(&request, right);
}

void turn_back(const uint8_t *catalogue, size_t len, struct turned *back, uint32_t thrown) {
    static struct turned again;
    turn(UNCATALOGUE, catalogue, len, back, thrown);
    if (back->answer.refusal != BATQEMULO_ACCEPTED)
        return;
    turn(CATALOGUE, back->bytes, back->answer.value, &again, thrown >> 3);
    must(again.answer.refusal == BATQEMULO_ACCEPTED, "the text of a catalogue is refused");
    must(again.answer.value == len && memcmp(again.bytes, catalogue, len) == 0,
         "the text of a catalogue has another catalogue");
}

/* Loses a byte, or puts one that cards are made of in its place; answers how many there are then.
 */
static size_t damage(uint8_t *bytes, size_t size, uint32_t thrown) {
    static const char of_cards[] = "\t\n\r .SRUO0123456789";
    size_t at = thrown % size;
    if (thrown >> 30 == 0) {
        memmove(bytes + at, bytes + at + 1, size - at - 1);
        return size - 1;
    }
    bytes[at] = (uint8_t)of_cards[thrown / 7 % (sizeof of_cards - 1)];
    return size;
}

void turn_damaged(const struct turned *catalogue, uint32_t thrown) {
    static uint8_t damaged[BATQEMULO_MAX_TEXT_BYTES];
    static struct turned back;
    size_t size = catalogue->answer.value;
    memcpy(damaged, catalogue->bytes, size);
    for (uint32_t hits = 1 + thrown % 3; hits > 0 && size > 0; hits--) {
        thrown = dice((const uint8_t *)&thrown, sizeof thrown);
        size = damage(damaged, size, thrown);
    }
    turn_back(damaged, size, &back, thrown);
}
