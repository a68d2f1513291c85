/* Numbers by themselves as a C programmer would read and write them by hand: by what takes them
 * from a line, and what puts them into a row. Nothing here is proved; the fuzzer holds the library
 * against it. */
#include "plain_lines.h"

/* Whether the code is a number's. */
static int is_code(uint32_t number) {
    if (number < YEAR_CODES)
        return number > 0;
    uint32_t year = year_of(number);
    return year >= FIRST_YEAR && year <= LAST_YEAR && number % SERIALS > 0;
}

batqemulo_answer plain_number(const uint8_t *written, size_t written_len) {
    struct line line = {written, written + written_len};
    uint32_t number = take_number(&line);
    if (number == 0 || line.at != line.end)
        return answer(BATQEMULO_LINE_SPOILED, 0);
    return answer(BATQEMULO_ACCEPTED, number);
}

batqemulo_answer plain_number_text(uint32_t number, uint8_t *room, size_t room_len) {
    uint8_t out[BATQEMULO_MAX_NUMBER_BYTES + 1];
    if (!is_code(number))
        return answer(BATQEMULO_LINE_SPOILED, 0);
    return fill_room(room, room_len, out, (size_t)(put_number(out, number, '\n') - 1 - out));
}
