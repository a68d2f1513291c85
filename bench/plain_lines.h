/* What the work on texts in plain C shares: what was read, numbers looked up by hashing, lines
 * taken apart, statements and objections kept, words and numbers put down, and a room filled with
 * them. */
#ifndef PLAIN_LINES_H
#define PLAIN_LINES_H

#include "plain.h"
#include "plain_pairs.h"

#include <string.h>

/* Slots of the table of numbers: twice the statements that there may be, a power of 2. */
enum { SLOTS = 2048, SLOT_BITS = 11 };

/* The code of a plain number is its value, below YEAR_CODES; that of a year number is YEAR_CODES,
 * the year times SERIALS, and the serial, added up. */
enum { YEAR_CODES = 100000000, SERIALS = 10000, FIRST_YEAR = 1000, LAST_YEAR = 2099 };

/* What was read so far. */
struct page {
    size_t statements;
    size_t objections;
    /* as codes */
    uint32_t numbers[BATQEMULO_MAX_STATEMENTS];
    uint8_t marks[BATQEMULO_MAX_STATEMENTS];
    uint32_t objectors[BATQEMULO_MAX_OBJECTIONS];
    uint32_t targets[BATQEMULO_MAX_OBJECTIONS];
    /* the objections in their chains, which begin when all statements are read */
    struct chains chains;
    /* the place of a number, counted from 1, so that 0 says there is none */
    uint16_t slots[SLOTS];
};

/* The bytes that are still to be read, up to the end of the line. */
struct line {
    const uint8_t *at;
    const uint8_t *end;
};

/* The slot of a number, or the empty one where it belongs. */
static inline uint16_t *slot_of(struct page *page, uint32_t number) {
    uint32_t slot = (number * 2654435761u) >> (32 - SLOT_BITS);
    while (page->slots[slot] != 0 && page->numbers[page->slots[slot] - 1] != number)
        slot = (slot + 1) % SLOTS;
    return &page->slots[slot];
}

static inline int take_byte(struct line *line, uint8_t byte) {
    if (line->at == line->end || *line->at != byte)
        return 0;
    line->at++;
    return 1;
}

/* Takes digits and answers their value; or 0, if there are none or too many, or the first is 0. */
static inline uint32_t take_digits(struct line *line, int most) {
    const uint8_t *first = line->at;
    uint32_t value = 0;
    int count = 0;
    for (; count <= most && line->at < line->end && *line->at >= '0' && *line->at <= '9'; count++)
        value = 10 * value + (uint32_t)(*line->at++ - '0');
    return count == 0 || count > most || *first == '0' ? 0 : value;
}

/* Takes a number of either form and answers its code; or 0, which is nobody's. */
static inline uint32_t take_number(struct line *line) {
    uint32_t number = take_digits(line, 8);
    if (!take_byte(line, '.'))
        return number;
    uint32_t serial = take_digits(line, 4);
    if (number < FIRST_YEAR || number > LAST_YEAR || serial == 0)
        return 0;
    return YEAR_CODES + SERIALS * number + serial;
}

/* Takes a mark; answers whether there is one. */
static inline int take_mark(struct line *line, uint8_t *mark) {
    *mark = take_byte(line, 'U') ? BATQEMULO_UNREAD : BATQEMULO_READ;
    return *mark == BATQEMULO_UNREAD || take_byte(line, 'R');
}

/* Keeps a statement, if there is space for it and its number is not issued; answers its refusal. */
static inline uint32_t keep_statement(struct page *page, uint32_t number, uint8_t mark) {
    if (page->statements == BATQEMULO_MAX_STATEMENTS)
        return BATQEMULO_TOO_MANY_STATEMENTS;
    uint16_t *slot = slot_of(page, number);
    if (*slot != 0)
        return BATQEMULO_NUMBER_ISSUED;
    page->numbers[page->statements] = number;
    page->marks[page->statements] = mark;
    *slot = (uint16_t)++page->statements;
    return BATQEMULO_ACCEPTED;
}

/* Whether this pair of places was kept before. */
static inline int is_repeated(const struct page *page, uint32_t objector, uint32_t target) {
    return is_entered(&page->chains, page->objectors, page->targets, objector, target);
}

static inline void keep_objection(struct page *page, uint32_t objector, uint32_t target) {
    enter_pair(&page->chains, page->objections, objector, target);
    page->objectors[page->objections] = objector;
    page->targets[page->objections] = target;
    page->objections++;
}

/* Reads a text line by line, each with this function, up to the first fault. */
static inline batqemulo_answer read_lines(struct page *page, const uint8_t *text, size_t text_len,
                                          uint32_t (*read_line)(struct page *, struct line)) {
    page->statements = 0;
    page->objections = 0;
    memset(page->slots, 0, sizeof page->slots);
    if (text_len > BATQEMULO_MAX_TEXT_BYTES)
        return answer(BATQEMULO_TEXT_TOO_LONG, 0);
    if (text_len > 0 && text[text_len - 1] != '\n')
        return answer(BATQEMULO_TEXT_NOT_ENDED, 0);
    size_t lines = 0;
    for (const uint8_t *at = text; at < text + text_len; lines++) {
        struct line line = {at, memchr(at, '\n', (size_t)(text + text_len - at))};
        uint32_t refusal = read_line(page, line);
        if (refusal != BATQEMULO_ACCEPTED)
            return answer(refusal, lines + 1);
        at = line.end + 1;
    }
    return answer(BATQEMULO_ACCEPTED, 0);
}

static inline uint8_t *put_word(uint8_t *to, const char *word, size_t length) {
    memcpy(to, word, length);
    return to + length;
}

static inline uint8_t *put_decimal(uint8_t *to, uint32_t value, uint8_t end) {
    uint8_t digits[10];
    size_t count = 0;
    do
        digits[count++] = (uint8_t)('0' + value % 10);
    while ((value /= 10) > 0);
    while (count > 0)
        *to++ = digits[--count];
    *to++ = end;
    return to;
}

static inline uint32_t year_of(uint32_t number) {
    return (number - YEAR_CODES) / SERIALS;
}

/* Puts the number of a code down, in its form. */
static inline uint8_t *put_number(uint8_t *to, uint32_t number, uint8_t end) {
    if (number >= YEAR_CODES) {
        to = put_decimal(to, year_of(number), '.');
        number %= SERIALS;
    }
    return put_decimal(to, number, end);
}

/* Puts a statement down, up to its mark. */
static inline uint8_t *put_marked(uint8_t *to, const struct page *page, size_t x) {
    to = put_word(to, "S\t", 2);
    to = put_number(to, page->numbers[x], '\t');
    *to++ = page->marks[x] == BATQEMULO_UNREAD ? 'U' : 'R';
    return to;
}

/* An answer is put down aside first: how long it is shows at its end. */
static inline batqemulo_answer fill_room(uint8_t *room, size_t room_len, const uint8_t *aside,
                                         size_t bytes) {
    if (room_len < bytes)
        return answer(BATQEMULO_ROOM_TOO_SHORT, 0);
    memcpy(room, aside, bytes);
    return answer(BATQEMULO_ACCEPTED, bytes);
}

/* Reads a register text, up to the first fault. The chains begin with the first objection. */
batqemulo_answer read_text(struct page *page, const uint8_t *text, size_t text_len);

/* Puts down what was read as a register text; answers how many bytes it has. */
size_t put_text(uint8_t *out, const struct page *page);

#endif
