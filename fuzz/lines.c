/* Changes a text by whole lines, and a catalogue by whole fields too. Numbers are of both forms,
 * and those of new objections are mostly issued ones. Without this a longer text would hardly ever
 * stay sound. */
#include "lines.h"

#include "../bench/plain_lines.h"

/* An objection's, with its word, its two numbers, and what ends them. */
enum { LONGEST_LINE = 2 + 2 * (BATQEMULO_MAX_NUMBER_BYTES + 1) };

/* The fuzzer's own change of bytes. */
size_t LLVMFuzzerMutate(uint8_t *text, size_t size, size_t most);

struct text {
    uint8_t *bytes;
    size_t size;
    size_t most;
    uint64_t state;
};

struct piece {
    size_t start;
    size_t end;
};

static size_t below(struct text *text, size_t bound) {
    text->state ^= text->state << 13;
    text->state ^= text->state >> 7;
    text->state ^= text->state << 17;
    return bound == 0 ? 0 : text->state % bound;
}

/* The line of a random byte; of the empty text an empty one. */
static struct piece any_line(struct text *text) {
    size_t at = below(text, text->size);
    struct piece line = {at, at};
    while (line.start > 0 && text->bytes[line.start - 1] != '\n')
        line.start--;
    while (line.end < text->size && text->bytes[line.end] != '\n')
        line.end++;
    line.end += line.end < text->size;
    return line;
}

static void put_in(struct text *text, size_t at, const void *bytes, size_t count) {
    if (count > text->most - text->size)
        return;
    memmove(text->bytes + at + count, text->bytes + at, text->size - at);
    memcpy(text->bytes + at, bytes, count);
    text->size += count;
}

static void take_out(struct text *text, struct piece line) {
    memmove(text->bytes + line.start, text->bytes + line.end, text->size - line.end);
    text->size -= line.end - line.start;
}

/* The code of a year number: mostly of one of a few years, and with a small serial. */
static uint32_t new_year_number(struct text *text) {
    static const size_t years[] = {FIRST_YEAR, 1987, LAST_YEAR}, most[] = {9, 9, 99, 9999};
    size_t year = years[below(text, 3)], serial = 1 + below(text, most[below(text, 4)]);
    if (below(text, 4) == 0)
        year = FIRST_YEAR + below(text, LAST_YEAR - FIRST_YEAR + 1);
    return (uint32_t)(YEAR_CODES + SERIALS * year + serial);
}

static uint32_t new_number(struct text *text) {
    static const size_t most[] = {9, 9, 99, 999, 99999999};
    if (below(text, 3) == 0)
        return new_year_number(text);
    return (uint32_t)(1 + below(text, most[below(text, 5)]));
}

/* The number of some statement line, if one is found. */
static uint32_t issued(struct text *text) {
    for (int tries = 0; tries < 12; tries++) {
        struct piece piece = any_line(text);
        struct line line = {text->bytes + piece.start, text->bytes + piece.end};
        if (!take_byte(&line, 'S') || !take_byte(&line, '\t'))
            continue;
        uint32_t number = take_number(&line);
        if (number > 0)
            return number;
    }
    return new_number(text);
}

/* New statements mostly go to the start, where they are not late. */
static void add_statement(struct text *text) {
    uint8_t line[LONGEST_LINE], *to = put_word(line, "S\t", 2);
    to = put_number(to, new_number(text), '\t');
    to = put_word(to, below(text, 4) == 0 ? "U\n" : "R\n", 2);
    put_in(text, below(text, 8) == 0 ? any_line(text).start : 0, line, (size_t)(to - line));
}

void add_objection(struct text *text) {
    uint8_t line[LONGEST_LINE], *to = put_word(line, "O\t", 2);
    to = put_number(to, issued(text), '\t');
    to = put_number(to, issued(text), '\n');
    size_t at = below(text, 8) == 0 ? any_line(text).start : text->size;
    put_in(text, at, line, (size_t)(to - line));
}

/* The byte behind the number is not put in: the card goes on, or ends, as it did. */
void add_objector(struct text *text) {
    uint8_t field[LONGEST_LINE], *to = put_word(field, "\t", 1);
    to = put_number(to, issued(text), '\n') - 1;
    struct piece card = any_line(text);
    size_t ended = card.end > card.start && text->bytes[card.end - 1] == '\n';
    put_in(text, card.end - ended, field, (size_t)(to - field));
}

static void double_line(struct text *text) {
    uint8_t copy[32];
    struct piece line = any_line(text);
    size_t count = line.end - line.start;
    if (count > sizeof copy)
        return;
    memcpy(copy, text->bytes + line.start, count);
    put_in(text, any_line(text).start, copy, count);
}

size_t change_lines(uint8_t *bytes, size_t size, size_t most, unsigned seed,
                    void (*add)(struct text *)) {
    struct text text = {bytes, size, most, seed * 2654435761u + 1u};
    size_t changes = 1 + below(&text, 6);
    if (below(&text, 3) == 0)
        return LLVMFuzzerMutate(bytes, size, most);
    for (size_t i = 0; i < changes; i++)
        switch (below(&text, 8)) {
        case 0:
            double_line(&text);
            break;
        case 1:
            take_out(&text, any_line(&text));
            break;
        case 2:
        case 3:
            add_statement(&text);
            break;
        default:
            add(&text);
        }
    return text.size;
}
