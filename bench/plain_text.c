/* The library's work on texts as a C programmer would write it by hand: one pass over the bytes,
 * numbers looked up by hashing, and the text put down again; the solver of plain.c and the listing.
 * Nothing here is proved; it is the yardstick of the benchmark. */
#include "plain_rows.h"

static uint32_t read_statement(struct page *page, struct line *line) {
    uint32_t number = take_number(line);
    if (number == 0 || !take_byte(line, '\t'))
        return BATQEMULO_LINE_SPOILED;
    uint8_t mark;
    if (!take_mark(line, &mark) || line->at != line->end)
        return BATQEMULO_LINE_SPOILED;
    if (page->objections > 0)
        return BATQEMULO_STATEMENT_LATE;
    return keep_statement(page, number, mark);
}

static uint32_t read_objection(struct page *page, struct line *line) {
    uint32_t objector = take_number(line);
    if (objector == 0 || !take_byte(line, '\t'))
        return BATQEMULO_LINE_SPOILED;
    uint32_t target = take_number(line);
    if (target == 0 || line->at != line->end)
        return BATQEMULO_LINE_SPOILED;
    if (page->objections == BATQEMULO_MAX_OBJECTIONS)
        return BATQEMULO_TOO_MANY_OBJECTIONS;
    objector = *slot_of(page, objector);
    target = *slot_of(page, target);
    if (objector == 0 || target == 0)
        return BATQEMULO_NUMBER_UNKNOWN;
    if (page->objections == 0)
        begin_chains(&page->chains, page->statements);
    if (is_repeated(page, objector - 1, target - 1))
        return BATQEMULO_OBJECTION_REPEATED;
    keep_objection(page, objector - 1, target - 1);
    return BATQEMULO_ACCEPTED;
}

static uint32_t read_line(struct page *page, struct line line) {
    int is_statement = take_byte(&line, 'S');
    if ((!is_statement && !take_byte(&line, 'O')) || !take_byte(&line, '\t'))
        return BATQEMULO_LINE_SPOILED;
    return is_statement ? read_statement(page, &line) : read_objection(page, &line);
}

batqemulo_answer read_text(struct page *page, const uint8_t *text, size_t text_len) {
    return read_lines(page, text, text_len, read_line);
}

size_t put_text(uint8_t *out, const struct page *page) {
    uint8_t *to = out;
    for (size_t x = 0; x < page->statements; x++) {
        to = put_marked(to, page, x);
        *to++ = '\n';
    }
    for (size_t i = 0; i < page->objections; i++) {
        to = put_word(to, "O\t", 2);
        to = put_number(to, page->numbers[page->objectors[i]], '\t');
        to = put_number(to, page->numbers[page->targets[i]], '\n');
    }
    return (size_t)(to - out);
}

batqemulo_answer solve_text(struct solved *solved, const uint8_t *text, size_t text_len) {
    struct page *page = &solved->page;
    batqemulo_answer found = read_text(page, text, text_len);
    if (found.refusal == BATQEMULO_ACCEPTED)
        plain_solve(page->marks, page->statements, page->objectors, page->targets, page->objections,
                    solved->labels, solved->lengths);
    return found;
}

static size_t print(uint8_t *out, const struct solved *solved) {
    const struct page *page = &solved->page;
    uint8_t *to = put_word(out, "REGISTER\t", 9);
    to = put_decimal(to, (uint32_t)page->statements, '\t');
    to = put_decimal(to, (uint32_t)page->objections, '\n');
    for (size_t x = 0; x < page->statements; x++)
        to = put_statement(to, solved, x);
    for (size_t i = 0; i < page->objections; i++)
        to = put_objection(to, solved, i);
    return (size_t)(to - out);
}

batqemulo_answer plain_listing(const uint8_t *text, size_t text_len, uint8_t *room,
                               size_t room_len) {
    struct solved solved;
    uint8_t out[BATQEMULO_MAX_LISTING_BYTES];
    batqemulo_answer found = solve_text(&solved, text, text_len);
    if (found.refusal != BATQEMULO_ACCEPTED)
        return found;
    return fill_room(room, room_len, out, print(out, &solved));
}
