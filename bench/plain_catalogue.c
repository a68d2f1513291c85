/* The catalogue as a C programmer would write it by hand. To make one, the objectors of each target
 * are taken from its chain; to go back, they are kept as codes until the last card is read, since a
 * number may be named before its card. Nothing here is proved; it is the yardstick of the
 * benchmark. */
#include "plain_lines.h"

/* The longest old form of any catalogue, be it too long: for each objection it has the number of
 * the target, and 3 bytes, more than the catalogue. */
enum {
    MORE_BYTES = BATQEMULO_MAX_OBJECTIONS * (BATQEMULO_MAX_NUMBER_BYTES + 3),
    MOST_OLD_BYTES = BATQEMULO_MAX_TEXT_BYTES + MORE_BYTES
};

/* Puts the objectors of x down, each with a tab behind it, in the order of the text: its chain has
 * the latest first. */
static uint8_t *put_objectors(uint8_t *to, const struct page *page, size_t x) {
    const struct chain *chain = &page->chains.by_target;
    uint32_t objectors[BATQEMULO_MAX_STATEMENTS];
    size_t count = 0;
    for (size_t pair = chain->latest[x]; pair != 0; pair = chain->earlier[pair - 1])
        objectors[count++] = page->objectors[pair - 1];
    while (count > 0)
        to = put_number(to, page->numbers[objectors[--count]], '\t');
    return to;
}

/* Every field gets a tab behind it, and the last tab becomes the end of the line. */
static uint8_t *put_card(uint8_t *to, const struct page *page, size_t x) {
    to = put_marked(to, page, x);
    *to++ = '\t';
    to = put_objectors(to, page, x);
    to[-1] = '\n';
    return to;
}

static size_t put_cards(uint8_t *out, const struct page *page) {
    uint8_t *to = out;
    for (size_t x = 0; x < page->statements; x++)
        to = put_card(to, page, x);
    return (size_t)(to - out);
}

/* The chains begin with the first objection: where there is none, they are empty. */
batqemulo_answer plain_catalogue(const uint8_t *text, size_t text_len, uint8_t *room,
                                 size_t room_len) {
    struct page page;
    uint8_t out[BATQEMULO_MAX_TEXT_BYTES];
    batqemulo_answer found = read_text(&page, text, text_len);
    if (found.refusal != BATQEMULO_ACCEPTED)
        return found;
    if (page.objections == 0)
        begin_chains(&page.chains, page.statements);
    return fill_room(room, room_len, out, put_cards(out, &page));
}

/* Keeps the objectors of a card as codes, as far as there is space, and answers whether the rest of
 * its line has nothing else; `named` goes up by each. */
static int take_objectors(struct page *page, struct line *line, size_t *named) {
    while (take_byte(line, '\t')) {
        uint32_t objector = take_number(line);
        if (objector == 0)
            return 0;
        if (*named < BATQEMULO_MAX_OBJECTIONS) {
            page->objectors[*named] = objector;
            page->targets[*named] = (uint32_t)page->statements;
        }
        ++*named;
    }
    return line->at == line->end;
}

static uint32_t read_card(struct page *page, struct line line) {
    if (!take_byte(&line, 'S') || !take_byte(&line, '\t'))
        return BATQEMULO_LINE_SPOILED;
    uint32_t number = take_number(&line);
    if (number == 0 || !take_byte(&line, '\t'))
        return BATQEMULO_LINE_SPOILED;
    uint8_t mark;
    size_t named = page->objections;
    if (!take_mark(&line, &mark) || !take_objectors(page, &line, &named))
        return BATQEMULO_LINE_SPOILED;
    uint32_t refusal = keep_statement(page, number, mark);
    if (refusal != BATQEMULO_ACCEPTED)
        return refusal;
    if (named > BATQEMULO_MAX_OBJECTIONS)
        return BATQEMULO_TOO_MANY_OBJECTIONS;
    page->objections = named;
    return BATQEMULO_ACCEPTED;
}

/* Looks the objectors' codes up, up to the first that is nobody's. Answers its card, counted from 1
 * as lines are, or 0 if there is none. */
static size_t unknown_card(struct page *page) {
    for (size_t i = 0; i < page->objections; i++) {
        uint32_t place = *slot_of(page, page->objectors[i]);
        if (place == 0)
            return page->targets[i] + 1;
        page->objectors[i] = place - 1;
    }
    return 0;
}

/* The first card that names an objector twice, or 0. */
static size_t repeating_card(const struct page *page) {
    uint16_t last_named[BATQEMULO_MAX_STATEMENTS];
    memset(last_named, 0, page->statements * sizeof last_named[0]);
    for (size_t i = 0; i < page->objections; i++) {
        uint16_t card = (uint16_t)(page->targets[i] + 1);
        if (last_named[page->objectors[i]] == card)
            return card;
        last_named[page->objectors[i]] = card;
    }
    return 0;
}

static batqemulo_answer read_catalogue(struct page *page, const uint8_t *catalogue,
                                       size_t catalogue_len) {
    batqemulo_answer found = read_lines(page, catalogue, catalogue_len, read_card);
    if (found.refusal != BATQEMULO_ACCEPTED)
        return found;
    size_t card = unknown_card(page);
    if (card != 0)
        return answer(BATQEMULO_NUMBER_UNKNOWN, card);
    card = repeating_card(page);
    if (card != 0)
        return answer(BATQEMULO_OBJECTION_REPEATED, card);
    return found;
}

batqemulo_answer plain_uncatalogue(const uint8_t *catalogue, size_t catalogue_len, uint8_t *room,
                                   size_t room_len) {
    struct page page;
    uint8_t out[MOST_OLD_BYTES];
    batqemulo_answer found = read_catalogue(&page, catalogue, catalogue_len);
    if (found.refusal != BATQEMULO_ACCEPTED)
        return found;
    size_t bytes = put_text(out, &page);
    if (bytes > BATQEMULO_MAX_TEXT_BYTES)
        return answer(BATQEMULO_TEXT_TOO_LONG, 0);
    return fill_room(room, room_len, out, bytes);
}
