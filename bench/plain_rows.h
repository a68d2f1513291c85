/* What the listing and the reason in plain C share: a text that was read and solved, the kinds of
 * its objections, and rows put down. */
#ifndef PLAIN_ROWS_H
#define PLAIN_ROWS_H

#include "plain_lines.h"

/* What was read, with labels and lengths. */
struct solved {
    struct page page;
    uint8_t labels[BATQEMULO_MAX_STATEMENTS];
    uint16_t lengths[BATQEMULO_MAX_STATEMENTS];
};

/* Reads a text, and solves it if it has no fault. Otherwise what was read before the first fault is
 * kept, and there are no labels and lengths. */
batqemulo_answer solve_text(struct solved *solved, const uint8_t *text, size_t text_len);

/* The words of a row, each with the tab behind it. */
struct word {
    const char *bytes;
    size_t length;
};

static const struct word label_words[] = {{"open\t", 5}, {"stands\t", 7}, {"falls\t", 6}};
static const struct word kind_words[] = {
    {"idle\t", 5}, {"felling\t", 8}, {"delaying\t", 9}, {"standoff\t", 9}};

/* By the target's label and the objector's. What never occurs is idle here. */
static const uint8_t kinds[3][3] = {
    {BATQEMULO_STANDOFF, BATQEMULO_IDLE, BATQEMULO_IDLE},
    {BATQEMULO_IDLE, BATQEMULO_IDLE, BATQEMULO_DELAYING},
    {BATQEMULO_IDLE, BATQEMULO_FELLING, BATQEMULO_IDLE},
};

static inline uint8_t kind_of(const struct solved *solved, uint32_t objector, uint32_t target) {
    return kinds[solved->labels[target]][solved->labels[objector]];
}

static inline uint8_t *put_length(uint8_t *to, uint32_t length) {
    if (length != BATQEMULO_NO_LENGTH)
        return put_decimal(to, length, '\n');
    return put_word(to, "-\n", 2);
}

static inline uint8_t *put_statement(uint8_t *to, const struct solved *solved, size_t x) {
    const struct word *label = &label_words[solved->labels[x]];
    to = put_number(to, solved->page.numbers[x], '\t');
    to = put_word(to, label->bytes, label->length);
    return put_length(to, solved->lengths[x]);
}

static inline uint8_t *put_objection(uint8_t *to, const struct solved *solved, size_t i) {
    uint32_t objector = solved->page.objectors[i], target = solved->page.targets[i];
    uint8_t kind = kind_of(solved, objector, target);
    to = put_number(to, solved->page.numbers[objector], '\t');
    to = put_number(to, solved->page.numbers[target], '\t');
    to = put_word(to, kind_words[kind].bytes, kind_words[kind].length);
    if (kind == BATQEMULO_FELLING || kind == BATQEMULO_DELAYING)
        return put_length(to, solved->lengths[objector] + 1u);
    return put_length(to, BATQEMULO_NO_LENGTH);
}

#endif
