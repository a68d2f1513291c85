/* The library's work on lists as a C programmer would write it by hand: the checks of the lists,
 * then retrograde analysis in linear time with a queue, counters and chains. Nothing here is
 * proved; it is the yardstick of the benchmark. */
#include "plain.h"
#include "plain_pairs.h"

#include <string.h>

/* The lists after they were checked, and the spaces that a solution needs. */
struct board {
    const uint8_t *marks;
    const uint32_t *objectors;
    const uint32_t *targets;
    size_t statements;
    size_t pairs;
    struct chain by_objector;
    /* how many objectors of each statement are not known to fall */
    uint16_t left[BATQEMULO_MAX_STATEMENTS];
    /* the statements that have a label, in the order in which they got it */
    uint16_t queue[BATQEMULO_MAX_STATEMENTS];
    size_t queued;
};

static size_t first_bad_mark(const uint8_t *marks, size_t statements) {
    size_t x = 0;
    while (x < statements && marks[x] <= BATQEMULO_UNREAD)
        x++;
    return x;
}

static size_t first_outside(const uint32_t *objectors, const uint32_t *targets, size_t pairs,
                            size_t statements) {
    size_t i = 0;
    while (i < pairs && objectors[i] < statements && targets[i] < statements)
        i++;
    return i;
}

static size_t first_repeat(const uint32_t *objectors, const uint32_t *targets, size_t pairs,
                           size_t statements) {
    struct chains passed;
    begin_chains(&passed, statements);
    for (size_t i = 0; i < pairs; i++) {
        if (is_entered(&passed, objectors, targets, objectors[i], targets[i]))
            return i;
        enter_pair(&passed, i, objectors[i], targets[i]);
    }
    return pairs;
}

/* The refusals that are found in linear time. */
static batqemulo_answer check(const uint8_t *marks, size_t marks_len, const uint32_t *objectors,
                              size_t objectors_len, const uint32_t *targets, size_t targets_len) {
    if (objectors_len != targets_len)
        return answer(BATQEMULO_LISTS_UNEQUAL, 0);
    if (marks_len > BATQEMULO_MAX_STATEMENTS)
        return answer(BATQEMULO_TOO_MANY_STATEMENTS, 0);
    if (objectors_len > BATQEMULO_MAX_OBJECTIONS)
        return answer(BATQEMULO_TOO_MANY_OBJECTIONS, 0);
    size_t x = first_bad_mark(marks, marks_len);
    if (x < marks_len)
        return answer(BATQEMULO_MARK_UNKNOWN, x);
    size_t i = first_outside(objectors, targets, objectors_len, marks_len);
    if (i < objectors_len)
        return answer(BATQEMULO_PLACE_OUTSIDE, i);
    return answer(BATQEMULO_ACCEPTED, 0);
}

batqemulo_answer plain_check(const uint8_t *marks, size_t marks_len, const uint32_t *objectors,
                             size_t objectors_len, const uint32_t *targets, size_t targets_len) {
    batqemulo_answer found =
        check(marks, marks_len, objectors, objectors_len, targets, targets_len);
    if (found.refusal != BATQEMULO_ACCEPTED)
        return found;
    size_t i = first_repeat(objectors, targets, objectors_len, marks_len);
    if (i < objectors_len)
        return answer(BATQEMULO_OBJECTION_REPEATED, i);
    return found;
}

/* Clears only what this register uses, then chains the pairs and counts the objectors. */
static void set_up(struct board *b) {
    begin_chain(&b->by_objector, b->statements);
    memset(b->left, 0, b->statements * sizeof b->left[0]);
    for (size_t i = 0; i < b->pairs; i++) {
        link_pair(&b->by_objector, i, b->objectors[i]);
        b->left[b->targets[i]]++;
    }
    b->queued = 0;
}

static void settle(struct board *b, uint8_t *labels, uint16_t *lengths, size_t x, uint8_t label,
                   uint16_t length) {
    labels[x] = label;
    lengths[x] = length;
    b->queue[b->queued++] = (uint16_t)x;
}

/* The statement y has got its label: what follows for those it objects to. */
static void pass_on(struct board *b, uint8_t *labels, uint16_t *lengths, size_t y) {
    uint16_t length = (uint16_t)(lengths[y] + 1);
    const struct chain *chain = &b->by_objector;
    for (size_t pair = chain->latest[y]; pair != 0; pair = chain->earlier[pair - 1]) {
        size_t x = b->targets[pair - 1];
        if (labels[y] == BATQEMULO_STANDS) {
            if (labels[x] == BATQEMULO_OPEN)
                settle(b, labels, lengths, x, BATQEMULO_FALLS, length);
        } else if (--b->left[x] == 0 && b->marks[x] == BATQEMULO_READ) {
            settle(b, labels, lengths, x, BATQEMULO_STANDS, length);
        }
    }
}

static void solve(struct board *b, uint8_t *labels, uint16_t *lengths) {
    set_up(b);
    for (size_t x = 0; x < b->statements; x++) {
        labels[x] = BATQEMULO_OPEN;
        lengths[x] = BATQEMULO_NO_LENGTH;
        if (b->marks[x] == BATQEMULO_READ && b->left[x] == 0)
            settle(b, labels, lengths, x, BATQEMULO_STANDS, 0);
    }
    for (size_t taken = 0; taken < b->queued; taken++)
        pass_on(b, labels, lengths, b->queue[taken]);
}

void plain_solve(const uint8_t *marks, size_t statements, const uint32_t *objectors,
                 const uint32_t *targets, size_t pairs, uint8_t *labels, uint16_t *lengths) {
    struct board b;
    b.marks = marks;
    b.statements = statements;
    b.objectors = objectors;
    b.targets = targets;
    b.pairs = pairs;
    solve(&b, labels, lengths);
}

batqemulo_answer plain_pairs_labels(const uint8_t *marks, size_t marks_len,
                                    const uint32_t *objectors, size_t objectors_len,
                                    const uint32_t *targets, size_t targets_len, uint8_t *labels,
                                    size_t labels_len) {
    uint16_t lengths[BATQEMULO_MAX_STATEMENTS];
    batqemulo_answer found =
        plain_check(marks, marks_len, objectors, objectors_len, targets, targets_len);
    if (found.refusal != BATQEMULO_ACCEPTED)
        return found;
    if (labels_len < marks_len)
        return answer(BATQEMULO_ROOM_TOO_SHORT, 0);
    plain_solve(marks, marks_len, objectors, targets, objectors_len, labels, lengths);
    return answer(BATQEMULO_ACCEPTED, marks_len);
}

uint32_t plain_solver_label(const uint8_t *marks, size_t marks_len, const uint32_t *objectors,
                            size_t objectors_len, const uint32_t *targets, size_t targets_len,
                            uint8_t *labels, size_t labels_len, uint16_t *lengths,
                            size_t lengths_len) {
    batqemulo_answer found =
        check(marks, marks_len, objectors, objectors_len, targets, targets_len);
    if (found.refusal != BATQEMULO_ACCEPTED || labels_len < marks_len || lengths_len < marks_len)
        return 0;
    plain_solve(marks, marks_len, objectors, targets, objectors_len, labels, lengths);
    return 1;
}
