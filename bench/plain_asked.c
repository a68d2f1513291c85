/* The library's work on one statement as a C programmer would write it by hand: the line of
 * argument by a walk along the objectors, the class exercise by two functions that remember their
 * answers. Nothing here is proved; it is the yardstick of the benchmark. */
#include "plain.h"
#include "plain_pairs.h"

#include <string.h>

/* What is known of an answer of the exercise. */
enum { UNASKED, NO, YES };

/* The lists, with the objectors of each statement in its chain. */
struct asked {
    const uint8_t *marks;
    const uint32_t *objectors;
    struct chain chain;
};

/* The exercise: the answers so far, by turns and statement. */
struct lesson {
    struct asked asked;
    uint8_t falls[BATQEMULO_MAX_TURNS + 1][BATQEMULO_MAX_STATEMENTS];
    uint8_t stands[BATQEMULO_MAX_TURNS + 1][BATQEMULO_MAX_STATEMENTS];
};

/* The first fault of the lists, or that the place is not below the number of marks. */
static batqemulo_answer check_asked(const uint8_t *marks, size_t marks_len,
                                    const uint32_t *objectors, size_t objectors_len,
                                    const uint32_t *targets, size_t targets_len, uint32_t place) {
    batqemulo_answer found =
        plain_check(marks, marks_len, objectors, objectors_len, targets, targets_len);
    if (found.refusal == BATQEMULO_ACCEPTED && place >= marks_len)
        return answer(BATQEMULO_ASKED_UNKNOWN, 0);
    return found;
}

static void set_up(struct asked *a, const uint8_t *marks, size_t statements,
                   const uint32_t *objectors, const uint32_t *targets, size_t pairs) {
    a->marks = marks;
    a->objectors = objectors;
    begin_chain(&a->chain, statements);
    for (size_t i = 0; i < pairs; i++)
        link_pair(&a->chain, i, targets[i]);
}

/* The first objector of x in listed order whose length is one less. Its label is then the other
 * one: what stands has an even length, what falls an odd one. */
static size_t earliest(const struct asked *a, const uint16_t *lengths, size_t x) {
    size_t found = BATQEMULO_MAX_STATEMENTS;
    for (size_t pair = a->chain.latest[x]; pair != 0; pair = a->chain.earlier[pair - 1]) {
        size_t y = a->objectors[pair - 1];
        if (lengths[y] + 1 == lengths[x] && y < found)
            found = y;
    }
    return found;
}

batqemulo_answer plain_pairs_line(const uint8_t *marks, size_t marks_len, const uint32_t *objectors,
                                  size_t objectors_len, const uint32_t *targets, size_t targets_len,
                                  uint32_t place, uint32_t *line, size_t line_len) {
    struct asked a;
    uint8_t labels[BATQEMULO_MAX_STATEMENTS];
    uint16_t lengths[BATQEMULO_MAX_STATEMENTS];
    batqemulo_answer found =
        check_asked(marks, marks_len, objectors, objectors_len, targets, targets_len, place);
    if (found.refusal != BATQEMULO_ACCEPTED)
        return found;
    plain_solve(marks, marks_len, objectors, targets, objectors_len, labels, lengths);
    size_t entries = labels[place] == BATQEMULO_OPEN ? 1 : lengths[place] + 1u;
    if (line_len < entries)
        return answer(BATQEMULO_ROOM_TOO_SHORT, 0);
    set_up(&a, marks, marks_len, objectors, targets, objectors_len);
    line[0] = place;
    for (size_t i = 1; i < entries; i++)
        line[i] = (uint32_t)earliest(&a, lengths, line[i - 1]);
    return answer(BATQEMULO_ACCEPTED, entries);
}

static int stands_within(struct lesson *l, size_t x, size_t turns);

static int falls_within(struct lesson *l, size_t x, size_t turns) {
    const struct chain *chain = &l->asked.chain;
    uint8_t *known = &l->falls[turns][x];
    if (turns == 0)
        return 0;
    if (*known == UNASKED) {
        *known = NO;
        for (size_t pair = chain->latest[x]; pair != 0; pair = chain->earlier[pair - 1])
            if (stands_within(l, l->asked.objectors[pair - 1], turns - 1)) {
                *known = YES;
                break;
            }
    }
    return *known == YES;
}

static int stands_within(struct lesson *l, size_t x, size_t turns) {
    const struct chain *chain = &l->asked.chain;
    uint8_t *known = &l->stands[turns][x];
    if (l->asked.marks[x] != BATQEMULO_READ)
        return 0;
    if (turns == 0)
        return chain->latest[x] == 0;
    if (*known == UNASKED) {
        *known = YES;
        for (size_t pair = chain->latest[x]; pair != 0; pair = chain->earlier[pair - 1])
            if (!falls_within(l, l->asked.objectors[pair - 1], turns - 1)) {
                *known = NO;
                break;
            }
    }
    return *known == YES;
}

static uint32_t within(struct lesson *l, size_t x, size_t turns) {
    if (falls_within(l, x, turns))
        return BATQEMULO_FALLS;
    return stands_within(l, x, turns) ? BATQEMULO_STANDS : BATQEMULO_OPEN;
}

batqemulo_answer plain_pairs_exercise(const uint8_t *marks, size_t marks_len,
                                      const uint32_t *objectors, size_t objectors_len,
                                      const uint32_t *targets, size_t targets_len, uint32_t place,
                                      uint32_t turns) {
    struct lesson l;
    batqemulo_answer found =
        check_asked(marks, marks_len, objectors, objectors_len, targets, targets_len, place);
    if (found.refusal != BATQEMULO_ACCEPTED)
        return found;
    if (turns > BATQEMULO_MAX_TURNS)
        return answer(BATQEMULO_TOO_MANY_TURNS, 0);
    set_up(&l.asked, marks, marks_len, objectors, targets, objectors_len);
    memset(l.falls, UNASKED, sizeof l.falls);
    memset(l.stands, UNASKED, sizeof l.stands);
    return answer(BATQEMULO_ACCEPTED, within(&l, place, turns));
}
