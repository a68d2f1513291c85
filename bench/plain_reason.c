/* The reason for a statement as a C programmer would write it by hand: what is reached from the
 * statement is walked with a queue, along the chains in which the reader has left the objections,
 * and one pass over the objections puts the rows down. Nothing here is proved; it is the yardstick
 * of the benchmark. */
#include "plain_rows.h"

/* The statements that are reached, and the order in which they were. */
struct walk {
    uint8_t reached[BATQEMULO_MAX_STATEMENTS];
    uint16_t queue[BATQEMULO_MAX_STATEMENTS];
    size_t queued;
};

/* Whether an objection is in the reason if its target is reached: not if it is idle, nor if it is a
 * felling one that is longer than its target. */
static int belongs(const struct solved *solved, uint32_t objector, uint32_t target) {
    uint8_t kind = kind_of(solved, objector, target);
    if (kind == BATQEMULO_FELLING)
        return solved->lengths[objector] + 1 == solved->lengths[target];
    return kind != BATQEMULO_IDLE;
}

static void reach(struct walk *walk, uint32_t x) {
    if (walk->reached[x])
        return;
    walk->reached[x] = 1;
    walk->queue[walk->queued++] = (uint16_t)x;
}

static void reach_objectors(struct walk *walk, const struct solved *solved, uint32_t x) {
    const struct chain *chain = &solved->page.chains.by_target;
    for (size_t pair = chain->latest[x]; pair != 0; pair = chain->earlier[pair - 1]) {
        uint32_t objector = solved->page.objectors[pair - 1];
        if (belongs(solved, objector, x))
            reach(walk, objector);
    }
}

/* The chains begin with the first objection: where there is none, only the asked one is reached. */
static void reach_all(struct walk *walk, const struct solved *solved, uint32_t asked) {
    memset(walk->reached, 0, solved->page.statements);
    walk->queued = 0;
    reach(walk, asked);
    if (solved->page.objections == 0)
        return;
    for (size_t taken = 0; taken < walk->queued; taken++)
        reach_objectors(walk, solved, walk->queue[taken]);
}

static size_t print(uint8_t *out, const struct solved *solved, const struct walk *walk,
                    uint32_t asked) {
    const struct page *page = &solved->page;
    uint8_t *to = put_statement(out, solved, asked);
    for (size_t i = 0; i < page->objections; i++)
        if (walk->reached[page->targets[i]] &&
            belongs(solved, page->objectors[i], page->targets[i]))
            to = put_objection(to, solved, i);
    return (size_t)(to - out);
}

batqemulo_answer plain_reason(const uint8_t *text, size_t text_len, uint32_t number, uint8_t *room,
                              size_t room_len) {
    struct solved solved;
    struct walk walk;
    uint8_t out[BATQEMULO_MAX_LISTING_BYTES];
    batqemulo_answer found = solve_text(&solved, text, text_len);
    if (found.refusal != BATQEMULO_ACCEPTED)
        return found;
    uint32_t place = *slot_of(&solved.page, number);
    if (place == 0)
        return answer(BATQEMULO_ASKED_UNKNOWN, 0);
    reach_all(&walk, &solved, place - 1);
    return fill_room(room, room_len, out, print(out, &solved, &walk, place - 1));
}
