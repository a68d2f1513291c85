/* The fuzzer's target for handed lists. An input is a row of words, and each word adds to the lists
 * or says what is asked; so the fuzzer can add, double and lose marks and pairs one by one. Every
 * call on the lists is made of the library and held against instrumented plain C. */
#include "../bench/plain.h"
#include "library.h"
#include "met.h"

#include <string.h>

/* Somewhat beyond what is accepted. */
enum { MOST_MARKS = 1100, MOST_PAIRS = 4200 };

/* A list of places. */
struct places {
    uint32_t entries[MOST_PAIRS];
    size_t count;
};

static struct {
    uint8_t marks[MOST_MARKS];
    size_t statements;
    struct places objectors;
    struct places targets;
    int is_asked;
    uint32_t place;
    uint32_t turns;
    /* what plain C makes of them */
    batqemulo_answer found;
    uint8_t labels[BATQEMULO_MAX_STATEMENTS];
    uint16_t lengths[BATQEMULO_MAX_STATEMENTS];
    uint8_t kinds[BATQEMULO_MAX_OBJECTIONS];
    uint16_t kind_lengths[BATQEMULO_MAX_OBJECTIONS];
} lists;

struct words {
    const uint8_t *at;
    const uint8_t *end;
};

/* A number of so many bytes, the least first; what is missing at the end is 0. */
static uint32_t take(struct words *words, int bytes) {
    uint32_t number = 0;
    for (int i = 0; i < bytes && words->at < words->end; i++)
        number |= (uint32_t)*words->at++ << 8 * i;
    return number;
}

static void add_mark(uint8_t mark) {
    if (lists.statements < MOST_MARKS)
        lists.marks[lists.statements++] = mark;
}

static void add_place(struct places *places, uint32_t place) {
    if (places->count < MOST_PAIRS)
        places->entries[places->count++] = place;
}

static void add_pair(uint32_t objector, uint32_t target) {
    add_place(&lists.objectors, objector);
    add_place(&lists.targets, target);
}

/* A row of read statements, a chain in which each objects to the next, and a fan of objectors of
 * one target. */
static void take_row(struct words *words, uint8_t word) {
    uint32_t count = take(words, 2);
    uint32_t first = word == 'N' ? 0 : take(words, 2);
    uint32_t target = word == 'F' ? take(words, 2) : 0;
    for (uint32_t i = 0; i < count && i < MOST_PAIRS; i++)
        if (word == 'N')
            add_mark(0);
        else
            add_pair(first + i, word == 'C' ? first + i + 1 : target);
}

/* A word is a letter and its numbers. A byte that is none of the letters says nothing. */
static void take_word(struct words *words) {
    uint8_t word = (uint8_t)take(words, 1);
    uint32_t objector;
    switch (word) {
    case 'R':
    case 'U':
        add_mark(word == 'U');
        break;
    case 'M':
        add_mark((uint8_t)take(words, 1));
        break;
    case 'P':
    case 'W':
        objector = take(words, word == 'W' ? 4 : 1);
        add_pair(objector, take(words, word == 'W' ? 4 : 1));
        break;
    case 'O':
        add_place(&lists.objectors, take(words, 1));
        break;
    case 'T':
        add_place(&lists.targets, take(words, 1));
        break;
    case 'N':
    case 'C':
    case 'F':
        take_row(words, word);
        break;
    case 'A':
        lists.is_asked = 1;
        lists.place = take(words, 4);
        lists.turns = take(words, 1);
    }
}

/* Where no word says what is asked, it is a statement on the register, or just not. */
static void take_lists(const uint8_t *bytes, size_t count) {
    struct words words = {bytes, bytes + count};
    memset(&lists, 0, sizeof lists);
    while (words.at < words.end)
        take_word(&words);
    if (lists.is_asked)
        return;
    uint32_t thrown = dice(bytes, count);
    lists.place = thrown % (uint32_t)(lists.statements + 1);
    lists.turns = thrown / 16 % 9;
}

/* By the target's label and the objector's, as 01 has them; what never occurs is no kind. */
static uint8_t kind_of(uint8_t target, uint8_t objector) {
    static const uint8_t kinds[3][3] = {{3, 9, 0}, {9, 9, 2}, {0, 1, 0}};
    return kinds[target][objector];
}

static void solve_kinds(void) {
    for (size_t i = 0; i < lists.objectors.count; i++) {
        uint32_t objector = lists.objectors.entries[i];
        uint8_t kind = kind_of(lists.labels[lists.targets.entries[i]], lists.labels[objector]);
        int has_length = kind == BATQEMULO_FELLING || kind == BATQEMULO_DELAYING;
        lists.kinds[i] = kind;
        lists.kind_lengths[i] =
            has_length ? (uint16_t)(lists.lengths[objector] + 1) : BATQEMULO_NO_LENGTH;
        meet_objection(lists.labels[objector], lists.labels[lists.targets.entries[i]]);
    }
}

static void solve_plainly(void) {
    lists.found = plain_check(lists.marks, lists.statements, lists.objectors.entries,
                              lists.objectors.count, lists.targets.entries, lists.targets.count);
    meet_refusal(lists.found.refusal);
    if (lists.found.refusal != BATQEMULO_ACCEPTED)
        return;
    plain_solve(lists.marks, lists.statements, lists.objectors.entries, lists.targets.entries,
                lists.objectors.count, lists.labels, lists.lengths);
    for (size_t x = 0; x < lists.statements; x++)
        meet_statement(lists.labels[x], lists.lengths[x]);
    solve_kinds();
}

/* A request with the lists, or the moves that are the same objections. */
static struct request asking(enum call call) {
    struct request request = {.call = call, .statement = lists.place, .turns = lists.turns};
    int is_moves = call == MOVES_LABELS || call == MOVES_LENGTHS;
    const struct places *first = is_moves ? &lists.targets : &lists.objectors;
    const struct places *second = is_moves ? &lists.objectors : &lists.targets;
    lend(&request, 1, lists.marks, lists.statements);
    lend(&request, 4, first->entries, first->count);
    lend(&request, 4, second->entries, second->count);
    return request;
}

/* Adds a room to the request for an answer of so many entries; a refusal leaves it as found. */
static void room(struct request *request, batqemulo_answer *right, size_t width,
                 const void *written, size_t needed, uint32_t thrown) {
    if (lists.found.refusal != BATQEMULO_ACCEPTED) {
        lend_room(request, width, thrown % 40, NULL, 0);
        return;
    }
    int was_short = right->refusal != BATQEMULO_ACCEPTED;
    if (lend_room(request, width, near(needed, thrown), written, needed))
        *right = answer(BATQEMULO_ROOM_TOO_SHORT, 0);
    else if (!was_short)
        right->value = (uint32_t)needed;
}

static void hold_room(enum call call, size_t width, const void *written, uint32_t thrown) {
    struct request request = asking(call);
    batqemulo_answer right = lists.found;
    room(&request, &right, width, written, lists.statements, thrown);
    hold(&request, right);
}

/* If either room is short, neither is written to. */
static void hold_kinds(uint32_t thrown) {
    struct request request = asking(PAIRS_KINDS);
    batqemulo_answer right = lists.found;
    room(&request, &right, 1, lists.kinds, lists.objectors.count, thrown);
    room(&request, &right, 2, lists.kind_lengths, lists.objectors.count, thrown >> 3);
    for (size_t i = 3; right.refusal != BATQEMULO_ACCEPTED && i < request.count; i++)
        request.arrays[i].written = 0;
    hold(&request, right);
}

static void hold_line(uint32_t thrown) {
    uint32_t line[BATQEMULO_MAX_LINE_ENTRIES];
    struct request request = asking(PAIRS_LINE);
    batqemulo_answer right = plain_pairs_line(
        lists.marks, lists.statements, lists.objectors.entries, lists.objectors.count,
        lists.targets.entries, lists.targets.count, lists.place, line, BATQEMULO_MAX_LINE_ENTRIES);
    size_t needed = right.refusal == BATQEMULO_ACCEPTED ? right.value : 0;
    if (lend_room(&request, 4, near(needed, thrown), line, needed))
        right = answer(BATQEMULO_ROOM_TOO_SHORT, 0);
    hold(&request, right);
}

static void hold_exercise(void) {
    struct request request = asking(PAIRS_EXERCISE);
    hold(&request, plain_pairs_exercise(lists.marks, lists.statements, lists.objectors.entries,
                                        lists.objectors.count, lists.targets.entries,
                                        lists.targets.count, lists.place, lists.turns));
}

int LLVMFuzzerTestOneInput(const uint8_t *bytes, size_t count) {
    uint32_t thrown = dice(bytes, count);
    take_lists(bytes, count);
    solve_plainly();
    hold_room(PAIRS_LABELS, 1, lists.labels, thrown);
    hold_room(PAIRS_LENGTHS, 2, lists.lengths, thrown >> 3);
    hold_room(MOVES_LABELS, 1, lists.labels, thrown >> 6);
    hold_room(MOVES_LENGTHS, 2, lists.lengths, thrown >> 9);
    hold_kinds(thrown >> 12);
    hold_line(thrown >> 15);
    hold_exercise();
    return 0;
}
