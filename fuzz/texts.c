/* The fuzzer's target for register texts. Plain C reads and solves each text, instrumented, so that
 * its branches guide the fuzzer; then every call on the text, and on numbers by themselves, is made
 * of the library, and both must agree. */
#include "../bench/plain_rows.h"
#include "library.h"
#include "lines.h"
#include "met.h"
#include "turn.h"

/* A text with what plain C makes of it. */
static struct {
    struct solved solved;
    batqemulo_answer found;
    uint8_t listing[BATQEMULO_MAX_LISTING_BYTES];
    size_t listed;
} plain;

static void meet(void) {
    const struct solved *solved = &plain.solved;
    const struct page *page = &solved->page;
    meet_refusal(plain.found.refusal);
    if (plain.found.refusal != BATQEMULO_ACCEPTED)
        return;
    for (size_t x = 0; x < page->statements; x++)
        meet_statement(solved->labels[x], solved->lengths[x]);
    for (size_t i = 0; i < page->objections; i++)
        meet_objection(solved->labels[page->objectors[i]], solved->labels[page->targets[i]]);
}

static void solve_plainly(const uint8_t *text, size_t len) {
    plain.listed = 0;
    plain.found = solve_text(&plain.solved, text, len);
    if (plain.found.refusal == BATQEMULO_ACCEPTED)
        plain.listed = plain_listing(text, len, plain.listing, sizeof plain.listing).value;
}

/* A call that writes this answer into one room. */
static void hold_room(enum call call, const uint8_t *text, size_t len, size_t width,
                      const void *written, size_t needed, uint32_t thrown) {
    struct request request = {.call = call};
    batqemulo_answer right = plain.found;
    lend(&request, 1, text, len);
    if (right.refusal != BATQEMULO_ACCEPTED)
        lend_room(&request, width, thrown % 40, NULL, 0);
    else if (lend_room(&request, width, near(needed, thrown), written, needed))
        right = answer(BATQEMULO_ROOM_TOO_SHORT, 0);
    else
        right.value = (uint32_t)needed;
    hold(&request, right);
}

/* The asked statement's place: one on the register, or now and then none, which is the number of
 * statements. */
static size_t asked_place(uint32_t thrown) {
    size_t statements = plain.solved.page.statements;
    return thrown % 16 == 0 ? statements : thrown / 16 % (statements + 1);
}

/* Any 32 bits, a plain number, a year number, or an edge of either, inside or just outside. Some
 * codes are nobody's. */
static uint32_t any_code(uint32_t thrown) {
    static const uint32_t edges[] = {0,         1,         99999999,  100000000,
                                     109999999, 110000000, 110000001, 119870000,
                                     120999999, 121000001, UINT32_MAX};
    switch (thrown % 4) {
    case 0:
        return thrown;
    case 1:
        return 1 + thrown % 99999999u;
    case 2:
        return 110000001u + thrown % 10999999u;
    default:
        return edges[thrown / 4 % (sizeof edges / sizeof edges[0])];
    }
}

/* What may be taken for a code: the next one, the one with serial 0, or its digits alone. */
static uint32_t beside(uint32_t number, uint32_t thrown) {
    if (thrown % 3 == 0)
        return number + 1;
    return thrown % 3 == 1 ? number - number % SERIALS : number % YEAR_CODES;
}

/* Its number; of one that is not there, some code that is not issued. */
static uint32_t asked_number(size_t place, uint32_t thrown) {
    struct page *page = &plain.solved.page;
    uint32_t again = dice((const uint8_t *)&thrown, sizeof thrown), number = any_code(again);
    if (place < page->statements)
        return page->numbers[place];
    if (page->statements > 0 && again >> 31 == 0)
        number = beside(page->numbers[again % page->statements], again >> 8);
    while (*slot_of(page, number) != 0)
        number++;
    return number;
}

static void hold_line(const uint8_t *text, size_t len, uint32_t thrown) {
    uint32_t line[BATQEMULO_MAX_LINE_ENTRIES];
    const struct page *page = &plain.solved.page;
    size_t place = asked_place(thrown), needed = 0;
    struct request request = {.call = TEXT_LINE, .statement = asked_number(place, thrown)};
    batqemulo_answer right = plain.found;
    if (right.refusal == BATQEMULO_ACCEPTED)
        right = plain_pairs_line(page->marks, page->statements, page->objectors, page->objections,
                                 page->targets, page->objections, (uint32_t)place, line,
                                 BATQEMULO_MAX_LINE_ENTRIES);
    if (right.refusal == BATQEMULO_ACCEPTED)
        needed = right.value;
    for (size_t i = 0; i < needed; i++)
        line[i] = page->numbers[line[i]];
    lend(&request, 1, text, len);
    if (lend_room(&request, 4, near(needed, thrown), line, needed))
        right = answer(BATQEMULO_ROOM_TOO_SHORT, 0);
    hold(&request, right);
}

static void hold_reason(const uint8_t *text, size_t len, uint32_t thrown) {
    static uint8_t reason[BATQEMULO_MAX_LISTING_BYTES];
    uint32_t number = asked_number(asked_place(thrown), thrown);
    struct request request = {.call = REASON, .statement = number};
    batqemulo_answer right = plain_reason(text, len, number, reason, sizeof reason);
    size_t needed = right.refusal == BATQEMULO_ACCEPTED ? right.value : 0;
    lend(&request, 1, text, len);
    if (lend_room(&request, 1, near(needed, thrown), reason, needed))
        right = answer(BATQEMULO_ROOM_TOO_SHORT, 0);
    hold(&request, right);
}

static void hold_exercise(const uint8_t *text, size_t len, uint32_t thrown) {
    const struct page *page = &plain.solved.page;
    size_t place = asked_place(thrown);
    uint32_t turns = thrown / 7 % 32 == 0 ? thrown : thrown / 7 % 8;
    struct request request = {
        .call = TEXT_EXERCISE, .statement = asked_number(place, thrown), .turns = turns};
    batqemulo_answer right = plain.found;
    if (right.refusal == BATQEMULO_ACCEPTED)
        right =
            plain_pairs_exercise(page->marks, page->statements, page->objectors, page->objections,
                                 page->targets, page->objections, (uint32_t)place, turns);
    lend(&request, 1, text, len);
    hold(&request, right);
}

/* A sheet and its totals, with space for a byte too many. */
struct sheet {
    uint8_t bytes[BATQEMULO_MAX_SHEET_BYTES + 1];
    uint32_t totals[BATQEMULO_TOTALS];
};

static size_t sheet_size(size_t statements) {
    return (statements + 3) / 4;
}

static void pack(struct sheet *sheet, const uint8_t *labels, size_t statements) {
    memset(sheet, 0, sizeof *sheet);
    for (size_t x = 0; x < statements; x++) {
        sheet->bytes[x / 4] |= (uint8_t)(labels[x] << x % 4 * 2);
        sheet->totals[labels[x]]++;
    }
}

static void hold_sheet(const uint8_t *text, size_t len, size_t statements, uint32_t thrown) {
    struct sheet sheet;
    struct request request = {.call = SHEET};
    batqemulo_answer right = plain.found;
    size_t needed = sheet_size(statements), bytes = near(needed, thrown);
    size_t totals = near(BATQEMULO_TOTALS, thrown >> 3);
    pack(&sheet, plain.solved.labels, statements);
    if (right.refusal == BATQEMULO_ACCEPTED)
        right = bytes < needed || totals < BATQEMULO_TOTALS ? answer(BATQEMULO_ROOM_TOO_SHORT, 0)
                                                            : answer(BATQEMULO_ACCEPTED, needed);
    int accepted = right.refusal == BATQEMULO_ACCEPTED;
    lend(&request, 1, text, len);
    lend_room(&request, 1, bytes, sheet.bytes, accepted ? needed : 0);
    lend_room(&request, 4, totals, sheet.totals, accepted ? BATQEMULO_TOTALS : 0);
    hold(&request, right);
}

/* Some sound sheet, or now and then one with a wrong total or a code 3. Answers its refusal. */
static uint32_t old_sheet(struct sheet *old, size_t statements, uint32_t thrown) {
    uint8_t labels[BATQEMULO_MAX_STATEMENTS];
    for (size_t x = 0; x < statements; x++)
        labels[x] = (uint8_t)((thrown >> x % 23) % 3);
    pack(old, labels, statements);
    if (thrown % 8 == 0)
        old->totals[thrown / 8 % BATQEMULO_TOTALS]++;
    else if (thrown % 8 == 1 && statements > 0)
        old->bytes[0] |= 3;
    else
        return BATQEMULO_ACCEPTED;
    return BATQEMULO_SHEET_UNSOUND;
}

static void hold_update(const uint8_t *text, size_t len, size_t statements, uint32_t thrown) {
    struct sheet old, sheet;
    struct request request = {.call = SHEET_UPDATE};
    size_t size = sheet_size(statements), longer = thrown >> 8 & 1 & thrown >> 9;
    uint32_t refusal = old_sheet(&old, statements, thrown);
    batqemulo_answer right = plain.found;
    pack(&sheet, plain.solved.labels, statements);
    if (right.refusal == BATQEMULO_ACCEPTED)
        right = refusal != 0 || longer != 0 ? answer(BATQEMULO_SHEET_UNSOUND, 0)
                                            : answer(BATQEMULO_ACCEPTED, size);
    int accepted = right.refusal == BATQEMULO_ACCEPTED;
    lend(&request, 1, text, len);
    lend_held(&request, 1, size + longer, old.bytes, sheet.bytes, accepted ? size : 0);
    lend_held(&request, 4, BATQEMULO_TOTALS, old.totals, sheet.totals,
              accepted ? BATQEMULO_TOTALS : 0);
    hold(&request, right);
}

static void hold_read(const uint8_t *written, size_t len, batqemulo_answer right) {
    struct request request = {.call = NUMBER};
    lend(&request, 1, written, len);
    hold(&request, right);
}

static void hold_written(uint32_t number, const uint8_t *written, batqemulo_answer right,
                         uint32_t thrown) {
    struct request request = {.call = NUMBER_TEXT, .statement = number};
    size_t needed = right.refusal == BATQEMULO_ACCEPTED ? right.value : 0;
    if (lend_room(&request, 1, near(needed, thrown), written, needed))
        right = answer(BATQEMULO_ROOM_TOO_SHORT, 0);
    hold(&request, right);
}

/* The field of the text that a random byte is in; of the empty text an empty one. */
static struct line any_field(const uint8_t *text, size_t len, uint32_t thrown) {
    const uint8_t *at = text + (len == 0 ? 0 : thrown % len);
    struct line field = {at, at};
    while (field.at > text && field.at[-1] != '\t' && field.at[-1] != '\n')
        field.at--;
    while (field.end < text + len && *field.end != '\t' && *field.end != '\n')
        field.end++;
    return field;
}

/* A field is read as a number; if it is one, its code is written as this field again. */
static void hold_field(struct line field, uint32_t thrown) {
    size_t len = (size_t)(field.end - field.at);
    batqemulo_answer right = plain_number(field.at, len);
    hold_read(field.at, len, right);
    if (right.refusal == BATQEMULO_ACCEPTED)
        hold_written(right.value, field.at, answer(BATQEMULO_ACCEPTED, len), thrown);
}

/* A code is written; if it is a number's, what is written is read as this code again. */
static void hold_code(uint32_t number, uint32_t thrown) {
    uint8_t written[BATQEMULO_MAX_NUMBER_BYTES];
    batqemulo_answer right = plain_number_text(number, written, sizeof written);
    hold_written(number, written, right, thrown);
    if (right.refusal == BATQEMULO_ACCEPTED)
        hold_read(written, right.value, answer(BATQEMULO_ACCEPTED, number));
}

/* What plain C makes of a text that is mended. */
struct mended {
    uint8_t text[BATQEMULO_MAX_TEXT_BYTES];
    uint8_t report[BATQEMULO_MAX_REPORT_BYTES];
    uint32_t reported;
    batqemulo_answer answer;
};

static void hold_mend(const uint8_t *text, size_t len, struct mended *mended, uint32_t thrown) {
    struct request request = {.call = MEND};
    mended->reported = 0;
    mended->answer = plain_mend(text, len, mended->text, sizeof mended->text, mended->report,
                                sizeof mended->report, &mended->reported);
    batqemulo_answer right = mended->answer;
    size_t needed = right.refusal == BATQEMULO_ACCEPTED ? right.value : 0;
    size_t room = near(needed, thrown), report = near(mended->reported, thrown >> 3);
    if (right.refusal == BATQEMULO_ACCEPTED && (room < needed || report < mended->reported))
        right = answer(BATQEMULO_ROOM_TOO_SHORT, 0);
    int accepted = right.refusal == BATQEMULO_ACCEPTED;
    lend(&request, 1, text, len);
    lend_room(&request, 1, room, mended->text, accepted ? needed : 0);
    lend_room(&request, 1, report, mended->report, accepted ? mended->reported : 0);
    lend_room(&request, 4, 1, &mended->reported, accepted ? 1 : 0);
    hold(&request, right);
}

/* What was mended is accepted, and mended again it stays as it is, with nothing to report. */
static void hold_mended(const struct mended *mended, uint32_t thrown) {
    static struct mended again;
    size_t len = mended->answer.value;
    hold_mend(mended->text, len, &again, thrown);
    must(again.answer.value == len && memcmp(again.text, mended->text, len) == 0,
         "a mended text is mended again");
    must(again.reported == 0, "a mended text has a report");
    solve_plainly(mended->text, len);
    must(plain.found.refusal == BATQEMULO_ACCEPTED, "a mended text is refused");
    hold_room(TEXT_LABELS, mended->text, len, 1, plain.solved.labels, plain.solved.page.statements,
              thrown >> 6);
}

/* The text of a catalogue is as long as the one of which that was made, and has the same labels and
 * lengths. */
static void hold_turned(const struct turned *catalogue, size_t len, uint32_t thrown) {
    static struct turned back;
    size_t statements = plain.solved.page.statements;
    turn_back(catalogue->bytes, catalogue->answer.value, &back, thrown);
    must(back.answer.refusal == BATQEMULO_ACCEPTED, "a catalogue that was made is refused");
    must(back.answer.value == len, "the text of a catalogue has another length");
    hold_room(TEXT_LABELS, back.bytes, len, 1, plain.solved.labels, statements, thrown >> 6);
    hold_room(TEXT_LENGTHS, back.bytes, len, 2, plain.solved.lengths, statements, thrown >> 9);
    turn_damaged(catalogue, thrown);
}

size_t LLVMFuzzerCustomMutator(uint8_t *bytes, size_t size, size_t most, unsigned seed) {
    return change_lines(bytes, size, most, seed, add_objection);
}

int LLVMFuzzerTestOneInput(const uint8_t *text, size_t len) {
    static struct mended mended;
    static struct turned catalogue;
    uint32_t thrown = dice(text, len);
    size_t statements = 0;
    solve_plainly(text, len);
    meet();
    if (plain.found.refusal == BATQEMULO_ACCEPTED)
        statements = plain.solved.page.statements;
    hold_room(LISTING, text, len, 1, plain.listing, plain.listed, thrown);
    hold_room(TEXT_LABELS, text, len, 1, plain.solved.labels, statements, thrown >> 3);
    hold_room(TEXT_LENGTHS, text, len, 2, plain.solved.lengths, statements, thrown >> 6);
    hold_line(text, len, thrown >> 9);
    hold_exercise(text, len, thrown >> 9);
    hold_reason(text, len, thrown >> 10);
    hold_sheet(text, len, statements, thrown >> 12);
    hold_update(text, len, statements, thrown >> 15);
    hold_field(any_field(text, len, thrown), thrown >> 16);
    hold_code(any_code(thrown), thrown >> 17);
    turn(CATALOGUE, text, len, &catalogue, thrown >> 11);
    if (catalogue.answer.refusal == BATQEMULO_ACCEPTED)
        hold_turned(&catalogue, len, thrown >> 14);
    hold_mend(text, len, &mended, thrown >> 18);
    if (mended.answer.refusal == BATQEMULO_ACCEPTED)
        hold_mended(&mended, thrown >> 21);
    return 0;
}
