/* Mending as a C programmer would write it by hand: one pass over the lines settles the statements,
 * a second one the objections, with repeats looked for along chains; then text and report are put
 * down. */
#include "plain_lines.h"

/* The lengths of the two words of a report, with the tabs around each, the cause and byte 10. */
enum { DROPPED_BYTES = 11, MOVED_BYTES = 9 };

enum kind { NOT_ENDED, SPOILED, STATEMENT, OBJECTION };

/* A line taken apart: a statement's number and whether it is unread, or an objection's two numbers.
 */
struct entry {
    enum kind kind;
    uint32_t first;
    uint32_t second;
};

/* What is kept so far, and for each line the cause for which it was dropped or moved, or 0. */
struct mending {
    struct page page;
    size_t lines;
    uint8_t causes[BATQEMULO_MAX_TEXT_BYTES];
};

static struct entry entry_of(struct line line) {
    struct entry entry = {SPOILED, 0, 0};
    int is_statement = take_byte(&line, 'S');
    if ((!is_statement && !take_byte(&line, 'O')) || !take_byte(&line, '\t'))
        return entry;
    entry.first = take_number(&line);
    if (entry.first == 0 || !take_byte(&line, '\t'))
        return entry;
    if (is_statement) {
        entry.second = (uint32_t)take_byte(&line, 'U');
        if (entry.second == 0 && !take_byte(&line, 'R'))
            return entry;
    } else {
        entry.second = take_number(&line);
        if (entry.second == 0)
            return entry;
    }
    if (line.at == line.end)
        entry.kind = is_statement ? STATEMENT : OBJECTION;
    return entry;
}

/* Takes the next line of a text that ends there, and goes on behind it. */
static struct entry next_entry(const uint8_t **at, const uint8_t *end) {
    struct line line = {*at, memchr(*at, '\n', (size_t)(end - *at))};
    *at = line.end == NULL ? end : line.end + 1;
    return line.end == NULL ? (struct entry){NOT_ENDED, 0, 0} : entry_of(line);
}

static uint32_t settle_statement(struct page *page, struct entry entry, int is_late) {
    uint16_t *slot = slot_of(page, entry.first);
    if (*slot != 0) {
        page->marks[*slot - 1] = BATQEMULO_UNREAD;
        return BATQEMULO_NUMBER_ISSUED;
    }
    if (page->statements == BATQEMULO_MAX_STATEMENTS)
        return BATQEMULO_TOO_MANY_STATEMENTS;
    page->numbers[page->statements] = entry.first;
    page->marks[page->statements] = (uint8_t)entry.second;
    *slot = (uint16_t)++page->statements;
    return is_late ? BATQEMULO_STATEMENT_LATE : BATQEMULO_ACCEPTED;
}

static void settle_statements(struct mending *mending, const uint8_t *at, const uint8_t *end) {
    int is_late = 0;
    for (mending->lines = 0; at < end; mending->lines++) {
        struct entry entry = next_entry(&at, end);
        uint32_t cause = BATQEMULO_ACCEPTED;
        if (entry.kind == NOT_ENDED)
            cause = BATQEMULO_TEXT_NOT_ENDED;
        else if (entry.kind == SPOILED)
            cause = BATQEMULO_LINE_SPOILED;
        else if (entry.kind == STATEMENT)
            cause = settle_statement(&mending->page, entry, is_late);
        else
            is_late = 1;
        mending->causes[mending->lines] = (uint8_t)cause;
    }
}

static uint32_t settle_objection(struct page *page, struct entry entry) {
    uint32_t objector = *slot_of(page, entry.first), target = *slot_of(page, entry.second);
    if (objector == 0 && target != 0)
        page->marks[target - 1] = BATQEMULO_UNREAD;
    if (objector == 0 || target == 0)
        return BATQEMULO_NUMBER_UNKNOWN;
    if (is_repeated(page, objector - 1, target - 1))
        return BATQEMULO_OBJECTION_REPEATED;
    if (page->objections == BATQEMULO_MAX_OBJECTIONS) {
        page->marks[target - 1] = BATQEMULO_UNREAD;
        return BATQEMULO_TOO_MANY_OBJECTIONS;
    }
    keep_objection(page, objector - 1, target - 1);
    return BATQEMULO_ACCEPTED;
}

static void settle_objections(struct mending *mending, const uint8_t *at, const uint8_t *end) {
    begin_chains(&mending->page.chains, mending->page.statements);
    for (size_t line = 0; line < mending->lines; line++) {
        struct entry entry = next_entry(&at, end);
        if (entry.kind == OBJECTION)
            mending->causes[line] = (uint8_t)settle_objection(&mending->page, entry);
    }
}

static size_t digits(size_t number) {
    size_t count = 1;
    while ((number /= 10) > 0)
        count++;
    return count;
}

/* How many bytes the report has for this line. */
static size_t row_size(size_t line, uint8_t cause) {
    if (cause == BATQEMULO_ACCEPTED)
        return 0;
    return digits(line + 1) + (cause == BATQEMULO_STATEMENT_LATE ? MOVED_BYTES : DROPPED_BYTES);
}

static size_t report_size(const struct mending *mending) {
    size_t size = 0;
    for (size_t line = 0; line < mending->lines; line++)
        size += row_size(line, mending->causes[line]);
    return size;
}

static void put_report(uint8_t *to, const struct mending *mending) {
    for (size_t line = 0; line < mending->lines; line++) {
        uint8_t cause = mending->causes[line];
        if (cause == BATQEMULO_ACCEPTED)
            continue;
        to = put_decimal(to, (uint32_t)line + 1, '\t');
        to = cause == BATQEMULO_STATEMENT_LATE ? put_word(to, "moved\t", 6)
                                               : put_word(to, "dropped\t", 8);
        to = put_decimal(to, cause, '\n');
    }
}

/* The text is put down aside first: how long it is shows at its end. */
batqemulo_answer plain_mend(const uint8_t *text, size_t text_len, uint8_t *room, size_t room_len,
                            uint8_t *report, size_t report_len, uint32_t *report_written) {
    struct mending mending;
    uint8_t out[BATQEMULO_MAX_TEXT_BYTES];
    if (text_len > BATQEMULO_MAX_TEXT_BYTES)
        return answer(BATQEMULO_TEXT_TOO_LONG, 0);
    mending.page.statements = 0;
    mending.page.objections = 0;
    memset(mending.page.slots, 0, sizeof mending.page.slots);
    settle_statements(&mending, text, text + text_len);
    settle_objections(&mending, text, text + text_len);
    size_t bytes = put_text(out, &mending.page), told = report_size(&mending);
    if (room_len < bytes || report_len < told)
        return answer(BATQEMULO_ROOM_TOO_SHORT, 0);
    put_word(room, (const char *)out, bytes);
    put_report(report, &mending);
    *report_written = (uint32_t)told;
    return answer(BATQEMULO_ACCEPTED, bytes);
}
