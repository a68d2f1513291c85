/* A program as a customer would write it: it includes the header, hands small registers over by
 * every call and looks at what comes back. The rooms are taken from the heap at just the length
 * that is needed, so that valgrind sees any step outside them; each call gets rooms that nobody has
 * set, so that it sees too where an answer hangs on what was in them. With an argument, the program
 * does what valgrind has to notice. */
#include "batqemulo.h"

#include <stdio.h>
#include <stdlib.h>
#include <string.h>

#define NO BATQEMULO_NO_LENGTH

/* Most statements and most pairs of the registers below. */
enum { MOST = 4 };

/* A register with its answers. */
struct example {
    const char *name;
    size_t statements;
    uint8_t marks[MOST];
    uint8_t labels[MOST];
    uint16_t lengths[MOST];
    size_t pairs;
    uint32_t objectors[MOST];
    uint32_t targets[MOST];
    uint8_t kinds[MOST];
    uint16_t kind_lengths[MOST];
    const char *text;
    const char *listing;
    /* the catalogue, which goes back to the text as it is */
    const char *catalogue;
    /* one statement by its place and its number's code, and its line of argument told by each and
     * as it is written */
    uint32_t place;
    uint32_t number;
    size_t entries;
    uint32_t places[MOST];
    uint32_t numbers[MOST];
    const char *written[MOST];
    /* the reason for it */
    const char *reason;
    /* the sheet, which is one byte, and its totals */
    uint8_t sheet;
    uint32_t totals[BATQEMULO_TOTALS];
};

/* The game a, b, c, d, which are the places 0 to 3 and the numbers 101 to 104. */
static const struct example game = {
    "the game a, b, c, d",
    4,
    {BATQEMULO_READ, BATQEMULO_READ, BATQEMULO_READ, BATQEMULO_READ},
    {BATQEMULO_OPEN, BATQEMULO_OPEN, BATQEMULO_FALLS, BATQEMULO_STANDS},
    {NO, NO, 1, 0},
    4,
    {1, 0, 2, 3},
    {0, 1, 1, 2},
    {BATQEMULO_STANDOFF, BATQEMULO_STANDOFF, BATQEMULO_IDLE, BATQEMULO_FELLING},
    {NO, NO, NO, 1},
    "S\t101\tR\nS\t102\tR\nS\t103\tR\nS\t104\tR\n"
    "O\t102\t101\nO\t101\t102\nO\t103\t102\nO\t104\t103\n",
    "REGISTER\t4\t4\n101\topen\t-\n102\topen\t-\n103\tfalls\t1\n104\tstands\t0\n"
    "102\t101\tstandoff\t-\n101\t102\tstandoff\t-\n103\t102\tidle\t-\n104\t103\tfelling\t1\n",
    "S\t101\tR\t102\nS\t102\tR\t101\t103\nS\t103\tR\t104\nS\t104\tR\n",
    2,
    103,
    2,
    {2, 3},
    {103, 104},
    {"103", "104"},
    "103\tfalls\t1\n104\t103\tfelling\t1\n",
    0x60,
    {2, 1, 1},
};

/* 4 against 3, 3 against 2, 2 against 1, and 1 is unread; they are the places 0 to 3 in this order.
 */
static const struct example chain = {
    "the chain 4, 3, 2, 1",
    4,
    {BATQEMULO_READ, BATQEMULO_READ, BATQEMULO_READ, BATQEMULO_UNREAD},
    {BATQEMULO_STANDS, BATQEMULO_FALLS, BATQEMULO_STANDS, BATQEMULO_FALLS},
    {0, 1, 2, 3},
    3,
    {0, 1, 2},
    {1, 2, 3},
    {BATQEMULO_FELLING, BATQEMULO_DELAYING, BATQEMULO_FELLING},
    {1, 2, 3},
    "S\t4\tR\nS\t3\tR\nS\t2\tR\nS\t1\tU\nO\t4\t3\nO\t3\t2\nO\t2\t1\n",
    "REGISTER\t4\t3\n4\tstands\t0\n3\tfalls\t1\n2\tstands\t2\n1\tfalls\t3\n"
    "4\t3\tfelling\t1\n3\t2\tdelaying\t2\n2\t1\tfelling\t3\n",
    "S\t4\tR\nS\t3\tR\t4\nS\t2\tR\t3\nS\t1\tU\t2\n",
    3,
    1,
    4,
    {3, 2, 1, 0},
    {1, 2, 3, 4},
    {"1", "2", "3", "4"},
    "1\tfalls\t3\n4\t3\tfelling\t1\n3\t2\tdelaying\t2\n2\t1\tfelling\t3\n",
    0x99,
    {0, 2, 2},
};

/* 1987 against 1987.14, 198714 against 1987, and 1987.1, which is unread, against itself: 1987.14,
 * 1987, 198714 and 1987.1 are the places 0 to 3. */
static const struct example years = {
    "the acquisitions of 1987",
    4,
    {BATQEMULO_READ, BATQEMULO_READ, BATQEMULO_READ, BATQEMULO_UNREAD},
    {BATQEMULO_STANDS, BATQEMULO_FALLS, BATQEMULO_STANDS, BATQEMULO_OPEN},
    {2, 1, 0, NO},
    3,
    {1, 2, 3},
    {0, 1, 3},
    {BATQEMULO_DELAYING, BATQEMULO_FELLING, BATQEMULO_STANDOFF},
    {2, 1, NO},
    "S\t1987.14\tR\nS\t1987\tR\nS\t198714\tR\nS\t1987.1\tU\n"
    "O\t1987\t1987.14\nO\t198714\t1987\nO\t1987.1\t1987.1\n",
    "REGISTER\t4\t3\n1987.14\tstands\t2\n1987\tfalls\t1\n198714\tstands\t0\n1987.1\topen\t-\n"
    "1987\t1987.14\tdelaying\t2\n198714\t1987\tfelling\t1\n1987.1\t1987.1\tstandoff\t-\n",
    "S\t1987.14\tR\t1987\nS\t1987\tR\t198714\nS\t198714\tR\nS\t1987.1\tU\t1987.1\n",
    0,
    119870014,
    3,
    {0, 1, 2},
    {119870014, 1987, 198714},
    {"1987.14", "1987", "198714"},
    "1987.14\tstands\t2\n1987\t1987.14\tdelaying\t2\n198714\t1987\tfelling\t1\n",
    0x19,
    {1, 2, 1},
};

static unsigned passed, failed;

static void check(const struct example *e, const char *what, int good) {
    if (good) {
        passed++;
        return;
    }
    failed++;
    printf("FAILED %s: %s\n", e->name, what);
}

static void *room(size_t size) {
    void *room = malloc(size);
    if (room == NULL) {
        puts("no memory");
        exit(2);
    }
    return room;
}

static int accepted(batqemulo_answer answer, size_t entries) {
    return answer.refusal == BATQEMULO_ACCEPTED && answer.value == entries;
}

static int refused(batqemulo_answer answer, uint32_t number, uint32_t place) {
    return answer.refusal == number && answer.value == place;
}

static int all_are(const uint8_t *bytes, size_t count, uint8_t value) {
    while (count > 0 && bytes[count - 1] == value)
        count--;
    return count == 0;
}

static void ask_labels(const struct example *e) {
    uint8_t *labels = room(e->statements);
    batqemulo_answer answer =
        batqemulo_pairs_labels(e->marks, e->statements, e->objectors, e->pairs, e->targets,
                               e->pairs, labels, e->statements);
    check(e, "labels of pairs",
          accepted(answer, e->statements) && memcmp(labels, e->labels, e->statements) == 0);
    free(labels);
    labels = room(e->statements);
    answer = batqemulo_moves_labels(e->marks, e->statements, e->targets, e->pairs, e->objectors,
                                    e->pairs, labels, e->statements);
    check(e, "labels of moves",
          accepted(answer, e->statements) && memcmp(labels, e->labels, e->statements) == 0);
    free(labels);
}

static void ask_lengths(const struct example *e) {
    size_t size = e->statements * sizeof(uint16_t);
    uint16_t *lengths = room(size);
    batqemulo_answer answer =
        batqemulo_pairs_lengths(e->marks, e->statements, e->objectors, e->pairs, e->targets,
                                e->pairs, lengths, e->statements);
    check(e, "lengths of pairs",
          accepted(answer, e->statements) && memcmp(lengths, e->lengths, size) == 0);
    free(lengths);
    lengths = room(size);
    answer = batqemulo_moves_lengths(e->marks, e->statements, e->targets, e->pairs, e->objectors,
                                     e->pairs, lengths, e->statements);
    check(e, "lengths of moves",
          accepted(answer, e->statements) && memcmp(lengths, e->lengths, size) == 0);
    free(lengths);
}

static void ask_kinds(const struct example *e) {
    size_t size = e->pairs * sizeof(uint16_t);
    uint8_t *kinds = room(e->pairs);
    uint16_t *lengths = room(size);
    batqemulo_answer answer =
        batqemulo_pairs_kinds(e->marks, e->statements, e->objectors, e->pairs, e->targets, e->pairs,
                              kinds, e->pairs, lengths, e->pairs);
    check(e, "kinds of pairs",
          accepted(answer, e->pairs) && memcmp(kinds, e->kinds, e->pairs) == 0 &&
              memcmp(lengths, e->kind_lengths, size) == 0);
    free(lengths);
    free(kinds);
}

/* The same register as a text, in a room of its own like the others and without a zero behind. */
static void ask_text(const struct example *e) {
    size_t bytes = strlen(e->text), size = e->statements * sizeof(uint16_t);
    uint8_t *text = room(bytes), *labels = room(e->statements);
    uint16_t *lengths = room(size);
    memcpy(text, e->text, bytes);
    batqemulo_answer answer = batqemulo_text_labels(text, bytes, labels, e->statements);
    check(e, "labels of a text",
          accepted(answer, e->statements) && memcmp(labels, e->labels, e->statements) == 0);
    answer = batqemulo_text_lengths(text, bytes, lengths, e->statements);
    check(e, "lengths of a text",
          accepted(answer, e->statements) && memcmp(lengths, e->lengths, size) == 0);
    check(e, "the text afterwards", memcmp(text, e->text, bytes) == 0);
    free(lengths);
    free(labels);
    free(text);
}

/* The listing in a room that is just as long, then in the room that has space for every listing. */
static void ask_listing(const struct example *e) {
    const uint8_t *text = (const uint8_t *)e->text;
    size_t bytes = strlen(e->text), printed = strlen(e->listing);
    uint8_t *listing = room(printed);
    batqemulo_answer answer = batqemulo_listing(text, bytes, listing, printed);
    check(e, "the listing", accepted(answer, printed) && memcmp(listing, e->listing, printed) == 0);
    answer = batqemulo_listing(text, bytes, listing, printed - 1);
    check(e, "a short room for the listing", refused(answer, BATQEMULO_ROOM_TOO_SHORT, 0));
    free(listing);
    listing = room(BATQEMULO_MAX_LISTING_BYTES);
    answer = batqemulo_listing(text, bytes, listing, BATQEMULO_MAX_LISTING_BYTES);
    check(e, "the listing in a large room",
          accepted(answer, printed) && memcmp(listing, e->listing, printed) == 0);
    free(listing);
}

/* The line of argument by places for lists, by numbers for a text. */
static void ask_line(const struct example *e) {
    size_t size = e->entries * sizeof(uint32_t);
    uint32_t *line = room(size);
    batqemulo_answer answer =
        batqemulo_pairs_line(e->marks, e->statements, e->objectors, e->pairs, e->targets, e->pairs,
                             e->place, line, e->entries);
    check(e, "line of pairs", accepted(answer, e->entries) && memcmp(line, e->places, size) == 0);
    answer =
        batqemulo_text_line((const uint8_t *)e->text, strlen(e->text), e->number, line, e->entries);
    check(e, "line of a text", accepted(answer, e->entries) && memcmp(line, e->numbers, size) == 0);
    free(line);
}

/* The asked number is read as somebody has typed it, and those on its line are written back, in a
 * room that is just as long and in the one that has space for every number, of which the rest stays
 * as it was. */
static void ask_numbers(const struct example *e) {
    size_t typed = strlen(e->written[0]);
    uint8_t *field = room(typed);
    memcpy(field, e->written[0], typed);
    check(e, "the asked number", accepted(batqemulo_number(field, typed), e->number));
    free(field);
    for (size_t i = 0; i < e->entries; i++) {
        size_t bytes = strlen(e->written[i]);
        uint8_t *text = room(bytes), large[BATQEMULO_MAX_NUMBER_BYTES];
        batqemulo_answer answer = batqemulo_number_text(e->numbers[i], text, bytes);
        check(e, "the text of a number",
              accepted(answer, bytes) && memcmp(text, e->written[i], bytes) == 0);
        check(e, "and back", accepted(batqemulo_number(text, bytes), e->numbers[i]));
        free(text);
        memset(large, 7, sizeof large);
        answer = batqemulo_number_text(e->numbers[i], large, sizeof large);
        check(e, "the text in a large room",
              accepted(answer, bytes) && memcmp(large, e->written[i], bytes) == 0 &&
                  all_are(large + bytes, sizeof large - bytes, 7));
    }
}

/* The reason in a room that is just as long, then in one byte less, then in the room that has space
 * for every reason, of which the rest stays as it was. */
static void ask_reason(const struct example *e) {
    const uint8_t *text = (const uint8_t *)e->text;
    size_t bytes = strlen(e->text), printed = strlen(e->reason);
    uint8_t *reason = room(printed);
    batqemulo_answer answer = batqemulo_reason(text, bytes, e->number, reason, printed);
    check(e, "the reason", accepted(answer, printed) && memcmp(reason, e->reason, printed) == 0);
    memset(reason, 7, printed);
    answer = batqemulo_reason(text, bytes, e->number, reason, printed - 1);
    check(e, "a short room for the reason",
          refused(answer, BATQEMULO_ROOM_TOO_SHORT, 0) && all_are(reason, printed, 7));
    free(reason);
    reason = room(BATQEMULO_MAX_LISTING_BYTES);
    memset(reason, 7, BATQEMULO_MAX_LISTING_BYTES);
    answer = batqemulo_reason(text, bytes, e->number, reason, BATQEMULO_MAX_LISTING_BYTES);
    check(e, "the reason in a large room",
          accepted(answer, printed) && memcmp(reason, e->reason, printed) == 0);
    check(e, "the rest of the large room",
          all_are(reason + printed, BATQEMULO_MAX_LISTING_BYTES - printed, 7));
    free(reason);
}

/* A way from one form to the other. */
typedef batqemulo_answer way(const uint8_t *, size_t, uint8_t *, size_t);

/* Goes from the one text to the other in a room that is just as long, then in one byte less, then
 * in the room that has space for every text, of which the rest stays as it was. */
static void go(const struct example *e, const char *name, way *by, const char *from,
               const char *to) {
    size_t bytes = strlen(from), right = strlen(to);
    uint8_t *text = room(bytes), *made = room(right);
    memcpy(text, from, bytes);
    batqemulo_answer answer = by(text, bytes, made, right);
    check(e, name, accepted(answer, right) && memcmp(made, to, right) == 0);
    memset(made, 7, right);
    answer = by(text, bytes, made, right - 1);
    check(e, "a byte less",
          refused(answer, BATQEMULO_ROOM_TOO_SHORT, 0) && all_are(made, right, 7));
    free(made);
    made = room(BATQEMULO_MAX_TEXT_BYTES);
    memset(made, 7, BATQEMULO_MAX_TEXT_BYTES);
    answer = by(text, bytes, made, BATQEMULO_MAX_TEXT_BYTES);
    check(e, "a large room", accepted(answer, right) && memcmp(made, to, right) == 0);
    check(e, "the rest of it", all_are(made + right, BATQEMULO_MAX_TEXT_BYTES - right, 7));
    check(e, "what it was made of", memcmp(text, from, bytes) == 0);
    free(made);
    free(text);
}

static void go_there_and_back(const struct example *e) {
    go(e, "the catalogue", batqemulo_catalogue, e->text, e->catalogue);
    go(e, "the way back from it", batqemulo_uncatalogue, e->catalogue, e->text);
}

static int has_sheet(const struct example *e, const uint8_t *sheet, const uint32_t *totals) {
    return sheet[0] == e->sheet && memcmp(totals, e->totals, sizeof e->totals) == 0;
}

/* The sheet in rooms that are just as long, then in the room that has space for every sheet, of
 * which the rest stays as it was. */
static void ask_sheet(const struct example *e) {
    const uint8_t *text = (const uint8_t *)e->text;
    size_t bytes = strlen(e->text);
    uint8_t *sheet = room(1);
    uint32_t *totals = room(sizeof e->totals);
    batqemulo_answer answer = batqemulo_sheet(text, bytes, sheet, 1, totals, BATQEMULO_TOTALS);
    check(e, "the sheet", accepted(answer, 1) && has_sheet(e, sheet, totals));
    free(sheet);
    sheet = room(BATQEMULO_MAX_SHEET_BYTES);
    memset(sheet, 7, BATQEMULO_MAX_SHEET_BYTES);
    memset(totals, 7, sizeof e->totals);
    answer =
        batqemulo_sheet(text, bytes, sheet, BATQEMULO_MAX_SHEET_BYTES, totals, BATQEMULO_TOTALS);
    check(e, "the sheet in a large room", accepted(answer, 1) && has_sheet(e, sheet, totals));
    check(e, "the rest of its room", all_are(sheet + 1, BATQEMULO_MAX_SHEET_BYTES - 1, 7));
    free(totals);
    free(sheet);
}

/* A sheet on which all is open is updated, and then once more, when nothing has changed. */
static void update_sheet(const struct example *e) {
    const uint8_t *text = (const uint8_t *)e->text;
    size_t bytes = strlen(e->text);
    uint8_t *sheet = room(1);
    uint32_t *totals = room(sizeof e->totals);
    sheet[0] = 0;
    memset(totals, 0, sizeof e->totals);
    totals[BATQEMULO_OPEN] = (uint32_t)e->statements;
    batqemulo_answer answer =
        batqemulo_sheet_update(text, bytes, sheet, 1, totals, BATQEMULO_TOTALS);
    check(e, "the updated sheet", accepted(answer, 1) && has_sheet(e, sheet, totals));
    answer = batqemulo_sheet_update(text, bytes, sheet, 1, totals, BATQEMULO_TOTALS);
    check(e, "the sheet that stays", accepted(answer, 1) && has_sheet(e, sheet, totals));
    free(totals);
    free(sheet);
}

/* What is open gives itself alone, whatever the room. */
static void ask_open_lines(const struct example *e) {
    uint32_t line[BATQEMULO_MAX_LINE_ENTRIES];
    for (uint32_t x = 0; x < e->statements; x++)
        if (e->labels[x] == BATQEMULO_OPEN) {
            batqemulo_answer answer =
                batqemulo_pairs_line(e->marks, e->statements, e->objectors, e->pairs, e->targets,
                                     e->pairs, x, line, BATQEMULO_MAX_LINE_ENTRIES);
            check(e, "line of an open statement", accepted(answer, 1) && line[0] == x);
        }
}

/* The exercise has no room: its answer is the value. */
static void ask_exercise(const struct example *e) {
    for (uint32_t turns = 0; turns <= BATQEMULO_MAX_TURNS; turns++) {
        uint8_t right = turns < e->lengths[e->place] ? BATQEMULO_OPEN : e->labels[e->place];
        batqemulo_answer answer = batqemulo_pairs_exercise(
            e->marks, e->statements, e->objectors, e->pairs, e->targets, e->pairs, e->place, turns);
        check(e, "exercise on pairs", accepted(answer, right));
        answer =
            batqemulo_text_exercise((const uint8_t *)e->text, strlen(e->text), e->number, turns);
        check(e, "exercise on a text", accepted(answer, right));
    }
}

/* A refusal gives its number and place, and the room stays as it was. */
static void be_refused(const struct example *e) {
    uint8_t labels[MOST] = {7, 7, 7, 7};
    const uint8_t as_found[MOST] = {7, 7, 7, 7};
    batqemulo_answer answer = batqemulo_pairs_labels(
        e->marks, e->statements, e->objectors, e->pairs, e->targets, e->pairs - 1, labels, MOST);
    check(e, "unequal lists", refused(answer, BATQEMULO_LISTS_UNEQUAL, 0));
    answer = batqemulo_pairs_labels(e->marks, e->statements - 1, e->objectors, e->pairs, e->targets,
                                    e->pairs, labels, MOST);
    check(e, "a place outside", refused(answer, BATQEMULO_PLACE_OUTSIDE, (uint32_t)e->pairs - 1));
    answer = batqemulo_pairs_labels(e->marks, e->statements, e->objectors, e->pairs, e->targets,
                                    e->pairs, labels, e->statements - 1);
    check(e, "a short room", refused(answer, BATQEMULO_ROOM_TOO_SHORT, 0));
    answer = batqemulo_pairs_labels(e->marks, e->statements, e->objectors, e->pairs, e->targets,
                                    e->pairs, NULL, 0);
    check(e, "no room", refused(answer, BATQEMULO_ROOM_TOO_SHORT, 0));
    check(e, "the room after refusals", memcmp(labels, as_found, sizeof labels) == 0);
}

/* A text that breaks off in a line, one that has lost its first byte, and one without room. */
static void have_text_refused(const struct example *e) {
    uint8_t labels[MOST] = {7, 7, 7, 7};
    const uint8_t as_found[MOST] = {7, 7, 7, 7};
    const uint8_t *text = (const uint8_t *)e->text;
    size_t bytes = strlen(e->text);
    batqemulo_answer answer = batqemulo_text_labels(text, bytes - 1, labels, MOST);
    check(e, "a text that is not ended", refused(answer, BATQEMULO_TEXT_NOT_ENDED, 0));
    answer = batqemulo_text_labels(text + 1, bytes - 1, labels, MOST);
    check(e, "a spoiled line", refused(answer, BATQEMULO_LINE_SPOILED, 1));
    answer = batqemulo_text_labels(text, bytes, labels, e->statements - 1);
    check(e, "a short room for a text", refused(answer, BATQEMULO_ROOM_TOO_SHORT, 0));
    answer = batqemulo_text_lengths(text, bytes, NULL, 0);
    check(e, "no room for a text", refused(answer, BATQEMULO_ROOM_TOO_SHORT, 0));
    check(e, "the room after refused texts", memcmp(labels, as_found, sizeof labels) == 0);
}

/* A statement that is not there, a turn too many, and a room that is one entry short. */
static void have_asked_refused(const struct example *e) {
    uint32_t line[MOST] = {7, 7, 7, 7};
    const uint32_t as_found[MOST] = {7, 7, 7, 7};
    const uint8_t *text = (const uint8_t *)e->text;
    size_t bytes = strlen(e->text);
    batqemulo_answer answer =
        batqemulo_pairs_line(e->marks, e->statements, e->objectors, e->pairs, e->targets, e->pairs,
                             (uint32_t)e->statements, line, MOST);
    check(e, "line of an unknown place", refused(answer, BATQEMULO_ASKED_UNKNOWN, 0));
    answer = batqemulo_text_line(text, bytes, 0, line, MOST);
    check(e, "line of number 0", refused(answer, BATQEMULO_ASKED_UNKNOWN, 0));
    answer = batqemulo_text_exercise(text, bytes, 100000000, 0);
    check(e, "exercise on nine digits", refused(answer, BATQEMULO_ASKED_UNKNOWN, 0));
    answer = batqemulo_text_exercise(text, bytes, e->number, BATQEMULO_MAX_TURNS + 1);
    check(e, "a turn too many", refused(answer, BATQEMULO_TOO_MANY_TURNS, 0));
    answer = batqemulo_text_line(text, bytes, e->number, line, e->entries - 1);
    check(e, "a short room for a line", refused(answer, BATQEMULO_ROOM_TOO_SHORT, 0));
    answer = batqemulo_text_line(text, bytes, e->number, NULL, 0);
    check(e, "no room for a line", refused(answer, BATQEMULO_ROOM_TOO_SHORT, 0));
    check(e, "the room after refused lines", memcmp(line, as_found, sizeof line) == 0);
}

/* A room that is a byte short, and none. */
static void have_number_refused(const struct example *e) {
    uint8_t text[BATQEMULO_MAX_NUMBER_BYTES];
    memset(text, 7, sizeof text);
    batqemulo_answer answer = batqemulo_number_text(e->number, text, strlen(e->written[0]) - 1);
    check(e, "a short room for a number", refused(answer, BATQEMULO_ROOM_TOO_SHORT, 0));
    answer = batqemulo_number_text(e->number, NULL, 0);
    check(e, "no room for a number", refused(answer, BATQEMULO_ROOM_TOO_SHORT, 0));
    check(e, "the room after refused numbers", all_are(text, sizeof text, 7));
}

/* The text is refused before the number, and the number before the room. */
static void have_reason_refused(const struct example *e) {
    const uint8_t *text = (const uint8_t *)e->text;
    size_t bytes = strlen(e->text);
    batqemulo_answer answer = batqemulo_reason(text, bytes - 1, 0, NULL, 0);
    check(e, "reason of a text that is not ended", refused(answer, BATQEMULO_TEXT_NOT_ENDED, 0));
    answer = batqemulo_reason(text + 1, bytes - 1, 0, NULL, 0);
    check(e, "reason of a spoiled text", refused(answer, BATQEMULO_LINE_SPOILED, 1));
    answer = batqemulo_reason(text, bytes, 0, NULL, 0);
    check(e, "reason for number 0", refused(answer, BATQEMULO_ASKED_UNKNOWN, 0));
    answer = batqemulo_reason(text, bytes, UINT32_MAX, NULL, 0);
    check(e, "reason for the greatest number", refused(answer, BATQEMULO_ASKED_UNKNOWN, 0));
    answer = batqemulo_reason(text, bytes, e->number, NULL, 0);
    check(e, "no room for a reason", refused(answer, BATQEMULO_ROOM_TOO_SHORT, 0));
}

/* The text is refused before the room, and so is the catalogue. */
static void have_catalogue_refused(const struct example *e) {
    const uint8_t *text = (const uint8_t *)e->text, *catalogue = (const uint8_t *)e->catalogue;
    size_t bytes = strlen(e->text), cards = strlen(e->catalogue);
    uint8_t made[] = {7, 7};
    batqemulo_answer answer = batqemulo_catalogue(text, bytes - 1, NULL, 0);
    check(e, "catalogue of what is not ended", refused(answer, BATQEMULO_TEXT_NOT_ENDED, 0));
    answer = batqemulo_catalogue(text + 1, bytes - 1, NULL, 0);
    check(e, "catalogue of a spoiled text", refused(answer, BATQEMULO_LINE_SPOILED, 1));
    answer = batqemulo_catalogue(text, bytes, made, sizeof made);
    check(e, "a short room for a catalogue", refused(answer, BATQEMULO_ROOM_TOO_SHORT, 0));
    answer = batqemulo_uncatalogue(catalogue, cards - 1, NULL, 0);
    check(e, "a catalogue that is not ended", refused(answer, BATQEMULO_TEXT_NOT_ENDED, 0));
    answer = batqemulo_uncatalogue(catalogue + 1, cards - 1, NULL, 0);
    check(e, "a spoiled catalogue", refused(answer, BATQEMULO_LINE_SPOILED, 1));
    answer = batqemulo_uncatalogue(text, bytes, NULL, 0);
    check(e, "a register text as a catalogue",
          refused(answer, BATQEMULO_LINE_SPOILED, (uint32_t)e->statements + 1));
    answer = batqemulo_uncatalogue(catalogue, cards, made, sizeof made);
    check(e, "a short room for the way back", refused(answer, BATQEMULO_ROOM_TOO_SHORT, 0));
    answer = batqemulo_uncatalogue(catalogue, cards, NULL, 0);
    check(e, "no room for the way back", refused(answer, BATQEMULO_ROOM_TOO_SHORT, 0));
    check(e, "the room after refusals", made[0] == 7 && made[1] == 7);
}

/* The text is refused before the old sheet, and the old sheet before the room. On the sheet every
 * statement falls, one total is wrong, and all stays as it was. */
static void have_sheet_refused(const struct example *e) {
    const uint8_t *text = (const uint8_t *)e->text;
    size_t bytes = strlen(e->text);
    uint8_t sheet[] = {0xaa, 0};
    uint32_t totals[] = {0, 0, 5}, right[] = {0, 0, 4};
    const uint32_t as_found[] = {0, 0, 5};
    batqemulo_answer answer = batqemulo_sheet_update(text, bytes - 1, sheet, 1, totals, 3);
    check(e, "update by a text that is not ended", refused(answer, BATQEMULO_TEXT_NOT_ENDED, 0));
    answer = batqemulo_sheet_update(text, bytes, sheet, 1, totals, 3);
    check(e, "a wrong total", refused(answer, BATQEMULO_SHEET_UNSOUND, 0));
    answer = batqemulo_sheet_update(text, bytes, sheet, 2, right, 3);
    check(e, "a sheet that is too long", refused(answer, BATQEMULO_SHEET_UNSOUND, 0));
    answer = batqemulo_sheet_update(text, bytes, NULL, 0, NULL, 0);
    check(e, "no old sheet", refused(answer, BATQEMULO_SHEET_UNSOUND, 0));
    answer = batqemulo_sheet_update(text, bytes, sheet, 1, totals, 2);
    check(e, "two totals to update", refused(answer, BATQEMULO_ROOM_TOO_SHORT, 0));
    answer = batqemulo_sheet(text, bytes, sheet, 0, totals, 3);
    check(e, "a short room for the sheet", refused(answer, BATQEMULO_ROOM_TOO_SHORT, 0));
    answer = batqemulo_sheet(text, bytes, sheet, 1, totals, 2);
    check(e, "a short room for the totals", refused(answer, BATQEMULO_ROOM_TOO_SHORT, 0));
    check(e, "the sheet after refusals", sheet[0] == 0xaa && sheet[1] == 0);
    check(e, "the totals after refusals", memcmp(totals, as_found, sizeof totals) == 0);
}

/* What is a register already comes back as it is, also into the room that has space for every text,
 * of which the rest stays as it was. With nothing to report, there need be no room for it. */
static void mend_register(const struct example *e) {
    const uint8_t *text = (const uint8_t *)e->text;
    size_t bytes = strlen(e->text);
    uint32_t reported = 7;
    uint8_t *mended = room(bytes);
    batqemulo_answer answer = batqemulo_mend(text, bytes, mended, bytes, NULL, 0, &reported);
    check(e, "the mended text",
          accepted(answer, bytes) && reported == 0 && memcmp(mended, text, bytes) == 0);
    free(mended);
    mended = room(BATQEMULO_MAX_TEXT_BYTES);
    memset(mended, 7, BATQEMULO_MAX_TEXT_BYTES);
    answer = batqemulo_mend(text, bytes, mended, BATQEMULO_MAX_TEXT_BYTES, NULL, 0, &reported);
    check(e, "the mended text in a large room",
          accepted(answer, bytes) && reported == 0 && memcmp(mended, text, bytes) == 0);
    check(e, "the rest of its room", all_are(mended + bytes, BATQEMULO_MAX_TEXT_BYTES - bytes, 7));
    free(mended);
}

/* What an old system has left: a line for each cause that a short text can have. */
static const struct {
    struct example as;
    const char *mended;
    const char *report;
} old = {
    {.name = "an old export",
     .text = "S\t1\tR\nS\t2\tR\nS\t1\tU\nO\t1\t2\n\nS\t4\tR\nO\t9\t4\nO\t1\t2\nO\t2\t1"},
    "S\t1\tU\nS\t2\tR\nS\t4\tU\nO\t1\t2\n",
    "3\tdropped\t5\n5\tdropped\t3\n6\tmoved\t4\n7\tdropped\t7\n8\tdropped\t8\n9\tdropped\t2\n",
};

/* In rooms of which either is a byte short, then in rooms that are just as long. */
static void mend_old(void) {
    const uint8_t *text = (const uint8_t *)old.as.text;
    size_t bytes = strlen(old.as.text), left = strlen(old.mended), told = strlen(old.report);
    uint32_t reported = 7;
    uint8_t *mended = room(left), *report = room(told);
    memset(mended, 7, left);
    memset(report, 7, told);
    batqemulo_answer answer =
        batqemulo_mend(text, bytes, mended, left - 1, report, told, &reported);
    check(&old.as, "a short room for the text", refused(answer, BATQEMULO_ROOM_TOO_SHORT, 0));
    answer = batqemulo_mend(text, bytes, mended, left, report, told - 1, &reported);
    check(&old.as, "a short room for the report", refused(answer, BATQEMULO_ROOM_TOO_SHORT, 0));
    check(&old.as, "the rooms after refusals",
          all_are(mended, left, 7) && all_are(report, told, 7) && reported == 7);
    free(report);
    free(mended);
    mended = room(left), report = room(told);
    answer = batqemulo_mend(text, bytes, mended, left, report, told, &reported);
    check(&old.as, "what is mended",
          accepted(answer, left) && memcmp(mended, old.mended, left) == 0);
    check(&old.as, "what is reported", reported == told && memcmp(report, old.report, told) == 0);
    free(report);
    free(mended);
}

/* Too long a text, whatever it holds, is the one that is not mended. */
static void have_mend_refused(void) {
    size_t bytes = BATQEMULO_MAX_TEXT_BYTES + 1;
    uint32_t reported = 7;
    uint8_t *text = room(bytes);
    memset(text, '\n', bytes);
    batqemulo_answer answer = batqemulo_mend(text, bytes, NULL, 0, NULL, 0, &reported);
    check(&old.as, "a text that is too long",
          refused(answer, BATQEMULO_TEXT_TOO_LONG, 0) && reported == 7);
    free(text);
}

/* A register whose objections stand in another order than that of their targets. */
static const struct {
    struct example as;
    const char *grouped;
} mixed = {
    {.name = "a register of mixed objections",
     .text = "S\t1\tR\nS\t2\tU\nS\t1987.1\tR\nO\t2\t1987.1\nO\t2\t1\nO\t1987.1\t2\nO\t1\t1\n",
     .catalogue = "S\t1\tR\t2\t1\nS\t2\tU\t1987.1\nS\t1987.1\tR\t2\n"},
    "S\t1\tR\nS\t2\tU\nS\t1987.1\tR\nO\t2\t1\nO\t1\t1\nO\t1987.1\t2\nO\t2\t1987.1\n",
};

static void group_mixed(void) {
    go(&mixed.as, "the catalogue", batqemulo_catalogue, mixed.as.text, mixed.as.catalogue);
    go(&mixed.as, "grouped by target", batqemulo_uncatalogue, mixed.as.catalogue, mixed.grouped);
    go(&mixed.as, "the same again", batqemulo_catalogue, mixed.grouped, mixed.as.catalogue);
}

/* What a catalogue is refused for, with the line, whatever the room. */
static void have_cards_refused(void) {
    static const struct {
        struct example as;
        uint32_t refusal, line;
    } cards[] = {
        {{.name = "a tab behind", .text = "S\t1\tR\t1\nS\t2\tR\t\n"}, BATQEMULO_LINE_SPOILED, 2},
        {{.name = "issued twice", .text = "S\t1\tR\t9\nS\t1\tU\n"}, BATQEMULO_NUMBER_ISSUED, 2},
        {{.name = "unknown", .text = "S\t1\tR\t1\t1\nS\t2\tR\t9\n"}, BATQEMULO_NUMBER_UNKNOWN, 2},
        {{.name = "named twice", .text = "S\t1\tR\t2\t1\t2\nS\t2\tR\n"},
         BATQEMULO_OBJECTION_REPEATED,
         1},
    };
    for (size_t i = 0; i < sizeof cards / sizeof cards[0]; i++) {
        const uint8_t *text = (const uint8_t *)cards[i].as.text;
        size_t bytes = strlen(cards[i].as.text);
        uint8_t made[64];
        memset(made, 7, sizeof made);
        check(
            &cards[i].as, "no room",
            refused(batqemulo_uncatalogue(text, bytes, NULL, 0), cards[i].refusal, cards[i].line));
        batqemulo_answer answer = batqemulo_uncatalogue(text, bytes, made, sizeof made);
        check(&cards[i].as, "a large room",
              refused(answer, cards[i].refusal, cards[i].line) && all_are(made, sizeof made, 7));
    }
}

/* What is no number, and codes that are nobody's, whatever the room. */
static void have_no_numbers(void) {
    static const struct example none = {.name = "no number"};
    static const char *const fields[] = {"",        "0",          "07",    "100000000", "1987.",
                                         "1987.01", "1987.12345", "999.1", "2100.1",    "1987,14"};
    static const uint32_t codes[] = {0, 100000000, 110000000, 119870000, 121000000, UINT32_MAX};
    uint8_t text[BATQEMULO_MAX_NUMBER_BYTES];
    memset(text, 7, sizeof text);
    for (size_t i = 0; i < sizeof fields / sizeof fields[0]; i++) {
        batqemulo_answer answer = batqemulo_number((const uint8_t *)fields[i], strlen(fields[i]));
        check(&none, fields[i], refused(answer, BATQEMULO_LINE_SPOILED, 0));
    }
    for (size_t i = 0; i < sizeof codes / sizeof codes[0]; i++) {
        batqemulo_answer answer = batqemulo_number_text(codes[i], text, sizeof text);
        check(&none, "a code that is nobody's", refused(answer, BATQEMULO_LINE_SPOILED, 0));
        answer = batqemulo_number_text(codes[i], NULL, 0);
        check(&none, "such a code, and no room", refused(answer, BATQEMULO_LINE_SPOILED, 0));
    }
    check(&none, "the room", all_are(text, sizeof text, 7));
}

/* Where every length is 0, every pointer may be NULL. */
static void ask_of_nothing(void) {
    static const struct example nothing = {.name = "the empty register"};
    check(&nothing, "labels",
          accepted(batqemulo_pairs_labels(NULL, 0, NULL, 0, NULL, 0, NULL, 0), 0));
    check(&nothing, "kinds",
          accepted(batqemulo_pairs_kinds(NULL, 0, NULL, 0, NULL, 0, NULL, 0, NULL, 0), 0));
    check(&nothing, "labels of a text", accepted(batqemulo_text_labels(NULL, 0, NULL, 0), 0));
    check(&nothing, "lengths of a text",
          accepted(batqemulo_text_lengths((const uint8_t *)"", 0, NULL, 0), 0));
    check(&nothing, "no number", refused(batqemulo_number(NULL, 0), BATQEMULO_LINE_SPOILED, 0));
    check(&nothing, "no room for its listing",
          refused(batqemulo_listing(NULL, 0, NULL, 0), BATQEMULO_ROOM_TOO_SHORT, 0));
    check(&nothing, "no line of argument",
          refused(batqemulo_pairs_line(NULL, 0, NULL, 0, NULL, 0, 0, NULL, 0),
                  BATQEMULO_ASKED_UNKNOWN, 0));
    check(&nothing, "no reason",
          refused(batqemulo_reason(NULL, 0, 1, NULL, 0), BATQEMULO_ASKED_UNKNOWN, 0));
    check(&nothing, "no room for its totals",
          refused(batqemulo_sheet(NULL, 0, NULL, 0, NULL, 0), BATQEMULO_ROOM_TOO_SHORT, 0));
    check(&nothing, "no totals to update",
          refused(batqemulo_sheet_update(NULL, 0, NULL, 0, NULL, 0), BATQEMULO_ROOM_TOO_SHORT, 0));
    check(&nothing, "no exercise",
          refused(batqemulo_text_exercise(NULL, 0, 1, 0), BATQEMULO_ASKED_UNKNOWN, 0));
    uint32_t reported = 7;
    check(&nothing, "its catalogue", accepted(batqemulo_catalogue(NULL, 0, NULL, 0), 0));
    check(&nothing, "back from its catalogue",
          accepted(batqemulo_uncatalogue(NULL, 0, NULL, 0), 0));
    check(&nothing, "nothing to mend",
          accepted(batqemulo_mend(NULL, 0, NULL, 0, NULL, 0, &reported), 0) && reported == 0);
}

/* Its sheet has no bytes, but totals. */
static void ask_sheet_of_nothing(void) {
    static const struct example nothing = {.name = "the empty register"};
    uint32_t totals[] = {7, 7, 7};
    uint8_t empty[] = {7};
    batqemulo_answer answer = batqemulo_sheet(NULL, 0, NULL, 0, totals, 3);
    check(&nothing, "the sheet", accepted(answer, 0) && (totals[0] | totals[1] | totals[2]) == 0);
    answer = batqemulo_sheet_update(NULL, 0, NULL, 0, totals, 3);
    check(&nothing, "the updated sheet", accepted(answer, 0));
    answer = batqemulo_sheet_update(NULL, 0, empty, 0, totals, 3);
    check(&nothing, "a room of no bytes", accepted(answer, 0) && empty[0] == 7);
    answer = batqemulo_sheet_update(NULL, 0, empty, 1, totals, 3);
    check(&nothing, "a byte too many", refused(answer, BATQEMULO_SHEET_UNSOUND, 0));
}

/* An update reads its rooms: what nobody has set is no old sheet. */
static int update_unset(void) {
    uint8_t *sheet = room(1);
    uint32_t *totals = room(sizeof game.totals);
    batqemulo_answer answer =
        batqemulo_sheet_update((const uint8_t *)game.text, strlen(game.text), sheet, 1, totals, 3);
    printf("%u\n", answer.refusal);
    free(totals);
    free(sheet);
    return 0;
}

int main(int argc, char **argv) {
    (void)argv;
    if (argc > 1)
        return update_unset();
    const struct example *examples[] = {&game, &chain, &years};
    for (size_t i = 0; i < sizeof examples / sizeof examples[0]; i++) {
        ask_labels(examples[i]);
        ask_lengths(examples[i]);
        ask_kinds(examples[i]);
        ask_text(examples[i]);
        ask_listing(examples[i]);
        ask_line(examples[i]);
        ask_numbers(examples[i]);
        ask_reason(examples[i]);
        ask_sheet(examples[i]);
        update_sheet(examples[i]);
        mend_register(examples[i]);
        go_there_and_back(examples[i]);
        ask_open_lines(examples[i]);
        ask_exercise(examples[i]);
        be_refused(examples[i]);
        have_text_refused(examples[i]);
        have_asked_refused(examples[i]);
        have_number_refused(examples[i]);
        have_reason_refused(examples[i]);
        have_sheet_refused(examples[i]);
        have_catalogue_refused(examples[i]);
    }
    mend_old();
    have_mend_refused();
    group_mixed();
    have_cards_refused();
    have_no_numbers();
    ask_of_nothing();
    ask_sheet_of_nothing();
    printf("%u passed, %u failed\n", passed, failed);
    return failed == 0 ? 0 : 1;
}
