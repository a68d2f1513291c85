/*
 * Batqemulo: which statements of a register stand, fall or are open, and how many turns of argument
 * that takes. This is the whole interface for C and C++. Link libbatqemulo.so or libbatqemulo.a.
 * The rules of registers, in words, are in docs/RULES.md, which is installed as
 * doc/batqemulo/RULES.md.
 *
 * What holds for every call:
 *
 * - Any input is either accepted or refused. There is nothing to check before a call, but look at
 *   `refusal` after each: where it is not 0, `value` is a place and not an answer, and a line 2 is
 *   easily taken for the label 2.
 * - A refusal leaves every room as found. An accepted call writes its answer at the start of each
 *   room and leaves what lies beyond the answer as found.
 * - A length beside a pointer counts entries, not bytes. A pointer may be NULL where its length
 *   is 0.
 * - No room may overlap another room or an input. Inputs are only read. Nothing else may write to
 *   an input or a room while a call runs.
 * - A room need not be set before a call, but for the old sheet and its totals in an update.
 * - A call on lists, or on a number by itself, takes less than 32 KiB of stack, a call on a text,
 *   or back from a catalogue, less than 72 KiB, a call for a reason or for a catalogue less than
 *   80 KiB, a call that mends less than 128 KiB. A call for a line of argument goes as deep as the
 *   line is long and takes less than 256 KiB.
 * - No call allocates, keeps anything from one call to the next or calls back, so calls may run in
 *   several threads at once.
 */
#ifndef BATQEMULO_H
#define BATQEMULO_H

#include <stddef.h>
#include <stdint.h>

#ifdef __cplusplus
extern "C" {
#endif

/* The version. Its parts have their place here alone; by them it is a text, such as "1.2.3", and a
 * number to compare, such as 10203. */
#define BATQEMULO_VERSION_MAJOR 0
#define BATQEMULO_VERSION_MINOR 4
#define BATQEMULO_VERSION_PATCH 1
#define BATQEMULO_VERSION                                                                          \
    BATQEMULO_PARTS(BATQEMULO_VERSION_MAJOR, BATQEMULO_VERSION_MINOR, BATQEMULO_VERSION_PATCH)
#define BATQEMULO_VERSION_NUMBER                                                                   \
    (BATQEMULO_VERSION_MAJOR * 10000 + BATQEMULO_VERSION_MINOR * 100 + BATQEMULO_VERSION_PATCH)
#define BATQEMULO_PARTS(major, minor, patch) BATQEMULO_JOIN(major, minor, patch)
#define BATQEMULO_JOIN(major, minor, patch) #major "." #minor "." #patch

/* Where the compiler can, it warns of a call whose answer nobody looks at. */
#if defined(__GNUC__)
#define BATQEMULO_CHECKED __attribute__((warn_unused_result))
#else
#define BATQEMULO_CHECKED
#endif

/* The largest register that is accepted. A room of BATQEMULO_MAX_TEXT_BYTES has space for every
 * catalogue, and for the text that is made of one. */
#define BATQEMULO_MAX_STATEMENTS 1024
#define BATQEMULO_MAX_OBJECTIONS 4096
#define BATQEMULO_MAX_TEXT_BYTES 65535

/* A room of so many bytes has space for every number as it is written, such as 1987.1234. */
#define BATQEMULO_MAX_NUMBER_BYTES 9

/* A room of so many bytes has space for every listing, and for every reason. */
#define BATQEMULO_MAX_LISTING_BYTES 131072

/* A room of so many entries has space for every line of argument. */
#define BATQEMULO_MAX_LINE_ENTRIES 1024

/* The most turns that the class exercise may be asked for. */
#define BATQEMULO_MAX_TURNS 6

/* A room of so many bytes has space for every sheet. */
#define BATQEMULO_MAX_SHEET_BYTES 256

/* So many totals go beside a sheet: of the statements that are open, that stand and that fall. */
#define BATQEMULO_TOTALS 3

/* A room of so many bytes has space for every report of what was mended. */
#define BATQEMULO_MAX_REPORT_BYTES 1048560

/* The length of what has none: of an open statement, of an idle objection and of a standoff. Every
 * other length is at most BATQEMULO_MAX_STATEMENTS. */
#define BATQEMULO_NO_LENGTH 65535

/* What every call answers. */
typedef struct {
    /* BATQEMULO_ACCEPTED, or the number of the refusal */
    uint32_t refusal;
    /* accepted: how many entries or bytes were written, or the answer of a call without a room;
     * refused: the place of the fault, which is 0 where the table of refusals names none */
    uint32_t value;
} batqemulo_answer;

/* The refusals, and what their place is. A line is counted from 1, an entry of a list from 0. */
enum batqemulo_refusal {
    BATQEMULO_ACCEPTED = 0,
    BATQEMULO_TEXT_TOO_LONG = 1,       /* over BATQEMULO_MAX_TEXT_BYTES */
    BATQEMULO_TEXT_NOT_ENDED = 2,      /* not empty, and its last byte is not 10 */
    BATQEMULO_LINE_SPOILED = 3,        /* the line; of a number by itself, which is none, 0 */
    BATQEMULO_STATEMENT_LATE = 4,      /* the line: a statement after an objection */
    BATQEMULO_NUMBER_ISSUED = 5,       /* the line: a statement's number that is already issued */
    BATQEMULO_TOO_MANY_STATEMENTS = 6, /* the line, for a text: over BATQEMULO_MAX_STATEMENTS */
    BATQEMULO_NUMBER_UNKNOWN = 7,      /* the line: an objector or target not on the register */
    BATQEMULO_OBJECTION_REPEATED = 8,  /* the line or entry of the later of the two */
    BATQEMULO_TOO_MANY_OBJECTIONS = 9, /* the line, for a text: over BATQEMULO_MAX_OBJECTIONS */
    BATQEMULO_ROOM_TOO_SHORT = 10,     /* a room is shorter than the answer */
    BATQEMULO_LISTS_UNEQUAL = 11,      /* the two lists of places differ in length */
    BATQEMULO_MARK_UNKNOWN = 12,       /* the entry: a mark other than 0 and 1 */
    BATQEMULO_PLACE_OUTSIDE = 13,      /* the entry: a place not below the number of marks */
    BATQEMULO_ASKED_UNKNOWN = 14,      /* the asked statement is not on the register */
    BATQEMULO_TOO_MANY_TURNS = 15,     /* more than BATQEMULO_MAX_TURNS asked */
    BATQEMULO_SHEET_UNSOUND = 16       /* the old sheet is not one of so many statements */
};

/* The marks that a caller hands over. Of an unread statement not every objection is known yet. */
enum batqemulo_mark { BATQEMULO_READ = 0, BATQEMULO_UNREAD = 1 };

/* The label of a statement, which is its code on a sheet too, and what the class exercise answers
 * of one: that it stands or falls within the turns, or BATQEMULO_OPEN where it does neither. */
enum batqemulo_label { BATQEMULO_OPEN = 0, BATQEMULO_STANDS = 1, BATQEMULO_FALLS = 2 };

/* The kind of an objection. */
enum batqemulo_kind {
    BATQEMULO_IDLE = 0,     /* changes nothing */
    BATQEMULO_FELLING = 1,  /* a standing statement against one that falls by it */
    BATQEMULO_DELAYING = 2, /* a falling statement against one that stands */
    BATQEMULO_STANDOFF = 3  /* an open statement against an open one */
};

/*
 * Numbers of statements.
 *
 * A number is of one of two forms. A plain number is 1 to 8 decimal digits, the first not 0. A year
 * number is a year of four digits, from 1000 to 2099, a point (byte 46), and a serial of 1 to 4
 * digits, the first not 0. So 1987, 1987.1 and 1987.10 are three numbers.
 *
 * Where a call takes a number or writes one as a uint32_t, it is the number's code:
 *
 *   of a plain number    its value, 1 to 99999999
 *   of a year number     100000000 + 10000 * year + serial; of 1987.14 it is 119870014
 *
 * So the codes of year numbers go from 110000001 to 120999999. 0, and every code that is of neither
 * form, such as 100000000 or 119870000, is nobody's. Of two numbers the one with the smaller code
 * is the earlier: plain numbers come before year numbers, and these go by year, then by serial.
 */

/* Reads a number as it is written, with nothing before or behind it. There is no room; the answer's
 * value is the code. Refusals: 3, with place 0, exactly if it is no number. */
batqemulo_answer batqemulo_number(const uint8_t *written, size_t written_len) BATQEMULO_CHECKED;

/* Writes the number of this code. The answer's value is how many bytes it has, at most
 * BATQEMULO_MAX_NUMBER_BYTES; no byte 0 is put behind them.
 * Refusals: 3, with place 0, exactly if the code is nobody's; then 10. */
batqemulo_answer batqemulo_number_text(uint32_t number, uint8_t *room,
                                       size_t room_len) BATQEMULO_CHECKED;

/*
 * Registers handed over as text.
 *
 * A text is lines, each ended by byte 10. The fields of a line are parted by one tab, byte 9:
 *
 *   S  number    mark       a statement; its mark is R (read) or U (unread)
 *   O  objector  target     an objection of one statement against another, by their numbers
 *
 * No number is issued twice. All statement lines come before all objection lines. A statement may
 * object to itself, and two may object to each other. No objection may come twice. There are no
 * blank lines and no spaces. The empty text is a register of no statements.
 *
 * Each call on a text but batqemulo_mend tests it for these faults, in this order, and reports the
 * first:
 *
 *    1  text_len is over BATQEMULO_MAX_TEXT_BYTES
 *    2  the text is not empty, and its last byte is not 10
 *
 * then those of one line after the other; the place is the line, counted from 1:
 *
 *    3  the line is spoiled: it is neither a statement line nor an objection line
 *    4  it is a statement line, and an objection line comes before it
 *    6  it is a statement line, and BATQEMULO_MAX_STATEMENTS of them come before it
 *    5  it is a statement line, and one before it has the same number
 *    9  it is an objection line, and BATQEMULO_MAX_OBJECTIONS of them come before it
 *    7  it is an objection line, and its objector or its target is on no statement line before it
 *    8  it is an objection line, and one before it has the same objector and target
 *
 * and at last those of what is asked:
 *
 *   14  the asked number is on no statement line
 *   15  more than BATQEMULO_MAX_TURNS are asked
 *   16  the old sheet is not one of a register of so many statements
 *   10  a room is shorter than the answer
 */

/* Writes the listing, which is a text too: lines ended by byte 10, fields parted by one tab.
 *
 *   REGISTER  statements  objections     how many there are
 *   number  label  length                for each statement line, in their order
 *   objector  target  kind  length       for each objection line, in their order
 *
 * A label is open, stands or falls; a kind is idle, felling, delaying or standoff. Lengths and
 * counts are decimal, and the length of what has none is written -. No listing has more than
 * BATQEMULO_MAX_LISTING_BYTES, and nothing is written behind its last byte 10.
 * Refusals: 1, 2, then 3 to 9 line by line, then 10. */
batqemulo_answer batqemulo_listing(const uint8_t *text, size_t text_len, uint8_t *room,
                                   size_t room_len) BATQEMULO_CHECKED;

/* Writes the label of each statement, in the order of the statement lines: one entry for each.
 * Refusals: 1, 2, then 3 to 9 line by line, then 10. */
batqemulo_answer batqemulo_text_labels(const uint8_t *text, size_t text_len, uint8_t *labels,
                                       size_t labels_len) BATQEMULO_CHECKED;

/* Writes the length of each statement, in the order of the statement lines: one entry for each. An
 * open statement has BATQEMULO_NO_LENGTH.
 * Refusals: 1, 2, then 3 to 9 line by line, then 10. */
batqemulo_answer batqemulo_text_lengths(const uint8_t *text, size_t text_len, uint16_t *lengths,
                                        size_t lengths_len) BATQEMULO_CHECKED;

/* Writes the sheet: two bits for each statement, in the order of the statement lines, four to a
 * byte, the first in the lowest bits. Their code is the label of the statement; 3 is unused. Spare
 * bits of the last byte are 0. So the sheet has (statements + 3) / 4 bytes, at most
 * BATQEMULO_MAX_SHEET_BYTES, and this is the answer's value. Beside it go BATQEMULO_TOTALS totals,
 * taken from the sheet, in the order of the codes: how many statements are open, how many stand and
 * how many fall.
 * Refusals: 1, 2, then 3 to 9 line by line, then 10 if either room is too short. */
batqemulo_answer batqemulo_sheet(const uint8_t *text, size_t text_len, uint8_t *sheet,
                                 size_t sheet_len, uint32_t *totals,
                                 size_t totals_len) BATQEMULO_CHECKED;

/* Updates a sheet and its totals, for a register of which marks or objections have changed, but not
 * the number and order of its statements. The rooms hold the old sheet and the old totals; they get
 * what batqemulo_sheet writes of the text, and the answer's value is the same. A byte without a
 * changed label stays as found.
 *
 * The old sheet may come from any register; only what it is itself is looked at. Refusal 16 is for
 *
 *   a sheet_len that is not (statements + 3) / 4; a longer sheet is refused as well
 *   a code 3
 *   a set spare bit
 *   a total, of the first BATQEMULO_TOTALS, that is not how often its code is on the old sheet;
 *     where totals_len is less, those that are handed over are looked at
 *
 * Refusals: 1, 2, then 3 to 9 line by line, then 16, then 10 if totals_len is below
 * BATQEMULO_TOTALS. */
batqemulo_answer batqemulo_sheet_update(const uint8_t *text, size_t text_len, uint8_t *sheet,
                                        size_t sheet_len, uint32_t *totals,
                                        size_t totals_len) BATQEMULO_CHECKED;

/* Writes the line of argument of the statement with this number, as the numbers of the statements
 * on it: the asked statement itself, then, while the length is above 0, the objector of the last
 * one whose length is one less and whose label is the other of stands and falls. Of several it is
 * the one whose statement line comes first. The line has as many entries as the asked statement's
 * length and one more, at most BATQEMULO_MAX_LINE_ENTRIES; an open statement's is itself alone.
 *
 * The asked number and the entries are codes; one that is nobody's is on no statement line.
 * Refusals: 1, 2, then 3 to 9 line by line, then 14, 10. */
batqemulo_answer batqemulo_text_line(const uint8_t *text, size_t text_len, uint32_t number,
                                     uint32_t *line, size_t line_len) BATQEMULO_CHECKED;

/* Writes the reason for the statement with this number, as rows of the listing: the statement's
 * own, then those of the objections in its reason, in the order of the objection lines. These are
 * all that are reached from the statement, going from target to objector, along standoffs, delaying
 * objections, and felling ones whose length equals the length of their target. An idle one, or a
 * felling one that is longer than its target, is in no reason, and nothing is reached by it. So
 * the reason for a falling or standing statement never comes back to a statement that it has
 * passed: each objector in it has a smaller length than its target. The reason for an open one has
 * standoffs only, and may come back.
 *
 *   number  label  length                of the asked statement
 *   objector  target  kind  length       of each objection in its reason
 *
 * A register of only these objections, and of the statements in them and the asked one, with their
 * marks, gives the asked statement the same label and length. No reason has more than
 * BATQEMULO_MAX_LISTING_BYTES, and nothing is written behind its last byte 10.
 *
 * The asked number is a code; one that is nobody's is on no statement line.
 * Refusals: 1, 2, then 3 to 9 line by line, then 14, 10. */
batqemulo_answer batqemulo_reason(const uint8_t *text, size_t text_len, uint32_t number,
                                  uint8_t *room, size_t room_len) BATQEMULO_CHECKED;

/* The class exercise: does the statement with this number stand within so many turns, does it fall
 * within so many. There is no room; the answer's value is BATQEMULO_STANDS or BATQEMULO_FALLS if
 * that is the statement's label and its length is at most turns, else BATQEMULO_OPEN for neither.
 * Refusals: 1, 2, then 3 to 9 line by line, then 14, 15. */
batqemulo_answer batqemulo_text_exercise(const uint8_t *text, size_t text_len, uint32_t number,
                                         uint32_t turns) BATQEMULO_CHECKED;

/* Mends a text: writes a register that every other call on a text accepts into the room, and beside
 * it a report of what was done. What is a register already is written byte for byte, and its report
 * is empty. Statements are settled first, then objections. Lines that stay keep their order.
 *
 *   cause
 *     2  dropped: the last line is not ended, whatever it holds
 *     3  dropped: the line is spoiled
 *     4  moved: a statement after an objection line, which goes behind the other statements
 *     5  dropped: a statement, and one with the same number was kept; that one is marked unread
 *     6  dropped: a statement, and BATQEMULO_MAX_STATEMENTS before it were kept; its number is
 *        unknown
 *     7  dropped: an objection whose objector or target is not the number of a kept statement; if
 *        only the objector is unknown, the target is marked unread
 *     8  dropped: an objection that was kept before
 *     9  dropped: an objection, and BATQEMULO_MAX_OBJECTIONS before it were kept; its target is
 *        marked unread
 *
 * A line has one cause: the first that holds of 2, 3, 5, 6 for a statement, and of 2, 3, 7, 8, 9
 * for an objection; a line that is moved and kept has 4. A number may be named before its
 * statement. A spoiled line has no other effect, nor has one that is not ended.
 *
 * The report has a line for each line that was dropped or moved, in the order of the text, ended by
 * byte 10, with fields parted by one tab:
 *
 *   line  dropped  cause                 line is counted from 1
 *   line  moved  4
 *
 * Where a mark alone was changed, the report has no line.
 *
 * The answer's value is how many bytes the mended text has, never more than text_len, and
 * *report_written how many the report has, never more than BATQEMULO_MAX_REPORT_BYTES.
 * report_written may not be NULL. On a refusal *report_written is as found, as the two rooms are.
 *
 * If only objections of unknown objectors against listed statements were dropped, and nothing was
 * moved, no falls or stands of the mended register is overturned when the objectors are listed
 * after all, with any marks and any objections against them, and the dropped objections and the old
 * marks are put back.
 * Refusals: 1, then 10 if either room is too short. */
batqemulo_answer batqemulo_mend(const uint8_t *text, size_t text_len, uint8_t *room,
                                size_t room_len, uint8_t *report, size_t report_len,
                                uint32_t *report_written) BATQEMULO_CHECKED;

/*
 * Catalogues.
 *
 * A catalogue is another form of a register text, with one line for each statement. Its lines are
 * called cards. Each is ended by byte 10, and its fields are parted by one tab, byte 9: those of a
 * statement line, then, as further fields, the numbers of the statements that object to it.
 *
 *   S  number  mark                          a statement to which none objects
 *   S  number  mark  objector  objector      one to which two object; there may be more
 *
 * No number is issued twice. An objector may be named before its own card, and a statement may name
 * itself. No card names an objector twice. The empty text is the catalogue of no statements.
 *
 * batqemulo_uncatalogue alone reads a catalogue; to every other call on a text a card with
 * objectors is a spoiled line. Labels, lengths and kinds are the same in both forms.
 */

/* Writes the catalogue of a text: a card for each statement line, in their order. On a card the
 * objectors stand in the order of the objection lines. For each objection the catalogue is shorter
 * than the text, by 3 bytes and the number of the target; so it is never longer.
 * Refusals: 1, 2, then 3 to 9 line by line, then 10. */
batqemulo_answer batqemulo_catalogue(const uint8_t *text, size_t text_len, uint8_t *room,
                                     size_t room_len) BATQEMULO_CHECKED;

/* Writes the text of a catalogue: a statement line for each card, in their order, then an objection
 * line for each objector. Objections are grouped by target, in the order of the cards, and those of
 * one target stand in the order of its card's fields. The text has at most
 * BATQEMULO_MAX_TEXT_BYTES.
 *
 * Of that text batqemulo_catalogue makes the same catalogue, byte for byte. Of the catalogue of a
 * text this call makes one with the same statement lines and the same objections, and with the same
 * bytes exactly if the objections of the text were so grouped already.
 *
 * A catalogue is tested for these faults, in this order, and the first is reported:
 *
 *    1  catalogue_len is over BATQEMULO_MAX_TEXT_BYTES
 *    2  the catalogue is not empty, and its last byte is not 10
 *
 * then those of one line after the other; the place is the line, counted from 1:
 *
 *    3  the line is spoiled: it is no card
 *    6  BATQEMULO_MAX_STATEMENTS cards come before it
 *    5  a card before it has the same number
 *    9  with its objectors, those of all lines so far are over BATQEMULO_MAX_OBJECTIONS
 *
 * then these, each over all lines; the place is the earliest line at fault:
 *
 *    7  it names an objector that has no card
 *    8  it names an objector twice
 *
 * and at last, with place 0:
 *
 *    1  the text of the catalogue would have more than BATQEMULO_MAX_TEXT_BYTES
 *   10  the room is shorter than that text
 */
batqemulo_answer batqemulo_uncatalogue(const uint8_t *catalogue, size_t catalogue_len,
                                       uint8_t *room, size_t room_len) BATQEMULO_CHECKED;

/*
 * Registers handed over as lists of pairs.
 *
 * marks[x] is the mark of the statement at place x. Pair i says that the statement at place
 * objectors[i] objects to the one at place targets[i]. A statement may object to itself, and two
 * may object to each other. No pair may come twice.
 *
 * Each call tests the whole of the lists for these faults, in this order, and reports the first:
 *
 *   11  objectors_len and targets_len differ; nothing else is looked at
 *    6  marks_len is over BATQEMULO_MAX_STATEMENTS
 *    9  there are more than BATQEMULO_MAX_OBJECTIONS pairs
 *   12  place: the first mark that is neither 0 nor 1
 *   13  place: the first pair of which either place is not below marks_len
 *    8  place: the first pair that stands earlier in the lists too
 *   14  the asked place is not below marks_len
 *   15  more than BATQEMULO_MAX_TURNS are asked
 *   10  a room is shorter than the answer
 */

/* Writes the label of each statement, in the order of the marks: marks_len entries.
 * Refusals: 11, 6, 9, 12, 13, 8, 10. */
batqemulo_answer batqemulo_pairs_labels(const uint8_t *marks, size_t marks_len,
                                        const uint32_t *objectors, size_t objectors_len,
                                        const uint32_t *targets, size_t targets_len,
                                        uint8_t *labels, size_t labels_len) BATQEMULO_CHECKED;

/* Writes the length of each statement, in the order of the marks: marks_len entries. It is the
 * least number of turns that suffices for the winner; an open statement has BATQEMULO_NO_LENGTH.
 * Refusals: 11, 6, 9, 12, 13, 8, 10. */
batqemulo_answer batqemulo_pairs_lengths(const uint8_t *marks, size_t marks_len,
                                         const uint32_t *objectors, size_t objectors_len,
                                         const uint32_t *targets, size_t targets_len,
                                         uint16_t *lengths, size_t lengths_len) BATQEMULO_CHECKED;

/* Writes the kind and the length of each objection, in the order of the pairs: as many entries as
 * there are pairs, in each of the two rooms. The length of a felling or delaying objection is 1
 * plus its objector's length; an idle one and a standoff have BATQEMULO_NO_LENGTH.
 * Refusals: 11, 6, 9, 12, 13, 8, and 10 if either room is too short. */
batqemulo_answer batqemulo_pairs_kinds(const uint8_t *marks, size_t marks_len,
                                       const uint32_t *objectors, size_t objectors_len,
                                       const uint32_t *targets, size_t targets_len, uint8_t *kinds,
                                       size_t kinds_len, uint16_t *lengths,
                                       size_t lengths_len) BATQEMULO_CHECKED;

/* Writes the line of argument of the statement at this place, as the places of the statements on
 * it: the asked statement itself, then, while the length is above 0, the objector of the last one
 * whose length is one less and whose label is the other of stands and falls. Of several it is the
 * one at the smallest place, whatever the order of the pairs. The line has as many entries as the
 * asked statement's length and one more, at most BATQEMULO_MAX_LINE_ENTRIES; an open statement's is
 * itself alone. Refusals: 11, 6, 9, 12, 13, 8, 14, 10. */
batqemulo_answer batqemulo_pairs_line(const uint8_t *marks, size_t marks_len,
                                      const uint32_t *objectors, size_t objectors_len,
                                      const uint32_t *targets, size_t targets_len, uint32_t place,
                                      uint32_t *line, size_t line_len) BATQEMULO_CHECKED;

/* The class exercise: does the statement at this place stand within so many turns, does it fall
 * within so many. There is no room; the answer's value is BATQEMULO_STANDS or BATQEMULO_FALLS if
 * that is the statement's label and its length is at most turns, else BATQEMULO_OPEN for neither.
 * Refusals: 11, 6, 9, 12, 13, 8, 14, 15. */
batqemulo_answer batqemulo_pairs_exercise(const uint8_t *marks, size_t marks_len,
                                          const uint32_t *objectors, size_t objectors_len,
                                          const uint32_t *targets, size_t targets_len,
                                          uint32_t place, uint32_t turns) BATQEMULO_CHECKED;

/*
 * Registers handed over as moves of the game.
 *
 * An objection of y against x is a move from x to y. So move i goes from the target from[i] to the
 * objector to[i], and each call answers what the call of the same name for pairs answers to
 * objectors = to and targets = from: the same entries, and the same refusals and places.
 */

/* Writes the label of each statement, in the order of the marks: marks_len entries.
 * Refusals: 11, 6, 9, 12, 13, 8, 10. */
batqemulo_answer batqemulo_moves_labels(const uint8_t *marks, size_t marks_len,
                                        const uint32_t *from, size_t from_len, const uint32_t *to,
                                        size_t to_len, uint8_t *labels,
                                        size_t labels_len) BATQEMULO_CHECKED;

/* Writes the length of each statement, or BATQEMULO_NO_LENGTH, in the order of the marks: marks_len
 * entries. Refusals: 11, 6, 9, 12, 13, 8, 10. */
batqemulo_answer batqemulo_moves_lengths(const uint8_t *marks, size_t marks_len,
                                         const uint32_t *from, size_t from_len, const uint32_t *to,
                                         size_t to_len, uint16_t *lengths,
                                         size_t lengths_len) BATQEMULO_CHECKED;

#ifdef __cplusplus
}
#endif

#endif
