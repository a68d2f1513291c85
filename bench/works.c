/* The calls that are timed, each on the register that is drawn: those that answer for all of its
 * statements, those that are asked for one, the one that mends, those that look for repeats, the
 * one for a reason, those that read and write numbers, and those to a catalogue and back. */
#include "works.h"

#include "batqemulo.h"
#include "plain.h"
#include "registers.h"

#include <string.h>

/* The library's solver without the search for repeated pairs, of the crate bench_solver. */
uint32_t bench_solver_label(const uint8_t *marks, size_t marks_len, const uint32_t *objectors,
                            size_t objectors_len, const uint32_t *targets, size_t targets_len,
                            uint8_t *labels, size_t labels_len, uint16_t *lengths,
                            size_t lengths_len);

/* The library's checks of lists alone, the search among them: 1 if the lists are in order. */
uint32_t bench_solver_check(const uint8_t *marks, size_t marks_len, const uint32_t *objectors,
                            size_t objectors_len, const uint32_t *targets, size_t targets_len);

/* The place of the statement that is asked for, but for a reason. */
enum { ASKED = 0 };

static struct rooms {
    uint8_t labels[BATQEMULO_MAX_STATEMENTS];
    uint16_t lengths[BATQEMULO_MAX_STATEMENTS];
    uint8_t listing[BATQEMULO_MAX_LISTING_BYTES];
    uint32_t line[BATQEMULO_MAX_LINE_ENTRIES];
    uint8_t reason[BATQEMULO_MAX_LISTING_BYTES];
    uint8_t mended[BATQEMULO_MAX_TEXT_BYTES];
    uint8_t report[BATQEMULO_MAX_REPORT_BYTES];
    uint32_t reported;
    uint8_t catalogue[BATQEMULO_MAX_TEXT_BYTES];
    uint8_t old_form[BATQEMULO_MAX_TEXT_BYTES];
    batqemulo_answer answer;
} by_library, by_plain;

/* The answer of a work that says only yes, which is 1, or no: no lists that are drawn have another
 * fault than a repeat. */
static batqemulo_answer yes_or_repeated(uint32_t said) {
    return answer(said == 1 ? BATQEMULO_ACCEPTED : BATQEMULO_OBJECTION_REPEATED, 0);
}

static void call_library(void) {
    by_library.answer =
        batqemulo_pairs_labels(drawn.marks, drawn.statements, drawn.objectors, drawn.pairs,
                               drawn.targets, drawn.pairs, by_library.labels, drawn.statements);
}

static void call_plain(void) {
    by_plain.answer =
        plain_pairs_labels(drawn.marks, drawn.statements, drawn.objectors, drawn.pairs,
                           drawn.targets, drawn.pairs, by_plain.labels, drawn.statements);
}

static void solve_library(void) {
    by_library.answer = yes_or_repeated(bench_solver_label(
        drawn.marks, drawn.statements, drawn.objectors, drawn.pairs, drawn.targets, drawn.pairs,
        by_library.labels, drawn.statements, by_library.lengths, drawn.statements));
}

static void solve_plain(void) {
    by_plain.answer = yes_or_repeated(plain_solver_label(
        drawn.marks, drawn.statements, drawn.objectors, drawn.pairs, drawn.targets, drawn.pairs,
        by_plain.labels, drawn.statements, by_plain.lengths, drawn.statements));
}

static void list_library(void) {
    by_library.answer =
        batqemulo_listing(drawn.text, drawn.bytes, by_library.listing, sizeof by_library.listing);
}

static void list_plain(void) {
    by_plain.answer =
        plain_listing(drawn.text, drawn.bytes, by_plain.listing, sizeof by_plain.listing);
}

const struct work works_on_all[WORKS] = {
    {"batqemulo_pairs_labels", {call_library, call_plain}, 0},
    {"the solver by itself", {solve_library, solve_plain}, 0},
    {"batqemulo_listing", {list_library, list_plain}, 0},
};

static void line_library(void) {
    by_library.answer = batqemulo_pairs_line(drawn.marks, drawn.statements, drawn.objectors,
                                             drawn.pairs, drawn.targets, drawn.pairs, ASKED,
                                             by_library.line, BATQEMULO_MAX_LINE_ENTRIES);
}

static void line_plain(void) {
    by_plain.answer =
        plain_pairs_line(drawn.marks, drawn.statements, drawn.objectors, drawn.pairs, drawn.targets,
                         drawn.pairs, ASKED, by_plain.line, BATQEMULO_MAX_LINE_ENTRIES);
}

static void exercise_library_within(uint32_t turns) {
    by_library.answer =
        batqemulo_pairs_exercise(drawn.marks, drawn.statements, drawn.objectors, drawn.pairs,
                                 drawn.targets, drawn.pairs, ASKED, turns);
}

static void exercise_plain_within(uint32_t turns) {
    by_plain.answer = plain_pairs_exercise(drawn.marks, drawn.statements, drawn.objectors,
                                           drawn.pairs, drawn.targets, drawn.pairs, ASKED, turns);
}

static void exercise_library(void) {
    exercise_library_within(BATQEMULO_MAX_TURNS);
}

static void exercise_plain(void) {
    exercise_plain_within(BATQEMULO_MAX_TURNS);
}

static void no_turns_library(void) {
    exercise_library_within(0);
}

static void no_turns_plain(void) {
    exercise_plain_within(0);
}

/* With 0 turns nothing is asked but the statement itself: what is left is the check of the lists
 * and the clearing of rooms. */
const struct work works_on_one[WORKS] = {
    {"batqemulo_pairs_line", {line_library, line_plain}, 0},
    {"pairs_exercise, 6 turns", {exercise_library, exercise_plain}, 0},
    {"pairs_exercise, 0 turns", {no_turns_library, no_turns_plain}, 0},
};

static void mend_library(void) {
    by_library.answer =
        batqemulo_mend(drawn.text, drawn.bytes, by_library.mended, sizeof by_library.mended,
                       by_library.report, sizeof by_library.report, &by_library.reported);
}

static void mend_plain(void) {
    by_plain.answer = plain_mend(drawn.text, drawn.bytes, by_plain.mended, sizeof by_plain.mended,
                                 by_plain.report, sizeof by_plain.report, &by_plain.reported);
}

const struct work works_on_old[MENDING_WORKS] = {
    {"batqemulo_mend", {mend_library, mend_plain}, 1},
};

static void check_library(void) {
    by_library.answer = yes_or_repeated(bench_solver_check(
        drawn.marks, drawn.statements, drawn.objectors, drawn.pairs, drawn.targets, drawn.pairs));
}

static void check_plain(void) {
    by_plain.answer = yes_or_repeated(plain_check(drawn.marks, drawn.statements, drawn.objectors,
                                                  drawn.pairs, drawn.targets, drawn.pairs)
                                          .refusal == BATQEMULO_ACCEPTED);
}

const struct work works_on_repeats[SEARCHING_WORKS] = {
    {"the search by itself", {check_library, check_plain}, 0},
    {"batqemulo_pairs_labels", {call_library, call_plain}, 0},
    {"batqemulo_listing", {list_library, list_plain}, 0},
    {"batqemulo_mend", {mend_library, mend_plain}, 1},
};

static void reason_library(void) {
    by_library.answer = batqemulo_reason(drawn.text, drawn.bytes, drawn.asked, by_library.reason,
                                         sizeof by_library.reason);
}

static void reason_plain(void) {
    by_plain.answer =
        plain_reason(drawn.text, drawn.bytes, drawn.asked, by_plain.reason, sizeof by_plain.reason);
}

const struct work works_on_reasons[REASON_WORKS] = {
    {"batqemulo_reason", {reason_library, reason_plain}, 0},
};

const struct work works_on_numbers[NUMBER_WORKS] = {
    {"batqemulo_listing", {list_library, list_plain}, 0},
    {"batqemulo_mend", {mend_library, mend_plain}, 1},
};

static void catalogue_library(void) {
    by_library.answer = batqemulo_catalogue(drawn.text, drawn.bytes, by_library.catalogue,
                                            sizeof by_library.catalogue);
}

static void catalogue_plain(void) {
    by_plain.answer =
        plain_catalogue(drawn.text, drawn.bytes, by_plain.catalogue, sizeof by_plain.catalogue);
}

static void uncatalogue_library(void) {
    by_library.answer = batqemulo_uncatalogue(drawn.catalogue, drawn.catalogue_bytes,
                                              by_library.old_form, sizeof by_library.old_form);
}

static void uncatalogue_plain(void) {
    by_plain.answer = plain_uncatalogue(drawn.catalogue, drawn.catalogue_bytes, by_plain.old_form,
                                        sizeof by_plain.old_form);
}

const struct work works_on_catalogues[CATALOGUE_WORKS] = {
    {"batqemulo_catalogue", {catalogue_library, catalogue_plain}, 0},
    {"batqemulo_uncatalogue", {uncatalogue_library, uncatalogue_plain}, 0},
};

int sides_agree(const struct work *work, uint32_t refusal) {
    memset(&by_library, 9, sizeof by_library);
    memset(&by_plain, 9, sizeof by_plain);
    work->sides[LIBRARY]();
    work->sides[PLAIN]();
    return by_library.answer.refusal == refusal &&
           memcmp(&by_library, &by_plain, sizeof by_plain) == 0;
}
