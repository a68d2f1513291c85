/* How much stack the calls take. Each is made on a stack of its own that was painted before, on a
 * register that makes it go deep, and what is painted over is held against what the header
 * promises. The two calls on a number by itself are held to what it promises of lists. */
#define _XOPEN_SOURCE 700 /* for contexts */

#include "batqemulo.h"

#include <stdio.h>
#include <string.h>
#include <ucontext.h>

enum {
    KIB = 1024,
    STACK = 1024 * KIB,
    PAINT = 0xA5,
    STATEMENTS = BATQEMULO_MAX_STATEMENTS,
    PLAIN = 64
};

static uint8_t stack[STACK];
static ucontext_t here, there;

/* A text that lines are put behind. */
struct text {
    char bytes[BATQEMULO_MAX_TEXT_BYTES + 1];
    size_t len;
};

/* A chain: each statement objects to the one before it, so that lengths go up to the limit. In the
 * text the first have plain numbers, and all others year numbers. The same is there as a catalogue,
 * in which every number but the first is named before its line. */
static uint8_t marks[STATEMENTS];
static uint32_t objectors[STATEMENTS - 1], targets[STATEMENTS - 1];
static struct text text, cards;

/* The chain with more lines behind it, of which some are dropped for each cause: what is mended. */
static struct text old;

static uint8_t bytes[BATQEMULO_MAX_LISTING_BYTES];
static uint16_t lengths[STATEMENTS];
static uint32_t line[STATEMENTS];
static batqemulo_answer answer;

/* A sheet on which all is open, to be updated. */
static uint8_t sheet[BATQEMULO_MAX_SHEET_BYTES];
static uint32_t totals[BATQEMULO_TOTALS] = {STATEMENTS, 0, 0};

/* The report of what was mended. */
static uint8_t report[BATQEMULO_MAX_REPORT_BYTES];
static uint32_t reported;

static void put(struct text *to, const char *bytes) {
    to->len += (size_t)sprintf(to->bytes + to->len, "%s", bytes);
}

/* Writes the number of a statement, and what comes next. */
static void put_number(struct text *to, uint32_t x, const char *next) {
    char *end = to->bytes + to->len;
    int len = x <= PLAIN ? sprintf(end, "%u", (unsigned)x)
                         : sprintf(end, "%u.%u", 1000 + (unsigned)x, 1 + (unsigned)x % 9);
    to->len += (size_t)len;
    put(to, next);
}

static void make_chain(void) {
    for (uint32_t x = 1; x < STATEMENTS; x++) {
        objectors[x - 1] = x;
        targets[x - 1] = x - 1;
    }
    for (uint32_t x = 1; x <= STATEMENTS; x++) {
        put(&text, "S\t");
        put_number(&text, x, "\tR\n");
    }
    for (uint32_t x = 1; x < STATEMENTS; x++) {
        put(&text, "O\t");
        put_number(&text, x + 1, "\t");
        put_number(&text, x, "\n");
    }
}

static void make_cards(void) {
    for (uint32_t x = 1; x <= STATEMENTS; x++) {
        put(&cards, "S\t");
        put_number(&cards, x, "\tR");
        if (x < STATEMENTS) {
            put(&cards, "\t");
            put_number(&cards, x + 1, "");
        }
        put(&cards, "\n");
    }
}

static void make_old(void) {
    old = text;
    put(&old, "\nS\t1\tR\nS\t2000\tR\nO\t2000\t1\nO\t2\t1\n");
    for (uint32_t i = 0; i < BATQEMULO_MAX_OBJECTIONS; i++) {
        put(&old, "O\t");
        put_number(&old, i % PLAIN + 1, "\t");
        put_number(&old, i / PLAIN + 1, "\n");
    }
    put(&old, "O\t1");
}

#define PAIRS marks, STATEMENTS, objectors, STATEMENTS - 1, targets, STATEMENTS - 1
#define OF(text) (const uint8_t *)(text).bytes, (text).len
#define TEXT OF(text)

static void pairs_labels(void) {
    answer = batqemulo_pairs_labels(PAIRS, bytes, sizeof bytes);
}

static void pairs_lengths(void) {
    answer = batqemulo_pairs_lengths(PAIRS, lengths, STATEMENTS);
}

static void pairs_kinds(void) {
    answer = batqemulo_pairs_kinds(PAIRS, bytes, sizeof bytes, lengths, STATEMENTS);
}

static void pairs_exercise(void) {
    answer = batqemulo_pairs_exercise(PAIRS, 0, 6);
}

static void pairs_line(void) {
    answer = batqemulo_pairs_line(PAIRS, 0, line, STATEMENTS);
}

static void text_labels(void) {
    answer = batqemulo_text_labels(TEXT, bytes, sizeof bytes);
}

static void text_lengths(void) {
    answer = batqemulo_text_lengths(TEXT, lengths, STATEMENTS);
}

static void text_exercise(void) {
    answer = batqemulo_text_exercise(TEXT, 1, 6);
}

static void text_line(void) {
    answer = batqemulo_text_line(TEXT, 1, line, STATEMENTS);
}

static void listing(void) {
    answer = batqemulo_listing(TEXT, bytes, sizeof bytes);
}

static void reason(void) {
    answer = batqemulo_reason(TEXT, 1, bytes, sizeof bytes);
}

static void fresh_sheet(void) {
    answer = batqemulo_sheet(TEXT, bytes, sizeof bytes, line, STATEMENTS);
}

static void mend(void) {
    answer = batqemulo_mend(OF(old), bytes, sizeof bytes, report, sizeof report, &reported);
}

static void catalogue(void) {
    answer = batqemulo_catalogue(TEXT, bytes, sizeof bytes);
}

static void uncatalogue(void) {
    answer = batqemulo_uncatalogue(OF(cards), bytes, sizeof bytes);
}

static void sheet_update(void) {
    answer = batqemulo_sheet_update(TEXT, sheet, sizeof sheet, totals, BATQEMULO_TOTALS);
}

static void number(void) {
    answer = batqemulo_number((const uint8_t *)"1987.1234", BATQEMULO_MAX_NUMBER_BYTES);
}

static void number_text(void) {
    answer = batqemulo_number_text(119871234, bytes, sizeof bytes);
}

/* Stacks grow downwards: what was used reaches from its end down to the last byte without paint. */
static size_t used(void (*call)(void)) {
    size_t clean = 0;
    memset(stack, PAINT, sizeof stack);
    getcontext(&there);
    there.uc_stack.ss_sp = stack;
    there.uc_stack.ss_size = sizeof stack;
    there.uc_link = &here;
    makecontext(&there, call, 0);
    swapcontext(&here, &there);
    while (clean < sizeof stack && stack[clean] == PAINT)
        clean++;
    return sizeof stack - clean;
}

int main(void) {
    static const struct {
        const char *name;
        void (*call)(void);
        size_t kib;
    } calls[] = {{"number", number, 32},
                 {"text of a number", number_text, 32},
                 {"labels of lists", pairs_labels, 32},
                 {"lengths of lists", pairs_lengths, 32},
                 {"kinds of lists", pairs_kinds, 32},
                 {"exercise on lists", pairs_exercise, 32},
                 {"labels of a text", text_labels, 72},
                 {"lengths of a text", text_lengths, 72},
                 {"exercise on a text", text_exercise, 72},
                 {"listing", listing, 72},
                 {"sheet", fresh_sheet, 72},
                 {"update of a sheet", sheet_update, 72},
                 {"way back from a catalogue", uncatalogue, 72},
                 {"reason", reason, 80},
                 {"catalogue", catalogue, 80},
                 {"mending", mend, 128},
                 {"line in lists", pairs_line, 256},
                 {"line in a text", text_line, 256}};
    unsigned passed = 0, failed = 0;
    make_chain();
    make_cards();
    make_old();
    for (size_t k = 0; k < sizeof calls / sizeof *calls; k++) {
        size_t took = used(calls[k].call);
        int ok = answer.refusal == 0 && took < calls[k].kib * KIB;
        printf("%s %s: %u bytes of stack\n", ok ? "ok" : "FAILED", calls[k].name, (unsigned)took);
        passed += (unsigned)ok;
        failed += (unsigned)!ok;
    }
    printf("%u passed, %u failed\n", passed, failed);
    return failed != 0;
}
