/* Lengths that 32 bits do not hold: of the text, of each list, of a number and of each room, for
 * every exported function. A call that looked at the low bits only would see a good register, equal
 * lists, a number or a room that is too short. The memory is address space that nobody has touched;
 * only what a call reads or writes takes room. With an argument, the program only says by its exit
 * whether it can have so much. */
#define _DEFAULT_SOURCE /* for MAP_ANONYMOUS and MAP_NORESERVE */

#include "batqemulo.h"

#include <stdio.h>
#include <string.h>
#include <sys/mman.h>

#define WIDE ((size_t)1 << 32)
/* the longest length below, of entries of at most four bytes */
#define MOST (WIDE + 65535)
#define SPAN (4 * MOST)

/* A register of one statement, which stands; its catalogue is the same. As lists there is one
 * statement too, which objects to itself: all bytes are 0. */
#define TEXT "S\t1\tR\n"
enum { TEXT_LEN = sizeof TEXT - 1 };

/* A number by itself, of as many bytes as the text has, and its code. */
#define NUMBER "1987.1"
enum { CODE = 119870001 };

static uint8_t *text;                /* TEXT, and zeros behind it */
static uint8_t *written;             /* NUMBER, and zeros behind it */
static const void *zeros;            /* marks and both lists of places */
static uint8_t *first, *second;      /* two rooms */
static uint32_t report_written = 77; /* as found */

/* What is handed over; the text's length is the number's too. */
struct input {
    size_t text, marks, objectors, targets;
};

static const struct input good = {TEXT_LEN, 1, 1, 1};

#define TEXT_OF(in) text, (in)->text
#define LISTS_OF(in)                                                                               \
    zeros, (in)->marks, zeros, (in)->objectors, zeros, (in)->targets /* pairs or moves */
#define CALL(name) static batqemulo_answer name(const struct input *in, size_t n, size_t m)

CALL(number) {
    (void)n, (void)m;
    return batqemulo_number(written, in->text);
}

CALL(number_text) {
    (void)in, (void)m;
    return batqemulo_number_text(CODE, first, n);
}

CALL(listing) {
    (void)m;
    return batqemulo_listing(TEXT_OF(in), first, n);
}

CALL(text_labels) {
    (void)m;
    return batqemulo_text_labels(TEXT_OF(in), first, n);
}

CALL(text_lengths) {
    (void)m;
    return batqemulo_text_lengths(TEXT_OF(in), (uint16_t *)(void *)first, n);
}

CALL(text_line) {
    (void)m;
    return batqemulo_text_line(TEXT_OF(in), 1, (uint32_t *)(void *)first, n);
}

CALL(reason) {
    (void)m;
    return batqemulo_reason(TEXT_OF(in), 1, first, n);
}

CALL(text_exercise) {
    (void)n, (void)m;
    return batqemulo_text_exercise(TEXT_OF(in), 1, 6);
}

CALL(sheet) {
    return batqemulo_sheet(TEXT_OF(in), first, n, (uint32_t *)(void *)second, m);
}

CALL(sheet_update) {
    return batqemulo_sheet_update(TEXT_OF(in), first, n, (uint32_t *)(void *)second, m);
}

CALL(mend) {
    return batqemulo_mend(TEXT_OF(in), first, n, second, m, &report_written);
}

CALL(catalogue) {
    (void)m;
    return batqemulo_catalogue(TEXT_OF(in), first, n);
}

CALL(uncatalogue) {
    (void)m;
    return batqemulo_uncatalogue(TEXT_OF(in), first, n);
}

CALL(pairs_labels) {
    (void)m;
    return batqemulo_pairs_labels(LISTS_OF(in), first, n);
}

CALL(pairs_lengths) {
    (void)m;
    return batqemulo_pairs_lengths(LISTS_OF(in), (uint16_t *)(void *)first, n);
}

CALL(pairs_kinds) {
    return batqemulo_pairs_kinds(LISTS_OF(in), first, n, (uint16_t *)(void *)second, m);
}

CALL(pairs_line) {
    (void)m;
    return batqemulo_pairs_line(LISTS_OF(in), 0, (uint32_t *)(void *)first, n);
}

CALL(pairs_exercise) {
    (void)n, (void)m;
    return batqemulo_pairs_exercise(LISTS_OF(in), 0, 6);
}

CALL(moves_labels) {
    (void)m;
    return batqemulo_moves_labels(LISTS_OF(in), first, n);
}

CALL(moves_lengths) {
    (void)m;
    return batqemulo_moves_lengths(LISTS_OF(in), (uint16_t *)(void *)first, n);
}

/* What a room holds: bytes, how many, and how many bytes an entry has; no entry is no room. */
struct held {
    const char *bytes;
    size_t size, entry;
};

#define NONE                                                                                       \
    { "", 0, 0 }

/* A call, and what it gives for the register or the number above: the value, and what the rooms
 * then hold. */
struct call {
    const char *name;
    int of_text;
    batqemulo_answer (*ask)(const struct input *, size_t, size_t);
    uint32_t value;
    struct held first, second;
};

#define LISTING "REGISTER\t1\t0\n1\tstands\t0\n"
#define TOTALS "\0\0\0\0\1\0\0\0\0\0\0"

static const struct call calls[] = {
    {"number", 1, number, CODE, NONE, NONE},
    {"number_text", 1, number_text, TEXT_LEN, {NUMBER, TEXT_LEN, 1}, NONE},
    {"listing", 1, listing, sizeof LISTING - 1, {LISTING, sizeof LISTING - 1, 1}, NONE},
    {"text_labels", 1, text_labels, 1, {"\1", 1, 1}, NONE},
    {"text_lengths", 1, text_lengths, 1, {"\0", 2, 2}, NONE},
    {"text_line", 1, text_line, 1, {"\1\0\0", 4, 4}, NONE},
    {"reason", 1, reason, 11, {"1\tstands\t0\n", 11, 1}, NONE},
    {"text_exercise", 1, text_exercise, BATQEMULO_STANDS, NONE, NONE},
    {"sheet", 1, sheet, 1, {"\1", 1, 1}, {TOTALS, 12, 4}},
    {"sheet_update", 1, sheet_update, 1, {"\1", 1, 1}, {TOTALS, 12, 4}},
    {"mend", 1, mend, TEXT_LEN, {TEXT, TEXT_LEN, 1}, {"", 0, 1}},
    {"catalogue", 1, catalogue, TEXT_LEN, {TEXT, TEXT_LEN, 1}, NONE},
    {"uncatalogue", 1, uncatalogue, TEXT_LEN, {TEXT, TEXT_LEN, 1}, NONE},
    {"pairs_labels", 0, pairs_labels, 1, {"\0", 1, 1}, NONE},
    {"pairs_lengths", 0, pairs_lengths, 1, {"\377\377", 2, 2}, NONE},
    {"pairs_kinds", 0, pairs_kinds, 1, {"\3", 1, 1}, {"\377\377", 2, 2}},
    {"pairs_line", 0, pairs_line, 1, {"\0\0\0", 4, 4}, NONE},
    {"pairs_exercise", 0, pairs_exercise, BATQEMULO_OPEN, NONE, NONE},
    {"moves_labels", 0, moves_labels, 1, {"\0", 1, 1}, NONE},
    {"moves_lengths", 0, moves_lengths, 1, {"\377\377", 2, 2}, NONE},
};

static unsigned passed, failed;

static void check(const char *name, const char *what, size_t n, size_t m, int right) {
    if (right) {
        passed++;
        return;
    }
    failed++;
    printf("FAILED %s: %s, %zu and %zu\n", name, what, n, m);
}

/* Where a room is looked at: its beginning, and around the first entry that has a wide place. */
enum { PAINT = 0xA5, NEAR = 4096, FAR = 64 };

static const size_t far_places[] = {WIDE - FAR / 2, 2 * WIDE - FAR / 2, 4 * WIDE - FAR / 2,
                                    WIDE + 65535 - FAR, SPAN - FAR};
enum { PLACES = sizeof far_places / sizeof far_places[0] };

static void paint(uint8_t *room) {
    memset(room, PAINT, NEAR);
    for (size_t i = 0; i < PLACES; i++)
        memset(room + far_places[i], PAINT, FAR);
}

static int is_painted(const uint8_t *bytes, size_t size) {
    for (size_t i = 0; i < size; i++)
        if (bytes[i] != PAINT)
            return 0;
    return 1;
}

/* The room begins with these bytes, and nothing else of it has changed. */
static int holds(const uint8_t *room, const char *bytes, size_t size) {
    if (memcmp(room, bytes, size) != 0 || !is_painted(room + size, NEAR - size))
        return 0;
    for (size_t i = 0; i < PLACES; i++)
        if (!is_painted(room + far_places[i], FAR))
            return 0;
    return 1;
}

/* An update finds a sheet on which the statement is open. */
static const char old_sheet[1] = {0}, old_totals[12] = {1};

static void prepare(const struct call *call) {
    paint(first);
    paint(second);
    report_written = 77;
    if (call->ask == sheet_update) {
        memcpy(first, old_sheet, sizeof old_sheet);
        memcpy(second, old_totals, sizeof old_totals);
    }
}

static int as_found(const struct call *call) {
    int old = call->ask == sheet_update;
    return holds(first, old_sheet, old ? sizeof old_sheet : 0) &&
           holds(second, old_totals, old ? sizeof old_totals : 0) && report_written == 77;
}

static size_t entries(const struct held *held) {
    return held->entry ? held->size / held->entry : 0;
}

static void is_refused(const struct call *call, const struct input *in, size_t n, size_t m,
                       uint32_t number) {
    prepare(call);
    batqemulo_answer a = call->ask(in, n, m);
    char what[64];
    sprintf(what, "%u at %u, not %u at 0", a.refusal, a.value, number);
    check(call->name, what, call->of_text ? in->text : in->marks, call->of_text ? n : in->objectors,
          a.refusal == number && a.value == 0 && as_found(call));
}

static void is_accepted(const struct call *call, size_t n, size_t m) {
    prepare(call);
    batqemulo_answer a = call->ask(&good, n, m);
    check(call->name, "rooms", n, m,
          a.refusal == BATQEMULO_ACCEPTED && a.value == call->value &&
              holds(first, call->first.bytes, call->first.size) &&
              holds(second, call->second.bytes, call->second.size) &&
              report_written == (call->ask == mend ? 0 : 77));
}

/* Low bits that would make a good text, no mark or pair, one, or as many as there may be. */
static const size_t low[] = {0, 1, TEXT_LEN, 1024, 4096, 65535};
enum { LOWS = sizeof low / sizeof low[0] };

/* A code has no length. */
static void try_text(const struct call *call, size_t n, size_t m) {
    for (size_t i = 0; i < LOWS && call->ask != number_text; i++) {
        struct input in = {WIDE + low[i], 0, 0, 0};
        is_refused(call, &in, n, m,
                   call->ask == number ? BATQEMULO_LINE_SPOILED : BATQEMULO_TEXT_TOO_LONG);
    }
}

static void try_lists(const struct call *call, size_t n, size_t m) {
    for (size_t i = 0; i < LOWS; i++) {
        size_t wide = WIDE + low[i];
        /* with as many pairs as the low bits tell, one, and wide many */
        struct input marks = {0, wide, 1, 1}, pairs = {0, 1, wide, wide};
        struct input both = {0, wide, wide, wide}, unequal = {0, 1, wide, low[i]};
        struct input turned = {0, 1, low[i], wide}, all = {0, wide, wide, low[i]};
        is_refused(call, &marks, n, m, BATQEMULO_TOO_MANY_STATEMENTS);
        is_refused(call, &pairs, n, m, BATQEMULO_TOO_MANY_OBJECTIONS);
        is_refused(call, &both, n, m, BATQEMULO_TOO_MANY_STATEMENTS);
        is_refused(call, &unequal, n, m, BATQEMULO_LISTS_UNEQUAL);
        is_refused(call, &turned, n, m, BATQEMULO_LISTS_UNEQUAL);
        is_refused(call, &all, n, m, BATQEMULO_LISTS_UNEQUAL);
    }
}

static void try_rooms(const struct call *call, size_t n, size_t m) {
    is_accepted(call, n, m);
    for (size_t i = 0; i < LOWS; i++) {
        size_t wide = WIDE + low[i];
        if (call->ask == sheet_update)
            is_refused(call, &good, wide, m, BATQEMULO_SHEET_UNSOUND);
        else if (call->first.entry)
            is_accepted(call, wide, m);
        if (call->second.entry)
            is_accepted(call, n, wide);
        if (call->second.entry && call->ask != sheet_update)
            is_accepted(call, wide, wide);
    }
}

static void *address_space(size_t size) {
    void *pages = mmap(NULL, size, PROT_READ | PROT_WRITE,
                       MAP_PRIVATE | MAP_ANONYMOUS | MAP_NORESERVE, -1, 0);
    return pages == MAP_FAILED ? NULL : pages;
}

int main(int argc, char **argv) {
    (void)argv;
    text = address_space(MOST);
    written = address_space(MOST);
    zeros = address_space(SPAN);
    first = address_space(SPAN);
    second = address_space(SPAN);
    int can = text && written && zeros && first && second;
    if (argc > 1)
        return can ? 0 : 1;
    if (!can)
        return puts("0 passed, 1 failed"), 1;
    memcpy(text, TEXT, TEXT_LEN);
    memcpy(written, NUMBER, TEXT_LEN);

    for (size_t i = 0; i < sizeof calls / sizeof calls[0]; i++) {
        size_t n = entries(&calls[i].first), m = entries(&calls[i].second);
        (calls[i].of_text ? try_text : try_lists)(&calls[i], n, m);
        try_rooms(&calls[i], n, m);
    }
    printf("%u passed, %u failed\n", passed, failed);
    return failed == 0 ? 0 : 1;
}
