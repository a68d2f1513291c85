/* Every code of a year number, plain codes at every edge, and codes that are nobody's: each number
 * is written in a room of just its length, in one that is a byte short, and read back. A code is
 * told here from the year and the serial, and its text by printf. What is counted in the end are
 * groups of codes, such as those of a year. */
#include "batqemulo.h"

#include <stdio.h>
#include <string.h>

enum {
    FIRST_YEAR = 1000,
    LAST_YEAR = 2099,
    LAST_SERIAL = 9999,
    LAST_PLAIN = 99999999,
    PAINT = 0xA5,
    ROOM = BATQEMULO_MAX_NUMBER_BYTES + 3
};

static unsigned passed, failed;

/* How many answers of the group that is tried were wrong, and the code of the first of them. */
static unsigned long wrong;
static uint32_t first_wrong;

static void note(uint32_t code, int right) {
    if (right)
        return;
    if (wrong++ == 0)
        first_wrong = code;
}

/* Ends a group, and counts it. */
static void end_group(const char *name, unsigned at) {
    if (wrong == 0) {
        passed++;
        return;
    }
    failed++;
    printf("FAILED %s %u: %lu wrong answers, the first for %u\n", name, at, wrong,
           (unsigned)first_wrong);
    wrong = 0;
}

static int is(batqemulo_answer answer, uint32_t refusal, uint32_t value) {
    return answer.refusal == refusal && answer.value == value;
}

/* Whether the room has nothing but paint from this byte on. */
static int is_painted(const uint8_t *room, size_t from) {
    while (from < ROOM && room[from] == PAINT)
        from++;
    return from == ROOM;
}

/* The number of this code is this text, of so many bytes. */
static void try_number(uint32_t code, const char *text, uint32_t len) {
    uint8_t room[ROOM];
    memset(room, PAINT, sizeof room);
    note(code, is(batqemulo_number_text(code, room, len - 1), BATQEMULO_ROOM_TOO_SHORT, 0) &&
                   is_painted(room, 0));
    note(code, is(batqemulo_number_text(code, room, len), BATQEMULO_ACCEPTED, len) &&
                   memcmp(room, text, len) == 0 && is_painted(room, len));
    note(code, is(batqemulo_number(room, len), BATQEMULO_ACCEPTED, code));
}

static uint32_t year_code(uint32_t year, uint32_t serial) {
    return 100000000 + 10000 * year + serial;
}

static void try_year_number(uint32_t year, uint32_t serial) {
    char text[24];
    int len = snprintf(text, sizeof text, "%u.%u", (unsigned)year, (unsigned)serial);
    try_number(year_code(year, serial), text, (uint32_t)len);
}

static void try_plain(uint32_t code) {
    char text[24];
    int len = snprintf(text, sizeof text, "%u", (unsigned)code);
    try_number(code, text, (uint32_t)len);
}

/* This code is nobody's: refused whatever the room, which stays as it was. */
static void try_nobodys(uint32_t code) {
    uint8_t room[ROOM];
    memset(room, PAINT, sizeof room);
    for (size_t len = 0; len <= ROOM; len++)
        note(code, is(batqemulo_number_text(code, room, len), BATQEMULO_LINE_SPOILED, 0));
    note(code, is(batqemulo_number_text(code, NULL, 0), BATQEMULO_LINE_SPOILED, 0));
    note(code, is_painted(room, 0));
}

/* Plain codes from this one to that one, a group for each thousand. */
static void try_plain_range(uint32_t first, uint32_t last) {
    for (uint32_t code = first; code <= last; code++) {
        try_plain(code);
        if (code % 1000 == 999 || code == last)
            end_group("plain numbers up to", code);
    }
}

/* Two codes on each side of each power of ten; those of nine digits and more are nobody's. */
static void try_powers(void) {
    uint32_t power = 1;
    for (unsigned n = 0; n < 10; n++, power *= 10) {
        for (uint32_t code = power - 2; code != power + 3; code++)
            (code >= 1 && code <= LAST_PLAIN ? try_plain : try_nobodys)(code);
        end_group("around 10 to the power", n);
    }
}

/* Serial 0 is nobody's in any year, and years that are none have no serial. A group is a century.
 */
static void try_wrong_years(void) {
    for (uint32_t year = 0; year <= 2200; year++) {
        try_nobodys(year_code(year, 0));
        if (year < FIRST_YEAR || year > LAST_YEAR) {
            try_nobodys(year_code(year, 1));
            try_nobodys(year_code(year, LAST_SERIAL));
        }
        if (year % 100 == 99 || year == 2200)
            end_group("no numbers up to the year", year);
    }
}

/* Codes that are nobody's between and beyond the numbers, those at the edges of 32 bits too. */
static void try_edges(void) {
    static const struct {
        uint32_t first, last;
    } nobodys[] = {{0, 0},
                   {100000000, 100000020},
                   {109999980, 110000000},
                   {119870000, 119870000},
                   {121000000, 121000020},
                   {199999999, 200000001},
                   {999999999, 1000000001},
                   {2147483638, 2147483658u},
                   {4294967275u, 4294967295u}};
    for (unsigned i = 0; i < sizeof nobodys / sizeof nobodys[0]; i++) {
        for (uint32_t more = nobodys[i].last - nobodys[i].first + 1; more > 0; more--)
            try_nobodys(nobodys[i].first + more - 1);
        end_group("nobody's codes from", nobodys[i].first);
    }
}

int main(void) {
    for (uint32_t year = FIRST_YEAR; year <= LAST_YEAR; year++) {
        for (uint32_t serial = 1; serial <= LAST_SERIAL; serial++)
            try_year_number(year, serial);
        end_group("the year", year);
    }
    try_plain_range(1, 20000);
    try_plain_range(99990000, LAST_PLAIN);
    try_powers();
    try_wrong_years();
    try_edges();
    printf("%u passed, %u failed\n", passed, failed);
    return failed == 0 ? 0 : 1;
}
