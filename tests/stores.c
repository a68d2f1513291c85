/* An update stores to no byte of a sheet that has no changed label. The first half of the sheet
 * lies in memory that nobody may write to, the second half in a page behind it; a store to the
 * first ends this program. What an update leaves is for the other tests to say. */
#define _DEFAULT_SOURCE /* for MAP_ANONYMOUS */

#include "batqemulo.h"

#include <stdio.h>
#include <sys/mman.h>
#include <unistd.h>

enum { STATEMENTS = BATQEMULO_MAX_STATEMENTS, HALF = BATQEMULO_MAX_SHEET_BYTES / 2 };

static char text[BATQEMULO_MAX_TEXT_BYTES + 1];

/* A register without objections: those of the first so many that are unread are open, and all
 * others stand. */
static size_t write_text(unsigned unread) {
    size_t len = 0;
    for (unsigned x = 1; x <= STATEMENTS; x++)
        len += (size_t)sprintf(text + len, "S\t%u\t%c\n", x, x <= unread ? 'U' : 'R');
    return len;
}

/* Two pages of zeros: on a sheet of zeros all is open. */
static uint8_t *two_pages(size_t page) {
    void *pages = mmap(NULL, 2 * page, PROT_READ | PROT_WRITE, MAP_PRIVATE | MAP_ANONYMOUS, -1, 0);
    return pages == MAP_FAILED ? NULL : (uint8_t *)pages;
}

static int is_updated(uint8_t *sheet, uint32_t *totals, unsigned unread) {
    size_t len = write_text(unread);
    batqemulo_answer answer = batqemulo_sheet_update(
        (const uint8_t *)text, len, sheet, BATQEMULO_MAX_SHEET_BYTES, totals, BATQEMULO_TOTALS);
    return answer.refusal == BATQEMULO_ACCEPTED && totals[BATQEMULO_OPEN] == unread &&
           totals[BATQEMULO_STANDS] == STATEMENTS - unread;
}

int main(void) {
    size_t page = (size_t)sysconf(_SC_PAGESIZE);
    uint8_t *pages = two_pages(page);
    uint32_t totals[BATQEMULO_TOTALS] = {STATEMENTS, 0, 0};
    if (!pages || mprotect(pages, page, PROT_READ) != 0)
        return puts("0 passed, 1 failed"), 1;
    uint8_t *sheet = pages + page - HALF;

    /* all stays open; then the second half stands, then three quarters are open; at last nothing
     * changes */
    static const unsigned unread[] = {STATEMENTS, STATEMENTS / 2, STATEMENTS / 4 * 3,
                                      STATEMENTS / 4 * 3};
    unsigned passed = 0, failed = 0;
    for (size_t i = 0; i < sizeof unread / sizeof unread[0]; i++) {
        int right = is_updated(sheet, totals, unread[i]);
        printf("%s %u of %u open\n", right ? "ok" : "FAILED", unread[i], (unsigned)STATEMENTS);
        *(right ? &passed : &failed) += 1;
    }
    printf("%u passed, %u failed\n", passed, failed);
    return failed == 0 ? 0 : 1;
}
