/* Reads registers, each followed by a blank line, and prints the listing of each in the same way,
 * so that thousands of them need one start of the library only. A blank line is in no register and
 * in no listing. */
#include "batqemulo.h"

#include <stdio.h>

static void print_listing(const uint8_t *text, size_t len) {
    static uint8_t room[BATQEMULO_MAX_LISTING_BYTES];
    batqemulo_answer answer = batqemulo_listing(text, len, room, sizeof room);
    if (answer.refusal == BATQEMULO_ACCEPTED)
        fwrite(room, 1, answer.value, stdout);
    else
        printf("REFUSED\t%u\t%u\n", (unsigned)answer.refusal, (unsigned)answer.value);
    putchar('\n');
}

int main(void) {
    static uint8_t text[BATQEMULO_MAX_TEXT_BYTES + 1];
    size_t len = 0;
    int byte;
    while ((byte = getchar()) != EOF) {
        if (byte == '\n' && (len == 0 || text[len - 1] == '\n')) {
            print_listing(text, len);
            len = 0;
        } else if (len < sizeof text) {
            text[len++] = (uint8_t)byte;
        }
    }
    return len > 0 || ferror(stdin) || fflush(stdout) != 0;
}
