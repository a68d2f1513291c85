/* The caller makes the library's calls for the harness. The library is code for x86-64, and the
 * harness may run on another processor, so the two are two programs: this one reads a request from
 * standard input, puts every array in its place, makes the call, and writes the answer and every
 * array back, guards and all. It judges nothing. */
#define _DEFAULT_SOURCE /* for MAP_ANONYMOUS */

#include "batqemulo.h"

#include <stdio.h>
#include <stdlib.h>
#include <sys/mman.h>
#include <unistd.h>

/* The most arrays that a call takes, and the bytes that one may have with its guards. */
enum { ARRAYS = 5, SPACE = 1 << 21 };

/* The numbers of the calls on a text, a catalogue among them, and of those on a number by itself
 * begin here; those of the calls on lists begin at 0. */
enum { ON_TEXT = 20, ON_NUMBER = 40 };

/* A request: the call, the statement and the turns that are asked if the call asks them, and how
 * many arrays follow. */
struct request {
    uint32_t call;
    uint32_t statement;
    uint32_t turns;
    uint32_t arrays;
};

/* What a request says of an array. The guards are entries in front of it and behind it. */
struct shape {
    uint32_t width;
    uint32_t entries;
    uint32_t guard;
    uint32_t is_null;
};

struct array {
    uint8_t *space;
    uint8_t *start;
    size_t size;
    void *lent;
    size_t len;
};

static void stop(const char *why) {
    fprintf(stderr, "caller: %s\n", why);
    exit(2);
}

static void read_all(void *to, size_t size) {
    if (fread(to, 1, size, stdin) != size)
        stop("a request broke off");
}

static void write_all(const void *from, size_t size) {
    if (fwrite(from, 1, size, stdout) != size)
        stop("nobody takes the answer");
}

/* A space that is followed by a page which nobody may touch: each array is put at its very end, so
 * that even a read past an array without guards ends this program, and the harness hears of it. */
static uint8_t *new_space(void) {
    size_t page = (size_t)sysconf(_SC_PAGESIZE);
    void *space =
        mmap(NULL, SPACE + page, PROT_READ | PROT_WRITE, MAP_PRIVATE | MAP_ANONYMOUS, -1, 0);
    if (space == MAP_FAILED || mprotect((uint8_t *)space + SPACE, page, PROT_NONE) != 0)
        stop("no memory");
    return space;
}

static void take_array(struct array *array) {
    struct shape shape;
    read_all(&shape, sizeof shape);
    array->size = ((size_t)shape.entries + 2 * (size_t)shape.guard) * shape.width;
    if (array->size > SPACE)
        stop("an array is too long");
    array->start = array->space + SPACE - array->size;
    array->lent = shape.is_null ? NULL : array->start + (size_t)shape.guard * shape.width;
    array->len = shape.entries;
    read_all(array->start, array->size);
}

/* The numbers of the calls, here and below, are those of src/library/call.rs. */
static batqemulo_answer call_on_lists(struct request request, const struct array *a) {
    switch (request.call) {
    case 0:
        return batqemulo_pairs_labels(a[0].lent, a[0].len, a[1].lent, a[1].len, a[2].lent, a[2].len,
                                      a[3].lent, a[3].len);
    case 1:
        return batqemulo_pairs_lengths(a[0].lent, a[0].len, a[1].lent, a[1].len, a[2].lent,
                                       a[2].len, a[3].lent, a[3].len);
    case 2:
        return batqemulo_pairs_kinds(a[0].lent, a[0].len, a[1].lent, a[1].len, a[2].lent, a[2].len,
                                     a[3].lent, a[3].len, a[4].lent, a[4].len);
    case 3:
        return batqemulo_moves_labels(a[0].lent, a[0].len, a[1].lent, a[1].len, a[2].lent, a[2].len,
                                      a[3].lent, a[3].len);
    case 4:
        return batqemulo_moves_lengths(a[0].lent, a[0].len, a[1].lent, a[1].len, a[2].lent,
                                       a[2].len, a[3].lent, a[3].len);
    case 5:
        return batqemulo_pairs_line(a[0].lent, a[0].len, a[1].lent, a[1].len, a[2].lent, a[2].len,
                                    request.statement, a[3].lent, a[3].len);
    case 6:
        return batqemulo_pairs_exercise(a[0].lent, a[0].len, a[1].lent, a[1].len, a[2].lent,
                                        a[2].len, request.statement, request.turns);
    }
    stop("a call on lists that is not there");
    return (batqemulo_answer){0, 0};
}

static batqemulo_answer call_on_text(struct request request, const struct array *a) {
    switch (request.call) {
    case 20:
        return batqemulo_text_labels(a[0].lent, a[0].len, a[1].lent, a[1].len);
    case 21:
        return batqemulo_text_lengths(a[0].lent, a[0].len, a[1].lent, a[1].len);
    case 22:
        return batqemulo_listing(a[0].lent, a[0].len, a[1].lent, a[1].len);
    case 23:
        return batqemulo_text_line(a[0].lent, a[0].len, request.statement, a[1].lent, a[1].len);
    case 24:
        return batqemulo_text_exercise(a[0].lent, a[0].len, request.statement, request.turns);
    case 25:
        return batqemulo_reason(a[0].lent, a[0].len, request.statement, a[1].lent, a[1].len);
    case 26:
        return batqemulo_sheet(a[0].lent, a[0].len, a[1].lent, a[1].len, a[2].lent, a[2].len);
    case 27:
        return batqemulo_sheet_update(a[0].lent, a[0].len, a[1].lent, a[1].len, a[2].lent,
                                      a[2].len);
    case 28:
        return batqemulo_mend(a[0].lent, a[0].len, a[1].lent, a[1].len, a[2].lent, a[2].len,
                              a[3].lent);
    case 29:
        return batqemulo_catalogue(a[0].lent, a[0].len, a[1].lent, a[1].len);
    case 30:
        return batqemulo_uncatalogue(a[0].lent, a[0].len, a[1].lent, a[1].len);
    }
    stop("a call on a text that is not there");
    return (batqemulo_answer){0, 0};
}

static batqemulo_answer call_on_number(struct request request, const struct array *a) {
    switch (request.call) {
    case 40:
        return batqemulo_number(a[0].lent, a[0].len);
    case 41:
        return batqemulo_number_text(request.statement, a[0].lent, a[0].len);
    }
    stop("a call on a number that is not there");
    return (batqemulo_answer){0, 0};
}

static batqemulo_answer call(struct request request, const struct array *a) {
    if (request.call < ON_TEXT)
        return call_on_lists(request, a);
    return request.call < ON_NUMBER ? call_on_text(request, a) : call_on_number(request, a);
}

int main(void) {
    struct array arrays[ARRAYS];
    struct request request;
    for (size_t i = 0; i < ARRAYS; i++)
        arrays[i].space = new_space();
    while (fread(&request, sizeof request, 1, stdin) == 1) {
        if (request.arrays > ARRAYS)
            stop("too many arrays");
        for (size_t i = 0; i < request.arrays; i++)
            take_array(&arrays[i]);
        batqemulo_answer answer = call(request, arrays);
        write_all(&answer, sizeof answer);
        for (size_t i = 0; i < request.arrays; i++)
            write_all(arrays[i].start, arrays[i].size);
        if (fflush(stdout) != 0)
            stop("nobody takes the answer");
    }
    return 0;
}
