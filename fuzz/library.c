/* Speaks with the caller (tests/caller.c): a request with every array goes to its standard input,
 * and the answer with every array as it then is comes back. The environment names the command that
 * starts it, since the fuzzer takes the words on the command line for its own. */
#define _POSIX_C_SOURCE 200809L

#include "library.h"

#include <errno.h>
#include <stdio.h>
#include <stdlib.h>
#include <string.h>
#include <unistd.h>

/* Entries before and behind each room, and what rooms and guards are filled with: values that no
 * answer has. */
enum { GUARD = 8, GUARD_BYTE = 0xa5, ROOM_BYTE = 0xc3 };

/* All arrays of one request: texts have up to 64 KiB here, listings twice that, reports of what was
 * mended sixteen times that. */
enum { SPACE = 1 << 21 };

static int requests, replies;

static void stop(const char *why) {
    fprintf(stderr, "%s\n", why);
    abort();
}

static void start(void) {
    const char *command = getenv("CALLER");
    int to[2], from[2];
    if (command == NULL || pipe(to) != 0 || pipe(from) != 0)
        stop("the command of the caller is not in CALLER, or there are no pipes");
    pid_t child = fork();
    if (child < 0)
        stop("the caller does not start");
    if (child == 0) {
        dup2(to[0], 0);
        dup2(from[1], 1);
        close(to[1]);
        close(from[0]);
        execl("/bin/sh", "sh", "-c", command, (char *)NULL);
        _exit(127);
    }
    close(to[0]);
    close(from[1]);
    requests = to[1];
    replies = from[0];
}

/* The fuzzer's clock may break in on a read or write: then it is done again. */
static void write_all(const uint8_t *from, size_t size) {
    while (size > 0) {
        ssize_t done = write(requests, from, size);
        if (done < 0 && errno == EINTR)
            continue;
        if (done <= 0)
            stop("the caller takes no request");
        from += done;
        size -= (size_t)done;
    }
}

static void read_all(uint8_t *to, size_t size) {
    while (size > 0) {
        ssize_t done = read(replies, to, size);
        if (done < 0 && errno == EINTR)
            continue;
        if (done <= 0)
            stop("the caller ended in the call");
        to += done;
        size -= (size_t)done;
    }
}

static uint8_t *put(uint8_t *to, const void *from, size_t size) {
    if (size > 0)
        memcpy(to, from, size);
    return to + size;
}

/* The bytes of an array: an input's entries, or a room, with what it holds if it holds something,
 * that starts with so many of its answer. */
static uint8_t *put_array(uint8_t *to, const struct array *array, size_t written) {
    size_t guard = array->is_room ? GUARD * array->width : 0;
    size_t size = array->len * array->width;
    memset(to, GUARD_BYTE, guard);
    memset(to + guard, ROOM_BYTE, size);
    if (array->found != NULL)
        put(to + guard, array->found, size);
    put(to + guard, array->entries, written * array->width);
    memset(to + guard + size, GUARD_BYTE, guard);
    return to + size + 2 * guard;
}

static uint8_t *put_request(uint8_t *to, const struct request *request) {
    uint32_t head[] = {(uint32_t)request->call, request->statement, request->turns,
                       (uint32_t)request->count};
    to = put(to, head, sizeof head);
    for (size_t i = 0; i < request->count; i++) {
        const struct array *array = &request->arrays[i];
        uint32_t shape[] = {(uint32_t)array->width, (uint32_t)array->len,
                            array->is_room ? GUARD : 0, 0};
        to = put(to, shape, sizeof shape);
        to = put_array(to, array, array->is_room ? 0 : array->written);
    }
    return to;
}

static void check(const struct request *request, batqemulo_answer right, batqemulo_answer given) {
    if (given.refusal == right.refusal && given.value == right.value)
        return;
    fprintf(stderr, "call %d, asked %u and %u: answered %u %u instead of %u %u\n",
            (int)request->call, request->statement, request->turns, given.refusal, given.value,
            right.refusal, right.value);
    abort();
}

void hold(const struct request *request, batqemulo_answer right) {
    static uint8_t sent[SPACE], before[SPACE], after[SPACE];
    batqemulo_answer given;
    if (requests == 0)
        start();
    write_all(sent, (size_t)(put_request(sent, request) - sent));
    read_all((uint8_t *)&given, sizeof given);
    check(request, right, given);
    for (size_t i = 0; i < request->count; i++) {
        const struct array *array = &request->arrays[i];
        size_t size = (size_t)(put_array(before, array, array->written) - before);
        read_all(after, size);
        if (memcmp(before, after, size) != 0) {
            fprintf(stderr, "call %d: array %zu is not as it ought to be\n", (int)request->call, i);
            abort();
        }
    }
}

void must(int good, const char *what) {
    if (!good)
        stop(what);
}

void lend(struct request *request, size_t width, const void *entries, size_t len) {
    struct array input = {width, len, entries, len, 0, NULL};
    request->arrays[request->count++] = input;
}

int lend_room(struct request *request, size_t width, size_t len, const void *answer,
              size_t needed) {
    struct array room = {width, len, answer, len < needed ? 0 : needed, 1, NULL};
    request->arrays[request->count++] = room;
    return len < needed;
}

void lend_held(struct request *request, size_t width, size_t len, const void *found,
               const void *answer, size_t written) {
    struct array room = {width, len, answer, written, 1, found};
    request->arrays[request->count++] = room;
}

uint32_t dice(const uint8_t *bytes, size_t count) {
    uint32_t thrown = 2166136261u;
    for (size_t i = 0; i < count; i++)
        thrown = (thrown ^ bytes[i]) * 16777619u;
    return thrown ^ thrown >> 15;
}

size_t near(size_t needed, uint32_t thrown) {
    if (thrown % 8 == 0 && needed > 0)
        return needed - 1;
    return thrown % 8 == 1 ? needed + 1 + thrown / 8 % 5 : needed;
}
