/* Times the library against the same work in plain C (works.c, plain*.c), in one process and by
 * turns, so that both see the same machine. Prints the medians and their ratio for registers of
 * several shapes at an eighth, a quarter, a half and all of the limits, then how the times grow
 * with the size. It is no test: nothing here fails for being slow. */
#define _POSIX_C_SOURCE 199309L /* for clock_gettime */

#include "registers.h"
#include "works.h"

#include <stdio.h>
#include <stdlib.h>
#include <time.h>

enum { SAMPLES = 61 };

/* A sample repeats its work until it takes about this long. */
static const double SAMPLE_NS = 1e6;

/* The medians of one register. */
typedef double times[MOST_WORKS][SIDES];

/* Works, and the shapes of the registers on which they are timed. */
static const struct table {
    const char *title;
    const struct work *works;
    size_t work_count;
    const struct shape *shapes;
    size_t count;
} tables[] = {
    {"Asked for the whole register", works_on_all, WORKS, shapes_of_all, SHAPES_OF_ALL},
    {"Asked for one statement", works_on_one, WORKS, shapes_of_one, SHAPES_OF_ONE},
    {"Mending", works_on_old, MENDING_WORKS, shapes_of_old, SHAPES_OF_OLD},
    {"Looking for repeats", works_on_repeats, SEARCHING_WORKS, shapes_of_repeats,
     SHAPES_OF_REPEATS},
    {"Asked for a reason", works_on_reasons, REASON_WORKS, shapes_of_reasons, SHAPES_OF_REASONS},
    {"Year numbers alone, and numbers of eight digits", works_on_numbers, NUMBER_WORKS,
     shapes_of_numbers, SHAPES_OF_NUMBERS},
    {"To a catalogue and back", works_on_catalogues, CATALOGUE_WORKS, shapes_of_catalogues,
     SHAPES_OF_CATALOGUES},
};

/* Stops the run unless both sides answer alike, and with what the shape is made for. */
static void must_agree(const struct shape *shape, const struct work *work) {
    uint32_t refusal = work->mends ? BATQEMULO_ACCEPTED : shape->refusal;
    if (sides_agree(work, refusal))
        return;
    printf("%s, %zu statements, %s: the answers differ, or are not refusal %u\n", shape->name,
           drawn.statements, work->name, refusal);
    exit(1);
}

static double now_ns(void) {
    struct timespec now;
    clock_gettime(CLOCK_MONOTONIC, &now);
    return (double)now.tv_sec * 1e9 + (double)now.tv_nsec;
}

static double time_ns(void (*side)(void), size_t repeats) {
    double start = now_ns();
    for (size_t i = 0; i < repeats; i++)
        side();
    return (now_ns() - start) / (double)repeats;
}

static int by_size(const void *left, const void *right) {
    double a = *(const double *)left, b = *(const double *)right;
    return (a > b) - (a < b);
}

static double median(double *samples) {
    qsort(samples, SAMPLES, sizeof samples[0], by_size);
    return samples[SAMPLES / 2];
}

/* The medians of the two sides, sampled by turns. */
static void time_both(const struct work *work, double *medians) {
    double samples[SIDES][SAMPLES];
    size_t repeats = 1 + (size_t)(SAMPLE_NS / time_ns(work->sides[PLAIN], 3));
    for (size_t i = 0; i < SAMPLES; i++)
        for (size_t side = 0; side < SIDES; side++)
            samples[side][i] = time_ns(work->sides[side], repeats);
    for (size_t side = 0; side < SIDES; side++)
        medians[side] = median(samples[side]);
}

static void print_head(const struct table *table) {
    printf("%s\n", table->title);
    printf("Microseconds for one call, medians of %d samples by turns; ratio: library / C\n\n",
           (int)SAMPLES);
    printf("%-13s %6s %6s %6s", "", "state-", "", "");
    for (size_t work = 0; work < table->work_count; work++)
        printf("  | %-28s", table->works[work].name);
    printf("\n%-13s %6s %6s %6s", "shape", "ments", "pairs", "bytes");
    for (size_t work = 0; work < table->work_count; work++)
        printf("  | %10s %10s %6s", "library", "C", "ratio");
    printf("\n");
}

static void print_row(const struct table *table, const struct shape *shape, times medians) {
    printf("%-13s %6zu %6zu %6zu", shape->name, drawn.statements, drawn.pairs, drawn.bytes);
    for (size_t work = 0; work < table->work_count; work++)
        printf("  | %10.2f %10.2f %6.2f", medians[work][LIBRARY] / 1e3, medians[work][PLAIN] / 1e3,
               medians[work][LIBRARY] / medians[work][PLAIN]);
    printf("\n");
}

static void print_growth(times *medians, size_t work) {
    for (size_t side = 0; side < SIDES; side++) {
        printf(" |");
        for (size_t size = 1; size < SIZES; size++)
            printf(" %5.2f", medians[size][work][side] / medians[size - 1][work][side]);
    }
    printf("\n");
}

/* From each size to the next, which is twice as large: linear work grows by 2, quadratic by 4. */
static void print_growths(const struct table *table, times medians[][SIZES]) {
    for (size_t work = 0; work < table->work_count; work++) {
        printf("\nGrowth of the times from each size to the next: %s\n\n", table->works[work].name);
        printf("%-13s  | %-17s | %-17s\n", "shape", "library", "C");
        for (size_t shape = 0; shape < table->count; shape++) {
            printf("%-13s ", table->shapes[shape].name);
            print_growth(medians[shape], work);
        }
    }
    printf("\n");
}

static void time_table(const struct table *table) {
    static times medians[MOST_SHAPES][SIZES];
    print_head(table);
    for (size_t i = 0; i < table->count; i++)
        for (size_t size = 0; size < SIZES; size++) {
            const struct shape *shape = &table->shapes[i];
            draw(shape, size);
            for (size_t work = 0; work < table->work_count; work++) {
                must_agree(shape, &table->works[work]);
                time_both(&table->works[work], medians[i][size][work]);
            }
            print_row(table, shape, medians[i][size]);
        }
    print_growths(table, medians);
}

int main(void) {
    for (size_t i = 0; i < sizeof tables / sizeof tables[0]; i++)
        time_table(&tables[i]);
    return 0;
}
