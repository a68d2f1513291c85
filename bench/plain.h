/* The library's work written plainly in C, to time the library against. Each function answers what
 * the library's function of the same shape answers. */
#ifndef PLAIN_H
#define PLAIN_H

#include "batqemulo.h"

static inline batqemulo_answer answer(uint32_t refusal, size_t value) {
    batqemulo_answer given = {refusal, (uint32_t)value};
    return given;
}

/* Labels and lengths of lists without a fault, in linear time. */
void plain_solve(const uint8_t *marks, size_t statements, const uint32_t *objectors,
                 const uint32_t *targets, size_t pairs, uint8_t *labels, uint16_t *lengths);

/* The first fault of lists; a repeated pair is looked for along chains, as the library does. */
batqemulo_answer plain_check(const uint8_t *marks, size_t marks_len, const uint32_t *objectors,
                             size_t objectors_len, const uint32_t *targets, size_t targets_len);

/* As batqemulo_pairs_labels. */
batqemulo_answer plain_pairs_labels(const uint8_t *marks, size_t marks_len,
                                    const uint32_t *objectors, size_t objectors_len,
                                    const uint32_t *targets, size_t targets_len, uint8_t *labels,
                                    size_t labels_len);

/* As bench_solver_label: the checks that take linear time, then labels and lengths. Answers 1 if it
 * solved the register, 0 if not. */
uint32_t plain_solver_label(const uint8_t *marks, size_t marks_len, const uint32_t *objectors,
                            size_t objectors_len, const uint32_t *targets, size_t targets_len,
                            uint8_t *labels, size_t labels_len, uint16_t *lengths,
                            size_t lengths_len);

/* As batqemulo_pairs_line: the register is solved, and then the objectors of each statement on the
 * line are looked through. */
batqemulo_answer plain_pairs_line(const uint8_t *marks, size_t marks_len, const uint32_t *objectors,
                                  size_t objectors_len, const uint32_t *targets, size_t targets_len,
                                  uint32_t place, uint32_t *line, size_t line_len);

/* As batqemulo_pairs_exercise: two functions call each other and remember what they answered. */
batqemulo_answer plain_pairs_exercise(const uint8_t *marks, size_t marks_len,
                                      const uint32_t *objectors, size_t objectors_len,
                                      const uint32_t *targets, size_t targets_len, uint32_t place,
                                      uint32_t turns);

/* As batqemulo_number. */
batqemulo_answer plain_number(const uint8_t *written, size_t written_len);

/* As batqemulo_number_text. */
batqemulo_answer plain_number_text(uint32_t number, uint8_t *room, size_t room_len);

/* As batqemulo_listing: numbers are looked up by hashing, and a repeated objection is looked for
 * along chains. */
batqemulo_answer plain_listing(const uint8_t *text, size_t text_len, uint8_t *room,
                               size_t room_len);

/* As batqemulo_reason: the text is read and solved as for the listing, and then the objections are
 * walked from target to objector, with a queue. */
batqemulo_answer plain_reason(const uint8_t *text, size_t text_len, uint32_t number, uint8_t *room,
                              size_t room_len);

/* As batqemulo_catalogue: the text is read as for the listing, and the chain of each target, which
 * has the latest objector first, is turned round. */
batqemulo_answer plain_catalogue(const uint8_t *text, size_t text_len, uint8_t *room,
                                 size_t room_len);

/* As batqemulo_uncatalogue: objectors are looked up by hashing when the last card is read, and an
 * entry for each, the card that last named it, tells whether it is repeated. */
batqemulo_answer plain_uncatalogue(const uint8_t *catalogue, size_t catalogue_len, uint8_t *room,
                                   size_t room_len);

/* As batqemulo_mend, with the same look-up and the same search for a repeated objection. */
batqemulo_answer plain_mend(const uint8_t *text, size_t text_len, uint8_t *room, size_t room_len,
                            uint8_t *report, size_t report_len, uint32_t *report_written);

#endif
