/* Each call takes its arguments from the input and prints its line without the newline; of a bad input it prints nothing. */
#ifndef ANSWERS_H
#define ANSWERS_H

#include "input.h"

#include "../../../include/loft.h"

struct record {
    uint16_t serial;
    uint8_t code;
    uint8_t named;
    uint16_t account;
    uint64_t amounts[LOFT_AMOUNTS];
};

struct record take_record(struct input *input);

/* of_books.c: calls that leave the book as it is. */
void answer_is_sound(struct input *input);
void answer_standing(struct input *input);
void answer_most(struct input *input);
void answer_needs(struct input *input);
void answer_close_out(struct input *input);
void answer_statement(struct input *input);

/* of_changes.c: calls that change it. */
void answer_carry_out(struct input *input);
void answer_carry_out_next(struct input *input);
void answer_day(struct input *input);
void answer_take_over(struct input *input);
void answer_archive(struct input *input);

/* of_records.c: calls without a book. */
void answer_read_at(struct input *input);
void answer_write(struct input *input);
void answer_margin(struct input *input);
void answer_margin_with(struct input *input);

/* passed_over.c: calls that the library for C hasn't. */
void answer_exposure(struct input *input);
void answer_exposures(struct input *input);

#endif
