#include "answers.h"

#include "rooms.h"

/* Crystallised obligations alone have no function for C. Their arguments are taken, so that the next call is found, and
 * their line stays empty. */

void answer_exposure(struct input *input)
{
    uint64_t figures[4];
    size_t length = input_length(input, 4);
    if (length != 2 && length != 4)
        input->is_bad = true;
    input_list(input, figures, length);
}

void answer_exposures(struct input *input)
{
    static uint64_t figures[MOST_LIST];
    uint64_t each = input_number(input, 1);
    if (each != 2 && each != 4)
        input->is_bad = true;
    input_list(input, figures, input_length(input, MOST_LIST));
    rooms_take(input);
}
