/* Speaks the protocol of the program `calls` (docs/API.md, "Calls from outside") by the library for C: calls on standard
 * input, a line of answers for each, `bad N` at what is no call. The lines of 12 and 14 stay empty. */
#include "answers.h"

#include <stdio.h>

typedef void answering(struct input *input);

static answering *const answers[] = {
    [1] = answer_is_sound,    [2] = answer_standing,  [3] = answer_carry_out,    [4] = answer_carry_out_next,
    [5] = answer_day,         [6] = answer_read_at,   [7] = answer_write,        [8] = answer_close_out,
    [9] = answer_needs,       [10] = answer_take_over, [11] = answer_margin,     [12] = answer_exposure,
    [13] = answer_margin_with, [14] = answer_exposures, [15] = answer_statement, [16] = answer_archive,
    [17] = answer_most,
};

#define CALLS (sizeof answers / sizeof *answers)

static void answer_next(struct input *input)
{
    uint64_t call = input_number(input, 1);
    if (call < CALLS && answers[call] != NULL)
        answers[call](input);
    else
        input->is_bad = true;
}

int main(void)
{
    struct input input;
    if (!input_all(&input)) {
        fprintf(stderr, "calls: standard input can't be read\n");
        return 1;
    }
    for (size_t answered = 0; input.length > 0; answered++) {
        answer_next(&input);
        if (input.is_bad) {
            printf("bad %zu\n", answered);
            break;
        }
        printf("\n");
    }
    input_free(&input);
    return fflush(stdout) == 0 ? 0 : 1;
}
