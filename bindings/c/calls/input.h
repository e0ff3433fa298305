/* Arguments of calls, taken one after the other from the bytes of standard input. Numbers are high byte first. */
#ifndef INPUT_H
#define INPUT_H

#include <stdbool.h>
#include <stddef.h>
#include <stdint.h>

#define MOST_PIECE 65536
#define MOST_LIST 4096

/* What is left to be taken. `is_bad` once something was cut short, past its limit or no book; it stays so. */
struct input {
    uint8_t *all;
    const uint8_t *left;
    size_t length;
    bool is_bad;
};

/* All of standard input; false where it can't be read. */
bool input_all(struct input *input);

void input_free(struct input *input);

/* A number of so many bytes, at most 8; 0 where the input is bad. */
uint64_t input_number(struct input *input, size_t width);

/* So many bytes in their place, or NULL. */
const uint8_t *input_bytes(struct input *input, size_t length);

/* A length of at most `most`; 0 where the input is bad. */
size_t input_length(struct input *input, size_t most);

/* A list of so many numbers of 8 into `list`. */
void input_list(struct input *input, uint64_t *list, size_t length);

#endif
