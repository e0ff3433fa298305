#include "input.h"

#include <stdio.h>
#include <stdlib.h>

bool input_all(struct input *input)
{
    size_t room = 1 << 20, length = 0;
    uint8_t *bytes = malloc(room);
    while (bytes != NULL) {
        length += fread(bytes + length, 1, room - length, stdin);
        if (length < room)
            break;
        room *= 2;
        uint8_t *larger = realloc(bytes, room);
        if (larger == NULL)
            free(bytes);
        bytes = larger;
    }
    if (bytes == NULL)
        return false;
    *input = (struct input){ .all = bytes, .left = bytes, .length = length, .is_bad = false };
    return !ferror(stdin);
}

void input_free(struct input *input)
{
    free(input->all);
}

const uint8_t *input_bytes(struct input *input, size_t length)
{
    if (input->is_bad || input->length < length) {
        input->is_bad = true;
        return NULL;
    }
    const uint8_t *taken = input->left;
    input->left += length;
    input->length -= length;
    return taken;
}

uint64_t input_number(struct input *input, size_t width)
{
    const uint8_t *bytes = input_bytes(input, width);
    uint64_t number = 0;
    for (size_t i = 0; bytes != NULL && i < width; i++)
        number = number << 8 | bytes[i];
    return number;
}

size_t input_length(struct input *input, size_t most)
{
    uint64_t length = input_number(input, 4);
    if (length > most)
        input->is_bad = true;
    return input->is_bad ? 0 : (size_t)length;
}

void input_list(struct input *input, uint64_t *list, size_t length)
{
    for (size_t i = 0; i < length; i++)
        list[i] = input_number(input, 8);
}
