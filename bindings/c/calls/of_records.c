#include "answers.h"

#include "../../../include/loft.h"
#include "rooms.h"

#include <inttypes.h>
#include <stdio.h>
#include <string.h>

struct record take_record(struct input *input)
{
    struct record record;
    record.serial = (uint16_t)input_number(input, 2);
    record.code = (uint8_t)input_number(input, 1);
    record.named = (uint8_t)input_number(input, 1);
    record.account = (uint16_t)input_number(input, 2);
    input_list(input, record.amounts, LOFT_AMOUNTS);
    return record;
}

void answer_read_at(struct input *input)
{
    uint64_t numbers[LOFT_NUMBERS] = { 0 };
    size_t length = input_length(input, MOST_PIECE);
    const uint8_t *piece = input_bytes(input, length);
    uint64_t place = input_number(input, 8);
    if (input->is_bad)
        return;
    uint8_t refusal = loft_read_record(piece, length, place, numbers, LOFT_NUMBERS);
    if (refusal == LOFT_NO_RECORD) {
        printf("end");
        return;
    }
    printf("%u", refusal);
    if (refusal == 0)
        rooms_print_numbers(numbers, LOFT_NUMBERS);
    else if (refusal != 2)
        rooms_print_numbers(numbers, 4);
}

void answer_write(struct input *input)
{
    struct record record = take_record(input);
    size_t room = rooms_take(input), length = 0;
    if (input->is_bad)
        return;
    uint8_t refusal = loft_write_record(record.serial, record.code, record.named, record.account, record.amounts, LOFT_AMOUNTS,
                                        rooms_bytes, room, &length);
    printf("%u %zu", refusal, length);
    rooms_print_bytes(room);
}

/* The record's bytes are read back for the line's order: serial, code, mark byte, account, amounts. */
static void print_margin(const uint8_t record[LOFT_RECORD])
{
    uint64_t numbers[LOFT_NUMBERS] = { 0 };
    uint8_t refusal = loft_read_record(record, LOFT_RECORD, 0, numbers, LOFT_NUMBERS);
    if (refusal != 0)
        printf(" no record: %u", refusal);
    printf(" %" PRIu64 " %" PRIu64 " %" PRIu64 " %" PRIu64, numbers[1], numbers[2], numbers[4], numbers[3]);
    rooms_print_numbers(numbers + 5, LOFT_AMOUNTS);
}

static void margin(struct input *input, bool has_figures)
{
    static uint8_t products[MOST_LIST], sides[MOST_LIST];
    static uint64_t notionals[MOST_LIST];
    uint64_t words[4] = { 0 };
    int64_t figures[4];
    uint8_t record[LOFT_RECORD];
    uint16_t serial = (uint16_t)input_number(input, 2), account = (uint16_t)input_number(input, 2);
    uint64_t initial = input_number(input, 8);
    size_t length = input_length(input, MOST_LIST);
    for (size_t i = 0; i < length; i++) {
        products[i] = (uint8_t)input_number(input, 1);
        sides[i] = (uint8_t)input_number(input, 1);
        notionals[i] = input_number(input, 8);
        /* A side above 3 is no call, where the library says 15. */
        if (sides[i] > 3)
            input->is_bad = true;
    }
    size_t many = has_figures ? input_length(input, 4) : 0;
    if (has_figures && many != 2 && many != 4)
        input->is_bad = true;
    input_list(input, words, many);
    if (input->is_bad)
        return;
    memcpy(figures, words, sizeof figures);
    uint8_t refusal = loft_margin(serial, account, initial, products, length, sides, length, notionals, length, figures, many,
                                  record, LOFT_RECORD);
    printf("%u", refusal);
    if (refusal == 0)
        print_margin(record);
}

void answer_margin(struct input *input)
{
    margin(input, false);
}

void answer_margin_with(struct input *input)
{
    margin(input, true);
}
