#include "answers.h"

#include "books.h"
#include "rooms.h"

#include <inttypes.h>
#include <stdio.h>
#include <string.h>

/* A record has at least six bytes, so that a piece has no more answers than this. */
#define MOST_ANSWERS (LOFT_ANSWER * (MOST_PIECE / 6 + 1))

static void print_answer(const uint16_t answer[LOFT_ANSWER])
{
    printf("%u %u %u %u %u", answer[0], answer[1], answer[2], answer[3], answer[4]);
}

void answer_carry_out(struct input *input)
{
    uint8_t before[LOFT_BOOK], book[LOFT_BOOK];
    uint16_t answer[LOFT_ANSWER] = { 0 };
    books_take(input, before);
    struct record record = take_record(input);
    if (input->is_bad)
        return;
    memcpy(book, before, LOFT_BOOK);
    uint8_t refusal = loft_carry_out(book, LOFT_BOOK, record.serial, record.code, record.named, record.account, record.amounts,
                                     LOFT_AMOUNTS, answer, LOFT_ANSWER);
    /* With 1 no answer is told; otherwise the answer's own refusal must be the one returned. */
    if (refusal == 1)
        answer[3] = 1;
    if (answer[3] != refusal)
        printf("returned %u: ", refusal);
    print_answer(answer);
    books_print(before, book);
}

/* The next record of a piece is a day of at most one record from its place on. */
void answer_carry_out_next(struct input *input)
{
    uint8_t before[LOFT_BOOK], book[LOFT_BOOK];
    uint16_t answer[LOFT_ANSWER] = { 0 };
    uint64_t told[LOFT_TOLD] = { 0 };
    books_take(input, before);
    size_t length = input_length(input, MOST_PIECE);
    const uint8_t *piece = input_bytes(input, length);
    uint64_t place = input_number(input, 8);
    if (input->is_bad)
        return;
    memcpy(book, before, LOFT_BOOK);
    size_t from = place < length ? (size_t)place : length;
    uint8_t refusal = loft_day(book, LOFT_BOOK, piece + from, length - from, 1, answer, LOFT_ANSWER, told, LOFT_TOLD);
    if (refusal != 0)
        printf("0 0 0 %u 0 %" PRIu64, refusal, place);
    else if (told[2] == 1) {
        print_answer(answer);
        printf(" %" PRIu64, place + told[1]);
    } else
        printf("0 0 0 %s 0 %" PRIu64, told[0] == LOFT_END ? "end" : "2", place);
    books_print(before, book);
}

void answer_day(struct input *input)
{
    static const char *const closings[] = { [LOFT_END] = "end", [LOFT_CUT] = "cut", [LOFT_LONG] = "long" };
    static uint16_t answers[MOST_ANSWERS];
    uint8_t before[LOFT_BOOK], book[LOFT_BOOK];
    uint64_t told[LOFT_TOLD] = { 0 };
    books_take(input, before);
    size_t length = input_length(input, MOST_PIECE);
    const uint8_t *piece = input_bytes(input, length);
    uint64_t number = input_number(input, 8);
    if (input->is_bad)
        return;
    memcpy(book, before, LOFT_BOOK);
    uint8_t refusal = loft_day(book, LOFT_BOOK, piece, length, number, answers, MOST_ANSWERS, told, LOFT_TOLD);
    if (refusal != 0)
        printf("%u", refusal);
    else
        printf("%s", told[0] <= LOFT_LONG ? closings[told[0]] : "no closing");
    rooms_print_numbers(told + 1, LOFT_TOLD - 1);
    books_print(before, book);
}

void answer_take_over(struct input *input)
{
    uint8_t before[LOFT_BOOK], book[LOFT_BOOK];
    books_take(input, before);
    if (input->is_bad)
        return;
    memcpy(book, before, LOFT_BOOK);
    printf("%u", loft_take_over(book, LOFT_BOOK));
    books_print(before, book);
}

void answer_archive(struct input *input)
{
    uint8_t before[LOFT_BOOK], book[LOFT_BOOK];
    uint16_t moved = 0;
    books_take(input, before);
    size_t room = rooms_take(input);
    if (input->is_bad)
        return;
    memcpy(book, before, LOFT_BOOK);
    uint8_t refusal = loft_archive(book, LOFT_BOOK, rooms_shorts, room, &moved);
    printf("%u %u", refusal, moved);
    rooms_print_shorts(room);
    books_print(before, book);
}
