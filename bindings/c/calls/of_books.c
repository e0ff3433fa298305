#include "answers.h"

#include "books.h"
#include "rooms.h"

#include <inttypes.h>
#include <stdio.h>

/* Behind a call that refuses with 1 what it was lent is as before: all 0 here, as the line wants it. */

void answer_is_sound(struct input *input)
{
    uint8_t book[LOFT_BOOK];
    books_take(input, book);
    if (!input->is_bad)
        printf("%d", loft_is_sound(book, LOFT_BOOK));
}

void answer_standing(struct input *input)
{
    uint8_t book[LOFT_BOOK];
    uint64_t figures[LOFT_FIGURES] = { 0 };
    books_take(input, book);
    uint16_t account = (uint16_t)input_number(input, 2);
    if (input->is_bad)
        return;
    printf("%u", loft_standing(book, LOFT_BOOK, account, figures, LOFT_FIGURES));
    rooms_print_numbers(figures, LOFT_FIGURES);
}

void answer_most(struct input *input)
{
    uint8_t book[LOFT_BOOK];
    uint64_t amount = 0;
    books_take(input, book);
    struct record record = take_record(input);
    if (input->is_bad)
        return;
    uint8_t refusal = loft_most(book, LOFT_BOOK, record.code, record.named, record.account, &amount);
    printf("%u %" PRIu64, refusal, amount);
}

void answer_needs(struct input *input)
{
    uint8_t book[LOFT_BOOK];
    books_take(input, book);
    size_t room = rooms_take(input);
    if (input->is_bad)
        return;
    printf("%u", loft_needs(book, LOFT_BOOK, rooms_numbers, room));
    rooms_print_numbers(rooms_numbers, room);
}

void answer_close_out(struct input *input)
{
    uint8_t book[LOFT_BOOK];
    uint64_t losses[MOST_LIST], total = 0;
    books_take(input, book);
    size_t length = input_length(input, MOST_LIST);
    input_list(input, losses, length);
    size_t room = rooms_take(input);
    if (input->is_bad)
        return;
    uint8_t refusal = loft_close_out(book, LOFT_BOOK, losses, length, rooms_numbers, room, &total);
    printf("%u %" PRIu64, refusal, total);
    rooms_print_numbers(rooms_numbers, room);
}

void answer_statement(struct input *input)
{
    uint8_t book[LOFT_BOOK];
    books_take(input, book);
    uint16_t tm = (uint16_t)input_number(input, 2);
    size_t length = input_length(input, MOST_PIECE);
    const uint8_t *piece = input_bytes(input, length);
    if (!input->is_bad)
        printf("%u", loft_statement(book, LOFT_BOOK, tm, piece, length));
}
