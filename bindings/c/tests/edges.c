/* Empty lists, rooms that are too short, the order of refusals, and what each refusal leaves. */
#include "books.h"
#include "expect.h"
#include "lent.h"

#include <stdio.h>
#include <string.h>

static uint8_t book[LOFT_BOOK], before[LOFT_BOOK];

static void again(void)
{
    small_book(book);
    memcpy(before, book, LOFT_BOOK);
}

static bool is_same_book(void)
{
    return memcmp(before, book, LOFT_BOOK) == 0;
}

static void told_are(const uint64_t told[LOFT_TOLD], uint64_t closing, uint64_t place, uint64_t read, uint64_t done)
{
    const uint64_t wanted[LOFT_TOLD] = { closing, place, read, done };
    for (size_t i = 0; i < LOFT_TOLD; i++)
        expect(told[i] == wanted[i], "told %zu: %lu and not %lu", i, (unsigned long)told[i], (unsigned long)wanted[i]);
}

static void days(void)
{
    static const uint8_t piece[] = { 1, 0, 0, 21, 0, 0, 1, 0, 0, 22, 0, 0, 1 }; /* two openings, and a byte */
    struct lent answers = lent_new(2 * 14);
    uint16_t *at = lent_list(&answers);
    uint64_t told[LOFT_TOLD];
    again();
    expect(loft_day(book, LOFT_BOOK, piece, 0, 9, at, 0, told, LOFT_TOLD) == 0, "a day of nothing");
    told_are(told, LOFT_END, 0, 0, 0);
    expect(loft_day(book, LOFT_BOOK, piece, sizeof piece, 9, at, 0, told, LOFT_TOLD) == 0, "a day without room for an answer");
    told_are(told, LOFT_LONG, 0, 0, 0);
    expect(loft_day(book, LOFT_BOOK, piece, sizeof piece, 9, at, 4, told, LOFT_TOLD) == 0, "a day with room for four numbers");
    told_are(told, LOFT_LONG, 0, 0, 0);
    expect(loft_day(book, LOFT_BOOK, piece, sizeof piece, 0, at, 14, told, LOFT_TOLD) == 0, "a day of at most no record");
    told_are(told, LOFT_LONG, 0, 0, 0);
    expect(lent_is_same(&answers) && is_same_book(), "a day that reads no record changes something");
    expect(loft_day(book, LOFT_BOOK, piece, sizeof piece, 9, at, 9, told, LOFT_TOLD) == 0, "a day with room for one answer");
    told_are(told, LOFT_LONG, 6, 1, 1);
    expect(at[0] == 21 && at[1] == 1 && at[2] == 0 && at[3] == 0 && at[4] == 6, "the answer to an opening");
    expect(at[5] == 0xA5A5, "the room past the answers changes");
    again();
    expect(loft_day(book, LOFT_BOOK, piece, sizeof piece, 2, at, 14, told, LOFT_TOLD) == 0, "a day of at most two");
    told_are(told, LOFT_LONG, 12, 2, 2);
    again();
    expect(loft_day(book, LOFT_BOOK, piece, sizeof piece, 9, at, 14, told, LOFT_TOLD) == 0, "a day with room for two answers");
    told_are(told, LOFT_LONG, 12, 2, 2);
    again();
    uint16_t room[15];
    expect(loft_day(book, LOFT_BOOK, piece, sizeof piece, 9, room, 15, told, LOFT_TOLD) == 0, "a day with room for three answers");
    told_are(told, LOFT_CUT, 12, 2, 2);
    expect(lent_is_guarded(&answers), "a day writes past its answers");
    lent_free(&answers);
}

static void records_carried_out(void)
{
    const uint64_t none[LOFT_AMOUNTS] = { 0 };
    uint16_t answer[LOFT_ANSWER] = { 9, 9, 9, 9, 9 };
    again();
    expect(loft_carry_out(book, LOFT_BOOK, 20, 1, 0, 0, none, LOFT_AMOUNTS, answer, LOFT_ANSWER) == 3, "a serial that isn't the next");
    expect(answer[0] == 20 && answer[1] == 1 && answer[2] == 0 && answer[3] == 3 && answer[4] == 0, "the answer of refusal 3");
    expect(is_same_book(), "refusal 3 changes the book");
    expect(loft_carry_out(book, LOFT_BOOK, 21, 11, 0, 99, none, LOFT_AMOUNTS, answer, LOFT_ANSWER) == 7, "an account never given");
    expect(answer[0] == 21 && answer[1] == 11 && answer[2] == 99 && answer[3] == 7 && answer[4] == 0, "the answer of refusal 7");
    expect(next_serial(book) == 22, "refusal 7 leaves the serial");
    memcpy(book + 6, before + 6, 2);
    expect(is_same_book(), "refusal 7 changes more than the serial");
}

static void archives(void)
{
    struct lent entries = lent_new(2 * 5);
    uint16_t *at = lent_list(&entries), moved = 77;
    again();
    expect(loft_archive(book, LOFT_BOOK, at, 2, &moved) == 23, "room for two numbers");
    expect(loft_archive(book, LOFT_BOOK, at, 0, &moved) == 23, "no room");
    expect(is_same_book() && moved == 77 && lent_is_same(&entries), "refusal 23 changes something");
    expect(loft_archive(book, LOFT_BOOK, at, 5, &moved) == 0 && moved == 1, "an archiving");
    expect(at[0] == SMALL_RETIRED && at[1] == 1 && at[2] == 0 && at[3] == 0xA5A5 && at[4] == 0xA5A5, "the archived row and the room behind");
    expect(rows_held(book) == SMALL_ROWS - 1, "the rows left");
    expect(loft_archive(book, LOFT_BOOK, at, 0, &moved) == 0 && moved == 0, "an archiving of nothing into no room");
    expect(lent_is_guarded(&entries), "an archiving writes past its room");
    lent_free(&entries);
}

static void statements(void)
{
    static const uint8_t nothing[1] = { 0 };
    again();
    expect(loft_statement(book, LOFT_BOOK, 1, nothing, 0) == 26, "a statement that lacks the TM's clients");
    expect(loft_statement(book, LOFT_BOOK, 4, nothing, 0) == 8, "a CP's statement");
    expect(loft_statement(book, LOFT_BOOK, 5, nothing, 0) == 7, "a retired TM's statement");
    expect(loft_statement(book, LOFT_BOOK, 1, nothing, 1) == 24, "a statement of one byte");
}

static void closings_out(void)
{
    uint64_t losses[SMALL_ROWS] = { 0 }, total = 7;
    struct lent pays = lent_new(8 * 4 * SMALL_ROWS);
    again();
    losses[SMALL_RETIRED] = 1;
    expect(loft_close_out(book, LOFT_BOOK, losses, SMALL_ROWS, lent_list(&pays), 4 * SMALL_ROWS, &total) == 16, "a retired account's loss");
    losses[SMALL_RETIRED] = 0;
    losses[0] = 10000000000001;
    expect(loft_close_out(book, LOFT_BOOK, losses, SMALL_ROWS, lent_list(&pays), 4 * SMALL_ROWS, &total) == 16, "a loss past the ceiling");
    expect(loft_close_out(book, LOFT_BOOK, losses, SMALL_ROWS, lent_list(&pays), 0, &total) == 15, "15 before 16");
    expect(total == 7 && lent_is_same(&pays), "a refused close-out changes something");
    lent_free(&pays);
}

static void writing(void)
{
    uint64_t amounts[LOFT_AMOUNTS] = { 30000 };
    struct lent room = lent_new(20);
    uint8_t *at = lent_list(&room);
    size_t length = 77;
    expect(loft_write_record(3, 14, 1, 2, amounts, LOFT_AMOUNTS - 1, at, 20, &length) == 15, "15 of the amounts before 4");
    expect(loft_write_record(3, 14, 1, 2, amounts, LOFT_AMOUNTS, at, 0, &length) == 4, "4 before 15 of the room");
    expect(loft_write_record(3, 4, 16, 2, amounts, LOFT_AMOUNTS, at, 0, &length) == 5, "5 before 15 of the room");
    expect(loft_write_record(3, 4, 3, 2, amounts, LOFT_AMOUNTS, at, 0, &length) == 6, "6 before 15 of the room");
    expect(loft_write_record(3, 4, 1, 2, amounts, LOFT_AMOUNTS, at, 13, &length) == 15, "a room one byte too short");
    expect(length == 77 && lent_is_same(&room), "a refused writing changes something");
    expect(loft_write_record(3, 4, 1, 2, amounts, LOFT_AMOUNTS, at, 20, &length) == 0 && length == 14, "a writing");
    static const uint8_t wanted[] = { 4, 1, 0, 3, 0, 2, 0, 0, 0, 0, 0, 0, 0x75, 0x30, 0xA5, 0xA5, 0xA5, 0xA5, 0xA5, 0xA5 };
    expect(memcmp(at, wanted, sizeof wanted) == 0 && lent_is_guarded(&room), "a record's bytes and the room past them");
    lent_free(&room);
}

static void reading(void)
{
    static const uint8_t piece[] = { 14, 1, 0, 3, 0, 2, 0, 0, 0, 0, 0, 0, 0x75, 0x30, 4 };
    struct lent numbers = lent_new(8 * LOFT_NUMBERS);
    uint64_t *at = lent_list(&numbers);
    expect(loft_read_record(piece, 0, 0, at, LOFT_NUMBERS) == LOFT_NO_RECORD, "an empty piece");
    expect(loft_read_record(piece, sizeof piece, sizeof piece, at, LOFT_NUMBERS) == LOFT_NO_RECORD, "the end");
    expect(loft_read_record(piece, sizeof piece, SIZE_MAX, at, LOFT_NUMBERS) == LOFT_NO_RECORD, "the largest place");
    expect(loft_read_record(piece, sizeof piece, 14, at, LOFT_NUMBERS) == 2, "a byte alone");
    expect(loft_read_record(piece, 0, 0, at, LOFT_NUMBERS - 1) == 15, "15 before the end");
    expect(loft_read_record(piece, sizeof piece, 14, at, LOFT_NUMBERS - 1) == 15, "15 before 2");
    expect(lent_is_same(&numbers), "what tells no record changes something");
    expect(loft_read_record(piece, sizeof piece, 0, at, LOFT_NUMBERS) == 4, "code 14");
    static const uint64_t wanted[LOFT_NUMBERS] = { 14, 3, 14, 2 };
    expect(memcmp(at, wanted, sizeof wanted) == 0 && lent_is_guarded(&numbers), "what is told with 4");
    lent_free(&numbers);
}

static void margins(void)
{
    static const uint8_t products[65] = { 5 };
    static uint64_t notionals[65] = { 10000001 };
    static const int64_t figures[4] = { 50, 30, -10, 5 };
    uint8_t sides[65] = { 0 };
    struct lent record = lent_new(LOFT_RECORD);
    uint8_t *at = lent_list(&record);
    expect(loft_margin(3, 2, 7, products, 65, sides, 65, notionals, 65, figures, 0, at, LOFT_RECORD) == 15, "65 positions");
    sides[0] = 4;
    expect(loft_margin(3, 2, 7, products, 1, sides, 1, notionals, 1, figures, 0, at, LOFT_RECORD) == 15, "a side above 3");
    static const uint8_t unknown[1] = { 10 };
    expect(loft_margin(3, 2, 7, unknown, 1, sides, 1, notionals, 1, figures, 0, at, LOFT_RECORD) == 15, "15 before 18");
    sides[0] = 0;
    expect(loft_margin(3, 2, 7, unknown, 1, sides, 1, notionals, 1, figures, 0, at, LOFT_RECORD) == 18, "product 10");
    expect(lent_is_same(&record), "a refused margin changes something");
    static const struct {
        size_t positions, figures;
        uint64_t margin;
    } cases[] = { { 0, 0, 7 }, { 1, 0, 50008 }, { 1, 2, 50088 }, { 1, 4, 50083 }, { 64, 0, 50008 } };
    for (size_t i = 0; i < sizeof cases / sizeof *cases; i++) {
        size_t many = cases[i].positions;
        uint64_t numbers[LOFT_NUMBERS];
        uint8_t refusal = loft_margin(3, 2, 7, products, many, sides, many, notionals, many, figures, cases[i].figures, at, LOFT_RECORD);
        expect(refusal == 0 && loft_read_record(at, LOFT_RECORD, 0, numbers, LOFT_NUMBERS) == 0, "margin %zu", i);
        expect(numbers[1] == 3 && numbers[2] == 10 && numbers[3] == 2 && numbers[4] == 32 && numbers[10] == cases[i].margin, "margin %zu: %lu", i,
               (unsigned long)numbers[10]);
    }
    expect(lent_is_guarded(&record), "a margin writes past its record");
    lent_free(&record);
}

int main(void)
{
    days();
    records_carried_out();
    archives();
    statements();
    closings_out();
    writing();
    reading();
    margins();
    printf("edges: %lu as expected\n", expected());
    return 0;
}
