#include "books.h"

#include "expect.h"

#define CASH 0
#define MARGIN 5

size_t rows_held(const uint8_t book[LOFT_BOOK])
{
    return (size_t)book[4] << 8 | book[5];
}

uint16_t next_serial(const uint8_t book[LOFT_BOOK])
{
    return (uint16_t)(book[6] << 8 | book[7]);
}

static void say(uint8_t book[LOFT_BOOK], uint8_t code, uint8_t named, uint16_t account, size_t place, uint64_t amount)
{
    uint64_t amounts[LOFT_AMOUNTS] = { 0 };
    uint16_t answer[LOFT_ANSWER];
    amounts[place] = amount;
    uint8_t refusal = loft_carry_out(book, LOFT_BOOK, next_serial(book), code, named, account, amounts, LOFT_AMOUNTS, answer, LOFT_ANSWER);
    expect(refusal == 0, "a test's own book: code %u of account %u is refused with %u", code, account, refusal);
}

static void fill(uint8_t book[LOFT_BOOK], uint16_t account, uint64_t cash, uint64_t margin)
{
    say(book, 4, 1 << CASH, account, CASH, cash + 7);
    say(book, 6, 1 << CASH, account, CASH, cash);
    say(book, 10, 1 << MARGIN, account, MARGIN, margin);
}

static void open(uint8_t book[LOFT_BOOK], uint8_t code, uint16_t under)
{
    say(book, code, 0, under, 0, 0);
}

void small_book(uint8_t book[LOFT_BOOK])
{
    expect(loft_fresh(book, LOFT_BOOK) == 0, "a fresh book");
    open(book, 1, 0);
    open(book, 2, 1);
    open(book, 2, 1);
    open(book, 3, 0);
    open(book, 1, 0);
    say(book, 11, 0, SMALL_RETIRED, 0, 0);
    fill(book, 0, 100000, 10);
    fill(book, 1, 50000, 10);
    fill(book, 2, 30000, 60000);
    fill(book, 3, 30000, 10000);
    fill(book, 4, 20000, 25000);
}

void full_book(uint8_t book[LOFT_BOOK])
{
    expect(loft_fresh(book, LOFT_BOOK) == 0, "a fresh book");
    for (uint16_t tm = 1; tm <= 15; tm++)
        open(book, 1, 0);
    for (uint16_t client = 0; client < 225; client++)
        open(book, 2, (uint16_t)(1 + client % 15));
    for (uint16_t cp = 0; cp < 15; cp++)
        open(book, 3, 0);
    fill(book, 0, 5000000, 10);
    for (uint16_t account = 1; account < FULL_ROWS; account++)
        fill(book, account, 50000u + account, 100u * account);
}
