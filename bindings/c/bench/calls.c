#define _POSIX_C_SOURCE 200809L

#include "bench.h"

#include "../tests/books.h"
#include "../tests/expect.h"

#include <stdio.h>
#include <string.h>
#include <time.h>

#define ROUNDS 10
#define TIMES 200
#define RECORDS 1000

static uint8_t full[LOFT_BOOK], book[LOFT_BOOK];

static double microseconds(void)
{
    struct timespec now;
    clock_gettime(CLOCK_MONOTONIC, &now);
    return 1e6 * (double)now.tv_sec + 1e-3 * (double)now.tv_nsec;
}

static void copied(void)
{
    memcpy(book, full, LOFT_BOOK);
}

static void fresh(void)
{
    loft_fresh(book, LOFT_BOOK);
}

static void is_sound(void)
{
    loft_is_sound(full, LOFT_BOOK);
}

static void standing(void)
{
    uint64_t figures[LOFT_FIGURES];
    loft_standing(full, LOFT_BOOK, 200, figures, LOFT_FIGURES);
}

static void carry_out(void)
{
    const uint64_t amounts[LOFT_AMOUNTS] = { 0, 0, 0, 0, 0, 19000 };
    uint16_t answer[LOFT_ANSWER];
    copied();
    loft_carry_out(book, LOFT_BOOK, next_serial(book), 10, 32, 200, amounts, LOFT_AMOUNTS, answer, LOFT_ANSWER);
}

/* Margins of all accounts in turn, as a piece of a day file. */
static void day(void)
{
    static uint8_t piece[RECORDS * LOFT_RECORD];
    static uint16_t answers[RECORDS * LOFT_ANSWER];
    uint64_t told[LOFT_TOLD];
    copied();
    for (size_t i = 0; i < RECORDS; i++) {
        uint16_t serial = (uint16_t)(next_serial(book) + i);
        const uint8_t record[LOFT_RECORD] = { 10, 32, (uint8_t)(serial >> 8), (uint8_t)serial, 0, (uint8_t)i, 0, 0, 0, 0, 0, 0, 0x4A, 0x38 };
        memcpy(piece + i * LOFT_RECORD, record, LOFT_RECORD);
    }
    loft_day(book, LOFT_BOOK, piece, sizeof piece, RECORDS, answers, RECORDS * LOFT_ANSWER, told, LOFT_TOLD);
    expect(told[2] == RECORDS && told[3] > 0, "the bench's own day");
}

static void most(void)
{
    uint64_t amount;
    loft_most(full, LOFT_BOOK, 10, 32, 200, &amount);
}

static void needs(void)
{
    uint64_t list[FULL_ROWS];
    loft_needs(full, LOFT_BOOK, list, FULL_ROWS);
}

static void close_out(void)
{
    static uint64_t losses[FULL_ROWS], pays[4 * FULL_ROWS];
    uint64_t total;
    for (size_t i = 0; i < FULL_ROWS; i++)
        losses[i] = 60000;
    loft_close_out(full, LOFT_BOOK, losses, FULL_ROWS, pays, 4 * FULL_ROWS, &total);
}

static void margin(void)
{
    static const uint8_t products[64] = { 5 }, sides[64];
    static uint64_t notionals[64] = { 10000001 };
    static const int64_t figures[4] = { 50, 30, -10, 5 };
    uint8_t record[LOFT_RECORD];
    loft_margin(3, 2, 7, products, 64, sides, 64, notionals, 64, figures, 4, record, LOFT_RECORD);
}

/* As good as its first client's record is, so that the second is wanted. */
static void statement(void)
{
    static const uint8_t piece[] = { 1, 3, 0, 16, 0, 0, 0, 0, 0, 0, 0xC3, 0x67, 0, 0, 0, 0, 0, 0, 0xC3, 0x67 };
    loft_statement(full, LOFT_BOOK, 1, piece, sizeof piece);
}

static void archive(void)
{
    uint16_t entries[3 * FULL_ROWS], moved;
    copied();
    loft_archive(book, LOFT_BOOK, entries, 3 * FULL_ROWS, &moved);
}

static void take_over(void)
{
    copied();
    loft_take_over(book, LOFT_BOOK);
}

static void write_record(void)
{
    const uint64_t amounts[LOFT_AMOUNTS] = { 1, 2, 3, 4 };
    uint8_t room[LOFT_LONGEST];
    size_t length;
    loft_write_record(1, 4, 15, 2, amounts, LOFT_AMOUNTS, room, LOFT_LONGEST, &length);
}

static void read_record(void)
{
    static const uint8_t piece[LOFT_RECORD] = { 10, 32 };
    uint64_t numbers[LOFT_NUMBERS];
    loft_read_record(piece, LOFT_RECORD, 0, numbers, LOFT_NUMBERS);
}

static double least_of_rounds(void (*call)(void))
{
    double least = 1e9;
    for (int round = 0; round < ROUNDS; round++) {
        double start = microseconds();
        for (int i = 0; i < TIMES; i++)
            call();
        double took = (microseconds() - start) / TIMES;
        least = took < least ? took : least;
    }
    return least;
}

int bench_calls(void)
{
    static const struct {
        const char *name;
        void (*call)(void);
    } calls[] = {
        { "(a copy of a book)", copied },   { "loft_fresh", fresh },
        { "loft_is_sound", is_sound },      { "loft_standing", standing },
        { "loft_carry_out", carry_out },    { "loft_day, 1000 margins", day },
        { "loft_most", most },              { "loft_needs", needs },
        { "loft_close_out", close_out },    { "loft_margin, 64 positions", margin },
        { "loft_statement", statement },    { "loft_archive", archive },
        { "loft_take_over", take_over },    { "loft_write_record", write_record },
        { "loft_read_record", read_record },
    };
    full_book(full);
    for (size_t i = 0; i < sizeof calls / sizeof *calls; i++)
        printf("%-26s %9.2f %9zu\n", calls[i].name, least_of_rounds(calls[i].call), stack_of(calls[i].call));
    return 0;
}
