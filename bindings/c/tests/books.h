/* Books to test with, each made by the library's own records. */
#ifndef BOOKS_H
#define BOOKS_H

#include "../../../include/loft.h"

/* The CM, a TM, its two clients and a CP, all with collateral and margins; a second TM, retired. */
#define SMALL_ROWS 6
#define SMALL_RETIRED 5
void small_book(uint8_t book[LOFT_BOOK]);

/* 256 rows: the CM, 15 TMs, 15 clients of each, 15 CPs; all with collateral and margins. */
#define FULL_ROWS 256
void full_book(uint8_t book[LOFT_BOOK]);

/* The number of rows that a book says it holds. */
size_t rows_held(const uint8_t book[LOFT_BOOK]);

/* The next serial that it says. */
uint16_t next_serial(const uint8_t book[LOFT_BOOK]);

#endif
