/* Loftviolet's collateral book, for a program's own process. Every function is proved: it ends, takes anything, and gives
 * what is said here.
 *
 * A book is its written form of version 2, LOFT_BOOK bytes (docs/API.md, "The book file"). Amounts are whole paise. A
 * list is a pointer and the number of its elements. No pointer may be NULL, whatever the number beside it. What isn't
 * `const` is changed by the call: it must not overlap anything else that is lent to the same call.
 *
 * Each function but loft_is_sound returns a refusal number of documents 01 and 02, or 0. Two of them mean here:
 *    1   the bytes are no book of version 2, or the book in them isn't sound
 *   15   a list isn't as long as it says here, or a side is above 3
 * 1 comes first, then 15, then the others in their order. With 1 and with 15 nothing that is lent changes. With any
 * other refusal nothing changes either but for what loft_carry_out, loft_day and loft_read_record say.
 */
#ifndef LOFT_H
#define LOFT_H

#include <stdbool.h>
#include <stddef.h>
#include <stdint.h>

#ifdef __cplusplus
extern "C" {
#endif

#define LOFT_BOOK 24332    /* bytes of a book */
#define LOFT_FIGURES 7     /* of a standing */
#define LOFT_AMOUNTS 6     /* of a record */
#define LOFT_ANSWER 5      /* numbers of an answer */
#define LOFT_TOLD 4        /* numbers that loft_day tells */
#define LOFT_RECORD 14     /* bytes of a record that sets a margin */
#define LOFT_NUMBERS 11    /* of a record that was read */
#define LOFT_LONGEST 70    /* bytes of the longest record */

/* How the records of a piece ended, as loft_day tells it; and what loft_read_record returns where no byte is left. */
#define LOFT_END 0
#define LOFT_CUT 1
#define LOFT_LONG 2
#define LOFT_NO_RECORD 255

/* A fresh book. Refuses 15. */
uint8_t loft_fresh(uint8_t *book, size_t book_length);

/* Whether the bytes are a book of version 2 that is sound. */
bool loft_is_sound(const uint8_t *book, size_t book_length);

/* An account's figures, LOFT_FIGURES of them: collateral, need, blocked, deemed, free, mode (1 where it is on),
 * shortfall. Refuses 1, 15, 7. */
uint8_t loft_standing(const uint8_t *book, size_t book_length, uint16_t account, uint64_t *figures, size_t figures_length);

/* Carries a record out. `amounts` are LOFT_AMOUNTS: cash, deposits, guarantees, securities, pledged, margin. `answer` is
 * LOFT_ANSWER numbers: serial, code, account, refusal, number given. Refuses 1, 15, 3 to 14, 17. With 3 to 14 and 17 the
 * answer is told too, and with all of these but 3 the book's next serial moves on. */
uint8_t loft_carry_out(uint8_t *book, size_t book_length, uint16_t serial, uint8_t code, uint8_t named, uint16_t account,
                       const uint64_t *amounts, size_t amounts_length, uint16_t *answer, size_t answer_length);

/* Carries out the records of a piece of a day file from its start, at most `most` of them and as many as `answers` has
 * room for, LOFT_ANSWER numbers each, and puts their answers. `told` is LOFT_TOLD numbers: LOFT_END, LOFT_CUT or
 * LOFT_LONG, the place reached, how many records were read, how many were carried out. Refuses 1, 15. A refused record is
 * told in its answer and is no refusal of the call. */
uint8_t loft_day(uint8_t *book, size_t book_length, const uint8_t *piece, size_t piece_length, uint64_t most,
                 uint16_t *answers, size_t answers_length, uint64_t *told, size_t told_length);

/* The largest amount with which a record of this code, mark byte and account is carried out. Refuses 1, 4, 5, 7, and
 * whatever refuses even the least amount. */
uint8_t loft_most(const uint8_t *book, size_t book_length, uint8_t code, uint8_t named, uint16_t account, uint64_t *amount);

/* Every account's need, one for each row held. Refuses 1, 15. */
uint8_t loft_needs(const uint8_t *book, size_t book_length, uint64_t *needs, size_t needs_length);

/* Who pays what: a loss for each row held, four amounts for each (own, its TM's, the CM's, uncovered), and what is
 * uncovered in all. Refuses 1, 15, 16. */
uint8_t loft_close_out(const uint8_t *book, size_t book_length, const uint64_t *losses, size_t losses_length,
                       uint64_t *pays, size_t pays_length, uint64_t *total);

/* The record that sets an account's margin, LOFT_RECORD bytes as in a day file. Of each position its product (0 to 9),
 * its side (0 futures, 1 short, 2 long, 3 spread) and its notional: three lists of one length, at most 64. `figures` are
 * none, two (premium, loss) or four (exercise and settlement behind them). Refuses 15, 18 to 22. */
uint8_t loft_margin(uint16_t serial, uint16_t account, uint64_t initial, const uint8_t *products, size_t products_length,
                    const uint8_t *sides, size_t sides_length, const uint64_t *notionals, size_t notionals_length,
                    const int64_t *figures, size_t figures_length, uint8_t *record, size_t record_length);

/* Holds a TM's statement against the book. Refuses 1, 7, 8, 24 to 29. */
uint8_t loft_statement(const uint8_t *book, size_t book_length, uint16_t tm, const uint8_t *piece, size_t piece_length);

/* Moves all retired rows to the archive: three numbers each into `entries`, and how many moved. What is behind them in
 * `entries` stays. Refuses 1, 23. */
uint8_t loft_archive(uint8_t *book, size_t book_length, uint16_t *entries, size_t entries_length, uint16_t *moved);

/* Takes a book over from the old rule to the one by which government securities count less a tenth (K7). Refuses 1. */
uint8_t loft_take_over(uint8_t *book, size_t book_length);

/* A record's bytes, put at the start of a room, and how many they are. Refuses 4 to 6, 15; 15 also where `amounts` aren't
 * LOFT_AMOUNTS, before any other, and where the room is too short, after 4 to 6. */
uint8_t loft_write_record(uint16_t serial, uint8_t code, uint8_t named, uint16_t account, const uint64_t *amounts,
                          size_t amounts_length, uint8_t *room, size_t room_length, size_t *length);

/* The record at a place of a piece: LOFT_NUMBERS numbers: the place behind it, serial, code, account, mark byte, six
 * amounts. Returns LOFT_NO_RECORD where no byte is left, and refuses 15, 2, 4 to 6. With 4 to 6 the first four are told
 * too, and the other seven are 0. */
uint8_t loft_read_record(const uint8_t *piece, size_t piece_length, size_t place, uint64_t *numbers, size_t numbers_length);

#ifdef __cplusplus
}
#endif

#endif
