#include "books.h"

#include <inttypes.h>
#include <stdio.h>
#include <string.h>

#define PLACES 256
#define HEAD_1 8
#define HEAD_2 12
#define PLACE_1 93
#define PLACE_2 95
#define WORDS 16

/* Bytes of each word of a place: number, sort, live, TM, ten amounts, mode, kept need. */
static const size_t widths[WORDS] = { 2, 1, 1, 2, 8, 8, 8, 8, 8, 8, 8, 8, 8, 8, 1, 8 };
#define LIVE 3
#define MODE 86

static uint64_t number_at(const uint8_t *bytes, size_t width)
{
    uint64_t number = 0;
    for (size_t i = 0; i < width; i++)
        number = number << 8 | bytes[i];
    return number;
}

static void as_version_2(const uint8_t *first, uint8_t book[LOFT_BOOK])
{
    uint64_t count = number_at(first + 4, 2);
    memcpy(book, first, HEAD_1);
    book[3] = 2;
    book[8] = book[9] = 0;
    memcpy(book + 10, first + 4, 2);
    for (size_t i = 0; i < PLACES; i++) {
        uint8_t *place = book + HEAD_2 + PLACE_2 * i;
        place[0] = 0;
        place[1] = i < count ? (uint8_t)i : 0;
        memcpy(place + 2, first + HEAD_1 + PLACE_1 * i, PLACE_1);
    }
}

/* loft_is_sound says the same of a book that isn't sound and of what is none; here they part. */
static bool is_book(const uint8_t book[LOFT_BOOK])
{
    for (size_t i = 0; i < PLACES; i++) {
        const uint8_t *place = book + HEAD_2 + PLACE_2 * i;
        if (place[LIVE] > 1 || place[MODE] > 1)
            return false;
    }
    return true;
}

void books_take(struct input *input, uint8_t book[LOFT_BOOK])
{
    static const uint8_t mark[3] = { 'L', 'V', 'B' };
    bool has_mark = !input->is_bad && input->length >= 4 && memcmp(input->left, mark, sizeof mark) == 0;
    uint8_t version = has_mark ? input->left[3] : 0;
    memset(book, 0, LOFT_BOOK);
    if (version == 1) {
        const uint8_t *first = input_bytes(input, HEAD_1 + PLACES * PLACE_1);
        if (first != NULL)
            as_version_2(first, book);
    } else if (version == 2) {
        const uint8_t *bytes = input_bytes(input, LOFT_BOOK);
        if (bytes != NULL)
            memcpy(book, bytes, LOFT_BOOK);
    } else {
        input->is_bad = true;
    }
    if (!is_book(book))
        input->is_bad = true;
}

static void print_place(size_t number, const uint8_t *place)
{
    printf(" %zu", number);
    for (size_t word = 0; word < WORDS; place += widths[word++])
        printf(" %" PRIu64, number_at(place, widths[word]));
}

void books_print(const uint8_t before[LOFT_BOOK], const uint8_t after[LOFT_BOOK])
{
    if (memcmp(before, after, LOFT_BOOK) == 0) {
        printf(" same");
        return;
    }
    printf(" %" PRIu64 " %" PRIu64 " %" PRIu64, number_at(after + 4, 2), number_at(after + 6, 2), number_at(after + 8, 4));
    for (size_t i = 0; i < PLACES; i++) {
        size_t at = HEAD_2 + PLACE_2 * i;
        if (memcmp(before + at, after + at, PLACE_2) != 0)
            print_place(i, after + at);
    }
}
