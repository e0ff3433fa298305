"""A book's calls through the module."""

import unittest
from collections.abc import Callable

from loft import CEILING, MILLION, Answer, Archived, Book, Closing, Kinds, Payment, Record, Refused, write_record
from loft.native import BOOK


def annexure(*margins: tuple[int, int]) -> Book:
    """CM 1000, TM 1 with 500, its clients 2 and 3 with 300 each, in rupees: document 01's figures, all of it allocated cash."""
    records = [Record.open_tm(0), Record.open_client(1, 1), Record.open_client(2, 1)]
    for account, rupees in [(0, 1000), (1, 500), (2, 300), (3, 300)]:
        cash = Kinds(cash=100 * rupees)
        records.append(Record.receive(len(records), account, cash))
        records.append(Record.allocate(len(records), account, cash))
    for account, rupees in margins:
        records.append(Record.set_margin(len(records), account, 100 * rupees))
    book = Book.fresh()
    for record in records:
        answer = book.carry_out(record)
        if answer.refusal != 0:
            raise AssertionError(answer)
    return book


class OfBooks(unittest.TestCase):
    def refuses(self, number: int, call: Callable[[], object]) -> None:
        with self.assertRaises(Refused) as caught:
            call()
        self.assertEqual(caught.exception.number, number)

    def test_figures_of_document_01(self) -> None:
        book = annexure((3, 100), (2, 600), (3, 900))
        standings = [book.standing(account) for account in range(4)]
        self.assertEqual([s.blocked for s in standings], [40_000, 50_000, 30_000, 30_000])
        self.assertEqual([s.deemed for s in standings], [0, 40_000, 30_000, 60_000])
        self.assertEqual([s.mode for s in standings], [False, True, False, False])
        self.assertEqual(book.needs(), [40_000, 90_000, 60_000, 90_000])

    def test_who_pays_what(self) -> None:
        book = annexure((3, 100), (2, 600), (3, 900))
        closed = book.close_out([0, 0, 120_000, 120_000])
        self.assertEqual(closed.payments[2:], [Payment(30_000, 30_000, 60_000, 0), Payment(30_000, 20_000, 40_000, 30_000)])
        self.assertEqual(closed.total, 30_000)
        self.refuses(15, lambda: book.close_out([0] * 3))
        self.refuses(16, lambda: book.close_out([CEILING + 1] * 4))

    def test_the_most_passes_and_a_paisa_more_does_not(self) -> None:
        book = annexure((3, 100))
        most = book.most(7, 1, 3)
        self.assertEqual(most, 20_000)
        for amount, refusal in [(most, 0), (most + 1, 12)]:
            copy = Book.from_bytes(book.as_bytes())
            answer = copy.carry_out(Record.release(12, 3, Kinds(cash=amount)))
            self.assertEqual(answer, Answer(12, 7, 3, refusal, 0))
        self.refuses(7, lambda: book.most(7, 1, 4))

    def test_statements_are_held_against_the_book(self) -> None:
        book = annexure()
        amount = (30_000).to_bytes(8, "big")
        statement = b"".join(bytes([1, 0b10101, 0, account]) + 3 * amount for account in (2, 3))
        book.statement(1, statement)
        self.refuses(26, lambda: book.statement(1, statement[:28]))
        self.refuses(8, lambda: book.statement(2, statement))

    def test_retired_rows_move_to_the_archive(self) -> None:
        book = Book.fresh()
        book.carry_out(Record.open_cp(0))
        book.carry_out(Record.retire(1, 1))
        self.assertEqual(book.archive(), [Archived(1, 3, 0)])
        self.assertEqual((book.rows, book.archive()), (1, []))

    def test_taking_over_what_is_over_changes_nothing(self) -> None:
        book = annexure((3, 100))
        before = book.as_bytes()
        book.take_over()
        self.assertEqual(book.as_bytes(), before)

    def test_a_callers_bytes_never_change(self) -> None:
        written = Book.fresh().as_bytes()
        kept = bytes(bytearray(written))
        book = Book.from_bytes(written)
        book.carry_out(Record.open_tm(0))
        self.assertEqual(written, kept)
        self.assertNotEqual(book.as_bytes(), kept)

    def test_numbers_that_do_not_fit_are_told(self) -> None:
        book = Book.fresh()
        for call in [
            lambda: book.standing(65_536),
            lambda: book.standing(-1),
            lambda: book.carry_out(Record.pledge(0, 0, 1 << 64)),
            lambda: book.carry_out(Record(0, 257)),
            lambda: book.close_out([-1]),
        ]:
            self.assertRaises(OverflowError, call)
        self.assertEqual(book, Book.fresh())


class OfBytes(unittest.TestCase):
    def test_what_is_no_sound_book_refuses_every_call(self) -> None:
        fresh = Book.fresh().as_bytes()
        unsound, version_1 = bytearray(fresh), bytearray(fresh)
        unsound[5], version_1[3] = 0, 1
        for written in [b"", bytes(BOOK), fresh[:-1], bytes(unsound), bytes(version_1)]:
            book = Book.from_bytes(written)
            self.assertFalse(book.is_sound())
            for call in [
                lambda: book.standing(0),
                lambda: book.carry_out(Record.open_tm(0)),
                lambda: book.day(b""),
                lambda: book.whole_day(b"", print),
                lambda: book.most(4, 1, 0),
                lambda: book.needs(),
                lambda: book.close_out([]),
                lambda: book.statement(0, b""),
                lambda: book.archive(),
                lambda: book.take_over(),
            ]:
                with self.assertRaises(Refused) as caught:
                    call()
                self.assertEqual(caught.exception.number, 1)
            self.assertEqual(book.as_bytes(), written)


class OfDays(unittest.TestCase):
    def test_a_day_in_turns_is_the_day_at_once(self) -> None:
        records = [Record.open_tm(0)]
        records += [Record.pledge(serial % 65_536, 1 + (serial % 3 == 0), 5) for serial in range(1, 40_000)]
        file = b"".join(write_record(record) for record in records)
        for most in [0, 1, 32_768, 32_769, 40_000, MILLION]:
            turns, whole = Book.fresh(), Book.fresh()
            seen: list[Answer] = []
            end = turns.whole_day(file, seen.append, most)
            self.assertEqual(whole.day(file, most), (end, seen))
            self.assertEqual(turns, whole)

    def test_how_a_day_closes(self) -> None:
        piece = bytes.fromhex("0100 0000 0000 0200 0001 0001 07")
        for length, most, closing, read in [(12, 2, Closing.END, 2), (13, 2, Closing.LONG, 2), (13, 9, Closing.CUT, 2), (0, 9, Closing.END, 0)]:
            end, answers = Book.fresh().day(piece[:length], most)
            self.assertEqual((end.closing, end.read, end.done, len(answers)), (closing, read, read, read))
