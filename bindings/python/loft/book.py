"""A book and its calls."""

from __future__ import annotations

from collections.abc import Callable, Iterable
from typing import Any

from loft import native
from loft.answers import Answer, Archived, Closing, CloseOut, DayEnd, Payment, Standing, in_parts
from loft.records import Record
from loft.refusals import NOT_SOUND, Refused, accept

# The records at which a day stops.
MILLION = 1_000_000

# How many records a turn of a whole day has: enough that reading and writing the book, once a turn, costs little beside them.
_TURN = 32_768


class Book:
    """A collateral book by its written form, which it owns.

    Any bytes can be held; where they are no sound book of version 2 every call but is_sound refuses with 1, and take_over judges
    by the old rule.
    """

    def __init__(self, written: bytes) -> None:
        self._bytes = bytes(written)

    @classmethod
    def fresh(cls) -> Book:
        """The book at first: the CM alone, live, all amounts 0."""
        room = native.byte_room(native.BOOK)
        accept(native.call("loft_fresh", room))
        return cls(bytes(room))

    @classmethod
    def from_bytes(cls, written: bytes) -> Book:
        """The book that these bytes are, if they are one; they are copied."""
        return cls(written)

    def as_bytes(self) -> bytes:
        """Its written form, as a book file has it."""
        return self._bytes

    def __eq__(self, other: object) -> bool:
        return isinstance(other, Book) and self._bytes == other._bytes

    def __hash__(self) -> int:
        return hash(self._bytes)

    def _lent(self) -> Any:
        return native.byte_list(self._bytes)

    @property
    def rows(self) -> int:
        """How many rows it says that it holds."""
        return int.from_bytes(self._bytes[4:6], "big")

    def is_sound(self) -> bool:
        """Whether the bytes are a book of version 2 that is sound."""
        return bool(native.call("loft_is_sound", self._lent()))

    def standing(self, account: int) -> Standing:
        """How an account stands. Refuses with 1 and 7."""
        figures = native.long_room(native.FIGURES)
        accept(native.call("loft_standing", self._lent(), account, figures))
        collateral, need, blocked, deemed, free, mode, shortfall = figures
        return Standing(collateral, need, blocked, deemed, free, mode == 1, shortfall)

    def carry_out(self, record: Record) -> Answer:
        """Carries a record out. Where it is refused the answer says so; only a book that isn't sound refuses the call, with 1.
        A refused record moves the next serial on, but for refusal 3, and changes nothing else."""
        book, answer = self._lent(), native.short_room(native.ANSWER)
        amounts = native.long_list(record.amounts())
        head = (record.serial, record.code, record.named, record.account)
        if native.call("loft_carry_out", book, *head, amounts, answer) == NOT_SOUND:
            raise Refused(NOT_SOUND)
        self._bytes = bytes(book)
        return Answer(*answer)

    def day(self, piece: bytes, most: int = MILLION) -> tuple[DayEnd, list[Answer]]:
        """Carries out the records of a piece of a day file from its start, at most `most`: how it ended, and the records' answers.
        Refuses with 1."""
        # a record has at least six bytes; one place more, or a cut end would be told as long
        room = native.short_room(native.ANSWER * min(most, len(piece) // 6 + 1))
        return self._day(native.byte_list(piece), most, room)

    def _day(self, piece: Any, most: int, room: Any) -> tuple[DayEnd, list[Answer]]:
        book, told = self._lent(), native.long_room(native.TOLD)
        accept(native.call("loft_day", book, piece, most, room, told))
        self._bytes = bytes(book)
        closing, place, read, done = told
        answers = [Answer(*numbers) for numbers in in_parts(room[: native.ANSWER * read], native.ANSWER)]
        return DayEnd(Closing(closing), place, read, done), answers

    def whole_day(self, file: bytes, each: Callable[[Answer], object], most: int = MILLION) -> DayEnd:
        """Carries out the records of a whole day file in turns, at most `most` of them; `each` sees every answer. Refuses with 1,
        before any record."""
        room = native.short_room(native.ANSWER * _TURN)
        place = read = done = 0
        while True:
            # no turn needs more bytes than these
            piece = native.byte_list(file[place : place + native.LONGEST * _TURN + 1])
            end, answers = self._day(piece, most - read, room)
            for answer in answers:
                each(answer)
            place, read, done = place + end.place, read + end.read, done + end.done
            if end.closing != Closing.LONG or read >= most:
                return DayEnd(end.closing, place, read, done)

    def most(self, code: int, named: int, account: int) -> int:
        """The largest amount with which a record of this code, second mark byte and account is carried out. Refuses with 1, 4, 5, 7, and
        with whatever refuses even the least amount."""
        amount = native.long_number()
        accept(native.call("loft_most", self._lent(), code, named, account, amount))
        return int(amount.value)

    def needs(self) -> list[int]:
        """Every account's need, one for each row held. Refuses with 1."""
        needs = native.long_room(self.rows)
        accept(native.call("loft_needs", self._lent(), needs))
        return list(needs)

    def close_out(self, losses: Iterable[int]) -> CloseOut:
        """Who pays what of losses, one for each row held. Refuses with 1, 15 (not one for each row) and 16."""
        pays, total = native.long_room(4 * self.rows), native.long_number()
        accept(native.call("loft_close_out", self._lent(), native.long_list(losses), pays, total))
        return CloseOut([Payment(*four) for four in in_parts(pays[:], 4)], int(total.value))

    def statement(self, tm: int, piece: bytes) -> None:
        """Holds a TM's statement against the book. Refuses with 1, 7, 8 and 24 to 29."""
        accept(native.call("loft_statement", self._lent(), tm, native.byte_list(piece)))

    def archive(self) -> list[Archived]:
        """Moves all retired rows to the archive and gives them. Refuses with 1."""
        book, entries, moved = self._lent(), native.short_room(3 * self.rows), native.short_number()
        accept(native.call("loft_archive", book, entries, moved))
        self._bytes = bytes(book)
        return [Archived(*entry) for entry in in_parts(entries[: 3 * moved.value], 3)]

    def take_over(self) -> None:
        """Takes the book over from the old rule, by which government securities counted in full, to the one by which they count less a
        tenth. Refuses with 1."""
        book = self._lent()
        accept(native.call("loft_take_over", book))
        self._bytes = bytes(book)
