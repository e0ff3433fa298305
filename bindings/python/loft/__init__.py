"""The proved collateral book of one clearing member (CM), for a program's own process.

The library behind it, libloft.so, is written in Rattle: of every function it is proved that it ends, takes
anything, and gives what include/loft.h says. What is added here is types.

A Book owns its bytes. Amounts are whole paise. What can't be done raises Refused, which has a number and a text; a
number that doesn't fit its place raises OverflowError before the library is asked.

    >>> from loft import Book, Kinds, Record
    >>> book = Book.fresh()
    >>> book.carry_out(Record.open_tm(0)).given
    1
    >>> book.carry_out(Record.receive(1, 1, Kinds(cash=30_000))).refusal
    0
    >>> book.standing(1).collateral
    0
    >>> book.standing(2)
    Traceback (most recent call last):
    loft.refusals.Refused: 7: the account isn't live, or its number was never given, or it is in the archive
"""

from loft.answers import Answer, Archived, Closing, CloseOut, DayEnd, Payment, Standing
from loft.book import MILLION, Book
from loft.margins import Figures, Position, Product, Side, margin
from loft.reading import Bad, Cut, Good, read_record, records
from loft.records import CEILING, Kinds, Record, write_record
from loft.refusals import Refused

__all__ = [
    "CEILING",
    "MILLION",
    "Answer",
    "Archived",
    "Bad",
    "Book",
    "CloseOut",
    "Closing",
    "Cut",
    "DayEnd",
    "Figures",
    "Good",
    "Kinds",
    "Payment",
    "Position",
    "Product",
    "Record",
    "Refused",
    "Side",
    "Standing",
    "margin",
    "read_record",
    "records",
    "write_record",
]
