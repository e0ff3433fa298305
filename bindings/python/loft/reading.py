"""Records read from the bytes of a day file."""

from collections.abc import Iterator
from dataclasses import dataclass

from loft import native
from loft.records import Kinds, Record
from loft.refusals import CUT


@dataclass(frozen=True, slots=True)
class Good:
    """A good record, and the place behind it."""

    record: Record
    next: int


@dataclass(frozen=True, slots=True)
class Bad:
    """A record at fault: the first of 4, 5 and 6 that applies, its serial, code and account, and the place behind it."""

    reason: int
    serial: int
    code: int
    account: int
    next: int


@dataclass(frozen=True, slots=True)
class Cut:
    """Too few bytes are left for a record: refusal 2."""


def _good(numbers: list[int]) -> Good:
    place, serial, code, account, named, *amounts = numbers
    return Good(Record(serial, code, named, account, Kinds(*amounts[:4]), *amounts[4:]), place)


def read_record(piece: bytes, place: int) -> Good | Bad | Cut | None:
    """What stands at a place of a piece; None where no byte is left, and past the piece.

    >>> read_record(bytes.fromhex("0100 0005 0000"), 0).record == Record.open_tm(5)
    True
    """
    numbers = native.long_room(native.NUMBERS)
    refusal = native.call("loft_read_record", native.byte_list(piece), place, numbers)
    if refusal == native.NO_RECORD:
        return None
    if refusal == CUT:
        return Cut()
    if refusal == 0:
        return _good(list(numbers))
    place, serial, code, account = numbers[:4]
    return Bad(refusal, serial, code, account, place)


def records(file: bytes) -> Iterator[Good | Bad | Cut]:
    """The records of a day file, good or bad, one after the other. A cut end is told as the last; the end itself isn't."""
    place = 0
    while True:
        # no record is longer, so that a copy of the rest of the file isn't needed
        found = read_record(file[place : place + native.LONGEST], 0)
        match found:
            case None:
                return
            case Cut():
                yield found
                return
            case Good(record, step):
                yield Good(record, place + step)
            case Bad(reason, serial, code, account, step):
                yield Bad(reason, serial, code, account, place + step)
        place += step
