"""What the book's calls answer."""

from collections.abc import Sequence
from dataclasses import dataclass
from enum import Enum


@dataclass(frozen=True, slots=True)
class Answer:
    """A record's answer: `refusal` is 0 where it was carried out, and `given` the number that an opening gave, else 0."""

    serial: int
    code: int
    account: int
    refusal: int
    given: int


@dataclass(frozen=True, slots=True)
class Standing:
    """An account's figures in paise, and whether it is in risk reduction mode. Only account 0 can have a shortfall."""

    collateral: int
    need: int
    blocked: int
    deemed: int
    free: int
    mode: bool
    shortfall: int


class Closing(Enum):
    """Why a day stopped: all was read, too few bytes are left for a record, or bytes follow the last that was asked for."""

    END = 0
    CUT = 1
    LONG = 2


@dataclass(frozen=True, slots=True)
class DayEnd:
    """How a day ended: the place behind the last record read, how many were read, and how many of them carried out."""

    closing: Closing
    place: int
    read: int
    done: int


@dataclass(frozen=True, slots=True)
class Payment:
    """What pays one account's loss: its own collateral, its TM's, the CM's, nothing. The four add up to the loss."""

    own: int
    tm: int
    cm: int
    uncovered: int


@dataclass(frozen=True, slots=True)
class CloseOut:
    """A payment for each row held, in rising number, and what is uncovered in all."""

    payments: list[Payment]
    total: int


@dataclass(frozen=True, slots=True)
class Archived:
    """A row that was moved to the archive: its number, its opening code (1 TM, 2 client, 3 CP), a client's TM or 0."""

    number: int
    code: int
    tm: int


def in_parts(numbers: Sequence[int], size: int) -> list[Sequence[int]]:
    """Numbers in parts of one size."""
    return [numbers[at : at + size] for at in range(0, len(numbers), size)]
