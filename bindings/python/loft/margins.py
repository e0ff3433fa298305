"""The currency desk: a client's margin from its positions and figures."""

from collections.abc import Sequence
from dataclasses import dataclass
from enum import IntEnum

from loft import native
from loft.refusals import accept


class Product(IntEnum):
    """The products in document 02's order."""

    EURINR = 0
    EURUSD = 1
    GBPINR = 2
    GBPUSD = 3
    JPYINR = 4
    USDINR = 5
    USDJPY = 6
    INTEREST = 7
    TBILL91 = 8
    ONMIBOR = 9


class Side(IntEnum):
    """The side of a position: short and long are options, a spread is a futures calendar spread."""

    FUTURES = 0
    SHORT = 1
    LONG = 2
    SPREAD = 3


@dataclass(frozen=True, slots=True)
class Position:
    """A client's position; the notional of a spread is the far month's value."""

    product: int
    side: Side
    notional: int


@dataclass(frozen=True, slots=True)
class Figures:
    """Crystallised obligations; with exercise and settlement they are those of the end of the day."""

    premium: int
    loss: int
    exercise: int | None = None
    settlement: int | None = None

    def numbers(self) -> list[int]:
        """Two figures, or four where one of the last two is there."""
        if self.exercise is None and self.settlement is None:
            return [self.premium, self.loss]
        return [self.premium, self.loss, self.exercise or 0, self.settlement or 0]


def margin(serial: int, account: int, initial: int, positions: Sequence[Position], figures: Figures | None = None) -> bytes:
    """The record that sets an account's margin, as a day file has it: the initial margin, the extreme loss margin of at most 64
    positions, and what the figures come to. Refuses with 15 (over 64 positions) and 18 to 22.

    >>> margin(4, 2, 0, [Position(Product.USDINR, Side.FUTURES, 10_000_001)]).hex()
    '0a2000040002000000000000c351'
    """
    record = native.byte_room(native.RECORD)
    products = native.small_list(position.product for position in positions)
    sides = native.small_list(position.side for position in positions)
    notionals = native.long_list(position.notional for position in positions)
    numbers = native.signed_list(figures.numbers() if figures is not None else [])
    accept(native.call("loft_margin", serial, account, initial, products, sides, notionals, numbers, record))
    return bytes(record)
