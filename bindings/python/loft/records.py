"""A record of a day file, and its bytes."""

from __future__ import annotations

from dataclasses import astuple, dataclass

from loft import native
from loft.refusals import accept

CEILING = 10_000_000_000_000

_PLEDGED = 16
_MARGIN = 32


@dataclass(frozen=True, slots=True)
class Kinds:
    """An amount of each kind: cash, fixed deposits, bank guarantees, government securities."""

    cash: int = 0
    deposits: int = 0
    guarantees: int = 0
    securities: int = 0

    def named(self) -> int:
        """The bits of the amounts that aren't 0."""
        return sum(1 << bit for bit, amount in enumerate(astuple(self)) if amount != 0)


@dataclass(frozen=True, slots=True)
class Record:
    """A record, good or not. `named` is the second mark byte; an amount that it doesn't name is 0 in a good one."""

    serial: int
    code: int
    named: int = 0
    account: int = 0
    kinds: Kinds = Kinds()
    pledged: int = 0
    margin: int = 0

    @staticmethod
    def open_tm(serial: int) -> Record:
        """Code 1: opens a trading member (TM)."""
        return Record(serial, 1)

    @staticmethod
    def open_client(serial: int, tm: int) -> Record:
        """Code 2: opens a client of a TM."""
        return Record(serial, 2, account=tm)

    @staticmethod
    def open_cp(serial: int) -> Record:
        """Code 3: opens a custodial participant (CP)."""
        return Record(serial, 3)

    @staticmethod
    def receive(serial: int, account: int, kinds: Kinds) -> Record:
        """Code 4: adds to what was received."""
        return Record(serial, 4, kinds.named(), account, kinds)

    @staticmethod
    def hand_back(serial: int, account: int, kinds: Kinds) -> Record:
        """Code 5: takes from what was received."""
        return Record(serial, 5, kinds.named(), account, kinds)

    @staticmethod
    def allocate(serial: int, account: int, kinds: Kinds) -> Record:
        """Code 6: adds to what is allocated."""
        return Record(serial, 6, kinds.named(), account, kinds)

    @staticmethod
    def release(serial: int, account: int, kinds: Kinds) -> Record:
        """Code 7: takes from what is allocated."""
        return Record(serial, 7, kinds.named(), account, kinds)

    @staticmethod
    def pledge(serial: int, account: int, amount: int) -> Record:
        """Code 8: adds to what is pledged."""
        return Record(serial, 8, _PLEDGED, account, pledged=amount)

    @staticmethod
    def unpledge(serial: int, account: int, amount: int) -> Record:
        """Code 9: takes from what is pledged."""
        return Record(serial, 9, _PLEDGED, account, pledged=amount)

    @staticmethod
    def set_margin(serial: int, account: int, margin: int) -> Record:
        """Code 10: sets the margin, if it is covered."""
        return Record(serial, 10, _MARGIN, account, margin=margin)

    @staticmethod
    def retire(serial: int, account: int) -> Record:
        """Code 11: retires an account."""
        return Record(serial, 11, account=account)

    @staticmethod
    def revalue(serial: int, account: int, pledged: int) -> Record:
        """Code 12: sets pledged to a new value, covered or not."""
        return Record(serial, 12, _PLEDGED, account, pledged=pledged)

    @staticmethod
    def revise_margin(serial: int, account: int, margin: int) -> Record:
        """Code 13: sets the margin, covered or not."""
        return Record(serial, 13, _MARGIN, account, margin=margin)

    def amounts(self) -> tuple[int, ...]:
        """Its six amounts in the order of a day file."""
        return (*astuple(self.kinds), self.pledged, self.margin)


def write_record(record: Record) -> bytes:
    """A record's bytes, as a day file has them. Refuses with 4, 5 and 6.

    >>> write_record(Record.receive(2, 2, Kinds(cash=30_000))).hex()
    '0401000200020000000000007530'
    """
    room, length = native.byte_room(native.LONGEST), native.long_number()
    amounts = native.long_list(record.amounts())
    head = (record.serial, record.code, record.named, record.account)
    accept(native.call("loft_write_record", *head, amounts, room, length))
    return bytes(room[: length.value])
