"""What `standings`, `holdings`, `needs` and `closeouts` print, as values."""

from dataclasses import dataclass
from decimal import Decimal
from pathlib import Path

from desk.scratch import Scratch
from desk.stops import Failed


@dataclass
class Standing:
    """A line of `standings`, in paise."""

    number: int
    sort: str
    state: str
    tm: int
    collateral: int
    need: int
    blocked: int
    deemed: int
    free: int
    mode: str
    shortfall: int


@dataclass
class Holding:
    """A line of `holdings`, in paise; the use is in percent, or none where there is no collateral for it."""

    number: int
    received: list[int]
    allocated: list[int]
    pledged: int
    margin: int
    use: Decimal | None


@dataclass
class Holdings:
    """The next serial, the next number, and each account's."""

    serial: int
    number: int
    accounts: dict[int, Holding]


@dataclass
class Payment:
    """A line of `closeouts`, in paise."""

    number: int
    loss: int
    own: int
    tm: int
    cm: int
    uncovered: int


def _rows(said: bytes, program: str) -> list[list[str]]:
    """The lines behind the closing line."""
    lines = [line.split() for line in said.decode().splitlines()]
    if not lines or lines[0] != ["end", "0", "0"]:
        raise Failed("the book isn't sound (1)" if lines and lines[0][:1] == ["1"] else f"{program} printed no closing line")
    return lines[1:]


def standings(scratch: Scratch, book: Path) -> list[Standing]:
    """How each account stands."""
    rows = _rows(scratch.programs.run("standings", book), "standings")
    return [Standing(int(row[0]), row[1], row[2], int(row[3]), *map(int, row[4:9]), row[9], int(row[10])) for row in rows]


def holdings(scratch: Scratch, book: Path) -> Holdings:
    """What each account holds."""
    head, _, *rows = _rows(scratch.programs.run("holdings", book), "holdings")
    accounts = {}
    for row in rows:
        amounts = list(map(int, row[4:14]))
        use = None if row[14] == "none" else Decimal(row[14])
        accounts[int(row[0])] = Holding(int(row[0]), amounts[:4], amounts[4:8], amounts[8], amounts[9], use)
    return Holdings(int(head[1]), int(head[3]), accounts)


def needs(scratch: Scratch, book: Path) -> dict[int, int]:
    """What each account needs."""
    return {int(row[0]): int(row[1]) for row in _rows(scratch.programs.run("needs", book), "needs")}


def close_out(scratch: Scratch, book: Path, losses: dict[int, int]) -> tuple[int, list[Payment], int]:
    """The refusal or 0, who pays what, and what is left uncovered."""
    text = "".join(f"{number} {loss}\n" for number, loss in losses.items())
    rows = _rows(scratch.programs.run("closeouts", "--lines", scratch.file("losses", text.encode()), book), "closeouts")
    if rows and rows[0][0] == "refused":
        return int(rows[0][1]), [], 0
    return 0, [Payment(*map(int, row)) for row in rows[:-1]], int(rows[-1][1])
