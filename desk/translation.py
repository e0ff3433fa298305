"""A whole file of a clerk's lines turned into the programs' text, a line for a line."""

import pickle
from dataclasses import dataclass, field

from desk.names import BadName, Names, key
from desk.spread import even, spread
from desk.stops import SaysNothing
from desk.words import OPENINGS, Accounts, BadLine, new_name, program_line

# So many faults of one file are told.
TOLD = 20
# Fewer lines are gone through by one process.
WORTH_IT = 20_000


@dataclass
class Text:
    """The programs' text of a piece of a file, and what of it says nothing: line and why."""

    lines: list[str] = field(default_factory=list)
    faults: list[tuple[int, str]] = field(default_factory=list)


def new_names(lines: list[str], names: Names, file: str) -> dict[int, str]:
    """The names that a file's openings give, by line counted from 0."""
    found: dict[int, str] = {}
    line_of: dict[str, int] = {}
    for at, line in enumerate(lines):
        if " as" not in line and "\tas" not in line:
            continue
        try:
            name = new_name(line)
            if name is None:
                continue
            if key(name) in line_of:
                raise BadName(f"the name {name} is taken: line {line_of[key(name)] + 1} gives it")
            found[at] = names.free(name)
            line_of[key(name)] = at
        except (BadLine, BadName) as bad:
            raise SaysNothing(f"{file}, line {at + 1}: {bad}") from None
    return found


def opened_before(lines: list[str], at: int) -> int:
    """How many lines above this one would open an account."""
    return sum(line.lstrip().lower().startswith(OPENINGS) for line in lines[:at])


def text_of(lines: list[str], accounts: Accounts, file: str) -> list[str]:
    """The programs' text of all lines; faults are told by file, line and why."""
    work = spread(lambda start, end: pickle.dumps(_piece(lines, start, end, accounts)), even(len(lines), WORTH_IT))
    pieces: list[Text] = [pickle.loads(piece) for piece in work]
    faults = [fault for piece in pieces for fault in piece.faults]
    if faults:
        told = [f"{file}, line {at + 1}: {why}" for at, why in faults[:TOLD]]
        more = [f"{file}: more lines say nothing"] if len(faults) > TOLD else []
        raise SaysNothing(*told, *more)
    return [line for piece in pieces for line in piece.lines]


def _piece(lines: list[str], start: int, end: int, accounts: Accounts) -> Text:
    text = Text()
    for at in range(start, end):
        try:
            text.lines.append(program_line(lines[at], accounts, at))
        except BadLine as bad:
            text.faults.append((at, str(bad)))
    return text
