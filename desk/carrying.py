"""What would become of a file: it is written as bytes, read back and compared, then carried out on a copy of the book."""

import re
from collections.abc import Sequence
from dataclasses import dataclass, field
from functools import cached_property
from pathlib import Path

from desk import figures, readback, whole
from desk.inputs import Input
from desk.names import Names
from desk.programs import ProgramFailed
from desk.scratch import Scratch
from desk.spread import aside, even, spread
from desk.stops import Failed, SaysNothing
from desk.translation import WORTH_IT, new_names, opened_before, text_of
from desk.words import Accounts, clerk_line, without_comment

_TOLD = re.compile(r"write: line (\d+): \d+, (.*)")


@dataclass
class Carried:
    """A file, the programs' text and bytes of it, and `explain`'s answers."""

    input: Input
    names: Names
    text: bytes
    day: Path
    explained: bytes
    records: int
    refused: int
    at: Sequence[int]
    words: list[str] | None
    opened: dict[int, str] = field(default_factory=dict)
    out: bytes = b""
    book: Path = Path()

    @property
    def shown(self) -> list[str]:
        """The clerk's words for each record; of a long file they are its lines."""
        return self.input.lines if self.words is None else self.words

    @cached_property
    def answers(self) -> list[str]:
        """A line for each record."""
        return self.explained.decode().split("\n")[:-1]


@dataclass
class _Asked:
    """What `write`, `read` and `explain` make of a text."""

    text: bytes
    day: Path
    explained: bytes
    records: int
    done: int


def carried(scratch: Scratch, book: Path, names: Names, given: Input) -> Carried:
    """The answers to a file's records over a book; nothing is saved."""
    if given.kind == "day":
        return _of_bytes(scratch, book, names, given)
    return _of_whole(scratch, book, names, given) or _of_lines(scratch, book, names, given)


def carry_out(scratch: Scratch, book: Path, done: Carried) -> None:
    """The same by `day`, with the book after it; it must answer as `explain` did."""
    done.book = scratch.place("book")
    done.out = scratch.programs.run("day", book, done.book, given=done.day, into=scratch.place("out"))
    if done.out.count(b"\n") != done.records + 1:
        raise Failed("day and explain don't answer alike; nothing was done")
    if not done.out.startswith(done.explained):
        lines = done.out.decode().split("\n")
        if not all(answer == line or answer.startswith(line + " ") for answer, line in zip(done.answers, lines)):
            raise Failed("day and explain don't answer alike; nothing was done")


def _of_bytes(scratch: Scratch, book: Path, names: Names, given: Input) -> Carried:
    asked = _explained(scratch, book, scratch.file("day", given.came), given.file)
    lines = asked.text.decode().split("\n")[:-1]
    pieces = spread(lambda start, end: _shown(lines[start:end], names), even(len(lines), WORTH_IT))
    shown = b"".join(pieces).decode().split("\n")[:-1]
    return _made(given, names, asked, range(len(lines)), shown)


def _shown(lines: list[str], names: Names) -> bytes:
    return "".join([clerk_line(line, names) + "\n" for line in lines]).encode()


def _of_whole(scratch: Scratch, book: Path, names: Names, given: Input) -> Carried | None:
    """A long file in the common form; none where it isn't one."""
    data = given.plain
    if not whole.is_worth_it(data):
        return None
    grouped = aside(lambda: whole.is_grouped(data))
    asked, wanted = None, []
    if text := whole.text_of(data, names):
        try:
            asked, wanted = scratch.programs.both(
                lambda: _explained(scratch, book, _written(scratch, book, *text), given.file),
                lambda: [whole.without_zeros(piece) for piece in text],
            )
        except (ProgramFailed, SaysNothing):
            pass
    if not grouped() or asked is None or not _is_same(asked.text, wanted):
        return None
    return _made(given, names, asked, range(asked.records), None)


def _is_same(text: bytes, pieces: list[bytes]) -> bool:
    at = 0
    for piece in pieces:
        if not text.startswith(piece, at):
            return False
        at += len(piece)
    return at == len(text)


def _of_lines(scratch: Scratch, book: Path, names: Names, given: Input) -> Carried:
    """Numbers of accounts that the file opens are foretold, and must come out; where one doesn't, the first is put right."""
    naming = new_names(given.lines, names, given.file)
    following = figures.holdings(scratch, book).number if naming else 0
    foretold: dict[int, int | None] = {at: following + opened_before(given.lines, at) for at in naming}
    while True:
        opened = {name: (at, foretold[at]) for at, name in naming.items()}
        text = text_of(given.lines, Accounts(names, opened), given.file)
        at = [place for place, line in enumerate(text) if line]
        asked = _asked(scratch, book, given.file, text, at)
        answers = asked.explained.decode().split("\n")
        came_out = {at: int(answers[_record(text, at)].split()[4]) or None for at in naming}
        if came_out == foretold:
            break
        foretold = _nearer(foretold, came_out)
    done = _made(given, names.copy(), asked, at, [without_comment(given.lines[place]) for place in at])
    done.opened = {number: naming[at] for at, number in foretold.items() if number}
    for number, name in done.opened.items():
        done.names.add(number, name)
    return done


def _made(given: Input, names: Names, asked: _Asked, at: Sequence[int], shown: list[str] | None) -> Carried:
    if len(at) != asked.records:
        raise Failed(f"{given.file}: the programs see another number of records than there are lines; nothing is done")
    refused = asked.records - asked.done
    return Carried(given, names, asked.text, asked.day, asked.explained, asked.records, refused, at, shown)


def _record(text: list[str], at: int) -> int:
    return sum(map(bool, text[:at]))


def _nearer(foretold: dict[int, int | None], came_out: dict[int, int | None]) -> dict[int, int | None]:
    """Up to the first that differs all is certain; of those behind it, numbers given are the better guess."""
    first = min(at for at in foretold if foretold[at] != came_out[at])
    return {at: came_out[at] if at <= first else came_out[at] or foretold[at] for at in foretold}


def _asked(scratch: Scratch, book: Path, file: str, text: list[str], at: list[int]) -> _Asked:
    """A text's records asked of; what `read` gives back must say the same."""
    said = "".join(line + "\n" for line in text).encode()
    try:
        day = _written(scratch, book, said)
    except ProgramFailed as failed:
        told = _TOLD.fullmatch(failed.told)
        if told is None:
            raise
        raise SaysNothing(f"{file}, line {told[1]}: {told[2]}") from None
    asked = _explained(scratch, book, day, file)
    wanted = [text[place] for place in at]
    back = asked.text.decode().split("\n")[:-1]
    if wanted != back:
        readback.compare(wanted, at, back, figures.holdings(scratch, book).serial, file)
    asked.text = said
    return asked


def _written(scratch: Scratch, book: Path, *text: bytes | memoryview) -> Path:
    day = scratch.place("day")
    scratch.programs.run("write", scratch.file("text", *text), book, into=day)
    return day


def _explained(scratch: Scratch, book: Path, day: Path, file: str) -> _Asked:
    """`read` and `explain` side by side; the closing line must be `end`."""
    run = scratch.programs.run
    text, said = scratch.programs.both(
        lambda: run("read", book, given=day, into=scratch.place("read")),
        lambda: run("explain", book, given=day, into=scratch.place("explained")),
    )
    last = said.rfind(b"\n", 0, len(said) - 1) + 1
    closing = said[last:].decode().split()
    if not closing or closing[0] not in ("end", "cut", "long", "1"):
        raise Failed("explain ended without its closing line; nothing is done")
    if closing[0] == "1":
        raise Failed("the book isn't sound (1); nothing is done")
    if closing[0] == "cut":
        raise SaysNothing(f"{file} ends within a record (2): it is cut short; nothing is done")
    if closing[0] == "long":
        raise SaysNothing(f"{file} has more than a million records; nothing is done")
    return _Asked(text, day, said[:last], int(closing[1]), int(closing[2]))
