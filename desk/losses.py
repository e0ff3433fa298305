"""A file of losses: an account and an amount a line, or a CSV with these two columns."""

import csv
import io
from pathlib import Path

from desk import amounts
from desk.amounts import BadAmount
from desk.inputs import text_of
from desk.names import Names
from desk.stops import SaysNothing
from desk.words import BadLine, tokens


def read(file: str, names: Names) -> dict[int, int]:
    """The loss of each account that is named; any other account's is 0."""
    try:
        text = text_of(Path(file).read_bytes(), file)
    except OSError as error:
        raise SaysNothing(f"{file} can't be read: {error.strerror}") from None
    rows = _cells(text, file) if file.lower().endswith(".csv") else _words(text, file)
    losses: dict[int, int] = {}
    for line, words in rows:
        where = f"{file}, line {line}"
        if len(words) != 2:
            raise SaysNothing(f"{where}: a line is an account and its loss")
        number = names.number(words[0])
        if number is None:
            raise SaysNothing(f"{where}: {names.unknown(words[0])}")
        if number in losses:
            raise SaysNothing(f"{where}: {names.name(number)} has a loss already")
        try:
            losses[number] = amounts.paise(words[1])
        except BadAmount as bad:
            raise SaysNothing(f"{where}: {bad}") from None
    return losses


def _words(text: str, file: str) -> list[tuple[int, list[str]]]:
    rows = []
    for at, line in enumerate(text.split("\n")):
        try:
            words = tokens(line)
        except BadLine as bad:
            raise SaysNothing(f"{file}, line {at + 1}: {bad}") from None
        if words:
            rows.append((at + 1, words))
    return rows


def _cells(text: str, file: str) -> list[tuple[int, list[str]]]:
    rows = csv.reader(io.StringIO(text, newline=""))
    header = [title.strip().lower() for title in next(rows, [])]
    if header != ["account", "loss"]:
        raise SaysNothing(f"{file}, line 1: a CSV of losses begins with the line account,loss")
    return [(rows.line_num, [cell.strip() for cell in row]) for row in rows if any(cell.strip() for cell in row)]
