"""A CSV with a header, as a spreadsheet writes it, turned into lines of the text form."""

import csv
import io

from desk.stops import SaysNothing

# What a column may be called, by what it holds.
COLUMNS = {
    "serial": ("serial",),
    "code": ("code", "word", "code word", "record"),
    "account": ("account",),
    "kind": ("kind",),
    "amount": ("amount", "rupees"),
    "as": ("as", "name"),
}


def lines(text: str, file: str) -> list[str]:
    """A line for each row, at the row's own line of the file; empty ones in between."""
    rows = csv.reader(io.StringIO(text, newline=""), strict=True)
    said: list[str] = []
    try:
        header = next(rows, [])
        places = _places(header, file)
        said.append("")
        for row in rows:
            said += [""] * (rows.line_num - 1 - len(said))
            said.append(_line(row, places, f"{file}, line {rows.line_num}"))
    except csv.Error as error:
        raise SaysNothing(f"{file}, line {rows.line_num}: {error}") from None
    return said


def _not_one(title: str) -> str:
    if ";" in title or "\t" in title:
        return "save it with commas between the columns"
    return f"{title or 'an empty title'} is none of them, or stands twice"


def _places(header: list[str], file: str) -> dict[str, int]:
    places: dict[str, int] = {}
    for place, title in enumerate(header):
        title = title.strip().lower()
        known = next((column for column, titles in COLUMNS.items() if title in titles), None)
        if known is None or known in places:
            raise SaysNothing(
                f"{file}, line 1: a CSV begins with a line that names its columns: "
                f"serial (if wanted), code, account, kind, amount, as (if wanted); {_not_one(title)}"
            )
        places[known] = place
    for column in ("code", "account"):
        if column not in places:
            raise SaysNothing(f"{file}, line 1: there is no column {column}")
    return places


def _line(row: list[str], places: dict[str, int], where: str) -> str:
    cells = {column: row[place].strip() for column, place in places.items() if place < len(row)}
    if not any(cells.values()):
        return ""
    if len(row) > len(places) and any(cell.strip() for cell in row[len(places) :]):
        raise SaysNothing(f"{where}: more cells than the first line has columns")
    for cell in cells.values():
        if '"' in cell or "#" in cell or "\n" in cell:
            raise SaysNothing(f"{where}: a cell has a quote, # or a line's end in it")
    said = ["serial", cells["serial"]] if cells.get("serial") else []
    said.append(cells.get("code", ""))
    for column in ("account", "kind", "amount"):
        cell = cells.get(column, "")
        if cell and not (column == "kind" and cell.lower() in ("pledged", "margin")):
            said.append(f'"{cell}"' if " " in cell else cell)
    if cells.get("as"):
        said += ["as", f'"{cells["as"]}"']
    return " ".join(said)
