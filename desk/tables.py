"""Columns of text."""


def table(rows: list[list[str]], left: int = 1) -> list[str]:
    """Rows in columns: the first few to the left, the others to the right."""
    widths = [max(len(row[place]) for row in rows) for place in range(len(rows[0]))]
    return [_line(row, widths, left).rstrip() for row in rows]


def _line(row: list[str], widths: list[int], left: int) -> str:
    cells = [cell.ljust(width) if place < left else cell.rjust(width) for place, (cell, width) in enumerate(zip(row, widths))]
    return "  ".join(cells)
