"""What was handed to `write`, held against what `read` gives back."""

from desk import records
from desk.stops import Failed, SaysNothing


def compare(wanted: list[str], at: list[int], back: list[str], serial: int, file: str) -> None:
    """Line by line: the two may differ in how a record is said, not in which. `serial` is the book's next."""
    for place, line in enumerate(wanted):
        one_form, own = _one_form(line, serial)
        if one_form is None:
            raise SaysNothing(f"{file}, line {at[place] + 1}: these bytes aren't one whole record")
        if place >= len(back) or one_form != back[place]:
            raise Failed(f"{file}, line {at[place] + 1}: write and read don't agree; nothing was done")
        serial = (serial + 1) % 65_536 if own == serial else serial
    if len(back) != len(wanted):
        raise Failed(f"{file}: write and read don't agree; nothing was done")


def _one_form(line: str, serial: int) -> tuple[str | None, int]:
    """A line as `read` writes it, and its serial; none where its bytes are no whole record."""
    words = line.split(" ", 2)
    own = serial
    if words[0] == "raw":
        record = bytes.fromhex(words[1])
        if not records.is_whole(record):
            return None, serial
        own, line = records.serial(record), records.words(record)
        if line.startswith("raw"):
            return line, own
    elif words[0] == "serial":
        own, line = int(words[1]), words[2]
    return (line if own == serial else f"serial {own} {line}"), own
