"""A clerk's file: text, a CSV or a day file."""

from dataclasses import dataclass
from functools import cached_property
from pathlib import Path

from desk import sheets
from desk.stops import SaysNothing


@dataclass
class Input:
    """A file as it came, and its lines of text; a day file has none."""

    file: str
    kind: str
    came: bytes

    @cached_property
    def text(self) -> str:
        """Its lines as one text, whatever ended them; a byte-order mark in front is passed over."""
        text = text_of(self.came, self.file)
        if self.kind == "csv":
            text = "\n".join(sheets.lines(text, self.file))
        return text if not text or text.endswith("\n") else text + "\n"

    @cached_property
    def plain(self) -> bytes:
        """The text in bytes; as it came where it is plain already."""
        came = self.came
        is_plain = self.kind == "text" and came.isascii() and came.endswith(b"\n") and not any(mark in came for mark in (b"\r", b"\t", b"\0"))
        return came if is_plain else self.text.encode()

    @cached_property
    def lines(self) -> list[str]:
        """Its lines."""
        return self.text.split("\n")[:-1]


def read(file: str) -> Input:
    """The file of that name; what it is goes by how the name ends."""
    try:
        came = Path(file).read_bytes()
    except OSError as error:
        raise SaysNothing(f"{file} can't be read: {error.strerror}") from None
    ends = file.lower().rpartition(".")[2]
    return Input(file, ends if ends in ("day", "csv") else "text", came)


def text_of(came: bytes, file: str) -> str:
    """Bytes as text with plain ends of lines."""
    try:
        text = came.decode("utf-8-sig")
        bad = came.find(b"\0")
    except UnicodeDecodeError as error:
        bad = error.start
    if bad >= 0:
        line = came[:bad].count(b"\n") + 1
        raise SaysNothing(f"{file}, line {line}: this is no text (the name of a day file ends with .day)")
    if "\r" in text:
        text = text.replace("\r\n", "\n").replace("\r", "\n")
    return text.replace("\t", " ") if "\t" in text else text
