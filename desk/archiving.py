"""Retired accounts moved out of the book, by `archive`."""

from dataclasses import dataclass

from desk.scratch import Scratch
from desk.stops import Failed


@dataclass
class Archived:
    """The book and the archive after it, the lines that are new there, and what `archive` printed."""

    book: bytes
    archived: bytes
    moved: bytes
    out: bytes


def archived(scratch: Scratch, book: bytes, held: bytes) -> Archived:
    """A book without its retired accounts, which go behind those that the archive holds."""
    source, after = scratch.file("book", book), scratch.place("book")
    archive = scratch.file("archived", held)
    out = scratch.programs.run("archive", source, after, archive)
    if out.split()[:1] != [b"0"]:
        raise Failed("the book isn't sound (1); nothing is archived")
    new = archive.read_bytes()
    if not new.startswith(held):
        raise Failed("archive changed lines that were there before; nothing is archived")
    return Archived(after.read_bytes(), new, new[len(held) :], out)
