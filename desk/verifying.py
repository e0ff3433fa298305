"""The trail replayed from the first book with the proved programs: every sum, every answer, and the book byte for byte."""

from pathlib import Path

from desk import names as naming
from desk.archiving import archived
from desk.carrying import carried, carry_out
from desk.files import sha256
from desk.folder import Desk
from desk.inputs import Input
from desk.names import Names
from desk.scratch import Scratch
from desk.stops import Failed, Stop
from desk.trail import DONE, WHAT, Posting


class Differs(Failed):
    """The first posting that isn't as it was left."""

    def __init__(self, number: int, what: str) -> None:
        super().__init__(f"posting {number} differs: {what}")


def verify(desk: Desk, scratch: Scratch) -> int:
    """How many postings there are; they are all as they were left."""
    numbers = desk.trail.numbers()
    if numbers != list(range(len(numbers))) or not numbers:
        missing = next(number for number in range(len(numbers) + 1) if number not in numbers)
        raise Differs(missing, "it is missing from the trail")
    _no_strangers(desk, numbers)
    book, last = b"", None
    for number in numbers:
        posting = _as_kept(desk, number, last)
        if posting.before != (sha256(book) if book else ""):
            raise Differs(number, "it doesn't begin with the book that the one before it left")
        book = _replayed(desk, scratch, posting, book)
        if sha256(book) != posting.after:
            raise Differs(number, "the book after it comes out otherwise")
        last = posting
    if desk.book_bytes() != book:
        raise Failed(f"every posting is as it was left, but {desk.book} isn't the book that they lead to")
    _beside(desk, numbers)
    return len(numbers) - 1


def _no_strangers(desk: Desk, numbers: list[int]) -> None:
    known = {desk.trail.place(number).name for number in numbers}
    for path in sorted(desk.trail.folder.iterdir()):
        if path.name not in known:
            raise Failed(f"{path} is no part of the trail")


def _as_kept(desk: Desk, number: int, last: Posting | None) -> Posting:
    """A posting whose files all have their sums."""
    place = desk.trail.place(number)
    if desk.trail.file(number, DONE) != (sha256(desk.trail.file(number, WHAT)) + "\n").encode():
        raise Differs(number, f"{WHAT} and the end mark don't go together")
    posting = desk.trail.read(number)
    if posting.number != number or posting.previous != (sha256(last.written()) if last else ""):
        raise Differs(number, f"{WHAT} doesn't follow the posting before it")
    there = {path.name for path in place.iterdir()} - {WHAT, DONE}
    for name in sorted(there ^ set(posting.files)):
        raise Differs(number, f"{name} is {'no part of it' if name in there else 'missing'}")
    for name, wanted in posting.files.items():
        if sha256(desk.trail.file(number, name)) != wanted:
            raise Differs(number, f"{name} isn't what was kept")
    return posting


def _replayed(desk: Desk, scratch: Scratch, posting: Posting, book: bytes) -> bytes:
    """The book after a posting, by the programs."""
    try:
        if posting.kind == "init":
            return desk.trail.file(posting.number, "book")
        if posting.kind == "archive":
            return _archived(desk, scratch, posting, book)
        return _carried(desk, scratch, posting, scratch.file("book", book))
    except Differs:
        raise
    except Stop as stop:
        raise Differs(posting.number, stop.lines[0]) from None


def _carried(desk: Desk, scratch: Scratch, posting: Posting, book: Path) -> bytes:
    kept = {name: desk.trail.file(posting.number, name) for name in posting.files}
    after = naming.read(kept["names.csv"].decode(), "names.csv")
    before = Names({number: name for number, name in after.pairs().items() if str(number) not in posting.opened})
    done = carried(scratch, book, before, Input(posting.file, posting.kind, kept["came"]))
    carry_out(scratch, book, done)
    again = {"text": done.text, "day": done.day.read_bytes(), "out": done.out, "explained": done.explained}
    for name, came_out in again.items():
        if came_out != kept[name]:
            raise Differs(posting.number, f"{name} comes out otherwise")
    if done.names.pairs() != after.pairs():
        raise Differs(posting.number, "the names come out otherwise")
    return done.book.read_bytes()


def _archived(desk: Desk, scratch: Scratch, posting: Posting, book: bytes) -> bytes:
    kept = {name: desk.trail.file(posting.number, name) for name in posting.files}
    held = kept["archived"].removesuffix(kept["moved"])
    done = archived(scratch, book, held)
    for name, came_out in {"archived": done.archived, "moved": done.moved, "out": done.out}.items():
        if came_out != kept[name]:
            raise Differs(posting.number, f"{name} comes out otherwise")
    return done.book


def _beside(desk: Desk, numbers: list[int]) -> None:
    kept = next((file for number in reversed(numbers) if (file := desk.trail.file(number, "archived"))), b"")
    path = desk.folder / "archived"
    if (path.read_bytes() if path.exists() else b"") != kept:
        raise Failed(f"every posting is as it was left, but {path} isn't the archive that they lead to")
