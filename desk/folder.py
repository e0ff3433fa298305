"""A desk: a folder with a book, names and a trail."""

import os
from collections.abc import Iterator
from contextlib import contextmanager
from dataclasses import dataclass
from pathlib import Path

from desk import names as naming
from desk.files import beside, locked, replace, sha256, step
from desk.names import Names
from desk.stops import Failed, SaysNothing
from desk.trail import Posting, Trail

# Files beside the book that a posting leaves: a copy of each stands in its trail folder.
LEFT = ("names.csv", "archived")


@dataclass
class State:
    """A desk as it stands: the book's bytes, the names, the last posting, and what was put right on the way."""

    book: bytes
    names: Names
    last: Posting
    told: list[str]


class Desk:
    """The files of a desk."""

    def __init__(self, folder: str | Path) -> None:
        self.folder = Path(folder)
        self.book = self.folder / "book"
        self.trail = Trail(self.folder / "trail")

    @contextmanager
    def held(self) -> Iterator[State]:
        """The desk under its lock, once a posting that was broken off is finished or undone."""
        if not self.trail.folder.is_dir():
            raise SaysNothing(f"{self.folder} is no desk: loft init {self.folder} makes one")
        with locked(self.folder / "lock") as may_write:
            told = self.put_right(may_write)
            yield self._state(told)

    def state(self) -> State:
        """The desk at one moment."""
        with self.held() as state:
            return state

    def book_bytes(self) -> bytes | None:
        """The book file, or none where there is none."""
        try:
            return self.book.read_bytes()
        except FileNotFoundError:
            return None

    def install(self, posting: Posting) -> None:
        """What stands behind the book's own change: files beside it, then the end mark."""
        for name in LEFT:
            kept = self.trail.file(posting.number, name)
            path = self.folder / name
            if name in posting.files and (not path.exists() or path.read_bytes() != kept):
                replace(path, kept)
        self.trail.end(posting)

    def put_right(self, may_write: bool) -> list[str]:
        """Finishes or undoes a posting that was broken off, and says so."""
        numbers = self.trail.numbers()
        if not numbers or self.trail.is_done(numbers[-1]):
            return []
        number = numbers[-1]
        if not may_write:
            raise Failed(f"posting {number} was broken off, and this folder can't be written to put it right")
        for name in ("book", *LEFT):
            path = beside(Path(os.path.realpath(self.folder / name)))
            if path.exists():
                step()
                path.unlink()
        return [self._finished_or_undone(number)]

    def _finished_or_undone(self, number: int) -> str:
        book = self.book_bytes()
        now = sha256(book) if book is not None else ""
        if not (self.trail.place(number) / "what.json").exists():
            self.trail.undo(number)
            return f"Posting {number} was broken off before anything was carried out. It is undone: post its file again."
        posting = self.trail.read(number)
        if now == posting.after:
            self.install(posting)
            return f"Posting {number} ({posting.file}) was broken off after it was carried out. It is finished now."
        if now == posting.before:
            self.trail.undo(number)
            return f"Posting {number} ({posting.file}) was broken off before it was carried out. It is undone: post it again."
        raise Failed(f"posting {number} was broken off, and {self.book} is neither the book before it nor the one after it")

    def _state(self, told: list[str]) -> State:
        numbers = self.trail.numbers()
        if not numbers:
            raise SaysNothing(f"{self.folder} is no desk: loft init {self.folder} makes one")
        last = self.trail.read(numbers[-1])
        book = self.book_bytes()
        if book is None or sha256(book) != last.after:
            raise Failed(f"{self.book} isn't the book that posting {last.number} left: loft verify {self.folder} says more")
        return State(book, self._names(), last, told)

    def _names(self) -> Names:
        path = self.folder / "names.csv"
        try:
            return naming.read(path.read_bytes().decode("utf-8-sig"), str(path))
        except (OSError, UnicodeDecodeError) as error:
            raise Failed(f"{path} can't be read: {error}") from None
