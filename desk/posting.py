"""Carrying out for good: the trail first, the book by rename, then the trail's end mark."""

import datetime
import os

from desk import names as naming
from desk.carrying import Carried
from desk.files import beside, replace, sha256
from desk.folder import Desk
from desk.inputs import Input
from desk.stops import Failed, SaysNothing
from desk.trail import Posting


def now() -> str:
    """The time, with its distance from UTC."""
    return datetime.datetime.now().astimezone().isoformat(timespec="seconds")


def commit(desk: Desk, last: Posting, done: Carried) -> Posting:
    """Posts a file that was carried out on a copy of the book."""
    book = done.book.read_bytes()
    posting = following(last, done.input.kind, os.path.basename(done.input.file), sha256(book))
    posting.records = done.records
    posting.carried_out = done.records - done.refused
    posting.opened = {str(number): name for number, name in done.opened.items()}
    kept = {
        "came": done.input.came,
        "text": done.text,
        "day": done.day.read_bytes(),
        "out": done.out,
        "explained": done.explained,
        "names.csv": naming.written(done.names).encode(),
    }
    put(desk, posting, kept, book)
    return posting


def following(last: Posting, kind: str, file: str, after: str) -> Posting:
    """The posting behind the last one."""
    return Posting(last.number + 1, now(), kind, file, last.after, after, sha256(last.written()))


def put(desk: Desk, posting: Posting, kept: dict[str, bytes], book: bytes) -> None:
    """The guarded steps of a posting. A failure before the book's rename undoes it; behind it the next command finishes."""
    try:
        desk.trail.begin(posting, kept)
        replace(desk.book, book)
    except OSError as error:
        _take_back(desk, posting, error)
    try:
        desk.install(posting)
    except OSError as error:
        raise Failed(
            f"{_why(error)}: posting {posting.number} is carried out, and its end mark is missing. The next command writes it."
        ) from None


def _take_back(desk: Desk, posting: Posting, error: OSError) -> None:
    held = desk.book_bytes()
    if held is not None and sha256(held) == posting.after and posting.before != posting.after:
        raise Failed(f"{_why(error)}: {posting.file} is carried out. The next command finishes posting {posting.number}.") from None
    try:
        beside(desk.book.resolve()).unlink(missing_ok=True)
        desk.trail.undo(posting.number)
    except OSError:
        pass
    raise Failed(f"{_why(error)}: {posting.file} is not carried out, and nothing is lost. Post it again when that is put right.") from None


def _why(error: OSError) -> str:
    where = f" ({error.filename})" if error.filename else ""
    return f"The desk's files can't be written: {error.strerror or error}{where}"


def not_twice(desk: Desk, files: list[Input]) -> None:
    """The same bytes posted a second time are most likely a mistake."""
    postings = [desk.trail.read(number) for number in desk.trail.numbers()]
    known = {posting.files["came"]: f"posting {posting.number} ({posting.time})" for posting in postings if "came" in posting.files}
    for given in files:
        came = sha256(given.came)
        if came in known:
            raise SaysNothing(
                f"{given.file} was posted already: {known[came]}. Nothing is done. "
                "If it is to be carried out once more, say --again."
            )
        known[came] = "it stands twice in this command"
