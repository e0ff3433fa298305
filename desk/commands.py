"""The commands that carry something out, or say what would be: init, check, post, archive."""

import argparse
import json
from pathlib import Path

from desk import inputs, telling
from desk import names as naming
from desk.archiving import archived
from desk.carrying import Carried, carried, carry_out
from desk.files import locked, make_folder, sha256
from desk.folder import Desk, State
from desk.inputs import Input
from desk.names import CM_NAME, Names
from desk.output import note, say, say_all
from desk.posting import commit, following, not_twice, now, put
from desk.scratch import Scratch
from desk.stops import ALL_DONE, REFUSED, Failed, SaysNothing
from desk.trail import Posting


def init(args: argparse.Namespace) -> int:
    """A desk with a fresh book, or with one that is brought along."""
    desk = Desk(args.desk)
    with Scratch() as scratch:
        book = _first_book(scratch, args)
        try:
            desk.folder.mkdir(parents=True, exist_ok=True)
        except OSError as error:
            raise Failed(f"{desk.folder} can't be made: {error.strerror}") from None
        with locked(desk.folder / "lock") as may_write:
            note(desk.put_right(may_write))
            if desk.book.exists() or desk.trail.numbers():
                raise SaysNothing(f"{desk.folder} has a book already; nothing is done")
            _begin(desk, book)
    say(f"{desk.folder} is a desk now, with {'the book ' + args.book if args.book else 'a fresh book'}.\n")
    return ALL_DONE


def _begin(desk: Desk, book: bytes) -> None:
    try:
        if not desk.trail.folder.exists():
            make_folder(desk.trail.folder)
    except OSError as error:
        raise Failed(f"{desk.folder} can't be written: {error.strerror}") from None
    held = desk.folder / "names.csv"
    names = held.read_bytes() if held.exists() else naming.written(Names({0: CM_NAME})).encode()
    posting = Posting(0, now(), "init", "the first book", "", sha256(book), "")
    put(desk, posting, {"book": book, "names.csv": names}, book)


def _first_book(scratch: Scratch, args: argparse.Namespace) -> bytes:
    after = scratch.place("book")
    if args.old_rule:
        if not args.book:
            raise SaysNothing("--old-rule goes with --book")
        if scratch.programs.run("take_over", args.book, after).split() != [b"0"]:
            raise SaysNothing(f"{args.book} can't be taken over: by the old rule it isn't sound, or isn't covered (1)")
    elif scratch.programs.run("day", args.book or "-", after).split()[:1] != [b"end"]:
        raise SaysNothing(f"{args.book} isn't sound (1); nothing is done")
    return after.read_bytes()


def _chain(scratch: Scratch, state: State, files: list[Input], saving: bool) -> list[Carried]:
    """Each file over the book that the one before it would leave."""
    book, names = scratch.file("book", state.book), state.names
    chain = []
    for place, given in enumerate(files):
        done = carried(scratch, book, names, given)
        if saving or place + 1 < len(files):
            carry_out(scratch, book, done)
            book = done.book
        names = done.names
        chain.append(done)
    return chain


def check(args: argparse.Namespace) -> int:
    """What would happen; nothing is saved."""
    with Scratch() as scratch:
        state = Desk(args.desk).state()
        note(state.told)
        chain = _chain(scratch, state, [inputs.read(file) for file in args.file], saving=False)
    if args.json:
        files = [{"file": done.input.file, "records": telling.as_json(done)} for done in chain]
        say(json.dumps({"unit": "paise", "saved": False, "files": files}, indent=1) + "\n")
    else:
        for done in chain:
            _tell(done, len(chain) > 1)
            say(telling.summary(done, None))
    return REFUSED if any(done.refused for done in chain) else ALL_DONE


def _tell(done: Carried, with_name: bool) -> None:
    if with_name:
        say(f"{done.input.file}:\n")
    say_all(telling.lines(done))


def post(args: argparse.Namespace) -> int:
    """The same, carried out."""
    desk = Desk(args.desk)
    with Scratch() as scratch, desk.held() as state:
        note(state.told)
        files = [inputs.read(file) for file in args.file]
        if not args.again:
            not_twice(desk, files)
        chain = _chain(scratch, state, files, saving=True)
        refused = any(done.refused for done in chain)
        if args.all and refused:
            for done in chain:
                _tell(done, len(chain) > 1)
            say("Something is refused, so nothing is carried out (--all).\n")
            return REFUSED
        last = state.last
        posted = []
        for done in chain:
            last = commit(desk, last, done)
            posted.append(last.number)
    for done, number in zip(chain, posted):
        _tell(done, len(chain) > 1)
        say(telling.summary(done, number))
    return REFUSED if refused else ALL_DONE


def archive(args: argparse.Namespace) -> int:
    """Moves retired accounts out of the book."""
    desk = Desk(args.desk)
    with Scratch() as scratch, desk.held() as state:
        note(state.told)
        path = desk.folder / "archived"
        done = archived(scratch, state.book, path.read_bytes() if path.exists() else b"")
        moved = done.moved.decode().split("\n")[:-1]
        if not moved:
            say("No account is retired: there is nothing to archive.\n")
            return ALL_DONE
        posting = following(state.last, "archive", "archive", sha256(done.book))
        kept = {"out": done.out, "archived": done.archived, "moved": done.moved}
        put(desk, posting, kept, done.book)
    for line in moved:
        number, sort, tm = line.split()
        under = f" of {state.names.name(int(tm))}" if sort == "client" else ""
        say(f"{state.names.name(int(number))}, number {number}, {sort}{under}: archived\n")
    say(f"{telling.counted(len(moved), 'account')} archived. Posting {posting.number}.\n")
    return ALL_DONE


def is_desk(folder: str) -> bool:
    """Whether a folder is a desk already."""
    return (Path(folder) / "trail").is_dir()
