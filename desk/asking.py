"""The programs' other answers in names and rupees: closeout, margin, statement, merge."""

import argparse
import json
import re
from dataclasses import asdict
from pathlib import Path

from desk import amounts, figures, inputs, losses
from desk.amounts import BadAmount, rupees
from desk.answers import account, looked
from desk.carrying import carried, carry_out
from desk.figures import Payment
from desk.inputs import Input
from desk.names import Names
from desk.output import say
from desk.programs import ProgramFailed
from desk.refusals import refused
from desk.scratch import Scratch
from desk.stops import ALL_DONE, REFUSED, SaysNothing
from desk.tables import table
from desk.words import clerk_line

SIDES = ("futures", "short", "long", "spread")
_FINDING = re.compile(r"(\d+) at record (\d+): (?:account (\d+)|no account) is wanted")
_MERGING = re.compile(r"merge: .*: (\d+) at record (\d+)")


def closeout(args: argparse.Namespace) -> int:
    """Who pays a loss."""
    state = looked(args)
    lost = losses.read(args.losses, state.names)
    with Scratch() as scratch:
        refusal, payments, total = figures.close_out(scratch, scratch.file("book", state.book), lost)
    if args.json:
        said = [asdict(each) | {"name": state.names.name(each.number)} for each in payments]
        say(json.dumps({"unit": "paise", "refusal": refusal, "total": total, "accounts": said}, indent=1) + "\n")
    elif refusal:
        say(refused(refusal) + "\n")
    else:
        say("\n".join(paid(payments, total, state.names)) + "\n")
    return REFUSED if refusal else ALL_DONE


def paid(payments: list[Payment], total: int, names: Names) -> list[str]:
    """Who pays what, for each account with a loss."""
    rows = [["account", "no.", "loss", "from its own", "from its TM's", "from the CM's", "uncovered"]]
    for each in payments:
        if each.loss:
            rows.append([names.name(each.number), str(each.number), *map(rupees, (each.loss, each.own, each.tm, each.cm, each.uncovered))])
    sums = [sum(getattr(each, part) for each in payments) for part in ("loss", "own", "tm", "cm")]
    rows.append(["all", "", *map(rupees, [*sums, total])])
    return table(rows)


def margin(args: argparse.Namespace) -> int:
    """A client's margin from its positions, as a line that can be posted."""
    state = looked(args)
    number = account(state.names, args.account)
    try:
        initial = amounts.paise(args.initial)
    except BadAmount as bad:
        raise SaysNothing(f"the initial margin: {bad}") from None
    text = _positions(args.positions)
    with Scratch() as scratch:
        said = scratch.programs.run("margins", "0", str(number), str(initial), given=scratch.file("positions", text))
    refusal, amount = map(int, said.split())
    say((refused(refusal) if refusal else f"margin {state.names.word(number)} {rupees(amount)}") + "\n")
    return REFUSED if refusal else ALL_DONE


def _positions(file: str) -> bytes:
    given = inputs.read(file)
    said = []
    for at, line in enumerate(given.lines):
        words = line.partition("#")[0].split()
        where = f"{file}, line {at + 1}"
        try:
            if words and words[0] == "figures" and len(words) in (3, 5):
                said.append(" ".join(["figures", *(str(amounts.signed(word)) for word in words[1:])]))
            elif len(words) == 3 and words[1] in SIDES:
                said.append(f"{words[0].upper()} {words[1]} {amounts.digits(words[2])}")
            elif words:
                raise SaysNothing(f"{where}: a line is a product, one of {', '.join(SIDES)}, and an amount; or figures and two or four amounts")
        except BadAmount as bad:
            raise SaysNothing(f"{where}: {bad}") from None
    return "".join(line + "\n" for line in said).encode()


def statement(args: argparse.Namespace) -> int:
    """Brokers' statements held against the book, a line each."""
    state = looked(args)
    words: list[str] = args.word
    tm = state.names.number(words[0]) if len(words) > 1 else None
    if tm is not None:
        files = [(tm, Path(word)) for word in words[1:]]
    else:
        files = [(_tm_of(path, state.names), path) for word in words for path in _listed(Path(word))]
    if not files:
        raise SaysNothing(f"{', '.join(words)}: there is no file that is named after a TM, such as Harbour.statement")
    rows, at_fault = [], 0
    with Scratch() as scratch:
        book = scratch.file("book", state.book)
        for number, path in files:
            if not path.is_file():
                raise SaysNothing(f"{path} can't be read: there is no such file")
            said = scratch.programs.run("statements", str(number), book, given=path).decode().strip()
            at_fault += said != "0"
            rows.append([state.names.name(number), path.name, _found(said, state.names)])
    say("\n".join(table(rows, left=3)) + "\n")
    return REFUSED if at_fault else ALL_DONE


def _listed(path: Path) -> list[Path]:
    return sorted(path.glob("*.statement")) if path.is_dir() else [path]


def _tm_of(path: Path, names: Names) -> int:
    number = names.number(path.stem)
    if number is None:
        raise SaysNothing(f"{path}: a statement is named after its TM, such as Harbour.statement: {names.unknown(path.stem)}")
    return number


def _found(said: str, names: Names) -> str:
    if said == "0":
        return "accepted"
    where = _FINDING.fullmatch(said)
    if where is None:
        return refused(int(said))
    wanted = f"{names.name(int(where[3]))} is wanted there" if where[3] else "no account is wanted there"
    return f"{refused(int(where[1]))}; record {int(where[2]) + 1}, {wanted}"


def merge(args: argparse.Namespace) -> int:
    """Two counters' files as one, in names and rupees: it can be posted as it is."""
    state = looked(args)
    with Scratch() as scratch:
        book, names = scratch.file("book", state.book), state.names
        days, named = [], {}
        over = book
        for given in (inputs.read(args.a), inputs.read(args.b)):
            day, over, names, new = _numbered(scratch, over, names, given)
            days.append(day)
            named |= new
        paths = [scratch.file("day", day) for day in days]
        both = _merged(scratch, paths[0], paths[1], book, [args.a, args.b])
        text = scratch.programs.run("read", book, given=scratch.file("day", both)).decode().splitlines()
        answers = scratch.programs.run("day", book, given=scratch.file("day", both)).decode().splitlines()
    for line, answer in zip(text, answers):
        new_name = named.get(int(answer.split()[4]))
        say(clerk_line(line, names) + (f' as "{new_name}"' if new_name else "") + "\n")
    return ALL_DONE


def _numbered(scratch: Scratch, book: Path, names: Names, given: Input) -> tuple[bytes, Path, Names, dict[int, str]]:
    """A file's records, numbered from the book's next serial; the book, the names and the new names after them."""
    if given.kind != "day":
        done = carried(scratch, book, names, given)
        carry_out(scratch, book, done)
        return done.day.read_bytes(), done.book, done.names, done.opened
    day = _merged(scratch, scratch.file("day", given.came), scratch.file("day", b""), book, [given.file, ""])
    after = scratch.place("book")
    scratch.programs.run("day", book, after, given=scratch.file("day", day))
    return day, after, names, {}


def _merged(scratch: Scratch, a: Path, b: Path, book: Path, files: list[str]) -> bytes:
    try:
        return scratch.programs.run("merge", a, b, book)
    except ProgramFailed as failed:
        told = _MERGING.fullmatch(failed.told)
        if told is None:
            raise
        file = files[0] if str(a) in failed.told else files[1]
        raise SaysNothing(f"{file}: record {int(told[2]) + 1} is {refused(int(told[1]))}; nothing is written") from None
