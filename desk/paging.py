"""`loft page`: what the programs and the trail say, put on a page and written whole."""

import argparse
from pathlib import Path

from desk import figures, losses
from desk.answers import looked
from desk.files import replace
from desk.folder import Desk, State
from desk.names import Names
from desk.output import say
from desk.page import Refusal, Sheet, html
from desk.refusals import verdict
from desk.scratch import Scratch
from desk.showing import look
from desk.stops import ALL_DONE, REFUSED, Failed
from desk.trail import Posting
from desk.words import clerk_line


def page(args: argparse.Namespace) -> int:
    """Writes the page."""
    state = looked(args)
    lost = losses.read(args.losses, state.names) if args.losses else None
    sheet = _sheet(Desk(args.desk), state)
    with Scratch() as scratch:
        book = scratch.file("book", state.book)
        sheet.standings, sheet.holdings = look(scratch, book)
        if lost is not None:
            sheet.refusal, sheet.payments, sheet.uncovered = figures.close_out(scratch, book, lost)
    try:
        replace(Path(args.out), html(sheet).encode())
    except OSError as error:
        raise Failed(f"{args.out} can't be written: {error.strerror}") from None
    say(f"{args.out} is written: open it in a browser, or print it.\n")
    return REFUSED if sheet.refusal else ALL_DONE


def _sheet(desk: Desk, state: State) -> Sheet:
    last = state.last
    day = last.time[:10]
    held = (number for number in desk.trail.numbers() if number <= last.number)
    postings = [posting for posting in map(desk.trail.read, held) if posting.time[:10] == day]
    refusals = [refusal for posting in postings for refusal in refused_in(desk, posting, state.names)]
    moment = f"As posting {last.number} left it, {last.time[:16].replace('T', ' ')}"
    name = desk.folder.resolve().name
    return Sheet(f"Collateral book: {name}", moment, [], figures.Holdings(0, 0, {}), state.names, day, refusals)


def refused_in(desk: Desk, posting: Posting, names: Names) -> list[Refusal]:
    """What was refused of a posting."""
    text = [line for line in desk.trail.file(posting.number, "text").decode().split("\n") if line]
    answers = desk.trail.file(posting.number, "explained").decode().split("\n")[:-1]
    found = []
    for line, answer in zip(text, answers):
        _, _, _, refusal, given, *most = map(int, answer.split())
        if refusal:
            why = verdict(refusal, given, (most[0], most[1]) if most else None)
            found.append(Refusal(posting.number, posting.file, clerk_line(line, names), why))
    return found
