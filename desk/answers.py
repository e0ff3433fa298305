"""The commands that ask: show, needs, register, verify, refusal."""

import argparse
import json

from desk import figures, refusals, register, showing, verifying
from desk.amounts import rupees
from desk.files import locked
from desk.folder import Desk, State
from desk.names import Names
from desk.output import note, say
from desk.scratch import Scratch
from desk.stops import ALL_DONE, SaysNothing
from desk.tables import table
from desk.telling import counted


def looked(args: argparse.Namespace) -> State:
    """The desk at this moment; what was put right is told."""
    state = Desk(args.desk).state()
    note(state.told)
    return state


def account(names: Names, word: str) -> int:
    """The account that a word of the command line names."""
    number = names.number(word)
    if number is None:
        raise SaysNothing(names.unknown(word))
    return number


def show(args: argparse.Namespace) -> int:
    """How the desk, or one account, stands."""
    state = looked(args)
    with Scratch() as scratch:
        book = scratch.file("book", state.book)
        standings, holdings = showing.look(scratch, book)
        if args.account is None:
            lines = showing.all_lines(standings, holdings, state.names)
            said = showing.as_json(standings, holdings, state.names)
        else:
            number = account(state.names, args.account)
            standings = [each for each in standings if each.number == number]
            if not standings:
                raise SaysNothing(f"{args.account}: the book holds no account {number} (7)")
            most = showing.asked(scratch, book, holdings, number)
            lines = showing.one_lines(standings[0], holdings, state.names, most)
            said = showing.as_json(standings, holdings, state.names) | {"may": showing.most_json(most)}
    say((json.dumps(said, indent=1) if args.json else "\n".join(lines)) + "\n")
    return ALL_DONE


def needs(args: argparse.Namespace) -> int:
    """Every account's need."""
    state = looked(args)
    with Scratch() as scratch:
        said = figures.needs(scratch, scratch.file("book", state.book))
    if args.json:
        accounts = [{"number": number, "name": state.names.name(number), "need": need} for number, need in said.items()]
        say(json.dumps({"unit": "paise", "accounts": accounts}, indent=1) + "\n")
    else:
        rows = [["account", "no.", "need"], *([state.names.name(number), str(number), rupees(need)] for number, need in said.items())]
        say("\n".join(table(rows)) + "\n")
    return ALL_DONE


def registered(args: argparse.Namespace) -> int:
    """What was done to an account."""
    state = looked(args)
    number = account(state.names, args.account)
    say("\n".join(register.lines(Desk(args.desk), state.names, state.last.number, number, args.refused)) + "\n")
    return ALL_DONE


def verify(args: argparse.Namespace) -> int:
    """The trail replayed."""
    desk = Desk(args.desk)
    if not desk.trail.folder.is_dir():
        raise SaysNothing(f"{desk.folder} is no desk: loft init {desk.folder} makes one")
    with Scratch() as scratch, locked(desk.folder / "lock") as may_write:
        note(desk.put_right(may_write))
        count = verifying.verify(desk, scratch)
    say(f"{counted(count, 'posting')} replayed from the first book: every sum, every answer and the book are as they were left.\n")
    return ALL_DONE


def refusal(args: argparse.Namespace) -> int:
    """A refusal in words."""
    say("\n".join(refusals.told(args.number)) + "\n")
    return ALL_DONE
