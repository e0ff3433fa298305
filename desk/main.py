"""The command line."""

import argparse
import gc
import os
import sys

from desk import answers, asking, commands, example, paging
from desk.output import note
from desk.programs import NAMES, Programs
from desk.stops import FAILED, SAYS_NOTHING, SaysNothing, Stop

ABOUT = """\
One command for the desk: names and rupees in front of the proved programs. `loft example trial` makes a desk
to look at; docs/DESK.md is the page for it. Every command ends with a status: 0 all was carried out, 1 something was
refused, 2 the input makes no sense and nothing was done, 3 a file or a program failed and nothing is lost."""


def _parser() -> argparse.ArgumentParser:
    parser = argparse.ArgumentParser(prog="loft", description=ABOUT, formatter_class=argparse.RawDescriptionHelpFormatter)
    every = parser.add_subparsers(title="commands", metavar="COMMAND", required=True)
    _carrying(every)
    _asking(every)
    return parser


def _command(every: "argparse._SubParsersAction[argparse.ArgumentParser]", name: str, run: object, about: str) -> argparse.ArgumentParser:
    command = every.add_parser(name, help=about, description=about)
    command.set_defaults(run=run)
    if name != "refusal":
        command.add_argument("desk", metavar="DESK", help="the desk's folder")
    return command


def _carrying(every: "argparse._SubParsersAction[argparse.ArgumentParser]") -> None:
    init = _command(every, "init", commands.init, "make a desk with a fresh book")
    init.add_argument("--book", metavar="FILE", help="begin with this book file in the place of a fresh one")
    init.add_argument("--old-rule", action="store_true", help="the book file is from before K7: take it over")
    check = _command(every, "check", commands.check, "what would happen, line by line; nothing is saved")
    check.add_argument("file", metavar="FILE", nargs="+", help="text, .csv or .day")
    check.add_argument("--json", action="store_true", help="for another program")
    post = _command(every, "post", commands.post, "carry out what files say, and keep it in the trail")
    post.add_argument("file", metavar="FILE", nargs="+", help="text, .csv or .day")
    post.add_argument("--all", action="store_true", help="carry out nothing unless every record passes")
    post.add_argument("--again", action="store_true", help="post a file that was posted before")
    _command(every, "example", _example, "make an example desk, and show it")
    _command(every, "archive", commands.archive, "move retired accounts out of the book")


def _asking(every: "argparse._SubParsersAction[argparse.ArgumentParser]") -> None:
    show = _command(every, "show", answers.show, "how the desk stands, or one account")
    show.add_argument("account", metavar="ACCOUNT", nargs="?", help="a name or a number")
    show.add_argument("--json", action="store_true", help="for another program")
    register = _command(every, "register", answers.registered, "what was done to an account, from the trail")
    register.add_argument("account", metavar="ACCOUNT", help="a name or a number")
    register.add_argument("--refused", action="store_true", help="list what was refused too")
    needs = _command(every, "needs", answers.needs, "every account's need")
    needs.add_argument("--json", action="store_true", help="for another program")
    closeout = _command(every, "closeout", asking.closeout, "who pays a loss")
    closeout.add_argument("losses", metavar="LOSSES", help="lines of an account and its loss")
    closeout.add_argument("--json", action="store_true", help="for another program")
    _programs(every)
    program = every.add_parser("run", help="one of the proved programs by itself", description="one of the proved programs by itself: bytes in, bytes out")
    program.set_defaults(run=_run)
    program.add_argument("program", metavar="PROGRAM", help=f"one of {', '.join(NAMES)}; --help after it says what it does")
    words = program.add_argument("words", metavar="WORD", nargs=argparse.REMAINDER, help="the program's own words")
    words.required = False
    _command(every, "verify", answers.verify, "replay the trail from the first book")
    refusal = _command(every, "refusal", answers.refusal, "a refusal in words")
    refusal.add_argument("number", metavar="N", type=int)


def _programs(every: "argparse._SubParsersAction[argparse.ArgumentParser]") -> None:
    margin = _command(every, "margin", asking.margin, "a client's margin from its positions, as a line to post")
    margin.add_argument("account", metavar="ACCOUNT", help="a name or a number")
    margin.add_argument("initial", metavar="INITIAL", help="the initial margin, in rupees")
    margin.add_argument("positions", metavar="FILE", help="lines such as: USDINR futures 1,00,000.00")
    statement = _command(every, "statement", asking.statement, "brokers' statements held against the book, a line each")
    statement.add_argument(
        "word", metavar="WORD", nargs="+", help="TM FILE.., or files and folders whose statements are named after their TM: Harbour.statement"
    )
    page = _command(every, "page", paging.page, "one page to look at or print")
    page.add_argument("out", metavar="OUT.html")
    page.add_argument("--losses", metavar="FILE", help="show the close-out with these losses too")
    merge = _command(every, "merge", asking.merge, "two counters' files as one text, to be posted")
    merge.add_argument("a", metavar="A", help="text, .csv or .day")
    merge.add_argument("b", metavar="B", help="text, .csv or .day")


def _run(args: argparse.Namespace) -> int:
    if not args.program.isidentifier():
        raise SaysNothing(f"{args.program} is no program's name")
    return Programs().alone(args.program, args.words)


def _example(args: argparse.Namespace) -> int:
    def run(words: list[str]) -> int:
        inner = _parser().parse_args(words)
        return int(inner.run(inner))

    return example.make(args, run)


def main() -> int:
    """Runs a command and gives its status."""
    gc.disable()
    if len(sys.argv) == 1:
        _parser().print_help(sys.stderr)
        return SAYS_NOTHING
    args = _parser().parse_args()
    try:
        status = args.run(args)
        sys.stdout.flush()
    except Stop as stop:
        sys.stdout.flush()
        note(stop.lines)
        status = stop.status
    except BrokenPipeError:
        os.dup2(os.open(os.devnull, os.O_WRONLY), sys.stdout.fileno())
        status = FAILED
    except OSError as error:
        note([f"{error.strerror or error}{f': {error.filename}' if error.filename else ''}; nothing is lost"])
        os.dup2(os.open(os.devnull, os.O_WRONLY), sys.stdout.fileno())
        status = FAILED
    except KeyboardInterrupt:
        note(["stopped; nothing is lost"])
        status = FAILED
    return status
