"""`loft example`: a desk made from the files in examples/desk, with every command that makes it."""

import argparse
from collections.abc import Callable

from desk.commands import is_desk
from desk.output import say
from desk.programs import TOP
from desk.stops import ALL_DONE, SaysNothing

FILES = TOP / "examples" / "desk"


def make(args: argparse.Namespace, run: Callable[[list[str]], int]) -> int:
    """Makes the desk and shows it."""
    if is_desk(args.desk):
        raise SaysNothing(f"{args.desk} is a desk already; nothing is done")
    for words in (
        ["init", args.desk],
        ["post", args.desk, str(FILES / "monday.txt")],
        ["post", args.desk, str(FILES / "tuesday.csv")],
        ["show", args.desk],
        ["closeout", args.desk, str(FILES / "losses.txt")],
        ["page", args.desk, f"{args.desk}/page.html", "--losses", str(FILES / "losses.txt")],
    ):
        say(f"$ ./loft {' '.join(word.removeprefix(f'{TOP}/') for word in words)}\n")
        run(words)
        say("\n")
    return ALL_DONE
