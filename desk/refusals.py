"""Refusals in words: the one table, from documents 01 and 02."""

from functools import cache

from desk.amounts import rupees
from desk.stops import SaysNothing

# Number: a few words for beside a line; the documents' own sentence.
WORDS: dict[int, tuple[str, str]] = {
    1: ("the book isn't sound", "The book isn't sound."),
    2: ("the file ends within a record", "Bytes are left, but too few for the record's first six bytes or for its amounts."),
    3: ("not the next serial", "The serial is not the next one. The book goes on waiting for the same serial."),
    4: ("no such code", "The code is not 1 to 13."),
    5: ("amounts that don't suit the code", "The second mark byte doesn't suit the code."),
    6: ("an amount out of range", "An amount is out of range: 0.01 to the ceiling; a margin, and what revalue sets, may be 0."),
    7: ("no such account, or it isn't live", "The account is not live, or its number was never given, or it is in the archive."),
    8: (
        "an account of the wrong sort",
        "Opening: the account named is of the wrong sort. Retiring: account 0. Statement: the account is no TM.",
    ),
    9: ("no room for another account", "Opening with 256 accounts held (retired ones too, until they are archived), or every number to 65,535 given."),
    10: ("past the ceiling", "Receive or pledge would carry an amount past the ceiling."),
    11: (
        "more than there is",
        "Hand back of more than received less allocated, allocate of more than that, release of more than allocated, "
        "unpledge of more than pledged, in any kind.",
    ),
    12: ("below what is blocked", "The collateral left after a release or unpledge would be below what was blocked."),
    13: ("the CM couldn't cover it", "After a rising margin the CM's need would pass its collateral."),
    14: ("not empty yet", "Retiring an account with any amount not zero, or a TM with a live client."),
    15: ("a list of the wrong length", "The losses aren't one for each account; a room is too short; more than 64 positions."),
    16: ("a loss that can't be", "A loss passes the ceiling, or a retired account has a loss other than 0."),
    17: (
        "in risk reduction mode",
        "Release or unpledge from a TM's or the CM's account whose risk reduction mode is on.",
    ),
    18: ("an unknown product", "Currency desk: unknown product."),
    19: ("no option is listed on it", "Currency desk: an option, short or long, that is not listed."),
    20: ("a notional or initial margin past the ceiling", "Currency desk: a notional or the initial margin is past the ceiling."),
    21: ("a sum past the ceiling", "Currency desk: the sum is past the ceiling."),
    22: ("a figure out of range", "Currency desk: a figure is below minus the ceiling or above the ceiling."),
    23: ("the archive is too short", "The archive is too short for the retired accounts; nothing is moved."),
    24: ("a record is cut or its mark is bad", "Statement: a record is cut, or its mark is bad."),
    25: ("an amount of 0 or above four ceilings", "Statement: an amount that is named is zero or above four ceilings."),
    26: ("not the TM's next live client", "Statement: the account is not the TM's next live client; at the end: one is still wanting."),
    27: ("the sums don't come out", "Statement: retained and placed don't add up to what they come from."),
    28: ("received isn't what the book has", "Statement: received isn't the book's total."),
    29: ("more is placed than the book has allocated", "Statement: the book's allocated total is below what is placed with the clearing corporation."),
}
# A line in words that says nothing, as `write` reports it.
FAULTS: dict[int, str] = {
    30: "Something more stands in the line.",
    31: "There is no serial after `serial`.",
    32: "There are no bytes after `raw`.",
    33: "There is no account, or one above 65535.",
    34: "The line is too long.",
}
# Of these a clerk asks how much would have passed.
_ASKED = (6, 10, 11, 12, 13, 17)


@cache
def refused(number: int) -> str:
    """A refusal beside a line."""
    return f"refused ({number}): {WORDS[number][0]}" if number in WORDS else f"refused ({number})"


def verdict(refusal: int, given: int, most: tuple[int, int] | None) -> str:
    """What became of a record, with how much would have passed where that was asked."""
    if refusal == 0:
        return f"opened as number {given}" if given else "carried out"
    words = refused(refusal)
    if most is None or refusal not in _ASKED:
        return words
    why, amount = most
    if why == 0:
        return f"{words}; at most {rupees(amount)}"
    return words + ("; no amount would pass" if why == refusal else f"; no amount would pass ({why}: {WORDS[why][0]})")


def told(number: int) -> list[str]:
    """`loft refusal N`."""
    if number in FAULTS:
        return [f"{number}: a line that `write` can't read", FAULTS[number]]
    if number not in WORDS:
        raise SaysNothing(f"there is no refusal {number}: they are 1 to {max(WORDS)}, and 30 to {max(FAULTS)} for lines in words")
    short, long = WORDS[number]
    return [f"{number}: {short}", long]
