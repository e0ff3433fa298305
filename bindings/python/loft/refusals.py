"""Refusal numbers of documents 01 and 02."""

# By number from 1 on, in the words of docs/BOOK.md.
TEXTS = (
    "the book isn't sound (programs meet this only with a book file)",
    "the bytes end within a record (`cut`)",
    "the serial isn't the next one; the first is 0, and 0 follows 65,535",
    "there is no such code",
    "the second mark byte doesn't suit the code",
    "an amount isn't 1 to the ceiling (a margin, and what code 12 sets, may be 0), or one not named is other than 0",
    "the account isn't live, or its number was never given, or it is in the archive",
    "an opening names an account of the wrong sort; account 0 is to be retired; a statement names no TM",
    "an opening where 256 accounts are held, retired ones too, or every number to 65,535 is given",
    "received or pledged would be above the ceiling",
    "more than there is: hand back or allocate of received less allocated, release of allocated, unpledge of pledged",
    "after a release or unpledge the collateral left would be below what was blocked of the account",
    "after a margin that rises by code 10 the CM's need would be above its collateral",
    "an account with an amount that isn't 0, or a TM with a live client, is to be retired",
    "a list handed over, such as that of losses, has the wrong length; more than 64 positions",
    "a loss is above the ceiling, or a retired account's isn't 0",
    "release or unpledge from a TM's or the CM's account that is in risk reduction mode",
    "currency desk: there is no such product",
    "currency desk: an option, short or long, on a product that has none",
    "currency desk: a notional, or after all positions the initial margin, is above the ceiling",
    "currency desk: the sum is above the ceiling",
    "currency desk: a figure is below minus the ceiling or above the ceiling",
    "the list for the archive is too short for the retired accounts",
    "a broker's statement: a record is cut, or its mark is bad",
    "a broker's statement: an amount named is 0 or above four ceilings",
    "a broker's statement: the account isn't the TM's next live client, or one is still missing at the end",
    "a broker's statement: a sum doesn't come out",
    "a broker's statement: received isn't what the book has",
    "a broker's statement: more is placed with the clearing corporation than the book has allocated",
)

NOT_SOUND = 1
CUT = 2


class Refused(Exception):
    """A call was refused: `number` is that of documents 01 and 02, `text` what it is given for."""

    def __init__(self, number: int) -> None:
        self.number = number
        self.text = TEXTS[number - 1]
        super().__init__(f"{number}: {self.text}")


def accept(number: int) -> None:
    """Raises Refused unless the number is 0."""
    if number != 0:
        raise Refused(number)
