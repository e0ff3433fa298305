"""The text form: a clerk's line in names and rupees, and the programs' line in numbers and paise."""

import re

from desk import amounts
from desk.amounts import BadAmount
from desk.names import LAST_NUMBER, BadName, Names, judged, number_of

OPENINGS = ("tm", "client", "cp")
BY_KIND = ("receive", "handback", "allocate", "release")
BY_AMOUNT = ("pledge", "unpledge", "margin", "revalue", "revise")
WORDS = ("tm", "client", "cp", *BY_KIND, "pledge", "unpledge", "margin", "retire", "revalue", "revise")
KINDS = ("cash", "deposits", "guarantees", "securities")
_TOKEN = re.compile(r'"([^"]*)"|([^\s"]+)|(")')
_HEXADECIMAL = re.compile(r"(?:[0-9A-F]{2})+")


class BadLine(ValueError):
    """Why a line says nothing, in words."""


class Accounts:
    """The accounts that a line may name: the desk's, and those that lines above it open."""

    def __init__(self, names: Names, opened: dict[str, tuple[int, int | None]] | None = None) -> None:
        self.names = names
        self.opened = opened or {}

    def number(self, word: str, at: int) -> int:
        """The number of the account that a word names in line `at`."""
        number = self.names.number(word)
        if number is not None:
            return number
        if word not in self.opened:
            raise BadLine(self.names.unknown(word))
        line, given = self.opened[word]
        if line >= at:
            raise BadLine(f"{word} is opened further down, in line {line + 1}")
        if given is None:
            raise BadLine(f"{word} isn't opened: line {line + 1} is refused")
        return given


def without_comment(line: str) -> str:
    """What is read of a line."""
    return line.partition("#")[0].strip()


def tokens(line: str) -> list[str]:
    """The words of a line; a name in quotes is one word."""
    line = line.partition("#")[0]
    if '"' not in line:
        return line.split()
    found = _TOKEN.findall(line)
    if any(stray for _, _, stray in found):
        raise BadLine("a quote isn't closed")
    return [plain or quoted for quoted, plain, _ in found]


def new_name(line: str) -> str | None:
    """The name that a line gives to the account it opens."""
    words = tokens(line)
    if "as" not in words or not {word.lower() for word in words[:3]} & set(OPENINGS):
        return None
    behind = words[words.index("as") + 1 :]
    if len(behind) != 1:
        raise BadLine('behind "as" stands one name, in quotes where it has blanks')
    try:
        return judged(behind[0])
    except BadName as bad:
        raise BadLine(str(bad)) from None


def program_line(line: str, accounts: Accounts, at: int) -> str:
    """The programs' line for a clerk's line, or nothing for an empty one."""
    words = tokens(line)
    if not words:
        return ""
    first = words[0].lower()
    if first == "raw":
        return "raw " + _bytes("".join(words[1:]))
    if first != "serial":
        return _record(first, words[1:], accounts, at)
    serial = number_of(words[1]) if len(words) > 2 else None
    if serial is None:
        raise BadLine(f'behind "serial" stand a number up to {LAST_NUMBER} and a record')
    return f"serial {serial} " + _record(words[2].lower(), words[3:], accounts, at)


def _bytes(said: str) -> str:
    said = said.upper()
    if not _HEXADECIMAL.fullmatch(said):
        raise BadLine('behind "raw" stand bytes, two hexadecimal digits each')
    return said


def _record(word: str, rest: list[str], accounts: Accounts, at: int) -> str:
    if word not in WORDS:
        raise BadLine(f"there is no word {word}: a line begins with one of {', '.join(WORDS)}")
    if word in OPENINGS:
        return _opening(word, rest, accounts, at)
    if not rest:
        raise BadLine(f"{word}: no account is named")
    head = f"{word} {accounts.number(rest[0], at)}"
    if word in BY_KIND:
        return head + _kinds(word, rest[1:])
    if word in BY_AMOUNT:
        return f"{head} {_amount(word, rest[1:])}"
    if len(rest) > 1:
        raise BadLine(f"{word} {rest[0]}: nothing more is said behind it, and here stands {rest[1]}")
    return head


def _opening(word: str, rest: list[str], accounts: Accounts, at: int) -> str:
    if "as" in rest:
        if rest.index("as") + 2 != len(rest):
            raise BadLine('behind "as" stands one name, in quotes where it has blanks')
        rest = rest[: rest.index("as")]
    if len(rest) > 1:
        raise BadLine(f'{word}: something more in the line: {rest[1]} (the name of a new account comes after "as")')
    if word == "client" and not rest:
        raise BadLine("client: its TM is missing")
    try:
        number = accounts.number(rest[0], at) if rest else 0
    except BadLine as bad:
        if word == "client":
            raise
        name = f'"{rest[0]}"' if " " in rest[0] else rest[0]
        raise BadLine(f'{bad}; if it is a new one, its name comes after "as": {word} as {name}') from None
    return word if number == 0 and word != "client" else f"{word} {number}"


def _kinds(word: str, rest: list[str]) -> str:
    if len(rest) == 1 and rest[0].lower() not in KINDS:
        rest = ["cash", *rest]
    said: dict[str, str] = {}
    for place in range(0, len(rest), 2):
        kind = rest[place].lower()
        if kind not in KINDS:
            raise BadLine(f"{word}: {rest[place]} is no kind: {', '.join(KINDS)}")
        if kind in said:
            raise BadLine(f"{word}: {kind} stands twice")
        if place + 1 == len(rest):
            raise BadLine(f"{word}: the amount behind {kind} is missing")
        said[kind] = _digits(rest[place + 1])
    if not said:
        raise BadLine(f"{word}: a kind and an amount are missing")
    return "".join(f" {kind} {said[kind]}" for kind in KINDS if kind in said)


def _amount(word: str, rest: list[str]) -> str:
    if not rest:
        raise BadLine(f"{word}: the amount is missing")
    if len(rest) > 1:
        raise BadLine(f"{word}: something more in the line: {rest[1]}")
    return _digits(rest[0])


def _digits(amount: str) -> str:
    try:
        return amounts.digits(amount)
    except BadAmount as bad:
        raise BadLine(str(bad)) from None


def clerk_line(line: str, names: Names) -> str:
    """A line of the programs in names and rupees."""
    words = line.split()
    if words[0] == "raw":
        return line
    if words[0] == "serial":
        return f"serial {words[1]} {clerk_line(' '.join(words[2:]), names)}"
    if len(words) == 1:
        return line
    said = [words[0], names.word(int(words[1]))]
    if len(words) == 3:
        said.append(amounts.rupees(int(words[2])))
    for place in range(2, len(words) - 1, 2):
        said += [words[place], amounts.rupees(int(words[place + 1]))]
    return " ".join(said)
