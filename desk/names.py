"""Names of accounts: which may be given, and the file that keeps them."""

import csv
import io
import re
import unicodedata
from difflib import get_close_matches

from desk.stops import SaysNothing

LONGEST = 60
LAST_NUMBER = 65_535
CM_NAME = "CM"
# Words of the text form: as names they would be read as something else.
RESERVED = frozenset(
    "tm client cp receive handback allocate release pledge unpledge margin retire revalue revise "
    "serial raw as cash deposits guarantees securities pledged total account number name".split()
)
_NUMBER_LIKE = re.compile(r"[+-]?[\d.,_]+(e[+-]?\d+)?|0x[0-9a-f]+", re.IGNORECASE)


class BadName(ValueError):
    """Why a name can't be one, in words."""


def key(name: str) -> str:
    """Two names clash where these are the same."""
    return unicodedata.normalize("NFC", name).casefold()


def judged(name: str) -> str:
    """The name itself where an account may bear it."""
    if not name:
        raise BadName("a name is empty")
    if name != name.strip():
        raise BadName(f"the name {name!r} begins or ends with a blank")
    if len(name) > LONGEST:
        raise BadName(f"the name {name} is longer than {LONGEST} letters")
    if any(unicodedata.category(letter).startswith("C") for letter in name):
        raise BadName(f"the name {name!r} has a character that can't be seen")
    if _NUMBER_LIKE.fullmatch(name) or not any(letter.isalpha() for letter in name):
        raise BadName(f"the name {name} looks like a number")
    for mark in '",#':
        if mark in name:
            raise BadName(f"the name {name} has {mark} in it")
    if key(name) in RESERVED:
        raise BadName(f"the name {name} is a word of the text form")
    return name


def number_of(word: str) -> int | None:
    """The account number that a word is, or none."""
    if not (word.isascii() and word.isdigit()):
        return None
    plain = word.lstrip("0") or "0"
    return int(plain) if len(plain) <= 5 and int(plain) <= LAST_NUMBER else None


class Names:
    """Numbers and names, each once."""

    def __init__(self, pairs: dict[int, str] | None = None) -> None:
        self._name: dict[int, str] = {}
        self._number: dict[str, int] = {}
        self._taken: dict[str, str] = {}
        for number, name in (pairs or {}).items():
            self.add(number, name)

    def add(self, number: int, name: str) -> None:
        """Gives a number its name."""
        name = self.free(name)
        if number in self._name:
            raise BadName(f"account {number} is named {self._name[number]} already")
        self._name[number] = name
        self._number[name] = number
        self._taken[key(name)] = name

    def free(self, name: str) -> str:
        """The name itself where it may be given to one more account."""
        name = judged(name)
        other = self._taken.get(key(name))
        if other is not None:
            raise BadName(f"the name {name} is taken: {other} is account {self._number[other]}")
        return name

    def copy(self) -> "Names":
        """The same names, to be added to."""
        return Names(self._name)

    def number(self, word: str) -> int | None:
        """The account that a word names, by name or by number."""
        found = self._number.get(word)
        return number_of(word) if found is None else found

    def name(self, number: int) -> str:
        """What an account is called: its name, or its number."""
        return self._name.get(number, str(number))

    def word(self, number: int) -> str:
        """The account as a word of a line: in quotes where it has blanks."""
        name = self.name(number)
        return f'"{name}"' if " " in name else name

    def pairs(self) -> dict[int, str]:
        """Every number that has a name, in rising number."""
        return dict(sorted(self._name.items()))

    def unknown(self, word: str) -> str:
        """What to say of a word that names no account."""
        if word.isascii() and word.isdigit():
            return f"{word} is no account number: the last is {LAST_NUMBER}"
        same = self._taken.get(key(word))
        near = [same] if same else get_close_matches(word, self._number, 1)
        whole = next((name for name in self._number if name.startswith(f"{word} ")), None)
        if whole:
            return f'no account is named {word} (a name with a blank goes in quotes: "{whole}")'
        return f"no account is named {word}" + (f" (is it {near[0]}?)" if near else "")


def read(text: str, file: str) -> Names:
    """The names that a names.csv holds."""
    names = Names()
    rows = csv.reader(io.StringIO(text.removeprefix("\ufeff"), newline=""))
    for row in rows:
        where = f"{file}, line {rows.line_num}"
        cells = [cell.strip() for cell in row]
        if not any(cells) or cells == ["number", "name"]:
            continue
        number = number_of(cells[0])
        if len(cells) != 2 or number is None:
            raise SaysNothing(f"{where}: a line is a number, a comma and a name")
        try:
            names.add(number, cells[1])
        except BadName as bad:
            raise SaysNothing(f"{where}: {bad}") from None
    return names


def written(names: Names) -> str:
    """A names.csv with these names."""
    return "number,name\n" + "".join(f"{number},{name}\n" for number, name in names.pairs().items())
