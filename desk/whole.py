"""A long file turned into the programs' text in a few passes over all of it.

It serves files whose every line is in the common form, with two decimals in every amount; of any other file it gives nothing, or a
text that `write` refuses or that doesn't read back as the same, and then the file is gone through line by line.
"""

import re
from collections import Counter

from desk.names import Names
from desk.spread import at_lines, spread
from desk.words import BY_AMOUNT

# Shorter files are gone through line by line.
WORTH_IT = 1_000_000
_HEAD = re.compile(r"(\n[a-z]+ [^ \n]+)")
# A point that doesn't stand between a digit and just two digits; a comma that doesn't stand as in 1,00,000.00.
_BAD_POINT = re.compile(rb"\.(?:(?!\d\d[ \n])|(?<!\d\.))")
_ZEROS = re.compile(rb" (?<!raw )0+(?=\d)")
_BAD_COMMA = re.compile(rb",(?:(?!\d\d(?:,|\d\.))|(?<! \d,)(?<! \d\d,)(?<!,\d\d,))")


class _Heads(dict[str, str]):
    """A line's word and account by number; KeyError where it isn't in the common form."""

    def __init__(self, names: Names) -> None:
        super().__init__()
        self._names = names

    def __missing__(self, head: str) -> str:
        word, account = head[1:].split(" ")
        if word == "raw":
            return head
        number = self._names.number(account.encode("latin-1").decode())
        if number is None or word == "serial" or (number == 0 and word in ("tm", "cp")):
            raise KeyError(head)
        self[head] = f"\n{word} {number}"
        return self[head]


def is_worth_it(data: bytes) -> bool:
    """Whether a file is long, and opens no account by name."""
    return len(data) >= WORTH_IT and b" as " not in data


def is_grouped(data: bytes) -> bool:
    """Whether every point and every comma of a file stands as in 1,00,000.00."""
    return not (_BAD_POINT.search(data) or _BAD_COMMA.search(data))


def text_of(data: bytes, names: Names) -> list[memoryview]:
    """The programs' text, in pieces, of a long file for which `is_grouped` holds; or nothing."""
    parts = spread(lambda start, end: _piece(memoryview(data)[start:end], names), at_lines(data, WORTH_IT))
    return parts if all(map(len, parts)) else []


def _piece(data: memoryview, names: Names) -> bytes:
    """A piece's text, or nothing. Bytes go by as letters, as those are joined much faster."""
    parts = _HEAD.split("\n" + str(data, "latin-1"))
    try:
        heads = list(map(_Heads(names).__getitem__, parts[1::2]))
    except (KeyError, ValueError):
        return b""
    parts[1::2] = heads
    # The line's end in front of the first line is the one added above.
    first = 0 if parts[0] else 1
    parts[first] = parts[first][1:]
    text = "".join(parts).encode("latin-1")
    return text.translate(None, b",.") if text.count(b".") == _amounts(text, heads) else b""


def without_zeros(text: bytes | memoryview) -> bytes:
    """A text as `read` writes it: no number has zeros in front."""
    return _ZEROS.sub(b" ", text)


def _amounts(text: bytes, heads: list[str]) -> int:
    """How many amounts a text has, by its blanks, where every line is well formed; `write` tells where one isn't."""
    blanks = text.count(b" ")
    amounts = 0
    for head, count in Counter(heads).items():
        word = head[1:].partition(" ")[0]
        blanks -= 2 * count if word in BY_AMOUNT else count
        amounts += count if word in BY_AMOUNT else 0
    return amounts + blanks // 2 if blanks % 2 == 0 else -1
