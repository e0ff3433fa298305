"""The bytes of a day file, as far as a line's own bytes must be looked at."""

from desk.amounts import CEILING
from desk.words import KINDS, WORDS

HEAD = 6
EACH = 8


def size(record: bytes) -> int:
    """How long the record is that begins with these two bytes or more."""
    return HEAD + EACH * record[1].bit_count()


def is_whole(record: bytes) -> bool:
    """Whether the bytes are one whole record, good or not."""
    return len(record) >= HEAD and len(record) == size(record)


def serial(record: bytes) -> int:
    """Its serial."""
    return int.from_bytes(record[2:4], "big")


def words(record: bytes) -> str:
    """The line of a good record, without its serial; `raw` of any other."""
    code, mark = record[0], record[1]
    amounts = [int.from_bytes(record[place : place + EACH], "big") for place in range(HEAD, len(record), EACH)]
    if not _is_good(code, mark, amounts):
        return "raw " + record.hex().upper()
    word = WORDS[code - 1]
    account = int.from_bytes(record[4:6], "big")
    if word in ("tm", "cp") and account == 0:
        return word
    line = f"{word} {account}"
    if 4 <= code <= 7:
        kinds = [kind for bit, kind in enumerate(KINDS) if mark >> bit & 1]
        return line + "".join(f" {kind} {amount}" for kind, amount in zip(kinds, amounts))
    return line + "".join(f" {amount}" for amount in amounts)


def _is_good(code: int, mark: int, amounts: list[int]) -> bool:
    least = 0 if code in (10, 12, 13) else 1
    if not all(least <= amount <= CEILING for amount in amounts):
        return False
    if code in (1, 2, 3, 11):
        return mark == 0
    if 4 <= code <= 7:
        return 1 <= mark <= 15
    return mark == {8: 16, 9: 16, 12: 16, 10: 32, 13: 32}.get(code, -1)
