"""What became of each line, beside the clerk's own words."""

import re
from typing import Any

from desk.carrying import Carried
from desk.refusals import verdict
from desk.spread import at_lines, line_start, spread

WIDEST = 60
# Above so many bytes of answers the verdicts aren't set in a column, and the work is shared out.
LONG = 1_000_000
_TAIL = re.compile(rb"\d+ \d+ \d+ (.*)\n")


class _Verdicts(dict[bytes, str]):
    """Verdicts met before, by what stands behind serial, code and account."""

    def __missing__(self, tail: bytes) -> str:
        self[tail] = f"   {_verdict(tail.decode())}\n"
        return self[tail]


def _verdict(tail: str) -> str:
    refusal, given, *most = map(int, tail.split())
    return verdict(refusal, given, (most[0], most[1]) if most else None)


def lines(done: Carried) -> list[memoryview]:
    """A line for each record, in pieces."""
    if len(done.explained) >= LONG:
        text = done.input.plain if done.words is None else "".join(words + "\n" for words in done.words).encode()
        return spread(lambda start, end: _piece(done.explained, start, end, text), at_lines(done.explained, LONG))
    width = min(max(map(len, done.shown), default=0), WIDEST)
    text = "".join(words.ljust(width) + "\n" for words in done.shown).encode()
    return [memoryview(_piece(done.explained, 0, len(done.explained), text))]


def _piece(explained: bytes, start: int, end: int, text: bytes) -> bytes:
    """The words of some records, each with its verdict in the place of its line's end. Bytes go by as letters, as those are joined
    much faster."""
    tails = _TAIL.findall(explained, start, end)
    first = line_start(text, explained.count(b"\n", 0, start))
    last = len(text) if end == len(explained) else line_start(text, explained.count(b"\n", 0, end))
    parts = [""] * (2 * len(tails))
    parts[0::2] = str(memoryview(text)[first:last], "latin-1").split("\n")[: len(tails)]
    parts[1::2] = map(_Verdicts().__getitem__, tails)
    return "".join(parts).encode("latin-1")


def counted(number: int, what: str) -> str:
    """A number of things: 1 record, 2 records."""
    return f"{number:,} {what}" + ("" if number == 1 else "s")


def summary(done: Carried, posted: int | None) -> str:
    """The last line of a file."""
    passed = f"{counted(done.records, 'record')}: {done.records - done.refused:,}"
    if posted is None:
        return f"{passed} would be carried out, {done.refused:,} refused. Nothing is saved.\n"
    return f"{passed} carried out, {done.refused:,} refused. This is posting {posted}.\n"


def as_json(done: Carried) -> list[dict[str, Any]]:
    """The same for another program: amounts in paise."""
    said = []
    for at, words, answer in zip(done.at, done.shown, done.answers):
        serial, code, account, refusal, given, *most = map(int, answer.split())
        said.append(
            {
                "line": at + 1,
                "words": words,
                "serial": serial,
                "code": code,
                "account": account,
                "refusal": refusal,
                "given": given,
                "most": {"refusal": most[0], "amount": most[1]} if most else None,
                "verdict": _verdict(answer.split(" ", 3)[3]),
            }
        )
    return said
