"""Standard output and standard error."""

import sys


def say(text: str) -> None:
    """Prints."""
    sys.stdout.write(text)


def say_all(pieces: list[memoryview]) -> None:
    """Prints long pieces."""
    sys.stdout.flush()
    for piece in pieces:
        sys.stdout.buffer.write(piece)


def note(lines: list[str]) -> None:
    """Tells on standard error what is no part of the answer."""
    for line in lines:
        print(f"loft: {line}", file=sys.stderr)
