"""What a command works with: the programs, and a folder of its own that is gone afterwards."""

import tempfile
from pathlib import Path

from desk.programs import Programs


class Scratch:
    """Programs and a scratch folder."""

    def __init__(self) -> None:
        self.programs = Programs()
        self._folder = tempfile.TemporaryDirectory(prefix="loft-")
        self._count = 0

    def __enter__(self) -> "Scratch":
        return self

    def __exit__(self, *_: object) -> None:
        self._folder.cleanup()

    def place(self, what: str) -> Path:
        """A name that no file has yet."""
        self._count += 1
        return Path(self._folder.name) / f"{self._count}.{what}"

    def file(self, what: str, *pieces: bytes | memoryview) -> Path:
        """A new file with these bytes."""
        path = self.place(what)
        with open(path, "wb", buffering=0) as file:
            for piece in pieces:
                left = memoryview(piece)
                while left:
                    left = left[file.write(left) :]
        return path
