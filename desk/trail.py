"""The trail: a folder for each posting, and what a posting that was broken off left."""

import json
import shutil
from dataclasses import asdict, dataclass, field
from pathlib import Path

from desk.files import make_folder, replace, sha256, step, to_disk, write_new
from desk.stops import Failed

WHAT = "what.json"
DONE = "done"


@dataclass
class Posting:
    """What was done: number, time, the file as it came, the book before and after, and a sum of each file kept."""

    number: int
    time: str
    kind: str
    file: str
    before: str
    after: str
    previous: str
    records: int = 0
    carried_out: int = 0
    opened: dict[str, str] = field(default_factory=dict)
    files: dict[str, str] = field(default_factory=dict)

    def written(self) -> bytes:
        """Its what.json."""
        return (json.dumps(asdict(self), indent=1, ensure_ascii=False) + "\n").encode()


class Trail:
    """The folder `trail` of a desk."""

    def __init__(self, folder: Path) -> None:
        self.folder = folder

    def numbers(self) -> list[int]:
        """Every posting's number, rising."""
        if not self.folder.is_dir():
            return []
        return sorted(int(each.name) for each in self.folder.iterdir() if each.name.isdigit() and len(each.name) == 6)

    def place(self, number: int) -> Path:
        """A posting's folder."""
        return self.folder / f"{number:06d}"

    def read(self, number: int) -> Posting:
        """What a posting says of itself."""
        path = self.place(number) / WHAT
        try:
            said = json.loads(path.read_bytes())
            return Posting(**said)
        except (OSError, ValueError, TypeError) as error:
            raise Failed(f"{path} can't be read: {error}") from None

    def file(self, number: int, name: str) -> bytes:
        """A file that a posting keeps, or nothing where it keeps none of that name."""
        try:
            return (self.place(number) / name).read_bytes()
        except FileNotFoundError:
            return b""

    def is_done(self, number: int) -> bool:
        """Whether the end mark stands."""
        return (self.place(number) / DONE).exists()

    def begin(self, posting: Posting, kept: dict[str, bytes]) -> None:
        """Writes a posting's folder, what.json last: from then on the book says whether it was carried out."""
        place = self.place(posting.number)
        make_folder(place)
        for name, data in kept.items():
            write_new(place / name, data)
        posting.files = {name: sha256(data) for name, data in kept.items()}
        replace(place / WHAT, posting.written())

    def end(self, posting: Posting) -> None:
        """The end mark: the sum of what.json."""
        replace(self.place(posting.number) / DONE, (sha256(posting.written()) + "\n").encode())

    def undo(self, number: int) -> None:
        """Takes a posting's folder away, what.json first."""
        place = self.place(number)
        step()
        (place / WHAT).unlink(missing_ok=True)
        step()
        shutil.rmtree(place)
        to_disk(self.folder)
