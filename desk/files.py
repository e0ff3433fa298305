"""Files that are changed whole: written beside their place, brought to the disk, then renamed."""

import fcntl
import hashlib
import os
import signal
from collections.abc import Iterator
from contextlib import contextmanager
from pathlib import Path

from desk.output import note
from desk.stops import Failed

# For tests alone: the process kills itself just before the guarded step with this number.
SETTING = "LOFT_STOP_AT"
_steps = 0


def step() -> None:
    """Stands ahead of every change to a desk's files."""
    global _steps
    _steps += 1
    if os.environ.get(SETTING) == str(_steps):
        os.kill(os.getpid(), signal.SIGKILL)


def sha256(data: bytes) -> str:
    """The sum by which the trail knows a file."""
    return hashlib.sha256(data).hexdigest()


def beside(path: Path) -> Path:
    """Where a file is written before it takes its place."""
    return path.with_name(path.name + ".new")


def to_disk(folder: Path) -> None:
    """Brings a folder's names to the disk."""
    step()
    place = os.open(folder, os.O_RDONLY | os.O_DIRECTORY)
    try:
        os.fsync(place)
    finally:
        os.close(place)


def make_folder(path: Path) -> None:
    """A new folder, on the disk."""
    step()
    path.mkdir()
    to_disk(path.parent)


def write_new(path: Path, data: bytes) -> None:
    """A new file with these bytes, on the disk."""
    step()
    with open(path, "wb") as file:
        step()
        file.write(data)
        file.flush()
        step()
        os.fsync(file.fileno())


def replace(path: Path, data: bytes) -> None:
    """Puts these bytes in a file's place whole; its rights, and a link to it, stay."""
    path = Path(os.path.realpath(path))
    new = beside(path)
    write_new(new, data)
    if path.exists():
        step()
        _keep_rights(new, path.stat())
    step()
    os.rename(new, path)
    to_disk(path.parent)


def _keep_rights(new: Path, held: os.stat_result) -> None:
    """Owner, group and rights of the file before. A clerk who may not give a file away keeps what may be kept."""
    mine = new.stat()
    for owner, group in ((held.st_uid, held.st_gid), (mine.st_uid, held.st_gid)):
        if (owner, group) == (mine.st_uid, mine.st_gid):
            break
        try:
            os.chown(new, owner, group)
            break
        except PermissionError:
            continue
    os.chmod(new, held.st_mode & 0o7777)


@contextmanager
def locked(path: Path) -> Iterator[bool]:
    """Holds a desk's lock; whether its files may be changed is given. Whoever can't write may still read."""
    may_write = True
    try:
        place = os.open(path, os.O_RDWR | os.O_CREAT | os.O_CLOEXEC, 0o666)
    except OSError:
        may_write = False
        try:
            place = os.open(path, os.O_RDONLY | os.O_CLOEXEC)
        except OSError as error:
            raise Failed(f"the lock {path} can't be opened: {error.strerror}") from None
    try:
        try:
            fcntl.flock(place, fcntl.LOCK_EX | fcntl.LOCK_NB)
        except BlockingIOError:
            note(["another command is at work on this desk: waiting for it"])
            fcntl.flock(place, fcntl.LOCK_EX)
        yield may_write
    finally:
        os.close(place)
