"""The proved programs: where they stand, how they are built where they are missing, and how they are run.

They end with status 0 whatever happens, so a failed run is told by what stands on standard error.
"""

import os
import platform
import re
import shutil
import subprocess
import sys
from collections.abc import Callable
from concurrent.futures import ThreadPoolExecutor
from pathlib import Path
from typing import TypeVar

from desk.stops import ALL_DONE, FAILED, Failed, SaysNothing

TOP = Path(__file__).resolve().parent.parent
# For tests alone: a folder whose files are called in the place of the proved programs, crates/NAME/out/NAME.
SETTING = "LOFT_PROGRAMS"
# What a person may run by itself; tests and examples have more.
NAMES = "day explain standings holdings needs closeouts write read merge statements archive take_over margins".split()
T = TypeVar("T")
U = TypeVar("U")


class ProgramFailed(Failed):
    """A program that told something on standard error, or was ended by the system."""

    def __init__(self, name: str, told: str) -> None:
        super().__init__(told or f"{name} was ended before it was done")
        self.told = told


class Programs:
    """The programs by name; the emulator is looked for once."""

    def __init__(self) -> None:
        setting = os.environ.get(SETTING)
        self._folder = Path(setting) if setting else None
        self._emulator: list[str] | None = [] if setting else None

    def run(self, name: str, *words: str | Path, given: Path | None = None, into: Path | None = None) -> bytes:
        """What a program prints, with a file (or nothing) on standard input; long answers go by a file."""
        command = [*self._ahead(), str(self._found(name)), *map(str, words)]
        try:
            with open(given or os.devnull, "rb") as file, open(into or os.devnull, "wb") as put:
                out = put if into else subprocess.PIPE
                ended = subprocess.run(command, stdin=file, stdout=out, stderr=subprocess.PIPE, check=False)
        except OSError as error:
            raise Failed(f"{name} can't be run: {error.strerror or error}") from None
        told = ended.stderr.decode(errors="replace").strip()
        if told or ended.returncode < 0:
            raise ProgramFailed(name, told.splitlines()[0] if told else "")
        return into.read_bytes() if into else ended.stdout

    def alone(self, name: str, words: list[str]) -> int:
        """The program by itself, its bytes in and its bytes out; its status, or that of a failure where it told one."""
        if not self._path(name).exists() and not (TOP / "crates" / name / "src" / "main.rt").exists():
            raise SaysNothing(f"there is no program {name}: there are {', '.join(NAMES)}")
        command = [*self._ahead(), str(self._found(name)), *words]
        try:
            with subprocess.Popen(command, stderr=subprocess.PIPE) as program:
                assert program.stderr is not None
                told = program.stderr.read()
        except OSError as error:
            raise Failed(f"{name} can't be run: {error.strerror or error}") from None
        sys.stderr.buffer.write(told)
        if program.returncode < 0:
            return 128 - program.returncode
        return FAILED if told and words[:1] != ["--help"] else ALL_DONE

    def both(self, first: Callable[[], T], second: Callable[[], U]) -> tuple[T, U]:
        """Two runs side by side."""
        with ThreadPoolExecutor(1) as hand:
            other = hand.submit(first)
            mine = second()
            return other.result(), mine

    def _path(self, name: str) -> Path:
        return self._folder / name if self._folder else TOP / "crates" / name / "out" / name

    def _found(self, name: str) -> Path:
        path = self._path(name)
        if not path.exists() and not self._folder:
            _build(name, path)
        if not path.exists():
            raise Failed(f"the program {name} is missing: {path}")
        return path

    def _ahead(self) -> list[str]:
        if self._emulator is None:
            self._emulator = _emulator()
        return self._emulator


def _emulator() -> list[str]:
    """Programs are compiled for x86-64; on another processor the kit's emulator, its loader and its C library are asked for."""
    if platform.machine() == "x86_64":
        return []
    tools = _kit() / "on" / platform.machine() / "toolchain"
    return [str(tools / "bin/qemu-x86_64"), str(tools / "lib/ld-linux-x86-64.so.2"), "--library-path", str(tools / "lib")]


def _kit() -> Path:
    try:
        said = subprocess.run(["rt", "doc"], capture_output=True, text=True, check=True).stdout.strip()
    except (OSError, subprocess.CalledProcessError):
        raise Failed("the Rattle kit isn't there: rt isn't on the path") from None
    return Path(said).parent


def _build(name: str, path: Path) -> None:
    """Proves and compiles a program, with a line for each crate that is done.

    `rt run` then runs it too: on nothing, and its status is the program's.
    """
    if not shutil.which("rt"):
        raise Failed(f"{name} isn't built, and rt, which builds it, isn't on the path: README.md, \"What it needs\"")
    print(f"loft: {name} isn't built yet: proving it and what it rests on (minutes, once)", file=sys.stderr)
    crate, last = name, ""
    with subprocess.Popen(
        ["rt", "run"], cwd=TOP / "crates" / name, text=True,
        stdin=subprocess.DEVNULL, stdout=subprocess.DEVNULL, stderr=subprocess.PIPE,
    ) as rt:
        assert rt.stderr is not None
        for line in rt.stderr:
            last = line.strip() or last
            if found := re.match(r"crate (\w+): ", line):
                crate = found[1]
            if line.startswith("logic=proved"):
                print(f"loft: {crate} proved", file=sys.stderr, flush=True)
    if rt.returncode and not path.exists():
        raise Failed(f"{name} can't be built: rt run in crates/{name} says: {last}")
