"""What the tests of ./loft share: a folder for each test, and the command run as a clerk runs it."""

import os
import subprocess
import tempfile
import unittest
from dataclasses import dataclass
from pathlib import Path

TOP = Path(__file__).resolve().parent.parent.parent
LOFT = TOP / "loft"
NOBODY = 65_534

MONDAY = """\
# Annexure 4 of SEBI's circular at P4
tm as TM-1
client TM-1 as A
client TM-1 as "B Traders"
receive CM cash 1,000.00
allocate CM cash 1000
receive TM-1 cash 500
allocate TM-1 cash 500
receive A cash 300
allocate A cash 300
receive "B Traders" cash 300
allocate "B Traders" cash 300
margin A 600
margin "B Traders" 900
"""


@dataclass
class Ran:
    """A command's status, and what it said."""

    status: int
    out: str
    err: str


def program(name: str) -> Path:
    """A proved program, as ./loft finds it."""
    folder = os.environ.get("LOFT_PROGRAMS")
    return Path(folder) / name if folder else TOP / "crates" / name / "out" / name


def another_login() -> dict[str, object]:
    """The words that run ./loft as nobody, where the tests are root's and nobody can reach this folder."""
    if os.geteuid() != 0:
        return {}
    try:
        ran = subprocess.run([LOFT, "refusal", "1"], user=NOBODY, group=NOBODY, capture_output=True, check=False)
    except OSError:
        return {}
    return {} if ran.returncode else {"user": NOBODY, "group": NOBODY}


def script(name: str) -> str:
    """A shell script that runs a proved program, on any processor."""
    if os.environ.get("LOFT_PROGRAMS"):
        return f'#!/bin/sh\nexec {program(name)} "$@"\n'
    return subprocess.run([str(TOP / "tests" / "program"), "--script", name], capture_output=True, text=True, check=True).stdout


def command(name: str) -> list[str]:
    """A proved program as the words of a command."""
    return [str(program(name))] if os.environ.get("LOFT_PROGRAMS") else [str(TOP / "tests" / "program"), name]


def run_program(name: str, *words: str | Path, given: bytes = b"") -> str:
    """What a proved program prints, without ./loft."""
    return subprocess.run([*command(name), *map(str, words)], input=given, capture_output=True, check=True).stdout.decode()


class DeskTest(unittest.TestCase):
    """A test with a folder of its own."""

    def setUp(self) -> None:
        held = tempfile.TemporaryDirectory(prefix="loft-test-")
        self.addCleanup(held.cleanup)
        self.folder = Path(held.name)
        self.folder.chmod(0o755)
        self.desk = self.folder / "desk"

    def loft(self, *words: str | Path, status: int | None = None, environment: dict[str, str] | None = None, **how: object) -> Ran:
        """./loft with these words; it must end with this status."""
        ended = subprocess.run(
            [str(LOFT), *map(str, words)], capture_output=True, text=True, env={**os.environ, **(environment or {})}, check=False, **how
        )
        ran = Ran(ended.returncode, ended.stdout, ended.stderr)
        self.assertNotIn("Traceback", ran.err, ran.err)
        if status is not None:
            self.assertEqual(ran.status, status, ran.out + ran.err)
        return ran

    def file(self, name: str, text: str | bytes) -> Path:
        """A file in the test's folder."""
        path = self.folder / name
        path.write_bytes(text.encode() if isinstance(text, str) else text)
        return path

    def monday(self) -> None:
        """A desk at P4."""
        self.loft("init", self.desk, status=0)
        self.loft("post", self.desk, self.file("monday.txt", MONDAY), status=0)

    def verified(self) -> None:
        """The trail must replay."""
        self.loft("verify", self.desk, status=0)

    def book(self) -> bytes:
        """The book's bytes."""
        return (self.desk / "book").read_bytes()

    def postings(self) -> list[str]:
        """The trail's folders."""
        return sorted(path.name for path in (self.desk / "trail").iterdir())
