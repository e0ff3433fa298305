"""Records, margins and refusals through the module."""

import doctest
import importlib
import os
import subprocess
import sys
import unittest
from pathlib import Path

from loft import (
    CEILING,
    Bad,
    Cut,
    Figures,
    Good,
    Kinds,
    Position,
    Product,
    Record,
    Refused,
    Side,
    margin,
    read_record,
    records,
    write_record,
)
from loft.refusals import TEXTS

KINDS = Kinds(1, 2, 3, CEILING)
ALL = [
    Record.open_tm(0),
    Record.open_client(1, 2),
    Record.open_cp(3),
    Record.receive(4, 5, KINDS),
    Record.hand_back(6, 7, KINDS),
    Record.allocate(8, 9, KINDS),
    Record.release(10, 11, Kinds(cash=7)),
    Record.pledge(12, 13, 14),
    Record.unpledge(15, 16, 17),
    Record.set_margin(18, 19, 0),
    Record.retire(20, 21),
    Record.revalue(22, 23, 0),
    Record.revise_margin(65_535, 65_535, CEILING),
]


def refusal_of(call: object, *words: object) -> int:
    try:
        call(*words)  # type: ignore[operator]
    except Refused as refused:
        return refused.number
    return 0


class OfRecords(unittest.TestCase):
    def test_what_is_written_reads_back(self) -> None:
        self.assertEqual([record.code for record in ALL], list(range(1, 14)))
        file = b"".join(write_record(record) for record in ALL)
        found = list(records(file))
        self.assertEqual([good.record for good in found], ALL)
        self.assertEqual(found[-1].next, len(file))
        self.assertEqual(list(records(file + b"\1"))[-1], Cut())

    def test_faults_are_told(self) -> None:
        self.assertEqual(refusal_of(write_record, Record.receive(3, 2, Kinds(cash=CEILING + 1))), 6)
        self.assertEqual(refusal_of(write_record, Record(3, 14)), 4)
        piece = bytes([14, 0, 0, 3, 0, 2])
        self.assertEqual(read_record(piece, 0), Bad(4, 3, 14, 2, 6))
        self.assertEqual(read_record(piece, 1), Cut())
        self.assertIsNone(read_record(piece, 6))
        self.assertIsNone(read_record(b"", 1 << 63))

    def test_margins(self) -> None:
        dollars = Position(Product.USDINR, Side.FUTURES, 10_000_001)
        made = margin(4, 2, 60_000, [dollars], Figures(50, 30, -10, 5))
        self.assertEqual(read_record(made, 0), Good(Record.set_margin(4, 2, 60_000 + 50_001 + 75), 14))
        option = Position(Product.TBILL91, Side.SHORT, 1)
        dear = Position(Product.USDINR, Side.SPREAD, CEILING + 1)
        for positions, figures, number in [
            ([Position(10, Side.FUTURES, 1)], None, 18),
            ([option], None, 19),
            ([dear, option], None, 20),
            ([option] * 65, None, 15),
            ([], Figures(0, 0, 0, -CEILING - 1), 22),
            ([], Figures(CEILING, 1), 21),
        ]:
            self.assertEqual(refusal_of(margin, 0, 1, 0, positions, figures), number)

    def test_refusals_have_the_texts_of_the_page(self) -> None:
        page = Path(__file__).resolve().parents[3] / "docs" / "BOOK.md"
        lines = page.read_text(encoding="utf-8").splitlines()
        self.assertEqual(len(TEXTS), 29)
        for number, text in enumerate(TEXTS, 1):
            self.assertIn(f"| {number} | {text} |", lines)
            self.assertEqual((Refused(number).number, str(Refused(number))), (number, f"{number}: {text}"))

    def test_a_library_that_is_missing_is_told(self) -> None:
        alone = {**os.environ, "LOFT_LIB": "/nowhere"}
        ran = subprocess.run([sys.executable, "-c", "import loft"], capture_output=True, text=True, env=alone, check=False)
        self.assertEqual(ran.returncode, 1)
        self.assertIn("there is no /nowhere/libloft.so: run bindings/make, or name its folder in LOFT_LIB", ran.stderr)

    def test_examples_of_the_pages(self) -> None:
        tried = 0
        for name in ["loft", "loft.records", "loft.reading", "loft.margins"]:
            failed, attempted = doctest.testmod(importlib.import_module(name))
            self.assertEqual(failed, 0)
            tried += attempted
        self.assertEqual(tried, 9)
