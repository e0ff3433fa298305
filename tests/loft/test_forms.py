"""Amounts, names, lines and sheets: how they are read and written."""

import random
import unittest

from desk import amounts, names, sheets
from desk.amounts import BadAmount
from desk.names import BadName, Names
from desk.stops import SaysNothing
from desk.translation import new_names, text_of
from desk.words import Accounts, BadLine, clerk_line, program_line

DESK = Names({0: "CM", 1: "TM-1", 2: "Exporter", 3: "Sharma & Co. Ltd"})


def line(text: str) -> str:
    return program_line(text, Accounts(DESK), 0)


class Amounts(unittest.TestCase):
    def test_rupees_are_read(self) -> None:
        said = {"500": 50000, "500.01": 50001, "500.5": 50050, "1,00,000.00": 10000000, "100,000": 10000000}
        said |= {"0": 0, "0.01": 1, "007": 700, "12,34,56,789.01": 12345678901, "1,00,00,00,00,000.00": 10**13}
        for text, paise in said.items():
            self.assertEqual(amounts.paise(text), paise, text)

    def test_what_is_no_amount_is_told(self) -> None:
        said = {"500.001": "more than two decimals", "-5": "below 0", "1,00,00,00,00,000.01": "above the ceiling"}
        said |= {"1,0": "commas", ",100": "commas", "1,000,00": "commas", "5.": "no amount", ".5": "no amount"}
        said |= {"": "no amount", "5,": "commas", "+5": "no amount", "५": "no amount", "1e5": "no amount", "5.0.0": "no amount"}
        for text, why in said.items():
            with self.assertRaisesRegex(BadAmount, why, msg=text):
                amounts.digits(text)

    def test_rupees_come_back(self) -> None:
        self.assertEqual(amounts.rupees(10**13), "1,00,00,00,00,000.00")
        self.assertEqual(amounts.rupees(-5), "-0.05")
        chance = random.Random(40)
        for _ in range(2000):
            paise = chance.randrange(10 ** chance.randrange(1, 14))
            self.assertEqual(amounts.paise(amounts.rupees(paise)), paise)


class Called(unittest.TestCase):
    def test_names_that_may_not_be(self) -> None:
        said = {"12": "number", "1,000": "number", "-5": "number", "1e5": "number", "٣": "number", "": "empty"}
        said |= {'a"b': "has", "a,b": "has", "a#b": "has", "a\tb": "seen", "a\u200bb": "seen", " a": "blank"}
        said |= {"cash": "word", "Margin": "word", "x" * 61: "longer", "0x1F": "number", "...": "number"}
        for name, why in said.items():
            with self.assertRaisesRegex(BadName, why, msg=name):
                names.judged(name)
        for name in ("A", "TM-1", "O'Brien & Sons", "2A Traders", "अमित", "Co. 7"):
            self.assertEqual(names.judged(name), name)

    def test_names_that_clash(self) -> None:
        for name in ("TM-1", "tm-1", "EXPORTER"):
            with self.assertRaisesRegex(BadName, "taken"):
                DESK.copy().add(9, name)
        with self.assertRaisesRegex(BadName, "named TM-1 already"):
            DESK.copy().add(1, "Other")

    def test_the_file_of_names(self) -> None:
        read = names.read('\ufeffnumber,name\r\n0,CM\r\n\r\n2,"Sharma & Co. Ltd"\r\n', "names.csv")
        self.assertEqual(read.pairs(), {0: "CM", 2: "Sharma & Co. Ltd"})
        self.assertEqual(names.read(names.written(read), "names.csv").pairs(), read.pairs())
        for text, why in {"x,A\n": "line 1", "1,A\n2,a\n": "line 2: the name a is taken", "1,A\n1,B\n": "line 2"}.items():
            with self.assertRaisesRegex(SaysNothing, why):
                names.read(text, "names.csv")


class Lines(unittest.TestCase):
    def test_lines_are_read(self) -> None:
        said = {
            "receive Exporter cash 500 securities 1,00,000.00": "receive 2 cash 50000 securities 10000000",
            "receive 2 securities 5 cash 1": "receive 2 cash 100 securities 500",
            'release "Sharma & Co. Ltd" deposits 0.01 # a comment': "release 3 deposits 1",
            "serial 007 margin TM-1 0": "serial 7 margin 1 0",
            "tm": "tm",
            'tm as "New one"': "tm",
            "cp 0": "cp",
            "tm 5": "tm 5",
            "client TM-1 as Fresh": "client 1",
            "retire 02": "retire 2",
            "  Pledge  CM  12.5 ": "pledge 0 1250",
            "raw 01 00 0a0B": "raw 01000A0B",
            "# nothing": "",
            "": "",
        }
        for text, wanted in said.items():
            self.assertEqual(line(text), wanted)

    def test_lines_that_say_nothing(self) -> None:
        said = {
            "recieve A cash 5": "no word recieve",
            "receive A cash 5": "no account is named A",
            "receive exporter cash 5": "is it Exporter",
            "receive 65536 cash 5": "no account number",
            "receive Exporter gold 5": "no kind",
            "receive Exporter cash 5 cash 6": "twice",
            "receive Exporter cash": "missing",
            "receive Exporter": "missing",
            "receive": "no account",
            "pledge Exporter": "missing",
            "pledge Exporter 5 6": "something more",
            "retire Exporter 5": "nothing more",
            "client": "TM is missing",
            "client 1 2": "something more",
            "serial x margin 1 2": "behind .serial.",
            "serial 1": "behind .serial.",
            "raw 012": "hexadecimal",
            "raw": "hexadecimal",
            'release "Exporter 5': "isn't closed",
            "margin Exporter 500.001": "two decimals",
            "margin Exporter -1": "below 0",
            "margin Exporter 1,00,00,00,00,000.01": "above the ceiling",
        }
        for text, why in said.items():
            with self.assertRaisesRegex(BadLine, why, msg=text):
                line(text)

    def test_lines_come_back(self) -> None:
        for text in ("receive 2 cash 50000 securities 1", "margin 3 0", "tm", "client 1", "retire 2", "serial 9 cp 4", "raw 00"):
            self.assertEqual(line(clerk_line(text, DESK)), text)
        self.assertEqual(clerk_line("margin 3 10000000", DESK), 'margin "Sharma & Co. Ltd" 1,00,000.00')

    def test_a_whole_file_says_what_its_lines_say(self) -> None:
        lines = ["receive 2 securities 5 cash 1", "margin TM-1 1,00,000.5", "", "allocate Exporter cash 5", "tm"]
        lines += ["receive 2 cash 1 deposits 2", "receive 2 cash 1 deposits 2 guarantees 3 securities 4"]
        self.assertEqual(text_of(lines, Accounts(DESK), "f"), [line(each) for each in lines])

    def test_faults_are_told_by_line(self) -> None:
        with self.assertRaises(SaysNothing) as stopped:
            text_of(["tm", "margin 1 x", "cp", "foo"], Accounts(DESK), "monday.txt")
        self.assertEqual(stopped.exception.lines[0], "monday.txt, line 2: x is no amount in rupees")
        self.assertTrue(stopped.exception.lines[1].startswith("monday.txt, line 4: there is no word foo"))

    def test_new_names(self) -> None:
        lines = ["tm as TM-2", 'client TM-2 as "A B"', "margin 1 5"]
        self.assertEqual(new_names(lines, DESK, "f"), {0: "TM-2", 1: "A B"})
        for bad, why in {"tm as 12": "number", "tm as TM-1": "is account 1", "tm as tm-2": "line 1 gives it"}.items():
            with self.assertRaisesRegex(SaysNothing, "line 3: .*" + why):
                new_names([lines[0], lines[1], bad], DESK, "f")

    def test_a_name_is_known_behind_its_opening(self) -> None:
        accounts = Accounts(DESK, {"New": (2, 7), "Not": (1, None)})
        self.assertEqual(program_line("margin New 5", accounts, 3), "margin 7 500")
        with self.assertRaisesRegex(BadLine, "further down, in line 3"):
            program_line("margin New 5", accounts, 1)
        with self.assertRaisesRegex(BadLine, "isn't opened: line 2 is refused"):
            program_line("margin Not 5", accounts, 3)


class Sheets(unittest.TestCase):
    def test_a_sheet_is_read(self) -> None:
        text = "Code,Account,Kind,Amount,As\r\ntm,,,,TM-2\r\n\r\nreceive,Exporter,cash,\"1,00,000.00\",\r\n"
        text += "margin,\"Sharma & Co. Ltd\",margin,5,\r\n"
        lines = sheets.lines(text, "f.csv")
        self.assertEqual(lines[1:], ['tm as "TM-2"', "", "receive Exporter cash 1,00,000.00", 'margin "Sharma & Co. Ltd" 5'])

    def test_serials_and_order_of_columns(self) -> None:
        self.assertEqual(sheets.lines("amount,account,code,serial\n5,1,margin,9\n", "f")[1], "serial 9 margin 1 5")

    def test_sheets_that_say_nothing(self) -> None:
        for text, why in {
            "": "no column code",
            "code,account,what\n": "line 1: .*what",
            "code,code,account\n": "line 1",
            "code,account\nmargin,1,5\n": "line 2: more cells",
            'code,account\nmargin,"a""b"\n': "line 2: a cell has a quote",
            'code,account\nmargin,"a': "line 2",
        }.items():
            with self.assertRaisesRegex(SaysNothing, why, msg=text):
                sheets.lines(text, "f.csv")


if __name__ == "__main__":
    unittest.main()
