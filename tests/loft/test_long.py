"""Long files: turned in whole passes they say what their lines say, and what isn't in the common form isn't let through."""

import random
import unittest

from desks import DeskTest

from desk import whole
from desk.amounts import rupees
from desk.inputs import Input
from desk.names import Names
from desk.translation import text_of
from desk.words import BY_AMOUNT, BY_KIND, KINDS, Accounts

NAMES = Names({0: "CM", 1: "TM-1", 2: "A", 3: "Co.7", 4: "अमित"})
ACCOUNTS = ("CM", "TM-1", "A", "4", "अमित", "007")


def line(chance: random.Random) -> str:
    account = chance.choice(ACCOUNTS)
    amount = [rupees(chance.randrange(10 ** chance.randrange(1, 14))) for _ in KINDS]
    kind = chance.randrange(10)
    if kind < 4:
        return f"{chance.choice(BY_AMOUNT)} {account} {amount[0]}"
    if kind < 8:
        said = sorted(chance.sample(range(4), chance.randrange(1, 5)))
        return f"{chance.choice(BY_KIND)} {account}" + "".join(f" {KINDS[each]} {amount[each]}" for each in said)
    return chance.choice([f"retire {account}", f"client {account}", "tm", "cp", "raw 00FF0001", "cp 3"])


def lines(count: int, seed: int) -> list[str]:
    chance = random.Random(seed)
    return [line(chance) for _ in range(count)]


def turned(said: list[str]) -> bytes | None:
    """By whole passes, or none where they don't let it through."""
    data = ("\n".join(said) + "\n").encode()
    if not whole.is_grouped(data):
        return None
    return b"".join(whole.without_zeros(piece) for piece in whole.text_of(data, NAMES)) or None


def line_by_line(said: list[str]) -> bytes:
    return "".join(each + "\n" for each in text_of(said, Accounts(NAMES), "f")).encode()


class Whole(unittest.TestCase):
    def test_the_same_as_line_by_line(self) -> None:
        for seed, count in ((1, 60_000), (2, 500), (3, 1), (4, 2)):
            said = lines(count, seed)
            self.assertEqual(turned(said), line_by_line(said), seed)

    def test_what_is_not_in_the_common_form(self) -> None:
        """Not let through, or so that `write` refuses it: never another amount or account."""
        said = lines(50, 5)
        odd = ["margin A 500", "margin A 5.5", "margin A 5.001", "margin A 10,50.00", "margin A 1,0,0.00", "margin A ,500.00"]
        odd += ["margin A 1000,00.00", "margin A 100,000.00", "margin 3.00 500", "margin 3.00 500.00", "margin Nobody 5.00"]
        odd += ["serial 5 margin A 5.00", "margin A .50", "margin A 5.00.00", "receive A cash 500 deposits 5.00", "margin Co.7 5"]
        for each in odd:
            self.assertIsNone(turned([*said[:20], each, *said[20:]]), each)
        for each, wanted in {"margin A 1,00,000.00": b"margin 2 10000000", "margin Co.7 5.00": b"margin 3 500", "margin A 0.05": b"margin 2 5"}.items():
            self.assertIn(turned([*said, each]), (None, line_by_line(said) + wanted + b"\n"), each)


class EndToEnd(DeskTest):
    def test_a_long_file_is_answered_as_a_short_one(self) -> None:
        self.monday()
        (self.desk / "names.csv").write_text("number,name\n0,CM\n1,TM-1\n2,A\n3,B\n")
        chance = random.Random(7)
        said = []
        for _ in range(40_000):
            amount = rupees(chance.randrange(1, 200_000))
            said.append(f"{chance.choice(('margin', 'pledge', 'unpledge'))} {chance.choice(('A', 'B', 'CM', '1', '9'))} {amount}")
        text = "\n".join(said) + "\n"
        text *= 2
        self.assertGreater(len(text), whole.WORTH_IT)
        fast = self.loft("check", self.desk, self.file("fast.txt", text), status=1).out
        slow = self.loft("check", self.desk, self.file("slow.txt", text + "# so that it is gone through line by line\n"), status=1).out
        self.assertEqual(fast, slow)
        self.assertEqual(fast.count("\n"), 80_001)
        self.assertTrue(Input("fast.txt", "text", text.encode()).plain)
        self.loft("post", self.desk, self.folder / "fast.txt", status=1)
        self.verified()

    def test_a_fault_in_a_long_file_is_told_by_its_line(self) -> None:
        self.monday()
        text = "margin A 5.00\n" * 80_000
        err = self.loft("check", self.desk, self.file("l.txt", text + "margin A 5.001\n" + text), status=2).err
        self.assertIn("l.txt, line 80001: 5.001 has more than two decimals", err)


if __name__ == "__main__":
    unittest.main()
