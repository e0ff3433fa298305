"""The commands, as a clerk gives them."""

import json
import os
import platform
import shutil
import subprocess
import sys
import unittest

from desks import LOFT, MONDAY, TOP, DeskTest, program, run_program, script


class Carrying(DeskTest):
    def test_check_says_and_saves_nothing(self) -> None:
        self.monday()
        before = self.book()
        said = self.loft("check", self.desk, self.file("t.txt", "margin A 100\nrelease A 200.01\nrelease A 200\n"), status=1).out
        self.assertIn("release A 200.01   refused (12): below what is blocked; at most 200.00\n", said)
        self.assertIn("release A 200      carried out\n", said)
        self.assertIn("3 records: 2 would be carried out, 1 refused. Nothing is saved.\n", said)
        self.assertEqual((self.book(), self.postings()), (before, ["000000", "000001"]))
        self.verified()

    def test_post_carries_out_and_keeps(self) -> None:
        self.monday()
        kept = self.desk / "trail" / "000001"
        self.assertEqual((kept / "came").read_text(), MONDAY)
        self.assertEqual((kept / "out").read_text(), run_program("day", given=(kept / "day").read_bytes()))
        self.assertEqual((self.desk / "names.csv").read_text(), "number,name\n0,CM\n1,TM-1\n2,A\n3,B Traders\n")
        self.verified()

    def test_init_refuses_a_folder_with_a_book(self) -> None:
        self.loft("init", self.desk, status=0)
        before = self.book()
        self.assertIn("has a book already", self.loft("init", self.desk, status=2).err)
        self.assertEqual(self.book(), before)

    def test_init_with_a_book(self) -> None:
        self.monday()
        other = self.folder / "other"
        self.loft("init", other, "--book", self.desk / "book", status=0)
        self.assertEqual((other / "book").read_bytes(), self.book())
        self.loft("init", self.folder / "third", "--book", self.desk / "book", "--old-rule", status=0)
        self.loft("init", self.folder / "fourth", "--book", self.file("x", "no book"), status=3)
        self.assertFalse((self.folder / "fourth").exists())

    def test_no_desk(self) -> None:
        for words in (["show"], ["verify"], ["needs"], ["archive"]):
            self.assertIn("is no desk", self.loft(*words, self.desk, status=2).err)

    def test_all_or_nothing(self) -> None:
        self.monday()
        before = self.book()
        mixed = self.file("m.txt", "margin A 100\nmargin A 9,00,000\n")
        said = self.loft("post", self.desk, mixed, "--all", status=1).out
        self.assertIn("nothing is carried out", said)
        self.assertEqual((self.book(), len(self.postings())), (before, 2))
        self.loft("post", self.desk, mixed, status=1)
        self.assertEqual(len(self.postings()), 3)
        self.loft("post", self.desk, self.file("g.txt", "margin A 50\n"), "--all", status=0)
        self.verified()

    def test_several_files_each_from_the_book_before(self) -> None:
        self.monday()
        one, two = self.file("1.txt", "client TM-1 as New\n"), self.file("2.txt", "receive New 5\nallocate New 5\n")
        self.assertIn("1.txt:\n", self.loft("check", self.desk, one, two, status=0).out)
        bad = self.file("3.txt", "receive New cash x\n")
        self.assertIn("3.txt, line 1: x is no amount", self.loft("post", self.desk, one, two, bad, status=2).err)
        self.assertEqual(len(self.postings()), 2)
        self.loft("post", self.desk, one, two, status=0)
        self.assertEqual(len(self.postings()), 4)
        self.verified()

    def test_the_same_file_twice(self) -> None:
        self.monday()
        file = self.file("m.txt", "receive A 5\n")
        self.loft("post", self.desk, file, status=0)
        self.assertIn("posted already: posting 2", self.loft("post", self.desk, file, status=2).err)
        self.loft("post", self.desk, file, "--again", status=0)
        self.assertEqual(len(self.postings()), 4)
        self.verified()

    def test_a_day_file(self) -> None:
        self.loft("init", self.desk, status=0)
        day = TOP / "examples" / "morning.day"
        self.assertIn("cut short", self.loft("post", self.desk, day, status=2).err)
        day = TOP / "examples" / "deposit.day"
        said = self.loft("post", self.desk, day, status=1).out
        self.assertIn("margin 3 1,500.01", said)
        self.assertEqual((self.desk / "trail" / "000001" / "out").read_text(), run_program("day", given=day.read_bytes()))
        self.verified()

    def test_raw_and_serial(self) -> None:
        self.loft("init", self.desk, status=0)
        text = "raw 010000000000\nserial 1 client 1\nserial 9 tm\nraw 6300000200FF\n"
        said = self.loft("post", self.desk, self.file("r.txt", text), status=1).out
        self.assertIn("serial 9 tm         refused (3): not the next serial\n", said)
        self.assertIn("raw 6300000200FF    refused (4): no such code\n", said)
        self.assertIn("aren't one whole record", self.loft("check", self.desk, self.file("s.txt", "raw 0100\nraw 00040000\n"), status=2).err)
        self.verified()

    def test_a_name_behind_no_blank(self) -> None:
        self.monday()
        self.loft("post", self.desk, self.file("n.txt", 'client TM-1 as"Anand Mills"\nmargin "Anand Mills" 5\n'), status=0)
        self.assertIn("Anand Mills", (self.desk / "names.csv").read_text())
        self.verified()

    def test_a_program_by_itself(self) -> None:
        day = TOP / "examples" / "deposit.day"
        with day.open("rb") as given:
            said = subprocess.run([LOFT, "run", "day"], stdin=given, capture_output=True, check=True).stdout.decode()
        self.assertEqual(said, run_program("day", given=day.read_bytes()))
        self.assertIn("no program's name", self.loft("run", "../day", status=2).err)
        self.assertIn("cannot", self.loft("run", "day", "/nowhere/book", status=3).err)
        self.assertIn("there is no program nosuch: there are day, ", self.loft("run", "nosuch", status=2).err)
        self.assertIn("required: PROGRAM\n", self.loft("run", status=2).err)

    def test_a_folder_without_statements(self) -> None:
        self.monday()
        (self.folder / "none").mkdir()
        self.assertIn("named after a TM", self.loft("statement", self.desk, self.folder / "none", status=2).err)

    def test_rights_and_links_stay(self) -> None:
        self.monday()
        (self.desk / "book").rename(self.folder / "the.book")
        (self.folder / "the.book").chmod(0o640)
        (self.desk / "book").symlink_to(self.folder / "the.book")
        self.loft("post", self.desk, self.file("m.txt", "margin A 100\n"), status=0)
        self.assertTrue((self.desk / "book").is_symlink())
        self.assertEqual((self.folder / "the.book").stat().st_mode & 0o777, 0o640)
        self.verified()


class SaysNothing(DeskTest):
    def test_bad_lines_are_told_and_nothing_is_done(self) -> None:
        self.monday()
        before = self.book()
        said = {
            "margin A 5.001": "two decimals",
            "margin A -5": "below 0",
            "margin A 1,00,00,00,00,000.01": "above the ceiling",
            "margin Nobody 5": "no account is named Nobody",
            "receive A cash 0": "an amount missing or out of range",
            "tm as 12": "looks like a number",
            "tm as": 'behind "as" stands one name',
            'client TM-1 as"Anand Mills" too': 'behind "as" stands one name',
            "tm Harbour": 'comes after "as": tm as Harbour',
            'cp "Pension Fund"': 'comes after "as": cp as "Pension Fund"',
            "tm Pension Fund": 'comes after "as"',
            "margin A " + "9" * 5000: "above the ceiling",
            "margin " + "9" * 5000 + " 5": "no account",
            "raw 010000000000010000000000": "aren't one whole record",
            "tm as a": "is taken: A is account 2",
            "client TM-1 as New\ntm as new": "line 3: the name new is taken: line 2 gives it",
            "margin New 5\nclient TM-1 as New": "New is opened further down, in line 3",
        }
        for text, why in said.items():
            for command in ("check", "post"):
                err = self.loft(command, self.desk, self.file("bad.txt", "receive A 5\n" + text + "\n"), status=2).err
                self.assertIn(why, err)
                self.assertIn("bad.txt, line ", err)
        self.assertEqual((self.book(), len(self.postings())), (before, 2))

    def test_files_that_are_none(self) -> None:
        self.monday()
        self.assertIn("can't be read", self.loft("check", self.desk, self.folder / "none.txt", status=2).err)
        self.assertIn("is no text", self.loft("check", self.desk, self.file("b.txt", b"\x01\x00\xff\xfe"), status=2).err)
        self.assertIn("commas between the columns", self.loft("check", self.desk, self.file("s.csv", "code;account\n"), status=2).err)
        self.assertIn("what is none of them", self.loft("check", self.desk, self.file("w.csv", "what,account\n"), status=2).err)
        self.loft("check", self.desk, status=2)
        self.loft("frob", self.desk, status=2)

    def test_an_opening_that_is_refused(self) -> None:
        self.monday()
        lines = "client A as Wrong\nclient TM-1 as Right\nreceive Right 5\n"
        said = self.loft("check", self.desk, self.file("o.txt", lines), status=1).out
        self.assertIn("client A as Wrong      refused (8)", said)
        self.assertIn("client TM-1 as Right   opened as number 4\n", said)
        err = self.loft("post", self.desk, self.file("p.txt", lines + "margin Wrong 5\n"), status=2).err
        self.assertIn("p.txt, line 4: Wrong isn't opened: line 1 is refused", err)
        self.loft("post", self.desk, self.file("o.txt", lines), status=1)
        self.assertIn("4,Right\n", (self.desk / "names.csv").read_text())
        self.assertNotIn("Wrong", (self.desk / "names.csv").read_text())
        self.verified()

    def test_names_by_hand(self) -> None:
        self.monday()
        (self.desk / "names.csv").write_text("number,name\n0,CM\n1,TM-1\n2,A\n3,a\n")
        self.assertIn("names.csv, line 5: the name a is taken", self.loft("show", self.desk, status=2).err)
        (self.desk / "names.csv").write_text("number,name\n1,Harbour\n2,A\n")
        self.loft("post", self.desk, self.file("m.txt", "receive Harbour 5\nreceive 3 5\n"), status=0)
        self.verified()


class Sheets(DeskTest):
    def test_a_sheet_with_mark_and_quotes(self) -> None:
        self.monday()
        sheet = "code,account,kind,amount,as\r\n\r\nreceive,B Traders,cash,\"1,00,000.00\",\r\nclient,TM-1,,,\"New & Co\"\r\nmargin,New & Co,margin,5.5,\r\n"
        file = self.file("t.csv", b"\xef\xbb\xbf" + sheet.encode())
        said = self.loft("post", self.desk, file, status=0).out
        self.assertIn('receive "B Traders" cash 1,00,000.00   carried out\n', said)
        self.assertIn('client TM-1 as "New & Co"              opened as number 4\n', said)
        self.assertEqual((self.desk / "trail/000002/text").read_text(), "\n\nreceive 3 cash 10000000\nclient 1\nmargin 4 550\n")
        bad = self.file("b.csv", "code,account,amount\r\nmargin,A,5\r\nmargin,A,5.001\r\n")
        self.assertIn("b.csv, line 3: 5.001 has more than two", self.loft("check", self.desk, bad, status=2).err)
        self.verified()


class Asking(DeskTest):
    def test_show_says_what_the_programs_say(self) -> None:
        self.monday()
        said = json.loads(self.loft("show", self.desk, "--json", status=0).out)
        lines = [line.split() for line in run_program("standings", self.desk / "book").splitlines()[1:]]
        for account, line in zip(said["accounts"], lines):
            self.assertEqual([account[key] for key in ("number", "collateral", "need", "blocked", "deemed", "free", "shortfall")],
                             [int(line[place]) for place in (0, 4, 5, 6, 7, 8, 10)])
        text = self.loft("show", self.desk, status=0).out
        self.assertIn("  TM-1           1      500.00   500.00  400.00    0.00  192.0%    on\n", text)
        self.assertIn("There is no shortfall.", text)

    def test_one_account(self) -> None:
        self.monday()
        said = self.loft("show", self.desk, "A", status=0).out
        self.assertIn("may rise to  1,200.00", said)
        self.assertIn("0.00 (12)", said)
        self.loft("show", self.desk, "Nobody", status=2)
        self.loft("show", self.desk, "99", status=2)
        most = json.loads(self.loft("show", self.desk, "CM", "--json", status=0).out)["may"]
        self.assertIn({"record": "release 0 cash", "refusal": 0, "amount": 60000}, most)

    def test_needs(self) -> None:
        self.monday()
        said = json.loads(self.loft("needs", self.desk, "--json", status=0).out)
        lines = [list(map(int, line.split())) for line in run_program("needs", self.desk / "book").splitlines()[1:]]
        self.assertEqual([[each["number"], each["need"]] for each in said["accounts"]], lines)
        self.assertIn("B Traders    3  900.00\n", self.loft("needs", self.desk, status=0).out)

    def test_closeout(self) -> None:
        self.monday()
        losses = self.file("l.txt", "A 1,200\n\"B Traders\" 1200.00 # P8\n")
        self.assertIn("B Traders    3  1,200.00        300.00         200.00         400.00     300.00\n", self.loft("closeout", self.desk, losses, status=0).out)
        said = json.loads(self.loft("closeout", self.desk, self.file("l.csv", "account,loss\nA,\"1,200\"\n"), "--json", status=0).out)
        self.assertEqual((said["total"], said["accounts"][2]["cm"]), (0, 60000))
        for text, why in {"A": "a line is", "A 5\nA 6": "line 2: A has a loss", "X 5": "no account", "A 5.001": "decimals"}.items():
            self.assertIn(why, self.loft("closeout", self.desk, self.file("b.txt", text), status=2).err)

    def test_register(self) -> None:
        self.monday()
        self.loft("post", self.desk, self.file("t.txt", "release A 5\nmargin A 100\n"), status=1)
        said = self.loft("register", self.desk, "A", status=0).out
        for words in ("client TM-1 (opened)", "allocate A cash 300.00", "margin A 100.00", "1 refused"):
            self.assertIn(words, said)
        self.assertNotIn("release", said)
        self.assertIn("release A cash 5.00     refused (12)", self.loft("register", self.desk, "A", "--refused", status=0).out)

    def test_margin(self) -> None:
        self.monday()
        file = self.file("p.txt", "USDINR futures 1,00,000.01\nfigures 0.50 -0.20\n")
        line = self.loft("margin", self.desk, "B Traders", "250", file, status=0).out
        self.assertEqual(line, 'margin "B Traders" 750.31\n')
        self.loft("post", self.desk, self.file("m.txt", line), status=0)
        self.assertIn("refused (18)", self.loft("margin", self.desk, "A", "5", self.file("q.txt", "GOLD futures 5\n"), status=1).out)
        self.loft("margin", self.desk, "A", "5", self.file("r.txt", "USDINR sideways 5\n"), status=2)

    def test_statements_of_many(self) -> None:
        self.loft("init", self.desk, status=0)
        self.loft("post", self.desk, TOP / "examples" / "nine.day", status=None)
        said = self.loft("statement", self.desk, TOP / "examples" / "nine", status=1).out.splitlines()
        self.assertEqual([line.split()[2] for line in said], ["accepted", "refused", "refused"])
        wanted = [line.split()[1] for line in (TOP / "examples/nine.out").read_text().splitlines() if ": " in line]
        self.assertEqual([f"({number})" in line for number, line in zip(wanted[1:], said[1:])], [True, True])
        self.loft("statement", self.desk, "1", TOP / "examples/nine/1.statement", status=0)
        self.loft("statement", self.desk, self.folder / "none.statement", status=2)

    def test_merge(self) -> None:
        self.monday()
        a, b = self.file("a.txt", "margin A 5\nclient TM-1 as New\n"), self.file("b.txt", "receive New 7\n")
        said = self.loft("merge", self.desk, a, b, status=0).out
        self.assertEqual(said, 'margin A 5.00\nclient TM-1 as "New"\nreceive New cash 7.00\n')
        self.loft("post", self.desk, self.file("both.txt", said), status=0)
        cut = self.file("cut.day", b"\x01\x00")
        self.assertIn("cut.day: record 1 is refused (2)", self.loft("merge", self.desk, cut, a, status=2).err)
        self.verified()

    def test_refusal(self) -> None:
        self.assertIn("would be below what was blocked", self.loft("refusal", "12", status=0).out)
        self.loft("refusal", "99", status=2)
        self.loft("refusal", "x", status=2)
        for number in range(1, 30):
            self.loft("refusal", str(number), status=0)


class Full(DeskTest):
    def test_256_accounts_and_archivings(self) -> None:
        self.loft("init", self.desk, status=0)
        lines = ["tm as TM-1"] + [f"client TM-1 as C-{each}" for each in range(2, 257)]
        said = self.loft("post", self.desk, self.file("o.txt", "\n".join(lines)), status=1).out
        self.assertIn("256 records: 255 carried out, 1 refused", said)
        self.assertIn("client TM-1 as C-256   refused (9): no room for another account\n", said)
        for week in range(2):
            gone = [f"retire C-{each}" for each in range(10 + 50 * week, 40 + 50 * week)]
            self.loft("post", self.desk, self.file(f"r{week}.txt", "\n".join(gone)), status=0)
            self.assertIn("30 accounts archived", self.loft("archive", self.desk, status=0).out)
            new = [f"client TM-1 as N-{week}-{each}" for each in range(30)]
            self.loft("post", self.desk, self.file(f"n{week}.txt", "\n".join(new)), status=0)
        self.assertIn("nothing to archive", self.loft("archive", self.desk, status=0).out)
        self.assertIn("refused (7)", self.loft("check", self.desk, self.file("l.txt", "receive C-12 5\n"), status=1).out)
        self.assertIn("archived", self.loft("register", self.desk, "C-12", status=0).out)
        self.assertEqual(len(json.loads(self.loft("show", self.desk, "--json", status=0).out)["accounts"]), 256)
        self.loft("page", self.desk, self.folder / "p.html", status=0)
        self.verified()


class Example(DeskTest):
    def test_the_example_desk(self) -> None:
        said = self.loft("example", self.desk, status=0).out
        self.assertIn("$ ./loft post", said)
        self.assertIn("There is no shortfall.", said)
        self.verified()
        self.loft("example", self.desk, status=2)


class Programs(DeskTest):
    def test_a_program_that_is_missing_or_fails(self) -> None:
        self.monday()
        folder = self.folder / "programs"
        folder.mkdir()
        setting = {"LOFT_PROGRAMS": str(folder)}
        err = self.loft("show", self.desk, status=3, environment=setting).err
        self.assertEqual(len(err.splitlines()), 1)
        self.assertIn("standings is missing", err)
        for script, why in {"echo no disk >&2": "no disk", "kill -9 $$": "was ended", "true": "no closing line"}.items():
            (folder / "standings").write_text(f"#!/bin/sh\n{script}\n")
            os.chmod(folder / "standings", 0o755)
            err = self.loft("show", self.desk, status=3, environment=setting).err
            self.assertIn(why, err)
            self.assertEqual(len(err.splitlines()), 1)

    def test_what_is_missing_is_built(self) -> None:
        """With a stand-in for `rt`: lines of progress, then the program runs; or one line that says why not."""
        if platform.machine() != "x86_64":
            self.skipTest("the emulator is asked of rt, too")
        self.monday()
        top = self.folder / "top"
        shutil.copytree(TOP / "desk", top / "desk")
        shutil.copy(LOFT, top / "loft")
        (top / "crates/needs").mkdir(parents=True)
        says = "echo 'rt: noise' >&2\necho 'crate sums: modules' >&2\necho 'logic=proved functions=1' >&2\n"
        rt = self.file("rt", f"#!/bin/sh\nmkdir out\nln -s {program('needs')} out/needs\n{says}echo what the program prints\n")
        rt.chmod(0o755)
        how = {"PATH": f"{self.folder}:{os.environ['PATH']}"}
        clean = {key: value for key, value in os.environ.items() if key != "LOFT_PROGRAMS"} | how

        def needs() -> subprocess.CompletedProcess[str]:
            return subprocess.run([str(top / "loft"), "needs", str(self.desk)], capture_output=True, text=True, env=clean, check=False)

        ran = needs()
        self.assertEqual(ran.returncode, 0, ran.stderr)
        self.assertIn("needs isn't built yet", ran.stderr)
        self.assertIn("loft: sums proved\n", ran.stderr)
        self.assertNotIn("noise", ran.stderr)
        self.assertNotIn("what the program prints", ran.stdout)
        self.assertEqual(needs().stderr, "")
        (top / "crates/needs/out/needs").unlink()
        rt.write_text("#!/bin/sh\necho 'rt: no such crate' >&2\nexit 1\n")
        ran = needs()
        self.assertEqual(ran.returncode, 3)
        self.assertIn("needs can't be built: rt run in crates/needs says: rt: no such crate\n", ran.stderr)
        (self.folder / "only").mkdir()
        (self.folder / "only" / "python3").symlink_to(sys.executable)
        clean["PATH"] = str(self.folder / "only")
        ran = needs()
        self.assertEqual((ran.returncode, len(ran.stderr.splitlines())), (3, 1))
        self.assertIn('rt, which builds it, isn\'t on the path: README.md, "What it needs"\n', ran.stderr)

    def test_what_is_handed_over_is_compared(self) -> None:
        """A `write` that says something else than it was told is found before anything is carried out."""
        self.monday()
        folder = self.folder / "programs"
        folder.mkdir()
        for name in ("day", "standings", "holdings", "read", "explain", "honest"):
            (folder / name).write_text(script("write" if name == "honest" else name))
            os.chmod(folder / name, 0o755)
        (folder / "write").write_text(f"#!/bin/sh\nsed s/5/6/ \"$1\" > \"$1.x\"\nexec {folder}/honest \"$1.x\" \"$2\"\n")
        os.chmod(folder / "write", 0o755)
        before = self.book()
        file = self.file("m.txt", "margin A 100\nmargin A 500\n")
        err = self.loft("post", self.desk, file, status=3, environment={"LOFT_PROGRAMS": str(folder)}).err
        self.assertIn("m.txt, line 2: write and read don't agree", err)
        self.assertEqual(self.book(), before)


if __name__ == "__main__":
    unittest.main()
