"""Every figure of the page, held against what the programs print."""

import re
import unittest
from html.parser import HTMLParser
from pathlib import Path

from desks import TOP, DeskTest, run_program

AMOUNT = re.compile(r"[\d,]*\d\.\d\d\b")
VOID = {"meta", "rect", "line", "br", "circle"}


def paise(text: str) -> int:
    return int(text.replace(",", "").replace(".", ""))


class Page(HTMLParser):
    """The figures of a page by account and name, bars by row, and the amounts that stand anywhere else."""

    def __init__(self, text: str) -> None:
        super().__init__()
        self.figures: dict[tuple[str, str], list[str]] = {}
        self.elsewhere: list[str] = []
        self.rows: list[dict[str, float]] = []
        self.tags: list[tuple[str, dict[str, str | None]]] = []
        self.outside: list[str] = []
        self.feed(text)

    def handle_starttag(self, tag: str, attrs: list[tuple[str, str | None]]) -> None:
        held = dict(attrs)
        if tag == "svg":
            self.rows.append({})
        if tag == "rect" and "data-part" in held:
            self.rows[-1][str(held["data-part"])] = float(str(held["width"]).rstrip("%"))
        for name in ("src", "href"):
            if name in held:
                self.outside.append(str(held[name]))
        if tag == "script":
            self.outside.append("script")
        if tag not in VOID:
            self.tags.append((tag, held))

    def handle_endtag(self, tag: str) -> None:
        while self.tags and self.tags.pop()[0] != tag:
            pass

    def handle_data(self, data: str) -> None:
        held = self.tags[-1][1] if self.tags else {}
        if "data-figure" in held:
            self.figures.setdefault((str(held.get("data-account")), str(held["data-figure"])), []).append(data)
        elif self.tags and self.tags[-1][0] != "style":
            self.elsewhere += AMOUNT.findall(data)


class Figures(DeskTest):
    def page(self, *words: str | Path) -> Page:
        self.loft("page", self.desk, self.folder / "page.html", *words, status=0)
        return Page((self.folder / "page.html").read_text())

    def standings(self, page: Page) -> None:
        lines = [line.split() for line in run_program("standings", self.desk / "book").splitlines()[1:]]
        uses = {line.split()[0]: line.split()[-1] for line in run_program("holdings", self.desk / "book").splitlines()[3:]}
        for line in lines:
            wanted = dict(zip(("collateral", "blocked", "deemed", "free"), (line[4], line[6], line[7], line[8])))
            for what, amount in wanted.items():
                self.assertEqual([paise(said) for said in page.figures.pop((line[0], what))], [int(amount)], (line, what))
            for said in page.figures.pop((line[0], "use")):
                self.assertEqual(said, "no cover" if uses[line[0]] == "none" else uses[line[0]] + "%")
            if line[1] in ("cm", "tm"):
                self.assertEqual(page.figures.pop((line[0], "mode")), [line[9]])
        short = page.figures.pop(("0", "shortfall"))[0]
        self.assertEqual(sum(map(paise, AMOUNT.findall(short))), int(lines[0][10]))

    def closeout(self, page: Page, losses: dict[int, int]) -> None:
        text = self.file("numbers", "".join(f"{number} {loss}\n" for number, loss in losses.items()))
        *lines, total = [line.split() for line in run_program("closeouts", "--lines", text, self.desk / "book").splitlines()[1:]]
        sums = dict.fromkeys(("loss", "own", "tm", "cm", "uncovered"), 0)
        for line in lines:
            for place, what in enumerate(sums):
                sums[what] += int(line[1 + place])
                if int(line[1]):
                    self.assertEqual([paise(said) for said in page.figures.pop((line[0], f"paid-{what}"))], [int(line[1 + place])])
        self.assertEqual(sums["uncovered"], int(total[1]))
        for what, amount in sums.items():
            self.assertEqual([paise(said) for said in page.figures.pop(("None", f"total-{what}"))], [amount])

    def test_every_figure_of_the_example(self) -> None:
        self.loft("example", self.desk, status=0)
        page = self.page("--losses", TOP / "examples/desk/losses.txt")
        refused = page.elsewhere
        self.standings(page)
        self.closeout(page, {7: 1_120_000_000, 9: 214_000_000, 3: 90_000_000, 6: 32_500_000})
        self.assertEqual(page.figures, {})
        self.assertEqual(page.outside, [])
        kept = (self.desk / "trail/000002/came").read_text()
        said = (self.desk / "trail/000002/explained").read_text()
        for amount in refused:
            self.assertTrue(amount in kept or f" 0 {paise(amount)}\n" in said, amount)

    def test_bars_have_their_lengths(self) -> None:
        self.monday()
        page = self.page("--losses", self.file("l.txt", "A 1200\n\"B Traders\" 1200\n"))
        bars = [row for row in page.rows if set(row) & {"blocked", "free", "deemed"}]
        wanted = [{"blocked": 40.0, "free": 60.0}, {"blocked": 55.556, "deemed": 44.444}, {"blocked": 50.0, "deemed": 50.0}]
        self.assertEqual(bars, [*wanted, {"blocked": 33.333, "deemed": 66.667}])
        paid = [row for row in page.rows if set(row) & {"own"}]
        self.assertEqual(paid[0], {"loss": 100.0, "own": 25.0, "tm": 20.833, "cm": 41.667, "uncovered": 12.5})
        self.assertEqual(paid[2], {"own": 25.0, "tm": 16.667, "cm": 33.333, "uncovered": 25.0})

    def test_a_shortfall_and_names_that_look_like_marks(self) -> None:
        self.loft("init", self.desk, status=0)
        lines = "tm as Top\nclient Top as \"<b> & co\"\nreceive CM 5\nallocate CM 5\nrevise \"<b> & co\" 9.50\nretire Top\n"
        self.loft("post", self.desk, self.file("s.txt", lines), status=1)
        page = self.page()
        self.assertIn("4.50", page.figures[("0", "shortfall")][0])
        self.standings(page)
        text = (self.folder / "page.html").read_text()
        self.assertIn("&lt;b&gt; &amp; co", text)
        self.assertIn("in risk reduction mode", text)
        self.assertIn("refused (14): not empty yet", text)

    def test_a_fresh_desk(self) -> None:
        self.loft("init", self.desk, status=0)
        page = self.page("--losses", self.file("l.txt", "CM 5\n"))
        self.standings(page)
        self.closeout(page, {0: 500})
        self.loft("page", self.desk, self.folder / "no" / "page.html", status=3)


if __name__ == "__main__":
    unittest.main()
