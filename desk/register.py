"""What was done to an account, from the trail."""

from desk.amounts import grouped
from desk.folder import Desk
from desk.names import Names
from desk.refusals import refused
from desk.stops import Failed
from desk.tables import table
from desk.trail import Posting
from desk.words import clerk_line


def lines(desk: Desk, names: Names, last: int, number: int, with_refused: bool) -> list[str]:
    """A line for each record up to the posting `last` that named the account, or opened it."""
    rows = [["posting", "time", "file", "record", ""]]
    hidden = 0
    for posting in (desk.trail.read(each) for each in desk.trail.numbers() if each <= last):
        for said, refusal in _of_posting(desk, posting, names, number):
            if refusal and not with_refused:
                hidden += 1
                continue
            rows.append([str(posting.number), posting.time[:16].replace("T", " "), posting.file, said, refused(refusal) if refusal else ""])
    told = table(rows, left=5) if len(rows) > 1 else ["Nothing was done to it yet."]
    if hidden:
        told.append(f"{grouped(str(hidden))} refused: --refused lists them too.")
    return told


def _of_posting(desk: Desk, posting: Posting, names: Names, number: int) -> list[tuple[str, int]]:
    if posting.kind == "archive":
        moved = desk.trail.file(posting.number, "moved").decode().split("\n")
        return [("archived", 0) for line in moved if line.split(" ")[0] == str(number)]
    text = [line for line in desk.trail.file(posting.number, "text").decode().split("\n") if line]
    answers = desk.trail.file(posting.number, "out").decode().split("\n")[:-2]
    if len(text) < len(answers):
        raise Failed(f"posting {posting.number} has fewer lines than answers: loft verify {desk.folder} says more")
    found = []
    for line, answer in zip(text, answers):
        _, code, account, refusal, given = answer.split()
        if str(number) == given and number:
            found.append((f"{clerk_line(line, names)} (opened)", 0))
        elif account == str(number) and code not in ("1", "3"):
            found.append((clerk_line(line, names), int(refusal)))
    return found
