"""A clearing member's morning: a trading member and its client are opened, the client's cash comes in and is
allocated, and its margin is set. Two more margins come as a piece of a day file, the first of them too high.

    bindings/make && python3 bindings/python/example.py
"""

from loft import Answer, Book, Kinds, Record

PIECE = bytes.fromhex("0A20 0005 0002 000000000000EA60" "0A20 0006 0002 0000000000007530")  # 60,000 and 30,000


def print_answer(answer: Answer) -> None:
    print(answer.serial, answer.code, answer.account, answer.refusal, answer.given)


def print_standing(book: Book, account: int) -> None:
    s = book.standing(account)
    print(f"account {account}: collateral {s.collateral}, need {s.need}, blocked {s.blocked}, ", end="")
    print(f"deemed {s.deemed}, free {s.free}")


book = Book.fresh()
cash = Kinds(cash=30_000)
for record in [
    Record.open_tm(0),  # it is account 1
    Record.open_client(1, 1),  # account 2
    Record.receive(2, 2, cash),
    Record.allocate(3, 2, cash),
    Record.set_margin(4, 2, 20_000),
]:
    print_answer(book.carry_out(record))
print_standing(book, 2)
end = book.whole_day(PIECE, print_answer)
print(end.closing.name.lower(), end.read, end.done)
print_standing(book, 2)
