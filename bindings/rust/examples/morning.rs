//! A clearing member's morning: a trading member and its client are opened, the
//! client's cash comes in and is allocated, and its margin is set. Two more
//! margins come as a piece of a day file, the first of them too high.
//!
//!     bindings/make && cd bindings/rust && cargo run --example morning

use loft::{Answer, Book, Closing, Kinds, Outcome, Record, Refusal, MILLION};

const PIECE: [u8; 28] = [
    0x0A, 0x20, 0x00, 0x05, 0x00, 0x02, 0, 0, 0, 0, 0, 0, 0xEA, 0x60, // 60,000
    0x0A, 0x20, 0x00, 0x06, 0x00, 0x02, 0, 0, 0, 0, 0, 0, 0x75, 0x30, // 30,000
];

fn print_answer(a: Answer) {
    let (refusal, given) = match a.outcome {
        Outcome::CarriedOut => (0, 0),
        Outcome::Opened(number) => (0, number),
        Outcome::Refused(refusal) => (refusal.number(), 0),
    };
    println!("{} {} {} {refusal} {given}", a.serial, a.code, a.account);
}

fn print_standing(book: &Book, account: u16) -> Result<(), Refusal> {
    let s = book.standing(account)?;
    println!(
        "account {account}: collateral {}, need {}, blocked {}, deemed {}, free {}",
        s.collateral, s.need, s.blocked, s.deemed, s.free
    );
    Ok(())
}

fn main() -> Result<(), Refusal> {
    let mut book = Book::fresh();
    let cash = Kinds::cash(30_000);
    let records = [
        Record::open_tm(0),        // it is account 1
        Record::open_client(1, 1), // account 2
        Record::receive(2, 2, cash),
        Record::allocate(3, 2, cash),
        Record::set_margin(4, 2, 20_000),
    ];
    for record in &records {
        print_answer(book.carry_out(record)?);
    }
    print_standing(&book, 2)?;
    let end = book.whole_day(&PIECE, MILLION, print_answer)?;
    let all = end.closing == Closing::End;
    let word = if all { "end" } else { "not all" };
    println!("{word} {} {}", end.read, end.done);
    print_standing(&book, 2)
}
