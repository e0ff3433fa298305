//! A book's calls through the crate.

use loft::*;

/// CM 1000, TM 1 with 500, its clients 2 and 3 with 300 each; document 01's
/// figures, in paise: all of it allocated cash.
fn annexure(margins: &[(u16, u64)]) -> Book {
    let mut records = vec![
        Record::open_tm(0),
        Record::open_client(1, 1),
        Record::open_client(2, 1),
    ];
    for (account, rupees) in [(0, 1000), (1, 500), (2, 300), (3, 300)] {
        let cash = Kinds::cash(100 * rupees);
        records.push(Record::receive(records.len() as u16, account, cash));
        records.push(Record::allocate(records.len() as u16, account, cash));
    }
    for &(account, rupees) in margins {
        records.push(Record::set_margin(
            records.len() as u16,
            account,
            100 * rupees,
        ));
    }
    let mut book = Book::fresh();
    for record in &records {
        let answer = book.carry_out(record).unwrap();
        assert!(!matches!(answer.outcome, Outcome::Refused(_)), "{answer:?}");
    }
    book
}

fn blocked(book: &Book) -> Vec<u64> {
    let figures = (0..4).map(|account| book.standing(account).unwrap().blocked / 100);
    figures.collect()
}

#[test]
fn figures_of_document_01() {
    assert_eq!(blocked(&annexure(&[(3, 100)])), [0, 0, 0, 100]);
    assert_eq!(
        blocked(&annexure(&[(3, 100), (2, 600)])),
        [0, 300, 300, 100]
    );
    let book = annexure(&[(3, 100), (2, 600), (3, 900)]);
    assert_eq!(blocked(&book), [400, 500, 300, 300]);
    let deemed = |account| book.standing(account).unwrap().deemed / 100;
    assert_eq!([deemed(1), deemed(2), deemed(3)], [400, 300, 600]);
    assert_eq!(book.needs().unwrap(), [40_000, 90_000, 60_000, 90_000]);
}

#[test]
fn who_pays_what() {
    let book = annexure(&[(3, 100), (2, 600), (3, 900)]);
    let closed = book.close_out(&[0, 0, 120_000, 120_000]).unwrap();
    let paid = |own: u64, tm: u64, cm: u64, uncovered: u64| Payment {
        own: 100 * own,
        tm: 100 * tm,
        cm: 100 * cm,
        uncovered: 100 * uncovered,
    };
    assert_eq!(closed.payments[2], paid(300, 300, 600, 0));
    assert_eq!(closed.payments[3], paid(300, 200, 400, 300));
    assert_eq!(closed.total, 30_000);
    assert_eq!(book.close_out(&[0; 3]), Err(Refusal::WrongLength));
    assert_eq!(book.close_out(&[CEILING + 1; 4]), Err(Refusal::WrongLoss));
}

#[test]
fn the_most_passes_and_a_paisa_more_does_not() {
    let book = annexure(&[(3, 100)]);
    let most = book.most(7, 1, 3).unwrap();
    assert_eq!(most, 20_000);
    let outcome = |amount| {
        let mut copy = book.clone();
        let record = Record::release(12, 3, Kinds::cash(amount));
        copy.carry_out(&record).unwrap().outcome
    };
    assert_eq!(outcome(most), Outcome::CarriedOut);
    assert_eq!(outcome(most + 1), Outcome::Refused(Refusal::MoreThanFree));
}

#[test]
fn statements_are_held_against_the_book() {
    let book = annexure(&[]);
    let mut statement = Vec::new();
    for account in [2, 3] {
        statement.extend([1, 0b10101, 0, account]);
        for _ in 0..3 {
            statement.extend(30_000u64.to_be_bytes());
        }
    }
    assert_eq!(book.statement(1, &statement), Ok(()));
    assert_eq!(
        book.statement(1, &statement[..28]),
        Err(Refusal::StatementAccount)
    );
    assert_eq!(book.statement(2, &statement), Err(Refusal::WrongSort));
}

#[test]
fn what_is_no_sound_book_refuses_every_call() {
    let mut unsound = Book::fresh().as_bytes().to_vec();
    unsound[5] = 0;
    let mut version_1 = Book::fresh().as_bytes().to_vec();
    version_1[3] = 1;
    for bytes in [
        Vec::new(),
        vec![7; BOOK],
        vec![0; BOOK - 1],
        unsound,
        version_1,
    ] {
        let mut book = Book::from_bytes(bytes.clone());
        let refused = Some(Refusal::NotSound);
        assert!(!book.is_sound());
        assert_eq!(book.standing(0).err(), refused);
        assert_eq!(book.carry_out(&Record::open_tm(0)).err(), refused);
        assert_eq!(book.day(&[], 1, &mut [0; 5]).err(), refused);
        assert_eq!(book.whole_day(&[], 1, |_| {}).err(), refused);
        assert_eq!(book.most(4, 1, 0).err(), refused);
        assert_eq!(book.needs().err(), refused);
        assert_eq!(book.close_out(&[]).err(), refused);
        assert_eq!(book.statement(0, &[]).err(), refused);
        assert_eq!(book.archive().err(), refused);
        assert_eq!(book.take_over().err(), refused);
        assert_eq!(book.as_bytes(), bytes);
    }
}

#[test]
fn a_day_in_turns_is_the_day_at_once() {
    let mut file = Vec::new();
    for serial in 0..70_000u32 {
        let record = match serial {
            0 => Record::open_tm(0),
            _ => Record::pledge(serial as u16, 1 + (serial % 3 == 0) as u16, 5),
        };
        file.extend(write_record(&record).unwrap());
    }
    for most in [0, 1, 32_768, 32_769, 65_536, 69_999, 70_000, MILLION] {
        let (mut turns, mut whole) = (Book::fresh(), Book::fresh());
        let mut room = vec![0; ANSWER * 70_000];
        let mut seen = Vec::new();
        let end = turns.whole_day(&file, most, |answer| seen.push(answer));
        let end = end.unwrap();
        assert_eq!(whole.day(&file, most, &mut room), Ok(end));
        assert_eq!(turns, whole);
        assert!(seen.into_iter().eq(answers(&room, end.read)));
    }
}

#[test]
fn taking_over_what_is_over_changes_nothing() {
    let mut book = annexure(&[(3, 100)]);
    let before = book.clone();
    assert_eq!(book.take_over(), Ok(()));
    assert_eq!(book, before);
}
