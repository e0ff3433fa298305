//! Records and refusals through the crate.

use loft::*;
use std::fs;

fn all_records() -> Vec<Record> {
    let kinds = Kinds {
        cash: 1,
        deposits: 2,
        guarantees: 3,
        securities: CEILING,
    };
    vec![
        Record::open_tm(0),
        Record::open_client(1, 2),
        Record::open_cp(3),
        Record::receive(4, 5, kinds),
        Record::hand_back(6, 7, kinds),
        Record::allocate(8, 9, kinds),
        Record::release(10, 11, Kinds::cash(7)),
        Record::pledge(12, 13, 14),
        Record::unpledge(15, 16, 17),
        Record::set_margin(18, 19, 0),
        Record::retire(20, 21),
        Record::revalue(22, 23, 0),
        Record::revise_margin(65_535, 65_535, CEILING),
    ]
}

#[test]
fn what_is_written_reads_back() {
    let mut file = Vec::new();
    for (place, record) in all_records().iter().enumerate() {
        assert_eq!(usize::from(record.code), place + 1);
        file.extend(write_record(record).unwrap());
    }
    let mut found = Vec::new();
    for read in records(&file) {
        match read {
            Read::Good(record, _) => found.push(record),
            other => panic!("{other:?}"),
        }
    }
    assert_eq!(found, all_records());
}

#[test]
fn faults_are_told() {
    let mut record = Record::receive(3, 2, Kinds::cash(CEILING + 1));
    assert_eq!(write_record(&record), Err(Refusal::OutOfRange));
    record.code = 14;
    assert_eq!(write_record(&record), Err(Refusal::UnknownCode));
    let bad = Read::Bad {
        reason: Refusal::UnknownCode,
        serial: 3,
        code: 14,
        account: 2,
        next: 6,
    };
    assert_eq!(read_record(&[14, 0, 0, 3, 0, 2], 0), bad);
    assert_eq!(read_record(&[14, 0, 0, 3, 0, 2], usize::MAX), Read::End);
}

#[test]
fn margins_are_refused_by_the_first_fault() {
    let position = |product, side, notional| Position {
        product,
        side,
        notional,
    };
    let made = |positions: &[Position]| margin(0, 1, 0, positions, Figures::None).err();
    assert_eq!(
        made(&[position(10, Side::Futures, 1)]),
        Refusal::numbered(18)
    );
    let option = position(product::TBILL91, Side::Short, 1);
    assert_eq!(made(&[option]), Some(Refusal::UnlistedOption));
    let dear = position(product::USDINR, Side::Spread, CEILING + 1);
    assert_eq!(made(&[dear, option]), Some(Refusal::NotionalPastCeiling));
    assert_eq!(made(&[option; 65]), Some(Refusal::WrongLength));
    let figures = Figures::EndOfDay {
        premium: 0,
        loss: 0,
        exercise: 0,
        settlement: i64::MIN,
    };
    assert_eq!(
        margin(0, 1, 0, &[], figures),
        Err(Refusal::FigureOutOfRange)
    );
    assert_eq!(
        margin(0, 1, CEILING + 1, &[], figures),
        Err(Refusal::NotionalPastCeiling)
    );
}

/// The table of docs/BOOK.md, a line for each number.
#[test]
fn refusals_have_the_texts_of_the_page() {
    let path = concat!(env!("CARGO_MANIFEST_DIR"), "/../../docs/BOOK.md");
    let page = fs::read_to_string(path).unwrap();
    for number in 1..=29 {
        let refusal = Refusal::numbered(number).unwrap();
        assert_eq!(refusal.number(), number);
        let line = format!("| {number} | {} |", refusal.text());
        assert!(page.lines().any(|found| found == line), "{line}");
        assert_eq!(refusal.to_string(), format!("{number}: {}", refusal.text()));
    }
    assert_eq!(Refusal::numbered(30), None);
}
