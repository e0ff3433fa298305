//! K13: brokers' statements held against the book.

mod common;
use common::*;
use second::kinds::statements::Met;
use second::make::asked::statements::{Asked, Case};
use second::model::statement::text::{read, write};
use second::model::statement::{check, clients, total, Checked, MOST};
use second::model::table::NEED;

/// TM 1 with live clients 2, 5 and 6, a retired one 3 and another TM's 7; CP 8, TM 9
/// with no live client.
const START: &str = "tm;client 1;client 1;tm;client 1;client 1;client 4;cp;tm;client 9;retire 3;\
retire 10;receive 2 cash 100 securities 11;allocate 2 cash 40 securities 11;pledge 2 5;\
receive 6 deposits 7;receive 7 guarantees 3";

const RIGHT: [&str; 3] = ["2 111 60 51 1 50", "5 0 0 0 0 0", "6 7 0 7 7 0"];

fn checked(book: &Book, tm: u16, text: &str) -> String {
    let bytes = write(text.replace(" / ", "\n").as_bytes()).unwrap();
    check(Some(book), tm, &bytes).line()
}

fn said(tm: u16, text: &str) -> String {
    checked(&book_after(START), tm, text)
}

/// The right statement with one of its lines put anew: the refusal alone.
fn with(place: usize, line: &str) -> String {
    let mut lines = RIGHT;
    lines[place] = line;
    said(1, &lines.join(" / "))
}

/// The line for a refusal at a record of TM 1.
fn at(refusal: &str, record: usize) -> String {
    match [2, 5, 6].get(record) {
        Some(account) => format!("{refusal} at record {record}: account {account} is wanted"),
        None => format!("{refusal} at record {record}: no account is wanted"),
    }
}

/// "An empty statement passes for a TM with no live client." All that is received
/// may stay with the TM, or be placed as far as allocated.
#[test]
fn right_ones() {
    assert_eq!(said(1, &RIGHT.join(" / ")), "0");
    assert_eq!(said(4, "7 3 3 0 0 0"), "0");
    assert_eq!(said(9, ""), "0");
    assert_eq!(with(0, "2 111 111 0 0 0"), "0");
    assert_eq!(with(0, "2 111 0 111 60 51"), "0");
}

/// "1, 7 and 8 (not a TM) first", whatever the statement.
#[test]
fn whose_it_is() {
    for text in ["", &RIGHT.join(" / "), "raw 00"] {
        assert!([3, 10, 11, 65_535]
            .iter()
            .all(|&gone| said(gone, text) == "7"));
        assert!([0, 2, 6, 8].iter().all(|&no_tm| said(no_tm, text) == "8"));
        assert_eq!(check(None, 1, text.as_bytes()), Checked::Refused(1));
    }
    let archived = Table::of(&book_after("tm;cp;tm;client 3;retire 1"));
    let book = archived.archived().unwrap().book.book().unwrap();
    let lines = [1, 2, 3, 4].map(|tm| checked(&book, tm, "4 0 0 0 0 0"));
    assert_eq!(lines, ["7", "8", "0", "8"]);
}

/// "24 cut or bad mark": each cause, at each record.
#[test]
fn bad_forms() {
    let bad = "01|0100|010000|00000002|02000002|01200002 0000000000000001|01400002|01800002|\
        01010002 00000000000000|01030002 0000000000000001 000000";
    for place in 0..3 {
        for bad in bad.split('|') {
            let text = [&RIGHT[..place], &[&format!("raw {bad}")]]
                .concat()
                .join(" / ");
            assert_eq!(said(1, &text), at("24", place), "{text}");
        }
    }
    // A statement cut at every length: 24, 26 between records, 0.
    let bytes = write(RIGHT.join("\n").as_bytes()).unwrap();
    let (book, ends) = (book_after(START), [0, 44, 48, 76]);
    assert_eq!(bytes.len(), ends[3]);
    for length in 0..=bytes.len() {
        let refusal = check(Some(&book), 1, &bytes[..length]).refusal();
        let wanted = match ends.iter().position(|&end| end == length) {
            Some(3) => 0,
            Some(_) => 26,
            None => 24,
        };
        assert_eq!(refusal, wanted, "{length}");
    }
}

/// "25 amount zero or above four ceilings": 40,000,000,000,000 is the last that passes.
#[test]
fn amounts_out_of_range() {
    assert_eq!(MOST, 40_000_000_000_000);
    assert_eq!(with(0, "raw 01010002 0000000000000000"), at("25", 0));
    assert_eq!(with(2, "6 7 0 7 7 40000000000001"), at("25", 2));
    assert_eq!(with(2, "6 7 0 7 7 40000000000000"), at("27", 2));
    let kinds = "cash ~ deposits ~ guarantees ~ securities ~".replace('~', &CEILING.to_string());
    let book = book_after(&format!("tm;client 1;receive 2 {kinds};allocate 2 {kinds}"));
    let table = "0: 2 40000000000000 0 40000000000000 0 40000000000000|2 40000000000000 40000000000000 0 0 0
25 at record 0: 2 40000000000001 0 40000000000001 0 40000000000001";
    for (wanted, line) in rows(table) {
        assert_eq!(checked(&book, 1, line).split(':').next(), Some(wanted));
    }
}

#[test]
fn clients_out_of_turn() {
    let (two, five) = (RIGHT[0], RIGHT[1]);
    let table = "0: |6 7 0 7 7 0|5 0 0 0 0 0|3 0 0 0 0 0|7 3 3 0 0 0|1 0 0 0 0 0
1: {2}|{2} / {2}|{2} / 3 0 0 0 0 0|{2} / 4 0 0 0 0 0|{2} / 6 7 0 7 7 0\n2: {2} / {5}";
    for (record, text) in rows(&table.replace("{2}", two).replace("{5}", five)) {
        assert_eq!(said(1, text), at("26", record.parse().unwrap()), "{text}");
    }
    // A surplus record is 24 or 25 if its form is at fault, else 26.
    let table = "26: 6 7 0 7 7 0|7 3 3 0 0 0\n24: raw 01|raw 01010007 00
25: raw 01010007 0000000000000000|7 40000000000001 0 0 0 0";
    for (refusal, bad) in rows(table) {
        assert_eq!(
            said(1, &format!("{} / {bad}", RIGHT.join(" / "))),
            at(refusal, 3)
        );
        assert_eq!(said(9, bad), at(refusal, 3).replace('3', "0"));
    }
}

/// 27, 28 and 29 by a paisa each way. Pledged is in neither total, and securities
/// count in full.
#[test]
fn sums_and_totals() {
    let table = "27: 111 59 51 1 50|111 61 51 1 50|110 60 51 1 50|112 60 51 1 50|111 60 51 0 50|111 60 51 2 50
27: 111 60 51 1 49|111 60 51 1 51\n28: 110 59 51 1 50|112 61 51 1 50|112 60 52 0 52|116 60 56 6 50|110 59 51 0 51
0: 111 60 51 0 51\n29: 111 59 52 0 52";
    for (refusal, line) in rows(table) {
        assert_eq!(
            with(0, &format!("2 {line}")).split(' ').next(),
            Some(refusal),
            "{line}"
        );
    }
}

/// 24 before 25 before 26 before 27 within a record, and the first record decides.
#[test]
fn the_order_of_checking() {
    // Cut, an amount of 0 named, and another account.
    assert_eq!(&said(1, "raw 01030003 0000000000000000")[..2], "24");
    assert_eq!(&with(0, "raw 01010003 0000000000000000")[..2], "25");
    assert_eq!(&with(0, "3 1 5 0 0 0")[..2], "26");
    assert_eq!(
        said(1, "2 111 59 52 0 52 / 5 1 0 0 0 0 / raw 00"),
        at("29", 0)
    );
    assert_eq!(
        said(1, "2 111 60 51 1 50 / 5 1 0 0 0 0 / raw 00"),
        at("27", 1)
    );
}

/// "A statement is accepted exactly when it is so written", sentence by sentence.
fn is_right(book: &Book, tm: usize, statement: &[u8]) -> bool {
    let mut left = statement;
    let is_written = clients(book, tm).into_iter().all(|client| {
        let row = &book.rows[client];
        let number = book.number(client).to_be_bytes();
        let (set, amounts) = match left {
            [1, set, high, low, amounts @ ..] if [*high, *low] == number => (*set, amounts),
            _ => return false,
        };
        let many = 8 * set.count_ones() as usize;
        if set >= 32 || amounts.len() < many {
            return false;
        }
        let (own, rest) = amounts.split_at(many);
        left = rest;
        let mut named = numbers(own);
        let mut next = |bit: u8| match set & bit {
            0 => Some(0),
            _ => named.next().filter(|&amount| amount != 0 && amount <= MOST),
        };
        match [1, 2, 4, 8, 16].map(&mut next) {
            [Some(received), Some(retained), Some(placed), Some(held), Some(lodged)] => {
                retained + placed == received
                    && held + lodged == placed
                    && received == total(&row.received)
                    && total(&row.allocated) >= lodged
            }
            _ => false,
        }
    });
    is_written && left.is_empty()
}

#[test]
fn made_up_statements() {
    let mut rng = Rng::new(13, 13);
    let mut met = Met::default();
    let mut right = 0;
    for case in Case::all().into_iter().cycle().take(540) {
        let Asked {
            book,
            tm,
            statement,
        } = case.asked(&mut rng);
        let sound = book.book();
        let checked = check(sound.as_ref(), tm, &statement);
        met.count(sound.as_ref(), tm, &statement, &checked);
        assert!(write(read(&statement).as_bytes()).unwrap() == statement);
        if let (Some(book), Checked::Accepted | Checked::At(_)) = (&sound, checked) {
            let wanted = is_right(book, book.place_of(tm).unwrap(), &statement);
            assert_eq!(checked == Checked::Accepted, wanted);
            right += usize::from(wanted);
        }
    }
    assert_eq!(met.missed(), Vec::<String>::new());
    assert!(right >= 40, "{right}");
    assert!(Met::default().missed().len() > 90);
}

#[test]
fn the_readable_form() {
    let text = "# TM 1\n\n2 111 60 51 1 50 # with remarks\n  5 0 0 0 0 0\nraw 01 0100\nraw 07";
    let bytes = write(text.as_bytes()).unwrap();
    assert_eq!(bytes[..4], [1, 31, 0, 2]);
    assert_eq!(bytes[44..], [1, 0, 0, 5, 1, 1, 0, 7]);
    // What is no whole record stays as bytes.
    assert_eq!(
        read(&bytes),
        "2 111 60 51 1 50\n5 0 0 0 0 0\nraw 01010007\n"
    );
    let zero = "raw 010100020000000000000000\n6 1 1 0 0 0\n";
    assert_eq!(read(&write(zero.as_bytes()).unwrap()), zero);
    for bad in "2|2 1 2 3 4|2 1 2 3 4 5 6|65536 0 0 0 0 0|2 +1 0 0 0 0|raw 0".split('|') {
        let error = write(format!("\n{bad}").as_bytes()).unwrap_err();
        assert!(error.starts_with("line 2: "), "{error}");
    }
}

#[test]
fn the_call() {
    let told = "do tm\ndo client 1\ndo receive 2 cash 5\nstatement 1 2 5 5 0 0 0\nstatement 1
statement 1 2 5 5 0 0 0 ; 2 5 5 0 0 0\nstatement 2\nstatement 7 raw 01\nstatement 1 raw 01
statement 1 2 6 6 0 0 0\nset 2 need 1\nstatement 1";
    assert_eq!(answers(told).join(" "), "0 26 26 8 7 24 28 1");
    let bytes = story::write(told.as_bytes()).unwrap();
    let again = story::read(&bytes);
    assert!(story::write(again.as_bytes()).unwrap() == bytes);
    assert!(again.contains("statement 1 2 5 5 0 0 0 ; 2 5 5 0 0 0\n"));
    assert!(story::write(b"statement").is_err());
    assert!(story::write(b"statement 1 2 3").is_err());
}

#[test]
fn the_program() {
    let folder = Folder::new("statements");
    let mut table = Table::of(&book_after(START));
    let from = folder.put("book", bookfile::first_bytes(&table).unwrap());
    let right = RIGHT.join("\n");
    let run = |tm: &str, from: &OsString, text: &str| {
        let bytes = write(text.as_bytes());
        programs::statements(&[OsString::from(tm), from.clone()], &|| bytes.clone()).map(utf)
    };
    let fresh = OsString::from("-");
    assert_eq!(run("1", &from, &right).unwrap(), "0\n");
    assert_eq!(
        run("0000000000000000000000001", &from, &right).unwrap(),
        "0\n"
    );
    assert_eq!(run("1", &from, "").unwrap(), at("26", 0) + "\n");
    assert_eq!(
        [run("0", &fresh, "").unwrap(), run("1", &fresh, "").unwrap()],
        ["8\n", "7\n"]
    );
    table.places[1][NEED] = 1;
    folder.put("book", bookfile::bytes(&table));
    assert_eq!(run("1", &from, &right).unwrap(), "1\n");
    for bad in ["65536", "-1", "", "1x", "99999999999999999999999"] {
        assert!(run(bad, &from, &right).is_err());
    }
    fs::remove_file(&from).unwrap();
    assert!(run("1", &from, &right).is_err());
    assert!(programs::statements(&[fresh], &|| Ok(Vec::new())).is_err());
}
