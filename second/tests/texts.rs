//! The readable form of a day, there and back, and made-up texts.

mod common;
use common::*;
use second::make::texts::said::{dressed, filled};
use second::make::texts::{all, make as make_text, whole_round};
use second::model::table::LIVE;
use second::model::text::{BadLine, Fault, LINE_MOST};
use std::collections::BTreeSet;

fn written(said: &str) -> Vec<u8> {
    text::write(said.as_bytes(), 0).unwrap()
}

/// The number of the fault of one line, or 0.
fn fault(line: &[u8]) -> u8 {
    text::write(line, 0).map_or_else(|bad| bad.fault as u8, |_| 0)
}

#[test]
fn every_word() {
    let said = "tm\nclient 1\ncp\nreceive 2 cash 1 deposits 2 guarantees 3 securities 4
handback 2 securities 1\nallocate 2 cash 1\nrelease 2 cash 1\npledge 0 5\nunpledge 0 5
margin 65535 10000000000000\nretire 2\nserial 3 retire 2\nmargin 2 0\nrevalue 2 0\nrevise 2 0\ntm 5
cp 65535\nraw 0E0100000000\n";
    assert_eq!(text::read(&written(said), 0), said);
}

/// A capital ends a word.
#[test]
fn other_ways_of_saying_it() {
    let loose = "# a day\n\n  tm # the first\nreceive1cash7securities004\r
\traw0e 00 0002 0000# no code\ncp 000\nserial0000000000000003retire9";
    let plain = "tm\nreceive 1 cash 7 securities 4\nraw 0E0000020000\ncp\nserial 3 retire 9\n";
    assert_eq!(text::read(&written(loose), 0), plain);
    assert_eq!(written("serial 0 tm\ntm"), written("tm\nserial 1 tm"));
    assert_eq!(written("raw 0A\nraw ff"), [0x0A, 0xFF]);
    assert_eq!(written("rawAB\nrawE0 ff"), [0xAB, 0xE0, 0xFF]);
    assert_eq!(written("serial5tm6"), written("serial 5 tm 6"));
}

/// A raw line that bears the running serial moves it on, as in the book.
#[test]
fn running_serial() {
    let bytes = written("raw 0E0000000000\ntm\nserial 9 tm\ntm\nraw 01000003\ntm");
    assert_eq!(refusals_of(&bytes[..24]), [4, 0, 3, 0]);
    assert_eq!(bytes[bytes.len() - 4..], [0, 4, 0, 0]);
    let bytes = text::write(b"tm\ntm\nserial 65534 tm", 65_535).unwrap();
    let plain = "serial 65535 tm\ntm\nserial 65534 tm\n";
    assert_eq!(bytes, written(plain));
    assert_eq!(text::read(&bytes, 65_535), "tm\ntm\nserial 65534 tm\n");
    assert_eq!(text::read(&bytes, 0), plain);
}

/// A record that isn't good has its bytes alone.
#[test]
fn bad_records() {
    let bytes = piece("pledge 3 0;margin 3 10000000000001;retire 3");
    let said = "raw 0810000000030000000000000000\nraw 0A2000010003000009184E72A001\nretire 3\n";
    assert_eq!(text::read(&bytes, 0), said);
    assert_eq!(
        text::read(&bytes[..33], 0),
        said.replace("retire 3", "raw 0B00000200")
    );
    assert_eq!(written(said), bytes);
}

#[test]
fn faults_by_number() {
    let table =
        "4: rent 5|5|TM|tmx|rawab|serial 5|serial 5 raw 00|serial 5 serial 6 tm|-|handbackhandb 3
5: receive 3 gold 5|receive 3 5|receive 3|tm cash 5|pledge 3 cash 5 6|tm cash 5 6|pledge 3 cash 5
5: tm cash|retire 3 cash 0 x|receive 3 cashx 5|receive 3 x
6: pledge 3 0 x|receive 3 cash|pledge 3|pledge 3 0|pledge 3 +1|receive 3 cash x 1
6: margin 3 10000000000001|margin 3 00000000000000001|receive 3 cash 1 deposits 0|receive 3 cash 0 1
30: retire 2 5|receive 2 securities 5 cash 1|tm 65536|tm x|tmX|tm 0 0|margin 3 1 2|tm\u{b}
30: tm 65536 cash 5|cp 00000000000000000|receive 3 cash 1 cash 2|raw 012|raw 01 2 3|raw 01x
31: serial|serial x tm|serialX|serial 65536 tm|serial 00000000000000001 tm
32: raw|raw 0|raw 0 1|raw x0|rawX|raw # 00
33: client|retire x|client 65536|receive cash 1|clientX";
    for (number, line) in rows(table) {
        assert_eq!(fault(line.as_bytes()).to_string(), number, "{line}");
    }
    assert_eq!(fault(b"\xFF"), 4);
    assert_eq!(fault(b"tm \x00"), 30);
    let bad = text::write(b"tm\n\nclient\nrent", 0).unwrap_err();
    assert_eq!(
        bad,
        BadLine {
            line: 3,
            fault: Fault::NoAccount
        }
    );
}

/// Stories may say bad records in words, but whole ones.
#[test]
fn records_that_are_no_good_ones() {
    let said = |line: &str| text::any_bytes(line.as_bytes(), 0);
    assert_eq!(said("retire 3 deposits 0").unwrap().len(), 14);
    assert_eq!(said("pledge 3 cash 5 0").unwrap().len(), 22);
    for line in ["pledge 3", "tm cash", "margin 3 00000000000000000"] {
        assert_eq!(said(line), Err(Fault::Amount), "{line}");
    }
    assert_eq!(said("pledge 3 0 x"), Err(Fault::More));
}

#[test]
fn lengths_of_lines() {
    let padded = |length: usize| format!("{:<length$}", "tm").into_bytes();
    assert_eq!([0, 1].map(|more| fault(&padded(LINE_MOST + more))), [0, 34]);
    let raw = |many: usize| format!("raw {}", "00".repeat(many)).into_bytes();
    assert_eq!([1, 69, 70, 71].map(|many| fault(&raw(many))), [0, 0, 0, 30]);
}

#[test]
fn made_days_come_back() {
    for seed in 0..120 {
        each_day(seed..seed + 1, NO_LIMIT, |bytes, day| {
            let said = text::read(bytes, seed as u16);
            let back = text::write(said.as_bytes(), seed as u16);
            assert!(back.map_or(false, |back| back == bytes), "{day}");
        });
    }
}

/// Every way of saying every kind, dressed in many ways. Every fault has a kind, and
/// two kinds of one name would be met as one.
#[test]
fn every_way_has_its_fault() {
    let mut rng = Rng::new(1, 1);
    for case in all().iter().filter(|case| case.length.is_none()) {
        for way in case.ways() {
            for _ in 0..60 {
                let line = dressed(&filled(way, rng.next() as u16, &mut rng), &mut rng);
                assert_eq!(
                    fault(&line),
                    case.fault,
                    "{:?}",
                    String::from_utf8_lossy(&line)
                );
            }
        }
    }
    let faults: BTreeSet<u8> = all().iter().map(|case| case.fault).collect();
    assert_eq!(
        faults.into_iter().collect::<Vec<_>>(),
        [0, 4, 5, 6, 30, 31, 32, 33, 34]
    );
    let kinds: BTreeSet<&str> = all().iter().map(|case| case.kind).collect();
    assert_eq!(kinds.len(), all().len());
}

/// Over a whole round each kind decides a text at least once.
#[test]
fn made_up_texts() {
    let mut met = Tally::default();
    for seed in 0..whole_round() {
        let made = make_text(seed);
        match text::write(&made.bytes(), 0) {
            Ok(_) => met.count_all(made.lines.iter().map(|line| line.kind)),
            Err(bad) => {
                let line = &made.lines[bad.line - 1];
                assert_eq!(line.fault, bad.fault as u8, "seed {seed}, {}", line.kind);
                met.count(line.kind);
            }
        }
    }
    let missed = met.missed("", all().iter().map(|case| case.kind));
    assert!(missed.is_empty(), "{missed:?}");
}

/// Serials go on from a book, sound or not; standard input is read without
/// words alone.
#[test]
fn numbered_from_a_book() {
    let folder = Folder::new("texts");
    let mut table = Table::fresh();
    table.serial = 65_535;
    table.places[0][LIVE] = 0;
    let book = folder.put("book", bookfile::bytes(&table));
    let text = folder.put("text", "tm\ncp");
    let unread = || panic!();
    let want = piece("serial 65535 tm;cp");
    let wrote = programs::write(&[text.clone(), book.clone()], &unread);
    assert_eq!(wrote, Ok(want.clone()));
    let read = programs::read(&[book], &|| Ok(want.clone()));
    assert_eq!(read, Ok(b"tm\ncp\n".to_vec()));
    for words in [vec![text.clone()], vec![text, OsString::from("-")]] {
        assert_eq!(programs::write(&words, &unread), Ok(piece("tm;cp")));
    }
    assert_eq!(
        programs::write(&[], &|| Ok(b"cp".to_vec())),
        Ok(piece("cp"))
    );
}

#[test]
fn what_is_told() {
    let folder = Folder::new("told-texts");
    let text = folder.put("text", "tm\n\nclient\nrent");
    let lines = folder.put("lines", "0 5\n\n1");
    let unread = || panic!();
    let write = |words: &[OsString]| programs::write(words, &unread).unwrap_err();
    let closeouts = |words: &[OsString]| programs::closeouts(words, &unread).unwrap_err();
    assert_eq!(write(&[text.clone()]), "write: line 3: 33, no account");
    assert!(write(&[text.clone(), text.clone()]).starts_with("write: cannot read the book: "));
    let missing = write(&["no/such/text".into()]);
    assert!(missing.starts_with("write: cannot read the text: no/such/text: "));
    assert_eq!(
        closeouts(&["--lines".into(), lines, text]),
        "closeouts: line 3: no amount"
    );
    let none = "closeouts: cannot read the file of losses: none is named";
    assert_eq!(closeouts(&["--lines".into()]), none);
    for program in [programs::write, programs::read, programs::holdings] {
        let told = program(&vec![OsString::from("-"); 3], &unread).unwrap_err();
        assert!(told.ends_with(": too many words"), "{told}");
    }
}
