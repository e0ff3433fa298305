//! K14: two counters' files merged, by hand and by the program; and two orders of
//! the same records.

mod common;
use common::*;
use second::make::{merges, orders};
use second::model::merge::{merged, records, Fault};
use second::model::orders::carried;
use second::model::programs::MERGE_MOST;
use second::model::table::{MODE, NEED};

fn told(files: [&[u8]; 2], serial: u16) -> Result<String, Fault> {
    merged(files, serial).map(|bytes| text::read(&bytes, serial))
}

fn fault<T>(file: usize, refusal: Refusal, record: usize) -> Result<T, Fault> {
    Err(Fault {
        file,
        refusal,
        record,
    })
}

fn serials(bytes: &[u8]) -> Vec<u16> {
    records(bytes)
        .unwrap()
        .iter()
        .map(|record| record.serial)
        .collect()
}

/// A's records and then B's, whatever serials they had. "The serial after 65,535 is 0."
#[test]
fn renumbered_from_a_serial() {
    let a = piece("serial 9 receive 0 cash 5;serial 9 allocate 0 cash 5");
    let b = piece("serial 65535 margin 1 0;serial 3 tm;serial 3 client 7");
    let both = "receive 0 cash 5\nallocate 0 cash 5\nmargin 1 0\ntm\nclient 7\n";
    let (first, second) = both.split_at(35);
    let other = format!("{second}{first}");
    let cases: [([&[u8]; 2], u16, &str); 6] = [
        ([&a, &b], 0, both),
        ([&a, &b], 65_534, both),
        ([&b, &a], 7, &other),
        ([&a, &[]], 1, first),
        ([&[], &b], 1, second),
        ([&[], &[]], 1, ""),
    ];
    for (files, serial, want) in cases {
        assert_eq!(told(files, serial).unwrap(), want);
    }
    let many = piece("margin 1 1;margin 2 2;margin 3 3");
    for first in [0u16, 65_530, 65_533, 65_535] {
        let wanted: Vec<u16> = (0..6).map(|more| first.wrapping_add(more)).collect();
        assert_eq!(serials(&merged([&many, &many], first).unwrap()), wanted);
    }
}

/// 2, 4, 5 and 6 by the first record at fault, A's before B's.
#[test]
fn the_first_record_at_fault() {
    let good = piece("tm;client 1;receive 2 cash 10000000000000;margin 2 0");
    let with = |place: usize, bad: &str| {
        let mut lines = vec!["tm", "client 1", "margin 2 0"];
        lines.insert(place, bad);
        piece(&lines.join("\n"))
    };
    let table = "4: raw 0E00 0000 0000|raw 0003 0000 0000 0000000000000000 0000000000000000
5: raw 0A10 0000 0000 FFFFFFFFFFFFFFFF|raw 0B01 0000 0000 0000000000000001
6: receive 2 cash 0|receive 2 cash 10000000000001|receive 2 cash 1 securities 0|margin 2 10000000000001";
    for (refusal, bad) in rows(table) {
        let refusal = match refusal {
            "4" => Refusal::UnknownCode,
            "5" => Refusal::UnsuitedMark,
            _ => Refusal::OutOfRange,
        };
        for place in 0..=3 {
            let bad = with(place, bad);
            assert_eq!(told([&bad, &good], 0), fault(0, refusal, place));
            assert_eq!(told([&good, &bad], 0), fault(1, refusal, place));
            let worse = with(0, "raw 0000 0000 0000");
            assert_eq!(told([&bad, &worse], 0), fault(0, refusal, place));
        }
    }
}

/// A file cut at every length.
#[test]
fn a_file_that_is_cut() {
    let good = piece("tm;client 1;margin 2 0;margin 2 7");
    let ends = [0, 6, 12, 26, 40];
    for length in 0..=good.len() {
        let cut = &good[..length];
        let whole = ends.iter().filter(|&&end| end <= length).count() - 1;
        for (file, files) in [[cut, &good], [&good, cut]].into_iter().enumerate() {
            match ends.contains(&length) {
                true => assert!(told(files, 0).is_ok()),
                false => assert_eq!(told(files, 0), fault(file, Refusal::Cut, whole)),
            }
        }
    }
}

#[test]
fn the_program() {
    let folder = Folder::new("merge");
    let a = folder.put("a", piece("tm;tm"));
    let b = folder.put("b", piece("serial 7 cp"));
    let run = |words: &[&OsString]| {
        let words: Vec<OsString> = words.iter().map(|&word| word.clone()).collect();
        programs::merge(&words).map(|bytes| serials(&bytes))
    };
    assert_eq!(run(&[&a, &b]).unwrap(), [0, 1, 2]);
    assert_eq!(run(&[&b, &a, &OsString::from("-")]).unwrap(), [0, 1, 2]);
    // Only its serial counts: it need not be sound.
    let mut table = Table::fresh();
    (table.serial, table.places[0][NEED]) = (65_535, 1);
    for bytes in [
        bookfile::bytes(&table),
        bookfile::first_bytes(&table).unwrap(),
    ] {
        let book = folder.put("book", bytes);
        assert_eq!(run(&[&a, &b, &book]).unwrap(), [65_535, 0, 1]);
        assert!(run(&[&a, &b, &book, &book]).is_err());
    }
    assert!(run(&[&a]).is_err());
}

/// Files first, A before B before FROM, and refusals after them.
#[test]
fn what_the_program_tells() {
    let folder = Folder::new("told");
    folder.put("good", piece("tm"));
    folder.put(
        "bad",
        piece("tm;tm;tm;raw 0103 0000 0000 0000000000000000 0000000000000000"),
    );
    folder.put("long", vec![1; MERGE_MOST + 1]);
    folder.put("none", []);
    let cannot = "merge: cannot read the day file:";
    for (words, want) in [
        ("bad good", "merge: bad: 5 at record 3".to_string()),
        ("good bad", "merge: bad: 5 at record 3".to_string()),
        (
            "long missing missing",
            format!("{cannot} long: it is too long"),
        ),
        ("bad long missing", format!("{cannot} long: it is too long")),
        ("missing long", format!("{cannot} missing: ")),
        ("bad missing none", format!("{cannot} missing: ")),
        (
            "bad bad none",
            "merge: cannot read the book: none: it is no book".to_string(),
        ),
    ] {
        let words: Vec<OsString> = words.split(' ').map(|file| folder.word(file)).collect();
        let said = programs::merge(&words).unwrap_err();
        let said = said.replace(&format!("{}/", folder.0.display()), "");
        assert!(
            said.starts_with(&want) && (said == want || want.ends_with(' ')),
            "{said}"
        );
    }
}

/// "1,048,576 bytes, 27,594 of the longest good records."
#[test]
fn the_longest_files() {
    let record = piece("receive 0 cash 1 deposits 1 guarantees 1 securities 1");
    assert_eq!(MERGE_MOST / record.len(), 27_594);
    let folder = Folder::new("longest");
    let mut bytes = record.repeat(27_594);
    bytes.resize(MERGE_MOST, 0);
    let a = folder.put("a", &bytes);
    let cut = programs::merge(&[a.clone(), a.clone()]).unwrap_err();
    assert!(cut.ends_with(": 2 at record 27594"), "{cut}");
    folder.put("a", &bytes[..27_594 * record.len()]);
    let both = programs::merge(&[a.clone(), a]).unwrap();
    assert_eq!(both.len(), 2 * 27_594 * record.len());
}

/// A merged file has the records of both, and nothing else.
#[test]
fn made_up_files() {
    for seed in 0..200 {
        let (a, b) = match merges::make(seed).files {
            [Some(a), Some(b)] => (a, b),
            _ => continue,
        };
        let of_file = |file: usize, bytes: &[u8]| {
            records(bytes).or_else(|(refusal, record)| fault(file, refusal, record))
        };
        let both = of_file(0, &a).and_then(|one| Ok([one, of_file(1, &b)?].concat()));
        let renumbered = both.map(|mut both| {
            let serials = 5u16..;
            both.iter_mut()
                .zip(serials)
                .for_each(|(record, serial)| record.serial = serial);
            both
        });
        let got = merged([&a, &b], 5);
        assert_eq!(got.map(|bytes| records(&bytes).unwrap()), renumbered);
    }
}

fn said(text: &str) -> Vec<Values> {
    records(&piece(text)).unwrap()
}

/// All words of a book but its modes.
fn modeless(book: &Book) -> Table {
    let mut table = Table::of(book);
    table.places.iter_mut().for_each(|place| place[MODE] = 0);
    table
}

/// "An example where one order carries all out and the other gives 13." "K2's modes
/// are excepted": 90% and then 86% stays on, 86% alone is off.
#[test]
fn two_orders() {
    let both = |start: &str, a: &str, b: &str| {
        let (book, a, b) = (book_after(start), said(a), said(b));
        [[&a[..], &b].concat(), [&b[..], &a].concat()].map(|order| carried(&book, &order))
    };
    let start = "tm;client 1;receive 0 cash 30000";
    let [one, other] = both(start, "allocate 0 cash 30000", "margin 2 30000");
    assert!(one.is_whole());
    assert_eq!(other.refusals, [13, 0]);
    assert_eq!((one.book.serial, other.book.serial), (5, 5));
    let start = "tm;client 1;receive 0 cash 100000;allocate 0 cash 100000;receive 1 cash 10500;allocate 1 cash 10000";
    let [one, other] = both(start, "margin 2 9000", "allocate 1 cash 500");
    assert!(one.is_whole() && other.is_whole());
    assert_eq!(
        [one.book.modes[1], other.book.modes[1]],
        [Mode::On, Mode::Off]
    );
    assert!(modeless(&one.book) == modeless(&other.book));
}

/// No opening, and no account in both files; every order that is carried out whole
/// leaves the same book and the same standings but for the modes.
#[test]
fn made_up_counters() {
    let mut rng = Rng::new(14, 14);
    let (mut both, mut whole) = (0, 0);
    for seed in 0..120 {
        let counters = orders::make(seed).unwrap();
        let (book, _) = run_fresh(&counters.setting_up);
        let [a, b] = &counters.files;
        assert!(a.iter().chain(b).all(|record| record.code > OPEN_CP));
        assert!(a
            .iter()
            .all(|one| b.iter().all(|other| one.account != other.account)));
        let mut orders = vec![[&a[..], b].concat(), [&b[..], a].concat()];
        orders.extend((0..6).map(|_| orders::mixed(a, b, &mut rng)));
        for order in &orders[2..] {
            for (file, other) in [(a, b), (b, a)] {
                let is_of = |record: &&Values| !other.contains(record);
                assert_eq!(
                    order.iter().filter(is_of).copied().collect::<Vec<_>>(),
                    *file
                );
            }
        }
        let done = orders.iter().map(|order| carried(&book, order));
        let done: Vec<_> = done.filter(|done| done.is_whole()).collect();
        both += usize::from(done.len() > 1);
        whole += done.len();
        for two in done.windows(2) {
            assert!(modeless(&two[0].book) == modeless(&two[1].book));
            let [one, other] = [0, 1].map(|place| two[place].book.standings());
            let mut each = one.into_iter().zip(other);
            assert!(each.all(|(one, other)| one
                == Standing {
                    mode: one.mode,
                    ..other
                }));
        }
    }
    assert!(both >= 80 && whole >= 600, "{both} {whole}");
}

/// Modes alone are left out of a book file.
#[test]
fn a_book_file_without_modes() {
    let book = book_after("tm;cp;pledge 0 10;margin 1 9");
    let without = bookfile::without_modes(&bookfile::bytes(&Table::of(&book)));
    assert_eq!(book.modes[0], Mode::On);
    assert!(without == bookfile::bytes(&modeless(&book)));
}
