//! How much would have passed: the figures by hand, and the answers amount by
//! amount; and `explain`, the lines of `day` with that behind them.

mod common;
use common::*;
use second::kinds::explained;
use second::make::asked::{any_sound, with_steps};
use second::make::refused;
use second::model::explain::{over, seen};
use second::model::most::{most, Asked};

/// CM 1000, TM-1 500 (account 1), its clients A 300 (2) and B 300 (3).
const BOOK: &str = "tm;client 1;client 1;receive 0 cash 100000;allocate 0 cash 100000;\
receive 1 cash 50000;allocate 1 cash 50000;receive 2 cash 30000;allocate 2 cash 30000;\
receive 3 cash 30000;allocate 3 cash 30000";
const P1: &str = "margin 3 10000";
const P4: &str = "margin 3 10000;margin 2 60000;margin 3 60000;margin 3 90000";

fn record(code: u8, bit: usize, account: u16) -> Values {
    Values {
        code,
        mark: 1 << bit,
        account,
        ..Values::default()
    }
}

/// The answers by the letter: "r(x) is carried out exactly when x is at most what
/// `most` gives", amount by amount, so that nothing is left to what the search takes
/// for granted: of every amount within so many paise of the answer, of the least, of
/// the ceiling and of each of these.
fn holds(book: &Book, record: &Values, paise: u64, others: &[u64]) -> bool {
    let given = most(book, record);
    let asked = match Asked::of(record) {
        Ok(asked) => asked,
        Err(refusal) => return given == Err(refusal),
    };
    let mut middles = vec![asked.least(), CEILING, given.unwrap_or(0)];
    middles.extend(others);
    given.map(|_| ()) == asked.tried(book, asked.least())
        && middles.into_iter().all(|middle| {
            let first = middle.saturating_sub(paise).max(asked.least());
            let last = middle.saturating_add(paise).min(CEILING);
            (first..=last).all(|amount| {
                let passes = asked.tried(book, amount).is_ok();
                passes == given.map_or(false, |most| amount <= most)
            })
        })
}

/// Rows `AMOUNT: RECORD|..` or `-REFUSAL: ..`: an amount passes and a paisa more
/// doesn't, as far as the ceiling; `~` is the ceiling, `~70` so much less.
fn answers_are(book: &Book, table: &str) {
    for (wanted, said) in rows(table) {
        let bytes = piece(said);
        let values = match Reader::new(&bytes).next() {
            Next::Record(record) => record.values(),
            _ => panic!("{said}"),
        };
        let given = most(book, &values).map_err(|refusal| refusal as u8);
        let wanted = match (wanted.strip_prefix('-'), wanted.strip_prefix('~')) {
            (Some(refusal), _) => Err(refusal.parse().unwrap()),
            (_, Some(less)) => Ok(CEILING - less.parse::<u64>().unwrap_or(0)),
            _ => Ok(wanted.parse().unwrap()),
        };
        assert_eq!(given, wanted, "{said}");
        assert!(holds(book, &values, 300, &[]), "{said}");
    }
}

/// "1500.00 for B's margin at P4"; "200.00 for B's release at P1."
#[test]
fn at_p4_and_p1() {
    let table =
        "150000: margin 3 0\n120000: margin 2 0\n60000: margin 1 0|margin 0 0\n~: revise 3 0";
    answers_are(&book_after(&format!("{BOOK};{P4}")), table);
    let table = "20000: release 3 cash 1\n30000: release 2 cash 1\n-11: release 3 deposits 1|allocate 3 cash 1
~30000: receive 3 cash 1";
    answers_are(&book_after(&format!("{BOOK};{P1}")), table);
}

/// 11 paise of securities count as 9, 10 too and 9 as 8; with 40 of cash and a
/// margin of 48 one is free, and it is enough to be left with 9 of them. With nothing
/// free one paisa counts as nothing, and so does the last one.
#[test]
fn the_rounding_decides() {
    for (margin, securities, cash) in [
        (49, "1", "-12"),
        (48, "2", "1"),
        (41, "9", "8"),
        (40, "11", "9"),
        (0, "11", "40"),
    ] {
        let start = "cp;receive 1 cash 40 securities 11;allocate 1 cash 40 securities 11";
        let book = book_after(&format!("{start};margin 1 {margin}"));
        answers_are(
            &book,
            &format!("{securities}: release 1 securities 1\n{cash}: release 1 cash 1"),
        );
    }
    // Of ten, nothing at all.
    let ten = "cp;receive 1 securities 10;allocate 1 securities 10;margin 1 9";
    answers_are(&book_after(ten), "-12: release 1 securities 1");
}

/// Each code where it ends, and what the least amount is refused with.
#[test]
fn every_code() {
    let start = "tm;client 1;cp;retire 3;receive 2 cash 70 deposits 5;allocate 2 cash 30;pledge 2 9;margin 2 35";
    let table = "~70: receive 2 cash 1\n~: receive 2 securities 1|revalue 2 0|revise 2 0\n40: handback 2 cash 1|allocate 2 cash 1
5: handback 2 deposits 1\n-11: handback 2 guarantees 1|allocate 2 securities 1\n4: release 2 cash 1|unpledge 2 1
~9: pledge 2 1\n39: margin 2 0
-7: receive 3 cash 1|receive 4 cash 1|receive 65535 cash 1|revise 3 0|revise 4 0|revise 65535 0";
    answers_are(&book_after(start), table);
}

/// At the ceiling 10; one below it a paisa passes. Past the ceiling there is room, but
/// no amount.
#[test]
fn at_the_ceiling() {
    for (less, want) in [(0, "-10"), (1, "1"), (2, "2")] {
        let amount = CEILING - less;
        let book = book_after(&format!("receive 0 deposits {amount};pledge 0 {amount}"));
        let table = "{want}: receive 0 deposits 1|pledge 0 1
~{less}: handback 0 deposits 1|allocate 0 deposits 1|unpledge 0 1|margin 0 0";
        answers_are(
            &book,
            &table
                .replace("{want}", want)
                .replace("{less}", &less.to_string()),
        );
    }
    let more = format!("pledge 0 {CEILING};receive 0 cash 1;allocate 0 cash 1");
    answers_are(&book_after(&more), "~: margin 0 0");
}

/// 17 behind 11 and before 12; a client's own goes on. Under a shortfall no margin
/// rises, though its own collateral had room.
#[test]
fn in_the_mode_and_under_a_shortfall() {
    let book = book_after("tm;client 1;pledge 0 90;pledge 1 10;pledge 2 5;margin 1 9");
    assert_eq!(book.modes[1], Mode::On);
    let table = "-17: unpledge 1 1\n-11: release 1 cash 1\n90: unpledge 0 1\n5: unpledge 2 1\n100: margin 1 0";
    answers_are(&book, table);
    let book = book_after("cp;pledge 0 9;pledge 1 50;margin 0 9;margin 1 20;revalue 0 8");
    assert_eq!(book.standings()[0].shortfall, 1);
    answers_are(
        &book,
        "20: margin 1 0\n9: margin 0 0\n30: unpledge 1 1\n~: revise 0 0",
    );
}

/// "4 where the code isn't 4 to 10, 12 or 13; 5 where the mark doesn't name
/// exactly one amount that suits the code; 7."
#[test]
fn every_code_and_mark() {
    let book = book_after("receive 0 cash 9 deposits 9 guarantees 9 securities 9;pledge 0 20");
    let suiting = |code: u8| match code {
        4..=7 => &[1u8, 2, 4, 8][..],
        8 | 9 | 12 => &[16],
        10 | 13 => &[32],
        _ => &[],
    };
    for code in 0..=255 {
        for mark in 0..=255 {
            for account in [0, 1] {
                let record = Values {
                    code,
                    mark,
                    account,
                    ..Values::default()
                };
                let given = most(&book, &record).map_err(|refusal| refusal as u8);
                match (suiting(code), account) {
                    ([], _) => assert_eq!(given, Err(4)),
                    (marks, _) if !marks.contains(&mark) => assert_eq!(given, Err(5)),
                    (_, 1) => assert_eq!(given, Err(7)),
                    _ => assert!(given.is_ok() || given == Err(11)),
                }
            }
        }
    }
}

/// "The record's serial and amounts are not looked at."
#[test]
fn what_is_not_looked_at() {
    let book = book_after("tm;pledge 0 50;margin 1 20");
    let mut rng = Rng::new(8, 8);
    for _ in 0..200 {
        let (drawn, serial) = (rng.next(), rng.next() as u16);
        let amounts = std::array::from_fn(|_| rng.pick(&[0, 1, CEILING, CEILING + 1, drawn]));
        let asked = Values {
            serial,
            amounts,
            ..record(SET_MARGIN, MARGIN, 1)
        };
        assert_eq!(most(&book, &asked), Ok(50));
        let asked = Values {
            serial,
            amounts,
            ..record(RELEASE, 0, 0)
        };
        assert_eq!(most(&book, &asked), Err(Refusal::MoreThanThere));
    }
}

/// Codes with a bit that suits.
fn pairs() -> Vec<(u8, usize)> {
    let kinds = (4..=7).flat_map(|code| (0..4).map(move |bit| (code, bit)));
    let others = [
        (8, PLEDGED),
        (9, PLEDGED),
        (10, MARGIN),
        (12, PLEDGED),
        (13, MARGIN),
    ];
    kinds.chain(others).collect()
}

/// On books of any kind: some hundred paise around the answer and the ends, some
/// around all other amounts that there are, and around amounts anywhere.
#[test]
fn made_books_by_the_letter() {
    let mut rng = Rng::new(17, 17);
    for (code, bit) in pairs().into_iter().cycle().take(400) {
        let book = any_sound(&mut rng).book().unwrap();
        let place = rng.below(book.count as u64) as usize;
        let record = record(code, bit, book.number(place));
        let row = &book.rows[place];
        let mut others = vec![
            book.free(place),
            book.blocked(place),
            row.margin,
            row.pledged,
        ];
        others.extend(row.received.iter().chain(&row.allocated));
        others.extend((0..12).map(|_| rng.below(CEILING) >> rng.below(40)));
        assert!(
            holds(&book, &record, 100, &[]) && holds(&book, &record, 2, &others),
            "{record:?}"
        );
    }
}

/// Where amounts are small, every amount up to where nothing can pass any more.
#[test]
fn small_books_in_full() {
    let mut rng = Rng::new(18, 18);
    for _ in 0..8 {
        let book = small(&mut rng);
        for (code, bit) in pairs() {
            for account in 0..4 {
                let record = record(code, bit, account);
                let given = most(&book, &record).unwrap_or(0);
                assert!(given < 500 || given > CEILING - 200);
                assert!(holds(&book, &record, 250, &[250]));
            }
        }
    }
}

/// The CM, a TM, its client and a CP with a few paise of everything; what is
/// refused is left out.
fn small(rng: &mut Rng) -> Book {
    let mut said = String::from("tm;client 1;cp");
    for account in 0..4 {
        let mut some = || rng.below(31);
        let [cash, deposits, guarantees, securities] =
            [some() + 1, some() + 1, some() + 1, some() + 1];
        said += &format!(";receive {account} cash {cash} deposits {deposits} guarantees {guarantees} securities {securities}");
        said += &format!(";allocate {account} cash {cash} securities {securities}");
        said += &format!(
            ";pledge {account} {};margin {account} {}",
            some() + 1,
            some()
        );
        said += &format!(";revise {account} {}", some() + some());
    }
    run_fresh(&piece(&said)).0
}

/// Where made-up days end.
#[test]
fn days_by_the_letter() {
    for seed in 40..43 {
        let mut rng = Rng::new(seed, 19);
        each_day(seed..seed + 1, 6_000, |bytes, _| {
            let (book, _) = run_fresh(bytes);
            for (code, bit) in pairs() {
                let record = record(code, bit, rng.below(book.count as u64) as u16);
                assert!(holds(&book, &record, 3, &[]), "{record:?}");
            }
        });
    }
}

fn explained(said: &str) -> String {
    utf(over(Book::fresh(), &piece(said)))
}

/// Rows `LINE: DAY`: the last line of a day before the closing one.
fn explained_so(start: &str, table: &str) {
    for (want, said) in rows(table) {
        let text = explained(&format!("{start}{said}"));
        assert_eq!(text.lines().rev().nth(1), Some(want), "{said}");
    }
}

/// What a record behind it brings doesn't count. P6 and P9. 21 paise of securities
/// count as 18 and one is free; two may go, since the first of them costs nothing.
/// With nothing free that one may go alone.
#[test]
fn explanations() {
    let said = "tm;client 1;receive 2 cash 30000;allocate 2 cash 30000;margin 2 60000";
    let want = "0 1 0 0 1\n1 2 1 0 2\n2 4 2 0 0\n3 6 2 0 0\n4 10 2 13 0 0 30000\nend 5 4\n";
    assert_eq!(explained(said), want);
    let said = "cp;margin 1 5;pledge 0 9;margin 1 10;margin 1 8;margin 0 2";
    let want = "0 3 0 0 1\n1 10 1 13 0 0 0\n2 8 0 0 0\n3 10 1 13 0 0 9\n4 10 1 0 0\n5 10 0 13 0 0 1\nend 6 3\n";
    assert_eq!(explained(said), want);
    let book = format!("{BOOK};");
    explained_so(
        &book,
        &format!("15 10 3 13 0 0 150000: {P4};margin 3 150001"),
    );
    explained_so(
        &book,
        &format!("12 7 3 12 0 0 20000: {P1};release 3 cash 20001"),
    );
    let table = "4 7 1 0 0: margin 1 17;release 1 securities 2\n4 7 1 12 0 0 2: margin 1 17;release 1 securities 3
4 7 1 12 0 0 1: margin 1 18;release 1 securities 2";
    explained_so(
        "cp;receive 1 securities 21;allocate 1 securities 21;",
        table,
    );
}

/// One amount alone, whichever bit it has.
#[test]
fn which_records_are_explained() {
    let table = "0 5 0 11 0: handback 0 cash 1 deposits 1\n0 5 0 11 0 11 0: handback 0 cash 1\n0 11 0 8 0: retire 0
0 1 0 0 1: tm\n0 10 0 0 0: margin 0 0\n0 10 0 13 0 0 0: margin 0 1\n0 10 9 7 0 7 0: margin 9 1
5 10 0 3 0 0 0: serial 5 margin 0 0\n5 8 0 3 0 0 10000000000000: serial 5 pledge 0 0\n5 1 0 3 0: serial 5 tm
0 8 0 6 0 0 10000000000000: pledge 0 0\n0 12 0 6 0 0 10000000000000: revalue 0 10000000000001
0 4 0 5 0 5 0: raw 0440 0000 0000 0000000000000001
0 10 0 5 0 5 0: raw 0A80 0000 0000 0000000000000001|raw 0A01 0000 0000 0000000000000001
0 1 0 5 0 4 0: raw 0101 0000 0000 0000000000000000\n0 11 0 5 0 4 0: raw 0B20 0000 0000 0000000000000000
0 14 0 4 0 4 0: raw 0E20 0000 0000 0000000000000000\n0 14 0 4 0: raw 0E00 0000 0000";
    explained_so("", table);
    assert_eq!(over(Book::fresh(), &[]), b"end 0 0\n");
    assert_eq!(over(Book::fresh(), &[4, 1, 0]), b"cut 0 0\n");
    let million = days_of("million", 1..2, NO_LIMIT).next().unwrap();
    assert!(over(Book::fresh(), &million).ends_with(b"\nlong 1000000 99547\n"));
}

/// Line by line against `day`, with `most` asked of a copy of the book.
fn by_the_letter(start: &Book, piece: &[u8]) {
    let text = utf(over(start.clone(), piece));
    let (lines, closing, _) = print::day_parts(start.clone(), piece, |_, _| {});
    let mut book = start.clone();
    let mut reader = Reader::new(piece);
    let mut wanted = String::new();
    for line in utf([lines, closing].concat()).lines() {
        wanted += line;
        if let Next::Record(record) = reader.next() {
            let before = book.clone();
            let is_refused = carry(&mut book, &record).refusal() != 0;
            if is_refused && [1, 2, 4, 8, 16, 32, 64, 128].contains(&record.mark) {
                wanted += &match most(&before, &record.values()) {
                    Ok(amount) => format!(" 0 {amount}"),
                    Err(refusal) => format!(" {} 0", refusal as u8),
                };
            }
        }
        wanted += "\n";
    }
    assert_eq!(text, wanted);
}

#[test]
fn explained_by_the_letter() {
    each_day(60..66, 20_000, |bytes, _| {
        by_the_letter(&Book::fresh(), bytes)
    });
    let mut rng = Rng::new(23, 23);
    for _ in 0..60 {
        let table = any_sound(&mut rng);
        let piece = with_steps(&table, &mut rng);
        by_the_letter(&table.book().unwrap(), &piece);
    }
}

/// Every answer goes with its refusal, and a round of days with such records
/// behind them meets every kind.
#[test]
fn refused_by_a_paisa() {
    for start in [0, 500] {
        let mut met = Tally::default();
        for (place, kind) in ROUND.into_iter().enumerate() {
            let seed = start + place as u64;
            let bytes = make(kind, seed, NO_LIMIT);
            let (book, _) = run_fresh(&bytes);
            let piece = refused::records(&book, seed);
            for (book, piece) in [(Book::fresh(), bytes), (book, piece)] {
                seen(book, &piece, |explained| {
                    assert!(explained.fits(), "kind {} seed {seed}", kind.0);
                    met.count_all(explained::Kind::of(explained));
                });
            }
        }
        assert_eq!(met.missed("", explained::Kind::all()), Vec::<String>::new());
    }
    assert_eq!(explained::Kind::all().len(), 15 + 7);
}

#[test]
fn explained_from_a_book() {
    let folder = Folder::new("explain");
    let book = book_after("cp;pledge 0 9");
    let from = folder.put("book", bookfile::bytes(&Table::of(&book)));
    let run = |words: &[OsString]| {
        let day = piece("serial 2 margin 1 10;serial 3 margin 1 9;raw 01");
        utf(programs::explain(words, &|| Ok(day.clone())).unwrap())
    };
    assert_eq!(run(&[from]), "2 10 1 13 0 0 9\n3 10 1 0 0\ncut 2 1\n");
    assert_eq!(
        run(&["-".into()]),
        "2 10 1 3 0 7 0\n3 10 1 3 0 7 0\ncut 2 0\n"
    );
    assert!(run(&[]).starts_with("2 10 1 3 0 7 0\n"));
}
