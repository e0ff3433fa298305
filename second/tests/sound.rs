//! Document 01, "A sound book", one breach at a time: of a book, and clause by
//! clause on the words as they are handed over. K11's numbers beside rows.

mod common;
use common::*;
use second::make::asked::any_sound;
use second::make::asked::numbers::{archived, renumber, Gaps};
use second::model::table::*;
use Fault::*;

fn breached(breach: impl FnOnce(&mut Book)) -> bool {
    let mut book = book_after("tm;client 1;cp;client 1;retire 4;pledge 0 5;receive 2 cash 7");
    breach(&mut book);
    !book.is_sound()
}

#[test]
fn sound_ones() {
    assert!(Book::fresh().is_sound());
    assert!(!breached(|_| {}));
    assert!(!breached(|book| book.serial = 65_535));
    assert!(!breached(|book| book.rows[2].received[1] = CEILING));
    assert!(!breached(|book| book.rows[2].allocated[0] = 7));
    // "A sound book no longer has to be covered" (K8).
    for margin in [5, 6] {
        assert!(!breached(
            |book| (book.rows[0].margin, book.needs[0]) = (margin, margin)
        ));
    }
    assert!(!breached(|book| {
        book.rows[2].margin = 6;
        book.needs[..2].fill(6);
    }));
}

#[test]
fn counts_sorts_and_amounts() {
    let breaches: [fn(&mut Book); 22] = [
        |book| book.count = 0,
        |book| book.count = 257,
        |book| book.count = 4,
        |book| book.count = 6,
        |book| book.rows[9].tm = 1,
        |book| book.rows[0].live = false,
        |book| book.rows[0].sort = Sort::Tm,
        |book| book.rows[3].sort = Sort::Cm,
        |book| book.rows[3].sort = Sort::Unused,
        |book| book.rows[3].tm = 1,
        |book| book.rows[0].tm = 1,
        |book| book.rows[1].tm = 1,
        |book| book.rows[2].tm = 0,
        |book| book.rows[2].tm = 3,
        |book| book.rows[2] = Row::opened(Sort::Client, 200),
        |book| book.rows[1].live = false,
        |book| book.rows[4].received[0] = 1,
        |book| book.rows[2].received[1] = CEILING + 1,
        |book| book.rows[2].pledged = CEILING + 1,
        |book| book.rows[2].allocated[0] = 8,
        |book| book.rows[2].allocated[3] = 1,
        |book| {
            (book.rows[0].pledged, book.rows[0].margin) = (CEILING, CEILING + 1);
            book.needs[0] = CEILING + 1;
        },
    ];
    for (place, breach) in breaches.into_iter().enumerate() {
        assert!(breached(breach), "{place}");
    }
}

/// "In a sound book only a live TM or the CM can be in the mode", and a mode
/// need not fit the figures.
#[test]
fn modes() {
    for account in [0, 1, 2, 3, 4, 5, 255] {
        assert_eq!(breached(|book| book.modes[account] = Mode::On), account > 1);
    }
    for live in [false, true] {
        let breach = |book: &mut Book| {
            (book.rows[3].sort, book.rows[3].live, book.modes[3]) = (Sort::Tm, live, Mode::On);
        };
        assert_eq!(breached(breach), !live);
    }
}

/// "Each kept need equals the need worked out afresh": the CM's and the TM's,
/// and nothing is kept for clients, CPs, retired accounts and numbers never
/// given, their margin neither.
#[test]
fn kept_needs() {
    let start = |book: &mut Book| {
        (book.rows[2].margin, book.rows[3].margin) = (4, 1);
        book.needs[..2].copy_from_slice(&[5, 4]);
    };
    assert!(!breached(start));
    let more = [(0, 6), (1, 5), (2, 1), (3, 1), (4, 1), (5, 1), (255, 1)];
    let other = [(0, 4), (0, 0), (1, 3), (1, 0), (2, 4), (3, 1)];
    for (account, need) in more.into_iter().chain(other) {
        assert!(breached(|book| {
            start(book);
            book.needs[account] = need;
        }));
    }
    for account in [1, 2, 3] {
        assert!(breached(|book| book.rows[account].margin = 1));
    }
}

/// CM 0, TM 1 with clients 2 and 3, of whom 3 is retired, CP 4, TM 5 retired
/// with its client 6.
fn start() -> Table {
    let said = "tm;client 1;client 1;retire 3;cp;tm;client 5;retire 6;retire 5;\
        pledge 0 50;receive 2 cash 7;margin 2 4;margin 4 1;pledge 1 2";
    Table::of(&book_after(said))
}

fn of(change: impl FnOnce(&mut Table)) -> Vec<Fault> {
    let mut table = start();
    change(&mut table);
    table.faults_by(Rule::New)
}

fn set(place: usize, word: usize, value: u64) -> Vec<Fault> {
    of(|table| {
        table.places[place][word] = value;
        if word != NEED {
            *table = table.settled(Rule::New);
        }
    })
}

#[test]
fn sound_words() {
    assert_eq!(of(|_| {}), []);
    assert_eq!(Table::fresh().faults_by(Rule::New), []);
    assert_eq!(of(|table| table.serial = 65_535), []);
    // A retired client still names its TM, which may be retired.
    for (place, word, value) in [
        (2, RECEIVED + 1, CEILING),
        (2, ALLOCATED, 7),
        (0, table::MARGIN, 47),
        (0, MODE, 1),
        (1, MODE, 0),
        (6, TM, 1),
    ] {
        assert_eq!(set(place, word, value), []);
    }
}

#[test]
fn faults_of_numbers_and_sorts() {
    let counted = |count: u16| {
        of(|table| {
            table.count = count;
            table.number_by_places();
        })
    };
    let many = counted(257);
    assert_eq!(
        (many[0], &many[1..]),
        (TooManyAccounts, &[SecondCm; 249][..])
    );
    let none = Table {
        count: 0,
        ..Table::fresh()
    };
    assert_eq!(none.faults_by(Rule::New), [NoAccounts]);
    assert_eq!(counted(8), [SecondCm]);
    assert_eq!(counted(6), [Beyond(SORT), Beyond(TM)]);
    for word in 0..WORDS.len() {
        assert_eq!(of(|table| table.places[7][word] = 1), [Beyond(word)]);
        assert_eq!(of(|table| table.places[255][word] = 1), [Beyond(word)]);
    }
    for (place, word, value, fault) in [
        (0, SORT, TRADING, TopIsNoCm),
        (0, TM, 1, TopHasTm),
        (4, SORT, 4, UnknownSort),
        (4, SORT, 255, UnknownSort),
        (4, SORT, CM, SecondCm),
        (1, TM, 1, HasTm(TRADING)),
        (4, TM, 1, HasTm(CP)),
        (2, TM, 2, OwnTm),
        (3, TM, 5, HigherTm),
        (2, TM, 7, TmBeyond),
        (2, TM, 256, TmPastTable),
        (2, TM, 257, TmPastTable),
        (2, TM, 0, TmOfSort(CM)),
        (6, TM, 2, TmOfSort(CLIENT)),
        (6, TM, 4, TmOfSort(CP)),
        (6, LIVE, 1, TmIsRetired),
    ] {
        assert_eq!(set(place, word, value), [fault]);
    }
}

#[test]
fn faults_of_amounts() {
    for (account, sort) in [(5, TRADING), (3, CLIENT)] {
        for word in (RECEIVED..RECEIVED + 4).chain([table::PLEDGED, table::MARGIN]) {
            assert_eq!(set(account, word, 1), [RetiredHas(sort, word)]);
        }
        let allocated = [RetiredHas(sort, ALLOCATED), AllocatedPast(ALLOCATED)];
        assert_eq!(set(account, ALLOCATED, 1), allocated);
    }
    for word in [RECEIVED, RECEIVED + 3, table::PLEDGED] {
        assert_eq!(set(1, word, CEILING), []);
        assert_eq!(set(1, word, CEILING + 1), [PastCeiling(word)]);
        assert_eq!(set(1, word, u64::MAX), [PastCeiling(word)]);
    }
    assert_eq!(set(2, ALLOCATED, 8), [AllocatedPast(ALLOCATED)]);
    assert_eq!(set(2, ALLOCATED + 3, 1), [AllocatedPast(ALLOCATED + 3)]);
    let past_cover = |rule: Rule| {
        let mut table = start();
        table.places[0][table::MARGIN] = 48;
        table.settled(rule).faults_by(rule)
    };
    assert_eq!(past_cover(Rule::New), []);
    assert_eq!(past_cover(Rule::Old), [NotCovered]);
    let past = of(|table| {
        table.places[0][table::PLEDGED] = CEILING;
        table.places[4][table::MARGIN] = CEILING + 1;
        table.places[4][table::PLEDGED] = CEILING;
        *table = table.settled(Rule::New);
    });
    assert_eq!(past, [PastCeiling(table::MARGIN)]);
}

#[test]
fn faults_of_modes_and_needs() {
    for (account, sort, live) in [(2, CLIENT, 1), (3, CLIENT, 0), (4, CP, 1), (5, TRADING, 0)] {
        assert_eq!(set(account, MODE, 1), [ModeOn(sort, live)]);
    }
    assert_eq!((start().places[0][NEED], start().places[1][NEED]), (3, 4));
    for (account, need, fault) in [
        (0, 2, KeptNeed(CM, 1, false)),
        (0, 4, KeptNeed(CM, 1, true)),
        (1, 0, KeptNeed(TRADING, 1, false)),
        (1, 5, KeptNeed(TRADING, 1, true)),
        (2, 4, KeptNeed(CLIENT, 1, true)),
        (3, 1, KeptNeed(CLIENT, 0, true)),
        (4, 1, KeptNeed(CP, 1, true)),
        (5, 1, KeptNeed(TRADING, 0, true)),
    ] {
        assert_eq!(set(account, NEED, need), [fault]);
    }
    let low = [KeptNeed(CM, 1, false), KeptNeed(TRADING, 1, false)];
    assert_eq!(of(|table| table.places[4][table::MARGIN] = 2), low[..1]);
    assert_eq!(of(|table| table.places[2][table::MARGIN] = 5), low);
}

/// The words' own check and the book's, written apart, agree.
#[test]
fn two_checks_agree() {
    for seed in 0..200 {
        let kind = ROUND[seed as usize % ROUND.len()];
        let (book, _) = run_fresh(&make(kind, seed, 9_000));
        assert!(Table::of(&book).is_sound());
        let mut rng = Rng::new(seed, 0xFA);
        for _ in 0..50 {
            let mut bent = book.clone();
            let place = rng.below(book.count as u64 + 1).min(255) as usize;
            let row = &mut bent.rows[place];
            match rng.below(8) {
                6 => bent.numbers.of_rows[place] = rng.near(place as u64) as u16,
                7 => bent.numbers.next = rng.near(book.count as u64) as u32,
                0 => row.pledged = rng.near(CEILING),
                1 => row.margin = rng.below(CEILING),
                2 => bent.needs[place] = rng.near(book.needs[place]),
                3 => row.live = !row.live,
                4 => bent.modes[place] = Mode::On,
                _ => row.received[0] = rng.near(row.allocated[0]),
            }
            assert_eq!(Table::of(&bent).is_sound(), bent.is_sound());
        }
    }
}

/// CP 1 in the archive; TM 2 is row 1, its client 3 row 2, CP 4 row 3.
fn gapped() -> Book {
    let said = "cp;tm;client 2;cp;pledge 0 90;pledge 2 10;margin 3 25;margin 4 5;retire 1";
    let archived = Table::of(&book_after(said)).archived().unwrap();
    archived.book.book().unwrap()
}

#[test]
fn the_row_of_a_number() {
    let book = gapped();
    let places = [0, 1, 2, 3, 4, 5, 255, 256, 65_535].map(|number| book.place_of(number));
    assert_eq!(places[..5], [Some(0), None, Some(1), Some(2), Some(3)]);
    assert_eq!(places[5..], [None; 4]);
    assert_eq!([0, 1, 2, 3].map(|row| book.tm_number(row)), [0, 0, 2, 0]);
    assert_eq!(
        [0, 1].map(|number| Book::fresh().place_of(number)),
        [Some(0), None]
    );
}

/// Numbers are printed, a client's TM's too; losses are by row.
#[test]
fn programs_print_numbers() {
    let standings = "end 0 0\n0 cm live 0 90 20 20 0 70 off 0\n2 tm live 0 10 25 10 15 0 on 0\n\
        3 client live 2 0 25 0 25 0 off 0\n4 cp live 0 0 5 0 5 0 off 0\n";
    assert_eq!(utf(print::standings_over(gapped(), &[])), standings);
    assert_eq!(
        utf(print::needs_over(gapped(), &[])),
        "end 0 0\n0 20\n2 25\n3 25\n4 5\n"
    );
    let losses = bytes_of(&[0, 1, 30, 5]);
    let closed = "end 0 0\n0 0 0 0 0 0\n2 1 0 0 1 0\n3 30 0 10 20 0\n4 5 0 0 5 0\ntotal 0\n";
    assert_eq!(utf(print::closeouts_over(gapped(), &[], &losses)), closed);
    let short = print::closeouts_over(gapped(), &[], &losses[..24]);
    assert_eq!(utf(short), "end 0 0\nrefused 15\n");
}

#[test]
fn records_name_numbers() {
    let mut lines = Vec::new();
    let day = "serial 9 client 2;serial 10 client 1;serial 11 pledge 5 3;serial 12 retire 4;\
        serial 13 pledge 1 3;serial 14 client 3;serial 15 tm;serial 16 client 6;serial 17 retire 2";
    let (_, _, after) = print::day_parts(gapped(), &piece(day), |answer, book| {
        assert!(book.is_sound() && book.uses_agree());
        lines.push([u16::from(answer.refusal()), answer.opened()]);
    });
    let want = [
        [0, 5],
        [7, 0],
        [0, 0],
        [14, 0],
        [7, 0],
        [8, 0],
        [0, 6],
        [0, 7],
        [14, 0],
    ];
    assert_eq!(lines, want);
    assert_eq!((after.count, after.numbers.next), (7, 8));
    assert_eq!(after.numbers.of_rows[..8], [0, 2, 3, 4, 5, 6, 7, 0]);
    let tms: Vec<u16> = after.rows[..7].iter().map(|row| row.tm).collect();
    assert_eq!(tms, [0, 0, 1, 0, 1, 0, 5]);
    assert_eq!(after.rows[4].pledged, 3);
}

/// "256 rows held or every number given"; 7 and 8 come before.
#[test]
fn refusal_9() {
    let book = "do tm / do cp / ";
    let table = "next 65535 / carry_out cp => 2 3 0 0 65535 4 3 65536 3 65535 3 1 0 0 0 0 0 0 0 0 0 0 0 0 0
next 65536 / carry_out tm => 2 1 0 9 0 3 3 65536\nnext 65536 / carry_out client 1 => 2 2 1 9 0 3 3 65536
next 65536 / carry_out cp => 2 3 0 9 0 3 3 65536\nnext 65536 / carry_out client 3 => 2 2 3 7 0 3 3 65536
next 65536 / carry_out client 65535 => 2 2 65535 7 0 3 3 65536
next 65536 / carry_out client 2 => 2 2 2 8 0 3 3 65536";
    answered_so(book, table);
    let rows = "do cp / ".repeat(255);
    let full = answers(&format!(
        "{rows}do retire 9 / carry_out cp / do archive / carry_out cp"
    ));
    assert_eq!(full[0], "256 3 0 9 0 256 257 256");
    assert!(full[1].starts_with("256 3 0 0 256 256 257 257 255 256 3 1 "));
}

/// "Rows in a sound book rise by number, all below the next to be given."
#[test]
fn sound_numbers() {
    let cases: [(&[u64], u32, &[Fault]); 14] = [
        (&[0, 1, 2, 3], 4, &[]),
        (&[0, 1, 2, 3], 65_536, &[]),
        (&[0, 2, 3, 9], 10, &[]),
        (&[0, 1, 7, 65_535], 65_536, &[]),
        (&[1, 2, 3, 4], 5, &[TopHasNumber]),
        (&[0, 0, 3, 4], 5, &[NumberTwice]),
        (&[0, 1, 4, 4], 5, &[NumberTwice]),
        (&[0, 3, 2, 4], 5, &[NumberFalls]),
        (&[0, 3, 4, 3], 5, &[NumberFalls]),
        (&[0, 1, 2, 5], 5, &[NumberIsNext]),
        (&[0, 1, 2, 6], 5, &[NumberPastNext]),
        (&[0, 1, 7, 9], 5, &[NumberPastNext; 2]),
        (&[0, 1, 2, 3], 65_537, &[NextPastAll]),
        (&[0, 1, 2, 3, 1], 5, &[Beyond(NUMBER)]),
    ];
    let faults = |numbers: &[u64], next: u32| {
        let mut table = Table::of(&book_after("tm;client 1;cp"));
        for (place, &number) in table.places.iter_mut().zip(numbers) {
            place[NUMBER] = number;
        }
        Table { next, ..table }.faults_by(Rule::New)
    };
    for (numbers, next, wanted) in cases {
        assert_eq!(faults(numbers, next), wanted, "{numbers:?}");
    }
    assert_eq!(faults(&[0, 1, 2, 3], u32::MAX), [NextPastAll]);
    assert_eq!(faults(&[0, 1, 2, 3], 0)[0], NextIsNothing);
    let fresh = |next: u32| Table {
        next,
        ..Table::fresh()
    };
    assert_eq!(fresh(0).faults_by(Rule::New), [NextIsNothing]);
    assert!(fresh(1).is_sound() && fresh(65_536).is_sound());
    // Taking over asks the same.
    assert!(fresh(0).taken_over().is_none());
}

#[test]
fn a_books_own_check_of_numbers() {
    let bent = |bend: &dyn Fn(&mut Book)| {
        let mut book = gapped();
        bend(&mut book);
        book.is_sound()
    };
    assert!(bent(&|_| {}));
    assert!(bent(&|book| book.numbers.next = 65_536));
    assert!(bent(&|book| book.numbers.of_rows[1] = 1));
    for (row, number) in [
        (0, 1),
        (1, 0),
        (1, 3),
        (2, 2),
        (3, 5),
        (3, 3),
        (4, 5),
        (255, 1),
    ] {
        assert!(!bent(&|book| book.numbers.of_rows[row] = number), "{row}");
    }
    for next in [0, 1, 4, 65_537, u32::MAX] {
        assert!(!bent(&|book| book.numbers.next = next), "{next}");
    }
}

/// What made-up books are handed over with.
#[test]
fn missing_numbers() {
    let mut rng = Rng::new(21, 21);
    for place in 0..160 {
        let mut table = any_sound(&mut rng);
        let gaps = Gaps::ALL[place % Gaps::ALL.len()];
        renumber(&mut table, gaps, &mut rng);
        assert_eq!(table.faults_by(Rule::New), [], "{gaps:?}");
        let gone = archived(&table);
        assert_eq!(gone.len() + table.held(), table.next as usize);
        let book = table.book().unwrap();
        assert!(gone
            .iter()
            .all(|&number| book.place_of(number as u16).is_none()));
        assert!((0..book.count).all(|row| book.place_of(book.number(row)) == Some(row)));
    }
}
