//! Made-up calls and books, what calls have to do with one another, and the
//! readable form of calls, there and back.

mod common;
use common::*;
use second::compare::difference::first_difference;
use second::kinds::calls::Met as Counted;
use second::kinds::most::Kind;
use second::kinds::seen::Seen;
use second::kinds::statements;
use second::make::asked::desk::Case;
use second::make::asked::{any_sound, figures, make, unsound, whole_round, with_steps, ENDINGS};
use second::model::calls::{answer, answered, answered_seen, Call, Calls};
use second::tally::names;

#[test]
fn made_books_are_sound() {
    let mut rng = Rng::new(1, 1);
    for _ in 0..600 {
        let table = any_sound(&mut rng);
        assert_eq!(table.faults_by(Rule::New), []);
        let book = table.book().unwrap();
        assert!(book.is_sound() && book.uses_agree());
        assert!(Table::of(&book) == table);
    }
}

#[test]
fn every_fault_by_itself() {
    let mut rng = Rng::new(2, 2);
    for rule in [Rule::Old, Rule::New] {
        for fault in Fault::all(rule) {
            for _ in 0..12 {
                let table = unsound(fault, rule, &mut rng);
                let alone = Fault::alone(&table.faults_by(rule));
                assert!(alone.contains(&fault), "{rule:?} {fault:?}");
                assert!(!table.is_sound_by(rule));
            }
        }
    }
}

/// A run that must meet everything does, and one without calls misses all.
#[test]
fn a_whole_round_meets_everything() {
    // With fewer inputs than a round a comparison doesn't say what it missed.
    assert!(whole_round() <= 60, "{}", whole_round());
    for start in [1, 700] {
        let mut met = Counted::default();
        for seed in start..start + whole_round() as u64 {
            let asked = make(seed);
            let out = answered_seen(&asked.bytes, |call, answered| met.count(call, answered));
            let text = utf(out);
            let ending = text.lines().last().unwrap();
            assert_eq!(
                ending.starts_with("bad "),
                asked.ending != "the end",
                "seed {seed}"
            );
            met.count_input(&asked);
        }
        assert_eq!((met.missed(), &met.wrong), (Vec::new(), &Vec::new()));
    }
    let outcomes = 2 + 3 + 15 + 17 + 4 + 6 + 5 + 4 + 3 + 6 + 2 + 7 + 2 + 10 + 3 + 9;
    let edges = 5 + 5 + 6 + 5 + 5 + 5 + 8 + 3 + 3 + 3 + 8 + 12;
    let (taken_over, numbers) = (2 + 3 + 6, 9 + 7 + 4 + 7 + 2 + 6 + 13 + 3 + 4);
    let faults = Fault::all(Rule::Old).len() + Fault::all(Rule::New).len();
    // And a book of version 1.
    let all = outcomes + edges + taken_over + numbers + faults + names(ENDINGS).count() + 1;
    let all = all + Case::all().len() + figures::Case::all().len();
    let all = all + statements::Met::default().missed().len() + Kind::all().len() + 36;
    assert_eq!(Counted::default().missed().len(), all);
}

/// None stands twice in the list, and its edges are amounts.
#[test]
fn kinds_of_most() {
    let mut kinds = Kind::all();
    kinds.sort();
    kinds.dedup();
    assert_eq!((kinds.len(), Kind::all().len()), (301, 301));
    assert_eq!(kinds.iter().filter(|kind| kind.is_edge()).count(), 63);
}

#[test]
fn calls_come_back() {
    for seed in 0..25 {
        let bytes = make(seed).bytes;
        let mut again = Vec::new();
        let mut calls = Calls::of(&bytes);
        loop {
            let left = calls.left();
            let call = match calls.next() {
                Some(call) => call,
                None => break,
            };
            // A book comes first, and tells its version.
            let version = call.book().and_then(|_| bookfile::version(&left[1..]));
            let book = call.book().zip(version);
            let book = book.map(|(book, version)| bookfile::bytes_as(book, version));
            call.lay_over(&mut again, &book.unwrap_or_default());
        }
        again.extend_from_slice(calls.left());
        assert!(again == bytes, "seed {seed}");
        assert!(
            story::write(story::read(&bytes).as_bytes()).unwrap() == bytes,
            "seed {seed}"
        );
    }
    assert!(make(5).bytes == make(5).bytes && make(5).bytes != make(6).bytes);
}

/// `day` is `carry_out_next` over and over, which is `read_at` and
/// `carry_out`; places, counts and refusals agree, and the book does.
#[test]
fn one_call_by_the_others() {
    fn word(line: &str, place: usize) -> &str {
        line.split(' ').nth(place).unwrap()
    }
    fn behind_word(line: &str) -> &str {
        line.split_once(' ').unwrap().1
    }
    let mut rng = Rng::new(3, 3);
    for _ in 0..120 {
        let start = any_sound(&mut rng);
        let piece = with_steps(&start, &mut rng);
        let mut table = start.clone();
        let (mut place, mut read, mut carried) = (0, 0, 0);
        while let Next::Record(record) = next_at(&piece, place) {
            let next = answer(&Call::CarryOutNext(table.clone(), piece.clone(), place));
            let whole = answer(&Call::CarryOut(table.clone(), record.values()));
            let names = |line: &str| line.split(' ').take(5).collect::<Vec<_>>().join(" ");
            assert_eq!(names(&next.line), names(&whole.line));
            let seen = answer(&Call::ReadAt(piece.clone(), place));
            assert!(seen.word == "0" || next.word == "3" || seen.word == next.word);
            assert_eq!(word(&seen.line, 1), word(&next.line, 5));
            place = word(&next.line, 5).parse().unwrap();
            read += 1;
            carried += u64::from(next.word == "0");
            let mut book = table.book().unwrap();
            carry(&mut book, &record);
            table = Table::of(&book);
        }
        let day = answer(&Call::Day(start.clone(), piece.clone(), u64::MAX));
        let exact = answer(&Call::Day(start.clone(), piece, read));
        assert!(behind_word(&day.line).starts_with(&format!("{place} {read} {carried} ")));
        assert_eq!(behind_word(&day.line), behind_word(&exact.line));
        assert_eq!(day.line.ends_with("same"), table == start);
    }
}

/// A day over a book that was handed over, by the letter: every mode is looked
/// at, also where it didn't fit its figures before.
#[test]
fn handed_over_books_by_the_letter() {
    let mut rng = Rng::new(4, 4);
    for _ in 0..150 {
        let table = any_sound(&mut rng);
        let piece = with_steps(&table, &mut rng);
        let book = table.book().unwrap();
        let mut seen = Seen::from(&book, &piece);
        print::day_parts(book, &piece, |answer, book| {
            assert!(seen.after(answer, book));
            assert!(book.is_sound() && book.uses_agree() && Table::of(book).is_sound());
        });
    }
}

/// Nothing that can stand in the input makes it fail.
#[test]
fn any_bytes_at_all() {
    let mut rng = Rng::new(5, 5);
    for seed in 0..60 {
        let mut bytes = make(seed).bytes;
        for _ in 0..rng.between(1, 40) {
            let place = rng.below(bytes.len() as u64) as usize;
            bytes[place] = rng.byte();
        }
        assert!(answered(&bytes).ends_with(b"\n"));
    }
}

/// The first line that differs, from shortly before the place where it does.
#[test]
fn the_first_difference() {
    let zeros = "0 ".repeat(1_000);
    let (long, other) = (format!("{zeros}1\n"), format!("{zeros}2\n"));
    let before = format!("..{}", "0 ".repeat(40));
    for (want, got, line, second, other) in [
        (
            "1\n0\n",
            "1\n1\n",
            1,
            "0\\n".to_string(),
            "1\\n".to_string(),
        ),
        ("1\n", "1", 0, "1\\n".to_string(), "1".to_string()),
        (
            "1\n",
            "1\n2\n",
            1,
            "(nothing)".to_string(),
            "2\\n".to_string(),
        ),
        (
            &long,
            &other,
            0,
            format!("{before}1\\n"),
            format!("{before}2\\n"),
        ),
    ] {
        assert_eq!(
            first_difference(want.as_bytes(), got.as_bytes()),
            (line, second, other)
        );
    }
    let bytes = story::write(b"do tm\nset 1 need 1\ncarry_out margin 1 5").unwrap();
    let call = Calls::of(&bytes).next().unwrap();
    let short =
        "carry_out margin 1 5\n  its book: 2 accounts, next serial 1, next number 2, 0 modes on, \
        faults [KeptNeed(1, 1, true)]";
    assert_eq!(story::short(&call), short);
}

fn written(said: &str) -> Vec<u8> {
    story::write(said.replace(" / ", "\n").as_bytes()).unwrap()
}

#[test]
fn every_word() {
    let said = "is_sound / count 5 / serial 65535 / set 0 sort 1 / set 0 live 0 / set 0 tm 65535 / \
        set 0 received.cash 1 / set 0 received.deposits 2 / set 0 received.guarantees 3 / \
        set 0 received.securities 4 / set 0 allocated.cash 5 / set 0 allocated.deposits 6 / \
        set 0 allocated.guarantees 7 / set 0 allocated.securities 8 / set 0 pledged 9 / set 0 margin 10 / \
        set 0 mode 1 / set 0 need 18446744073709551615 / set 255 sort 255 / standing 65535 / \
        carry_out margin 3 60000 / carry_out serial 4 tm / carry_out raw 0C0000000000 / \
        carry_out values 0 1 0 0 1 2 3 4 5 6 / carry_out_next 5 / \
        carry_out_next 18446744073709551615 tm ; retire 5 ; raw 0100 / \
        day 0 serial 7 receive 0 cash 1 securities 2 / read_at 0 tm / write pledge 0 5 room 70 / fresh / \
        close_out room 4 losses 0 18446744073709551615 / close_out room 0 losses / needs room 4096 / \
        version 2 / count 2 / next 4294967295 / set 0 number 1 / set 1 number 65535 / set 1 sort 3 / \
        set 255 number 7 / archive room 0 / version 1 / is_sound / version 2 / next 65536 / \
        set 0 number 4 / take_over / fresh / archive room 4096 / statement 65535 / \
        statement 1 2 5 3 2 2 0 ; 3 0 0 0 0 0 ; raw 010100 / most margin 3 0 / \
        most serial 9 receive 0 cash 5 / most values 7 14 255 65535 1 2 3 4 5 18446744073709551615 / \
        bytes 00FF / ";
    assert_eq!(story::read(&written(said)), said.replace(" / ", "\n"));
}

#[test]
fn a_record_done_is_in_the_book() {
    let done = "# a TM with something / do tm /   do pledge 1 5 # five / standing 1";
    let set = "count 2 / serial 2 / set 1 sort 1 / set 1 live 1 / set 1 pledged 5 / standing 1 / ";
    assert_eq!(written(done), written(set));
    assert_eq!(story::read(&written(done)), set.replace(" / ", "\n"));
    let said = "count 2 / set 1 sort 3 / set 1 live 1 / set 1 margin 7 / settle / needs room 2";
    assert!(story::read(&written(said)).contains("set 0 need 7\n"));
}

/// Version 1 until a line speaks of numbers, and again when fresh.
#[test]
fn versions() {
    let table = "1 23817: fresh|do cp|count 2 / serial 4|version 2 / version 1|next 7 / fresh
2 24333: version 2|next 1|set 9 number 0|do archive|next 7 / do tm";
    for (wanted, said) in rows(table) {
        let bytes = written(&format!("{said} / is_sound"));
        assert_eq!(format!("{} {}", bytes[4], bytes.len()), wanted, "{said}");
    }
    let archived = "do cp / do tm / do client 2 / do retire 1 / do archive / is_sound";
    let set =
        "version 2 / count 3 / serial 4 / next 4 / set 1 number 2 / set 1 sort 1 / set 1 live 1 / \
        set 2 number 3 / set 2 sort 2 / set 2 live 1 / set 2 tm 1 / is_sound / ";
    assert_eq!(story::read(&written(archived)), set.replace(" / ", "\n"));
    assert!(written(set) == written(archived));
}

#[test]
fn bytes_and_cuts() {
    let whole = written("read_at 0 tm");
    assert_eq!(written("read_at 0 tm / cut 3"), whole[..whole.len() - 3]);
    let odd = written("byte 23815 9 / set 255 live 7 / is_sound");
    assert_eq!((odd.last(), odd[1 + 8 + 255 * 93 + 1]), (Some(&9), 7));
}

#[test]
fn errors_name_the_line() {
    let table = "unknown word `rent`, or it is said otherwise: rent 5
unknown word `is_sound`, or it is said otherwise: is_sound 1\nunknown word `gold`: set 0 gold 1
`set` is said otherwise: set 0 margin\na book has places 0 to 255: set 256 margin 1
`256` is too large: set 0 sort 256\n`65536` is too large: serial 65536|set 0 number 65536
the book has 23816 bytes: byte 23816 1\n`retire 0` is refused with 8: do retire 0
a book is of version 1 or 2: version 3\n`4294967296` is too large: next 4294967296
`x` is no account: standing x\nvalues need ten numbers: carry_out values 1 2 3
one whole record is expected: carry_out raw 01|carry_out\nthere are not so many bytes to cut: cut 1
raw needs two hexadecimal digits for each byte: bytes 1";
    let error = |said: &str| story::write(said.as_bytes()).unwrap_err();
    for (want, bad) in rows(table) {
        assert_eq!(
            error(&format!("fresh\n{bad}\nfresh")),
            format!("line 2: {want}")
        );
    }
    for (want, said) in [
        ("the book isn't sound", "count 0\ndo tm"),
        ("the book is none", "byte 0 0\ndo tm"),
        ("the book is none", "byte 0 0\nnext 1"),
        ("the book isn't sound", "next 0\ndo archive"),
    ] {
        assert_eq!(error(said), format!("line 2: {want}"));
    }
    assert_eq!(story::write(b"\xFF").unwrap_err(), "line 1: not plain text");
}
