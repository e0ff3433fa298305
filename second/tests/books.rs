//! A book's written form, days that start from one and leave one, and K11's archive.

mod common;
use common::*;
use second::make::asked::{any_sound, to_archive, with_steps};
use second::model::bookfile::Version;
use second::model::programs::with_lines;
use second::model::table::*;

fn fresh_bytes() -> Vec<u8> {
    bookfile::bytes(&Table::fresh())
}

/// "A version 1 book is still read wherever a book is."
#[test]
fn fresh_books() {
    let mut want = vec![0; 24_332];
    want[..6].copy_from_slice(&[0x4C, 0x56, 0x42, 2, 0, 1]);
    (want[11], want[15]) = (1, 1);
    assert!(fresh_bytes() == want);
    let mut first = vec![0; 23_816];
    first[..6].copy_from_slice(&[0x4C, 0x56, 0x42, 1, 0, 1]);
    first[9] = 1;
    assert!(bookfile::bytes_as(&Table::fresh(), Version::One) == first);
    let bad_first = [(0, 0x4D), (3, 0), (3, 2), (9, 2), (92, 2)];
    let bad = [
        (0, 0x4D),
        (1, 0),
        (2, 0),
        (3, 0),
        (3, 1),
        (3, 3),
        (15, 2),
        (98, 2),
    ];
    for (good, bad) in [(&first, &bad_first[..]), (&want, &bad)] {
        assert!(bookfile::table(good) == Some(Table::fresh()));
        assert!(bookfile::table(&good[..good.len() - 1]).is_none());
        assert!(bookfile::table(&[&good[..], &[0]].concat()).is_none());
        for &(at, value) in bad {
            let mut bad = good.clone();
            bad[at] = value;
            assert!(bookfile::table(&bad).is_none(), "{at}");
        }
    }
    want[8..15].fill(200);
    let odd = bookfile::table(&want).unwrap();
    assert_eq!(
        (odd.next, odd.places[0][NUMBER], odd.places[0][SORT]),
        (0xC8C8_C8C8, 0xC8C8, 200)
    );
}

/// "Numbers equal to places below the count and 0 from there on, next number
/// the count", whatever the count.
#[test]
fn the_numbers_of_version_1() {
    for count in [0, 1, 3, 255, 256, 257, 65_535] {
        let table = Table {
            count,
            next: 77,
            ..Table::fresh()
        };
        let read = bookfile::table(&bookfile::bytes_as(&table, Version::One)).unwrap();
        assert_eq!((read.count, read.next), (count, u32::from(count)));
        for place in 0..256 {
            let want = if place < u64::from(count) { place } else { 0 };
            assert_eq!(read.places[place as usize][NUMBER], want, "{count}");
        }
    }
}

#[test]
fn where_words_stand() {
    let kinds = "cash 1 deposits 2 guarantees 3 securities 4";
    let said = format!(
        "tm;client 1;pledge 0 9;receive 2 {kinds};allocate 2 {kinds};pledge 2 5;margin 2 16"
    );
    let book = book_after(&said);
    let bytes = bookfile::bytes(&Table::of(&book));
    assert_eq!(&bytes[4..12], [0, 3, 0, 7, 0, 0, 0, 3]);
    let client = &bytes[12 + 2 * 95..][..95];
    assert_eq!(&client[..6], [0, 2, 2, 1, 0, 1]);
    let amounts: Vec<u64> = numbers(&client[6..86]).collect();
    assert_eq!(amounts, [1, 2, 3, 4, 1, 2, 3, 4, 5, 16]);
    assert_eq!(&client[86..], [0; 9]);
    // Of 4 paise of securities 3 count; the TM has nothing and is deemed what is missing.
    assert_eq!(&bytes[12 + 95..][86..95], [1, 0, 0, 0, 0, 0, 0, 0, 2]);
    assert_eq!(&bytes[12 + 94..][..1], [2]);
    assert!(Table::of(&book).book().unwrap().is_sound());
}

#[test]
fn made_books_come_back() {
    each_day(0..6, 20_000, |bytes, _| {
        let table = Table::of(&run_fresh(bytes).0);
        assert_eq!(bookfile::table(&bookfile::bytes(&table)).unwrap(), table);
        let again = table.book().unwrap();
        assert!(again.is_sound() && again.uses_agree());
        assert!(Table::of(&again) == table);
    });
}

type Program = fn(&[OsString], &dyn Fn() -> second::Output) -> second::Output;

/// A day in two pieces, with a night between them, is the day.
#[test]
fn a_book_lasts_the_night() {
    let folder = Folder::new("night");
    let (book, fresh) = (folder.word("book"), OsString::from("-"));
    let run = |program: Program, words: &[OsString], said: &str| {
        utf(program(words, &|| Ok(piece(said))).unwrap())
    };
    let first = run(
        programs::day,
        &[fresh, book.clone()],
        "tm;pledge 0 10;margin 1 10;serial 9 tm",
    );
    assert_eq!(
        first,
        "0 1 0 0 1\n1 8 0 0 0\n2 10 1 0 0\n9 1 0 3 0\nend 4 3\n"
    );
    let said = "serial 3 margin 1 9;serial 4 unpledge 0 1;raw 01";
    let second = run(programs::day, &[book.clone(), book.clone()], said);
    assert_eq!(second, "3 10 1 0 0\n4 9 0 17 0\ncut 2 1\n");
    let kept = bookfile::table(&fs::read(&book).unwrap()).unwrap();
    assert_eq!((kept.count, kept.serial), (2, 5));
    assert_eq!(kept.places[0][table::PLEDGED], 10);
    assert_eq!((kept.places[0][MODE], kept.places[0][NEED]), (1, 9));
    assert_eq!(
        (kept.places[1][table::MARGIN], kept.places[1][NEED]),
        (9, 9)
    );
    let words = [book.clone()];
    let standings = "end 0 0\n0 cm live 0 10 9 9 0 1 on 0\n1 tm live 0 0 9 0 9 0 on 0\n";
    assert_eq!(run(programs::standings, &words, ""), standings);
    assert_eq!(run(programs::needs, &words, ""), "end 0 0\n0 9\n1 9\n");
    let losses = folder.put("losses", bytes_of(&[0, 11]));
    let closed = run(programs::closeouts, &[losses, book], "");
    assert_eq!(closed, "end 0 0\n0 0 0 0 0 0\n1 11 0 0 10 1\ntotal 1\n");
    assert_eq!(fs::read_dir(&folder.0).unwrap().count(), 2);
}

/// The day stays unread, and no book is kept.
#[test]
fn a_book_that_is_not_sound() {
    let folder = Folder::new("unsound");
    let mut table = Table::fresh();
    table.places[0][LIVE] = 0;
    let bad = folder.put("bad", bookfile::bytes(&table));
    let unread = || panic!();
    let words = [bad.clone(), folder.word("to")];
    assert_eq!(programs::day(&words, &unread).unwrap(), b"1 0 0\n");
    assert!(!folder.has("to"));
    let all: [Program; 4] = [
        programs::standings,
        programs::needs,
        programs::explain,
        programs::holdings,
    ];
    for program in all {
        assert_eq!(program(&words[..1], &unread).unwrap(), b"1 0 0\n");
        assert!(program(&words, &unread).is_err());
    }
    let losses = folder.put("losses", [0; 8]);
    let closed = programs::closeouts(&[losses, bad], &unread).unwrap();
    assert_eq!(closed, b"1 0 0\nrefused 1\n");
}

#[test]
fn a_book_that_cannot_be_read_or_kept() {
    let folder = Folder::new("none");
    let names = [
        folder.word("missing"),
        folder.0.clone().into_os_string(),
        folder.put("empty", []),
        folder.put("short", &fresh_bytes()[..23_815]),
        folder.put("long", [fresh_bytes(), vec![0]].concat()),
    ];
    let losses = folder.put("losses", [0; 8]);
    let all: [(&str, Program); 3] = [
        ("standings", programs::standings),
        ("needs", programs::needs),
        ("explain", programs::explain),
    ];
    for name in names {
        let words = [name.clone(), folder.word("to")];
        let unread = || panic!();
        let told = |program: &str, error: String| {
            let begin = format!("{program}: cannot read the book: ");
            assert!(error.starts_with(&begin), "{error}");
        };
        told("day", programs::day(&words, &unread).unwrap_err());
        for (name, program) in all {
            told(name, program(&words[..1], &unread).unwrap_err());
        }
        told(
            "closeouts",
            programs::closeouts(&[losses.clone(), name], &unread).unwrap_err(),
        );
        assert!(!folder.has("to"));
    }
    let to = folder.word("no/such/place");
    let error = programs::day(&["-".into(), to], &|| Ok(Vec::new())).unwrap_err();
    assert!(error.starts_with("day: cannot keep the book: "));
}

/// CP 1, TM 3 and its client 4 retired; TM 2 with client 5, CP 6 are left.
fn start() -> Table {
    let said = "cp;tm;tm;client 3;client 2;cp;pledge 0 100;pledge 2 10;margin 5 12;\
        margin 6 7;retire 4;retire 3;retire 1";
    Table::of(&book_after(said))
}

fn entries(table: &Table) -> Vec<[u64; 3]> {
    let archived = table.archived().unwrap();
    archived.entries.iter().map(Entry::numbers).collect()
}

/// Three numbers for each. "Keeping the others' order", with number, mode and kept
/// need; a client's TM word follows its TM's row.
#[test]
fn what_is_moved_and_left() {
    assert_eq!(entries(&start()), [[1, 3, 0], [3, 1, 0], [4, 2, 3]]);
    assert_eq!(entries(&Table::fresh()), [[0; 3]; 0]);
    // A retired client of a live TM names it as well.
    assert_eq!(
        entries(&Table::of(&book_after("cp;tm;client 2;retire 3"))),
        [[3, 2, 2]]
    );
    let (before, after) = (start(), start().archived().unwrap().book);
    assert_eq!((after.count, after.serial, after.next), (4, 13, 7));
    let numbers: Vec<u64> = after.places[..4].iter().map(|row| row[NUMBER]).collect();
    assert_eq!(numbers, [0, 2, 5, 6]);
    for (was, is) in [(0, 0), (2, 1), (6, 3)] {
        assert_eq!(before.places[was], after.places[is]);
    }
    assert_eq!((before.places[5][TM], after.places[2][TM]), (2, 1));
    assert_eq!((after.places[1][MODE], after.places[1][NEED]), (1, 12));
    assert!(after.places[4..].iter().all(|row| *row == [0; WORDS.len()]));
    assert!(after.is_sound() && after.book().unwrap().is_sound());
}

#[test]
fn rooms_of_an_archive() {
    let book = "do cp / do tm / do retire 1 / ";
    let rows = "1 2 1 1 0 0 0 0 0 0 0 0 0 0 0 0 0 2 0 0 0 0 0 0 0 0 0 0 0 0 0 0 0 0";
    let table = "archive room 3 => 0 1 1 3 0 2 3 3 ~\narchive room 5 => 0 1 1 3 0 4 5 2 3 3 ~
archive room 2 => 23 0 1 2 same\narchive room 0 => 23 0 same
set 2 need 1 / archive room 3 => 1 0 1 2 3 same\nset 2 need 1 / archive room 0 => 1 0 same";
    answered_so(book, &table.replace('~', rows));
    answered_so(
        "",
        "archive room 0 => 0 0 same\narchive room 1 => 0 0 1 same",
    );
    let most = answers(&format!("{book}archive room 4096")).pop().unwrap();
    assert!(most.starts_with("0 1 1 3 0 4 5 6 7 "));
    assert!(most.contains(" 4095 4096 2 3 3 1 2 "));
}

/// "Every standing and every record's answer after it is the one before it,
/// refusal 9 excepted": any piece, up to its first 9.
#[test]
fn answers_stay() {
    let mut rng = Rng::new(11, 11);
    let mut moved = 0;
    for place in 0..120 {
        let table = match place % 2 {
            0 => any_sound(&mut rng),
            _ => to_archive(place / 2, &mut rng),
        };
        let after = table.archived().unwrap();
        moved += after.entries.len();
        let piece = with_steps(&table, &mut rng);
        let lines = |table: &Table| {
            let mut lines = Vec::new();
            print::day_parts(table.book().unwrap(), &piece, |answer, _| {
                lines.push(*answer)
            });
            lines
        };
        let (one, other) = (lines(&table), lines(&after.book));
        let full = one.iter().position(|answer| answer.refusal() == 9);
        let same = full.unwrap_or(one.len());
        assert_eq!(one[..same], other[..same]);
        let last = (table.next + 2).min(65_535) as u16;
        for number in (0..=last).filter(|number| *number < 300 || number % 97 == 0) {
            let ask = |book: &Table| calls::answer(&calls::Call::Standing(book.clone(), number));
            assert_eq!(ask(&table).line, ask(&after.book).line, "{number}");
        }
    }
    assert!(moved > 500);
}

/// Once more, nothing moves; and what is moved and left is all there was.
#[test]
fn nothing_is_lost() {
    let mut rng = Rng::new(12, 12);
    for place in 0..60 {
        let table = to_archive(place, &mut rng);
        let Archived { entries, book } = table.archived().unwrap();
        let again = book.archived().unwrap();
        assert!(again.entries.is_empty() && again.book == book);
        let held = |table: &Table| -> Vec<u64> {
            table.places[..table.held()]
                .iter()
                .map(|row| row[NUMBER])
                .collect()
        };
        let mut all = held(&book);
        all.extend(entries.iter().map(|entry| entry.number));
        all.sort_unstable();
        assert_eq!(all, held(&table));
        assert_eq!((book.next, book.serial), (table.next, table.serial));
        assert!(entries.windows(2).all(|two| two[0].number < two[1].number));
    }
}

const LINES: &str = "1 cp 0\n3 tm 0\n4 client 3\n";

#[test]
fn lines_behind_what_there_is() {
    let entries = start().archived().unwrap().entries;
    // What is nearly a line is none.
    let near = "11 cp 0\n1 cp 00\n1 cp\n1 cp 0 \n 3 tm 0\n";
    for (before, more) in [
        ("", Some(LINES)),
        ("9 cp 0\n", Some(LINES)),
        ("\n", Some(LINES)),
        (near, Some(LINES)),
        (LINES, None),
        (LINES.trim_end(), None),
        ("4 client 3\nx\n1 cp 0\n", Some("3 tm 0\n")),
    ] {
        let after = with_lines(before.as_bytes(), &entries).map(utf);
        assert_eq!(
            after,
            more.map(|more| format!("{before}{more}")),
            "{before}"
        );
    }
    let ended = with_lines(b"9 cp 0", &entries).map(utf);
    assert_eq!(ended, Some(format!("9 cp 0\n{LINES}")));
    assert_eq!(with_lines(b"", &[]).or(with_lines(b"x", &[])), None);
}

fn archive(folder: &Folder, from: &str, to: &str) -> Result<String, String> {
    let words = [folder.word(from), folder.word(to), folder.word("archive")];
    programs::archive(&words).map(utf)
}

#[test]
fn the_archive_program() {
    let folder = Folder::new("archive");
    let text = || fs::read_to_string(folder.word("archive")).ok();
    let kept = |name: &str| bookfile::table(&fs::read(folder.word(name)).unwrap()).unwrap();
    let run = |to: &str| archive(&folder, "book", to).unwrap();
    folder.put("book", bookfile::first_bytes(&start()).unwrap());
    // The second run is as one that was cut off ahead of TO: no line is put twice.
    for _ in 0..2 {
        folder.put("to", "cut");
        assert_eq!(run("to"), "0 3\n");
        assert_eq!(text().as_deref(), Some(LINES));
        assert!(kept("to") == start().archived().unwrap().book);
    }
    // Over its own file, and nothing is left to move.
    assert_eq!([run("book"), run("book")], ["0 3\n", "0 0\n"]);
    assert!(kept("book") == kept("to"));
    fs::remove_file(folder.word("archive")).unwrap();
    assert_eq!(run("book"), "0 0\n");
    assert_eq!(text(), None);
    folder.put("archive", "not ended");
    assert_eq!(run("book"), "0 0\n");
    assert_eq!(text().as_deref(), Some("not ended"));
}

#[test]
fn what_the_archive_program_refuses() {
    let folder = Folder::new("refused");
    let mut table = start();
    table.places[1][NUMBER] = 0;
    folder.put("book", bookfile::bytes(&table));
    assert_eq!(archive(&folder, "book", "to").unwrap(), "1 0\n");
    assert!(!folder.has("to") && !folder.has("archive"));
    let missing = archive(&folder, "missing", "to").unwrap_err();
    assert!(missing.starts_with("archive: cannot read the book: "));
    folder.put("none", "no book");
    assert!(archive(&folder, "none", "to")
        .unwrap_err()
        .ends_with("it is no book"));
    // An archive that can't be read or written: the book isn't kept either.
    folder.put("book", bookfile::bytes(&start()));
    fs::create_dir(folder.word("archive")).unwrap();
    let error = archive(&folder, "book", "to").unwrap_err();
    assert!(
        error.starts_with("archive: cannot keep the archive: "),
        "{error}"
    );
    assert!(!folder.has("to"));
    assert!(programs::archive(&[folder.word("book"), folder.word("to")]).is_err());
}
