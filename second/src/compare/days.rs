//! Programs that read a day, against this one: on made-up days, with stops on the
//! way, losses and explanations.

use super::difference::settle;
use super::{child, lines, texts, Made, Run};
use crate::kinds::days::{Days, Kind};
use crate::kinds::explained;
use crate::kinds::seen::Seen;
use crate::make::{losses, make, refused, MILLION_KIND, NO_LIMIT, ROUND};
use crate::model::*;
use crate::tally::none_missed;
use child::{ask, Pace};
use std::path::{Path, PathBuf};

pub fn all_days(run: &Run) -> Result<Vec<String>, String> {
    let seed = run.options.number("--seed", 1)?;
    let days = run.options.number("--days", 900)?;
    let millions = run.options.number("--millions", 0)?;
    let mut tally = Days::default();
    for place in 0..days + millions {
        let (kind, seed) = match place < days {
            true => (
                ROUND[place as usize % ROUND.len()],
                seed.wrapping_add(place),
            ),
            false => (MILLION_KIND, seed.wrapping_add(place - days)),
        };
        let made = Made {
            kind: kind.0,
            seed,
            bytes: make(kind, seed, NO_LIMIT),
            pace: run.pace(place, seed),
        };
        one_day(run, &made, &mut tally)?;
    }
    let mut wanted = Kind::all();
    let mut said = vec![tally.summary()];
    if run.program("--explain").is_some() {
        wanted.extend(Kind::of_explanations());
        said.push(tally.explained_line());
    }
    if run.program("--closeouts").is_some() {
        wanted.extend(Kind::of_close_outs());
        said.push(tally.lines_line());
    }
    // A whole round has a day of every kind, and so meets whatever days are made for.
    none_missed("", days >= ROUND.len() as u64, tally.met.missed("", wanted))?;
    Ok(said)
}

fn one_day(run: &Run, made: &Made, tally: &mut Days) -> Result<(), String> {
    let own = own_answer(made, tally)?;
    if let Some(program) = run.program("--day") {
        settle(
            run,
            made,
            "day",
            &own.out,
            ask(program, &[], &made.bytes, made.pace),
        )?;
    }
    if let Some(program) = run.program("--explain") {
        explained(run, program, made, tally)?;
    }
    texts::there_and_back(run, made, None, 0)?;
    if SHOWN
        .iter()
        .any(|(name, _)| run.program(&format!("--{name}")).is_some())
    {
        for &records in &own.stops {
            let stopped = Made {
                pace: Pace::Whole,
                ..made.with(beginning(&made.bytes, records))
            };
            one_book(run, &stopped)?;
            tally.stops += 1;
        }
        one_book(run, made)?;
    }
    if let Some(program) = run.program("--closeouts") {
        for seed in losses::seeds(made.kind, made.seed) {
            one_close_out(run, program, made, &own.book, seed, tally)?;
            let asked = lines::Asked {
                made,
                from: None,
                start: Book::fresh(),
                aimed: &own.book,
            };
            lines::one(run, program, asked, tally)?;
        }
    }
    Ok(())
}

/// This program's own text over a book.
type Shown = fn(Book, &[u8]) -> Vec<u8>;

/// The programs that show the book as it is at the end.
pub const SHOWN: [(&str, Shown); 3] = [
    ("standings", print::standings_over),
    ("needs", print::needs_over),
    ("holdings", holdings::over),
];

fn one_book(run: &Run, made: &Made) -> Result<(), String> {
    for (name, own) in SHOWN {
        if let Some(program) = run.program(&format!("--{name}")) {
            let got = ask(program, &[], &made.bytes, made.pace);
            settle(run, made, name, &own(Book::fresh(), &made.bytes), got)?;
        }
    }
    Ok(())
}

/// The bytes of the first so many records.
fn beginning(piece: &[u8], records: usize) -> &[u8] {
    let mut reader = Reader::new(piece);
    for _ in 0..records {
        reader.next();
    }
    &piece[..reader.place()]
}

struct Own {
    out: Vec<u8>,
    book: Book,
    /// After how many records standings and needs are asked for besides the
    /// end. A mode "depends on history", and the end shows only the last of it;
    /// so does a need that is brought up to date and not added up.
    stops: Vec<usize>,
}

/// A day made for modes is stopped where it meets a kind of look first, one
/// made for needs where it meets a kind of move, one made for shortfalls where
/// it meets a kind of those.
fn kinds_met(made: &Made, seen: &Seen) -> usize {
    let is_told = |kind: &Kind| match made.kind {
        "warned" => matches!(kind, Kind::Look(..)),
        "moved" | "valued" => matches!(kind, Kind::Move(_)),
        "short" => matches!(kind, Kind::Short(_)),
        _ => false,
    };
    match made.kind {
        "warned" | "moved" | "valued" | "short" => {
            seen.met.met().filter(|(kind, _)| is_told(kind)).count()
        }
        _ => 0,
    }
}

/// This program's own answer, with the book's soundness asserted besides, and
/// all that `Seen` holds it against.
fn own_answer(made: &Made, tally: &mut Days) -> Result<Own, String> {
    let (mut faults, mut read, mut kinds) = (0, 0, 0);
    let mut seen = Seen::from(&Book::fresh(), &made.bytes);
    let mut stops = Vec::new();
    let checked = made.kind != MILLION_KIND.0;
    let is_good = |book: &Book| book.is_sound() && book.uses_agree();
    let (out, book, day) = print::day_seen(&made.bytes, |answer, book| {
        tally.count(answer);
        read += 1;
        faults += usize::from(!seen.after(answer, book) || (checked && !is_good(book)));
        let now = kinds_met(made, &seen);
        stops.extend((now > kinds).then_some(read));
        kinds = now;
    });
    if faults > 0 || !is_good(&book) {
        return Err(format!(
            "own book not sound: kind {} seed {}",
            made.kind, made.seed
        ));
    }
    tally.days += 1;
    tally.met.add(&seen.met);
    tally.refusals[Refusal::Cut as usize] += u64::from(day.closing == Closing::Cut);
    Ok(Own { out, book, stops })
}

/// On the day with records behind it that are refused by a paisa: before what is
/// cut, none behind a day that is long. Each explanation is held against its refusal.
fn explained(run: &Run, program: &str, made: &Made, tally: &mut Days) -> Result<(), String> {
    let (book, day) = run_fresh(&made.bytes);
    let (whole, cut) = made.bytes.split_at(day.place);
    let longer = match day.closing {
        Closing::Long => made.with(&made.bytes),
        _ => made.with(&[whole, &refused::records(&book, made.seed), cut].concat()),
    };
    let mut wrong = None;
    let want = explain::seen(Book::fresh(), &longer.bytes, |explained| {
        let kinds = explained::Kind::of(explained).into_iter();
        tally.met.count_all(kinds.map(Kind::Explained));
        if !explained.fits() {
            wrong = Some(explained.record.values());
        }
    });
    match wrong {
        Some(record) => Err(format!("own explanation: {record:?}")),
        None => {
            let got = ask(program, &[], &longer.bytes, longer.pace);
            settle(run, &longer, "explain", &want, got)
        }
    }
}

/// Now and then the file of losses can't be read at all: it is missing, it is a
/// folder, or none is named.
fn one_close_out(
    run: &Run,
    program: &str,
    made: &Made,
    book: &Book,
    seed: u64,
    tally: &mut Days,
) -> Result<(), String> {
    let (word, given): (Option<PathBuf>, Option<Vec<u8>>) = match seed % 61 {
        7 => (Some(run.path("no-such-file")), None),
        23 => (Some(run.folder.clone()), None),
        41 => (None, None),
        _ => {
            let losses = losses::make(book, seed);
            (Some(run.put("losses", &losses)?), Some(losses))
        }
    };
    match given.as_ref().map(|bytes| close_out_bytes(book, bytes)) {
        Some(Err(refusal)) => tally.refusals[refusal as usize] += 1,
        Some(Ok(closed)) if !tally.count_closed(book, &closed) => {
            return Err(format!(
                "own close-out: kind {} seed {}",
                made.kind, made.seed
            ));
        }
        _ => {}
    }
    let want = given
        .as_ref()
        .map_or(Vec::new(), |bytes| print::closeouts(&made.bytes, bytes));
    let words: Vec<&Path> = word.as_deref().into_iter().collect();
    let got = ask(program, &words, &made.bytes, made.pace);
    let is_told = |said: &[u8]| said.starts_with(print::CANNOT_READ.as_bytes());
    let told = got.as_ref().map_or(false, |got| is_told(&got.stderr));
    settle(run, made, "closeouts", &want, got)?;
    match told == given.is_some() {
        false => Ok(()),
        true => Err(format!(
            "difference: program closeouts, kind {}, seed {}: standard error is wrong on whether the losses can be read",
            made.kind, made.seed
        )),
    }
}
