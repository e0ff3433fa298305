//! What made-up calls aim at: each aim makes a call.

use super::numbers::Gaps;
use super::{archives, books, breaches, desk, figures, given, lists, most, overs, pieces, records};
use super::{statements, Fault, Room, Rule};
use crate::kinds::most::Kind;
use crate::make::rng::Rng;
use crate::model::calls::Call;
use crate::model::table::{CLIENT, CM, CP, TRADING};
use crate::model::*;

pub type Aim = Box<dyn Fn(&mut Rng) -> Call>;

#[derive(Default)]
struct Aims(Vec<Aim>);

impl Aims {
    /// An aim for each of these.
    fn each<T: Copy + 'static>(
        &mut self,
        all: impl IntoIterator<Item = T>,
        call: fn(T, &mut Rng) -> Call,
    ) {
        self.0.extend(
            all.into_iter()
                .map(|one| -> Aim { Box::new(move |rng| call(one, rng)) }),
        );
    }

    /// The same aim so many times.
    fn times(&mut self, many: usize, call: fn(&mut Rng) -> Call) {
        self.0.extend((0..many).map(|_| -> Aim { Box::new(call) }));
    }

    /// An aim for each pair.
    fn pairs<T, U>(&mut self, ones: &[T], others: &[U], call: fn(T, U, &mut Rng) -> Call)
    where
        T: Copy + 'static,
        U: Copy + 'static,
    {
        for &one in ones {
            let others = others
                .iter()
                .map(|&other| -> Aim { Box::new(move |rng| call(one, other, rng)) });
            self.0.extend(others);
        }
    }
}

/// The refusals of a record that is handed over as values, and 0.
const REFUSALS: [u8; 14] = [0, 3, 4, 5, 6, 7, 8, 9, 10, 11, 12, 13, 14, 17];

/// Code and refusal under a shortfall.
const UNDER: [(u8, u8); 12] = [
    (SET_MARGIN, 13),
    (SET_MARGIN, 0),
    (RELEASE, 0),
    (RELEASE, 12),
    (RELEASE, 17),
    (UNPLEDGE, 0),
    (UNPLEDGE, 12),
    (UNPLEDGE, 17),
    (REVALUE, 0),
    (REVISE, 0),
    (ALLOCATE, 0),
    (PLEDGE, 0),
];

pub fn round() -> Vec<Aim> {
    let mut aims = Aims::default();
    aims.each(overs::OVERS, |over, rng| {
        Call::TakeOver(overs::book(over, rng))
    });
    aims.each(Fault::all(Rule::Old), |fault, rng| {
        Call::TakeOver(breaches::with(fault, Rule::Old, rng))
    });
    aims.each(pieces::Spot::ALL, pieces::read_at);
    aims.each([0, 0, 0, 0, 2, 4, 5, 6], pieces::read);
    aims.pairs(&records::FITS, &Room::ALL, records::write);
    of_books(&mut aims);
    of_records(&mut aims);
    of_numbers(&mut aims);
    aims.each(desk::Case::all(), desk::Case::call);
    aims.each(figures::Case::all(), figures::Case::call);
    aims.each(statements::Case::all(), statements::Case::call);
    aims.each(Kind::all(), most::call);
    let edges: Vec<Kind> = Kind::all().into_iter().filter(Kind::is_edge).collect();
    aims.pairs(&edges, &[0, 1], most::at_edge);
    aims.each(Fault::all(Rule::New), most::of_unsound);
    aims.0
}

/// Books that are sound or not, asked whether they are and by other calls.
fn of_books(aims: &mut Aims) {
    aims.each(Fault::all(Rule::New), |fault, rng| {
        Call::IsSound(breaches::with(fault, Rule::New, rng))
    });
    aims.each(Fault::all(Rule::New), |fault, rng| {
        asked_elsewhere(breaches::with(fault, Rule::New, rng), rng)
    });
    aims.times(8, |rng| {
        asked_anyhow(breaches::with_several(Rule::New, rng), rng)
    });
    aims.times(8, |rng| asked_anyhow(books::garbage(rng), rng));
    // A sound book with one word put anew; it may be sound still.
    aims.times(48, |rng| {
        asked_anyhow(books::one_word_anew(Rule::New, rng), rng)
    });
    aims.times(12, |rng| Call::IsSound(books::sound(rng)));
    aims.times(1, |rng| Call::IsSound(books::with_serial(u16::MAX, rng)));
    aims.each(overs::OVERS, |over, rng| {
        Call::IsSound(overs::book(over, rng))
    });
    aims.each(overs::OVERS, |over, rng| {
        asked_elsewhere(overs::book(over, rng), rng)
    });
    aims.each(lists::WHO, lists::standing);
    aims.each([0, 1], |by, rng| Call::IsSound(books::short_by(by, rng)));
    aims.times(4, lists::standing_short);
    aims.pairs(&lists::LOSSES, &lists::LENGTHS, lists::close_out);
    aims.each([lists::LENGTHS, lists::LENGTHS].concat(), lists::needs);
}

fn of_records(aims: &mut Aims) {
    for _ in 0..2 {
        aims.each(REFUSALS, records::refused_with);
        aims.each(REFUSALS, pieces::next_with);
        aims.each(1..=LAST_CODE, records::done_with);
    }
    aims.times(3, records::unnamed);
    aims.times(12, |rng| any_record(books::sound(rng), rng));
    aims.each(UNDER, |(code, refusal), rng| {
        records::under_shortfall(code, refusal, rng)
    });
    aims.times(1, records::code_14);
    // A paisa of securities with nothing free: sort, mode, and whether it costs one.
    let paise = [
        (CM, 0),
        (TRADING, 0),
        (CLIENT, 0),
        (CP, 0),
        (CM, 1),
        (TRADING, 1),
    ];
    aims.pairs(&paise, &[true, false], |(sort, mode), costs, rng| {
        records::a_paisa(sort, costs, mode, rng)
    });
    aims.each(pieces::Spot::ALL, pieces::next_at);
    aims.pairs(&pieces::Day::ALL, &pieces::Number::ALL, pieces::day);
}

/// K11: archives, and numbers that were given and are missing.
fn of_numbers(aims: &mut Aims) {
    let mut gaps = Gaps::ALL.into_iter().cycle();
    for retired in archives::Retired::ALL {
        let rooms = Room::ALL.into_iter().zip(&mut gaps);
        aims.each(
            rooms.map(|(room, gaps)| (retired, room, gaps)),
            |(retired, room, gaps), rng| archives::call(retired, room, gaps, rng),
        );
    }
    aims.each(Gaps::ALL, |gaps, rng| {
        Call::IsSound(archives::with_gaps(gaps, rng))
    });
    aims.each(Gaps::ALL, given::openings);
    aims.pairs(&given::By::ALL, &Gaps::ALL, given::over);
    // An opening by this code, and whether all rows are held.
    let openings = [
        (OPEN_TM, false),
        (OPEN_CLIENT, false),
        (OPEN_CP, false),
        (OPEN_CP, true),
    ];
    aims.pairs(&openings, &Gaps::ALL, |(code, is_full), gaps, rng| {
        given::opening(code, gaps, is_full, rng)
    });
    aims.each([Gaps::Nowhere, Gaps::Everywhere], |gaps, rng| {
        Call::IsSound(archives::with_retired(archives::Retired::OfFull, gaps, rng))
    });
    aims.each(1..=LAST_CODE, given::of_archived);
    aims.each(Fault::all(Rule::New), |fault, rng| {
        archives::of_unsound(breaches::with(fault, Rule::New, rng), rng)
    });
}

fn asked_anyhow(book: Table, rng: &mut Rng) -> Call {
    match rng.one_in(2) {
        true => Call::IsSound(book),
        false => asked_elsewhere(book, rng),
    }
}

/// Mostly with the serial that the book waits for.
fn any_record(book: Table, rng: &mut Rng) -> Call {
    let mut record = records::any_values(rng);
    if !rng.one_in(6) {
        record.serial = book.serial;
    }
    Call::CarryOut(book, record)
}

/// By one of the other calls that take a book, with arguments that would do
/// for a sound one, or wouldn't.
fn asked_elsewhere(book: Table, rng: &mut Rng) -> Call {
    let (held, piece) = (book.held(), pieces::some_piece(rng));
    match rng.below(9) {
        0 => {
            let account = rng.near(u64::from(book.count)) as u16;
            Call::Standing(book, account)
        }
        1 => any_record(book, rng),
        2 => {
            let place = rng.pick(&[0, 0, 6, piece.len() as u64, u64::MAX]);
            Call::CarryOutNext(book, piece, place)
        }
        3 => Call::Day(book, piece, rng.pick(&[0, 1, 9, u64::MAX])),
        4 => Call::CloseOut(book, vec![0; held], 4 * held),
        5 => Call::Needs(book, held),
        6 => Call::Archive(book, rng.pick(&[0, 2, 3 * held])),
        7 => Call::Statement(book, rng.below(9) as u16, piece),
        _ => Call::Most(book, records::any_values(rng)),
    }
}
