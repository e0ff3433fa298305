//! Records as values: with every refusal, and for the writer.

use super::{books, Room};
use crate::make::maker::Maker;
use crate::make::mixed::any_step;
use crate::make::rng::Rng;
use crate::model::calls::Call;
use crate::model::table::{ALLOCATED, CLIENT, CP, MODE, SECURITIES, TRADING};
use crate::model::*;

/// How many steps are tried on one book, and how many books.
const STEPS: usize = 120;
const BOOKS: usize = 60;

/// A book and the bytes of a record that it answers in the way wanted.
pub fn seek(rng: &mut Rng, wanted: impl Fn(&Answer) -> bool) -> Option<(Table, Vec<u8>)> {
    (0..BOOKS).find_map(|_| {
        let table = books::sound(rng);
        seek_on(table.book()?, rng, &|answer, _| wanted(answer))
    })
}

/// A record under a shortfall, with this code and this refusal or 0.
pub fn under_shortfall(code: u8, refusal: u8, rng: &mut Rng) -> Call {
    let found = (0..BOOKS).find_map(|_| {
        let table = books::short(rng);
        seek_on(table.book()?, rng, &|answer, before| {
            answer.code == code && answer.refusal() == refusal && before.deemed(0) > 0
        })
    });
    sought(found)
}

/// K7: a paisa of securities, with nothing free: it costs nothing, or a paisa.
/// A member that is handed over with its mode off may ask for it too.
pub fn a_paisa(sort: u64, costs: bool, mode: u64, rng: &mut Rng) -> Call {
    let mut book = Table::fresh();
    for (sort, tm) in [(TRADING, 0), (CLIENT, 1), (CP, 0)] {
        books::append(&mut book, books::row(sort, 1, tm));
    }
    let place = &mut book.places[sort as usize];
    let securities = 10 * rng.between(1, 9_000) + u64::from(!costs);
    let cash = rng.below(1_000);
    for (word, amount) in [(ALLOCATED, cash), (SECURITIES, securities)] {
        place[word] = amount;
        place[word - KINDS] = amount;
    }
    let own = books::collateral(place, Rule::New);
    place[table::MARGIN] = own + rng.below(2) * rng.below(1_000);
    place[MODE] = mode;
    books::settle(&mut book, Rule::New);
    let mut amounts = [0; 6];
    amounts[3] = 1;
    let record = Values {
        serial: book.serial,
        code: RELEASE,
        mark: 1 << 3,
        account: sort as u16,
        amounts,
    };
    Call::CarryOut(book, record)
}

/// A record with the first code that there isn't.
pub fn code_14(rng: &mut Rng) -> Call {
    let book = books::sound(rng);
    let mut record = good_values(rng);
    (record.code, record.serial) = (LAST_CODE + 1, book.serial);
    Call::CarryOut(book, record)
}

/// The maker aims at the edges of the rules; its records are followed one by
/// one until one is answered as wanted.
fn seek_on(
    book: Book,
    rng: &mut Rng,
    wanted: &impl Fn(&Answer, &Book) -> bool,
) -> Option<(Table, Vec<u8>)> {
    let mut model = book.clone();
    let mut maker = Maker::over(book, rng.next());
    let mut place = 0;
    for _ in 0..STEPS {
        any_step(&mut maker);
        let mut reader = Reader::new(&maker.bytes[place..]);
        loop {
            let start = reader.place();
            let record = match reader.next() {
                Next::Record(record) => record,
                _ => break,
            };
            let before = model.clone();
            if wanted(&carry(&mut model, &record), &before) {
                let bytes = &maker.bytes[place + start..place + reader.place()];
                return Some((Table::of(&before), bytes.to_vec()));
            }
        }
        place += reader.place();
    }
    None
}

fn values_of(bytes: &[u8]) -> Values {
    match Reader::new(bytes).next() {
        Next::Record(record) => record.values(),
        _ => Values::default(),
    }
}

fn sought(found: Option<(Table, Vec<u8>)>) -> Call {
    let (book, bytes) = found.unwrap_or_else(|| (Table::fresh(), Vec::new()));
    Call::CarryOut(book, values_of(&bytes))
}

pub fn refused_with(refusal: u8, rng: &mut Rng) -> Call {
    sought(seek(rng, |answer| answer.refusal() == refusal))
}

pub fn done_with(code: u8, rng: &mut Rng) -> Call {
    sought(seek(rng, |answer| {
        answer.refusal() == 0 && answer.code == code
    }))
}

/// A good record but for an amount that it doesn't name.
pub fn unnamed(rng: &mut Rng) -> Call {
    match sought(seek(rng, |answer| answer.refusal() == 0)) {
        Call::CarryOut(book, mut record) => {
            put_unnamed(&mut record, rng);
            Call::CarryOut(book, record)
        }
        call => call,
    }
}

fn put_unnamed(record: &mut Values, rng: &mut Rng) {
    let free: Vec<usize> = (0..6).filter(|bit| record.mark & (1 << bit) == 0).collect();
    let bit = rng.pick(&free);
    record.amounts[bit] = rng.pick(&[1, CEILING, CEILING + 1, u64::MAX]);
}

/// Any words, most of them near good ones.
pub fn any_values(rng: &mut Rng) -> Values {
    let mut record = good_values(rng);
    match rng.below(6) {
        0 => record.code = rng.byte(),
        1 => record.mark = rng.byte(),
        2 => record.mark ^= 1 << rng.below(8),
        3 => record.amounts[rng.below(6) as usize] = rng.next(),
        4 => record.serial = rng.next() as u16,
        _ => record.account = rng.next() as u16,
    }
    record
}

/// In range for any code, of some account.
pub fn good_values(rng: &mut Rng) -> Values {
    let code = rng.between(1, u64::from(LAST_CODE)) as u8;
    good_of(code, rng)
}

pub fn good_of(code: u8, rng: &mut Rng) -> Values {
    let mark = match code {
        RECEIVE..=RELEASE => rng.between(1, 15) as u8,
        PLEDGE | UNPLEDGE | REVALUE => 1 << PLEDGED,
        SET_MARGIN | REVISE => 1 << MARGIN,
        _ => 0,
    };
    let mut amounts = [0; 6];
    for (bit, amount) in amounts.iter_mut().enumerate() {
        if mark & (1 << bit) != 0 {
            let drawn = rng.between(1, CEILING);
            *amount = rng.pick(&[1, drawn, CEILING]);
        }
    }
    if code >= SET_MARGIN && rng.one_in(3) {
        amounts = [0; 6];
    }
    Values {
        serial: rng.next() as u16,
        code,
        mark,
        account: rng.pick(&[0, 1, 255, 256, 65_535]),
        amounts,
    }
}

/// What the writer is handed.
#[derive(Clone, Copy)]
pub enum Fit {
    Good,
    UnknownCode,
    UnsuitedMark,
    TooLarge,
    Nothing,
    Unnamed,
}

pub const FITS: [Fit; 9] = [
    Fit::Good,
    Fit::Good,
    Fit::Good,
    Fit::Good,
    Fit::UnknownCode,
    Fit::UnsuitedMark,
    Fit::TooLarge,
    Fit::Nothing,
    Fit::Unnamed,
];

pub fn write(fit: Fit, room: Room, rng: &mut Rng) -> Call {
    let record = fitted(fit, rng);
    let room = room.of(length(record.mark));
    Call::Write(record, room)
}

fn fitted(fit: Fit, rng: &mut Rng) -> Values {
    let mut record = good_values(rng);
    let named = |record: &Values| (0..6).find(|bit| record.mark & (1 << bit) != 0);
    match fit {
        Fit::Good => {}
        Fit::UnknownCode => record.code = rng.pick(&[0, 14, 14, 15, 128, 255]),
        Fit::UnsuitedMark => record.mark ^= rng.pick(&[0x30, 0x40, 0x80, 0xC0]),
        Fit::Unnamed => put_unnamed(&mut record, rng),
        Fit::TooLarge | Fit::Nothing => {
            while named(&record).is_none() || record.code >= SET_MARGIN {
                record = good_values(rng);
            }
            let bit = named(&record).unwrap_or(0);
            record.amounts[bit] = match fit {
                Fit::Nothing => 0,
                _ => rng.pick(&[CEILING + 1, 1 << 63, u64::MAX]),
            };
        }
    }
    record
}
