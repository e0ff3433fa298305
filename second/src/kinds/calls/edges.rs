//! The edges of arguments that made-up calls have met, by call.

use crate::model::calls::{Call, LIST_MOST};
use crate::model::table::{ALLOCATED, LIVE, MARGIN, MODE, PLEDGED, RECEIVED};
use crate::model::*;
use crate::tally::names;

/// The edges of arguments that every run must have, by call.
pub const EDGES: [(&str, &str); 14] = [
    ("carry_out_next", PLACES),
    ("read_at", PLACES),
    ("day", NUMBERS),
    ("write", ROOMS),
    ("close_out", ROOMS),
    ("needs", ROOMS),
    ("is_sound", BOOKS),
    ("is_sound", RULES),
    ("take_over", RULES),
    ("take_over", TAKEN_OVER),
    ("standing", STANDINGS),
    ("close_out", LOSSES),
    ("carry_out", RECORDS),
    ("carry_out", PAISE),
];

const PLACES: &str = "place 0|place inside|place at the end|place past the end|largest place";
const NUMBERS: &str = "\
number 0|number 1|too small a number|exact number|too large a number|largest number";
const ROOMS: &str = "right room|room one less|room one more|no room|most room";
/// Of sound books alone.
const BOOKS: &str = "\
one account|256 accounts|an amount at the ceiling|a retired account|a mode on|serial 65535|\
covered to the paisa|a shortfall of a paisa";

/// How the two rules judge one book.
const RULES: &str = "sound by both rules|sound by the old rule alone|sound by the new rule alone";
/// Of books that are sound by the old rule.
const TAKEN_OVER: &str = "\
kept needs that move|kept needs that stay|a mode on|covered by the new rule to the paisa|\
a paisa short by the new rule|a retired account";
const STANDINGS: &str = "\
the CM's with a shortfall|the CM's without one|another's under a shortfall";
/// Of sound books, with losses that are not refused.
const LOSSES: &str = "\
under a shortfall|all at the margins under a shortfall|all at the margins without one";
/// Under a shortfall, by code and outcome.
const RECORDS: &str = "\
under a shortfall, a margin: 13|under a shortfall, a margin: 0|under a shortfall, a release: 0|\
under a shortfall, a release: 12|under a shortfall, a release: 17|under a shortfall, a value: 0|\
under a shortfall, a revision: 0|code 14: 4";

/// A paisa of securities with nothing free, by sort and by what it costs.
const PAISE: &str = "\
the CM's for nothing: 0|a TM's for nothing: 0|a client's for nothing: 0|a CP's for nothing: 0|\
the CM's for a paisa: 12|a TM's for a paisa: 12|a client's for a paisa: 12|a CP's for a paisa: 12|\
the CM's in the mode for nothing: 17|a TM's in the mode for nothing: 17|\
the CM's in the mode for a paisa: 17|a TM's in the mode for a paisa: 17";

pub fn of_call(call: &Call, word: &str) -> Vec<&'static str> {
    match call {
        Call::CarryOutNext(_, piece, place) | Call::ReadAt(piece, place) => {
            place_edges(piece.len() as u64, *place)
        }
        Call::Day(_, piece, number) => number_edges(records(piece), *number),
        Call::Write(record, room) => room_edges(length(record.mark), *room),
        Call::CloseOut(book, losses, room) => {
            let of_losses = if word == "0" {
                loss_edges(book, losses)
            } else {
                Vec::new()
            };
            [room_edges(4 * book.held(), *room), of_losses].concat()
        }
        Call::Standing(book, account) if word == "0" => standing_edges(book, *account),
        Call::CarryOut(book, record) => {
            let paise = paisa_edge(book, record, word).into_iter();
            record_edges(book, record, word)
                .into_iter()
                .chain(paise)
                .collect()
        }
        Call::Needs(book, room) => room_edges(book.held(), *room),
        Call::IsSound(book) if book.is_sound() => [book_edges(book), rule_edges(book)].concat(),
        Call::IsSound(book) => rule_edges(book),
        Call::TakeOver(book) => [rule_edges(book), over_edges(book)].concat(),
        _ => Vec::new(),
    }
}

fn rule_edges(book: &Table) -> Vec<&'static str> {
    let (old, new) = (book.is_sound_by(Rule::Old), book.is_sound());
    chosen(RULES, &[old && new, old && !new, new && !old])
}

fn over_edges(book: &Table) -> Vec<&'static str> {
    if !book.is_sound_by(Rule::Old) {
        return Vec::new();
    }
    let held = &book.places[..book.held()];
    let is_settled = book.settled(Rule::New) == *book;
    let is = [
        !is_settled,
        is_settled,
        held.iter().any(|place| place[MODE] == 1),
        is_just_covered(book),
        book.shortfall() == 1,
        held.iter().any(|place| place[LIVE] == 0),
    ];
    chosen(TAKEN_OVER, &is)
}

/// A paisa more of margin would be one of shortfall.
fn is_just_covered(book: &Table) -> bool {
    let mut more = book.clone();
    more.places[0][MARGIN] += 1;
    book.shortfall() == 0 && more.shortfall() == 1
}

fn standing_edges(book: &Table, account: u16) -> Vec<&'static str> {
    let (is_cm, is_short) = (account == 0, book.shortfall() > 0);
    chosen(
        STANDINGS,
        &[is_cm && is_short, is_cm && !is_short, !is_cm && is_short],
    )
}

fn loss_edges(book: &Table, losses: &[u64]) -> Vec<&'static str> {
    let held = &book.places[..book.held()];
    let mut each = held.iter().zip(losses);
    let at_margins = each.all(|(place, &loss)| place[MARGIN] == loss);
    let is_short = book.shortfall() > 0;
    chosen(
        LOSSES,
        &[is_short, is_short && at_margins, !is_short && at_margins],
    )
}

/// 12 in the form of K7: what is left against what was blocked.
fn paisa_edge(book: &Table, record: &Values, word: &str) -> Option<&'static str> {
    let book = book.book()?;
    let account = book.live_place(record.account)?;
    let is_paisa = record.code == RELEASE && record.amounts == [0, 0, 0, 1, 0, 0];
    let mut left = book.rows[account];
    left.allocated[3] = left.allocated[3].checked_sub(1).filter(|_| is_paisa)?;
    let collateral = book.collateral(account);
    if book.free(account) > 0 || collateral == 0 {
        return None;
    }
    let costs = usize::from(left.collateral() < collateral);
    let own = book.rows[account].sort;
    let sort = Sort::HELD.iter().position(|&sort| sort == own)?;
    let place = match word {
        "0" if costs == 0 => sort,
        "12" if costs == 1 => 4 + sort,
        "17" => 8 + 2 * costs + sort,
        _ => return None,
    };
    names(PAISE).nth(place)
}

fn record_edges(book: &Table, record: &Values, word: &str) -> Vec<&'static str> {
    let is = |code: u8, outcome: &str| record.code == code && word == outcome;
    let is_short = book.shortfall() > 0;
    let under = |code: u8, outcome: &str| is_short && is(code, outcome);
    let is = [
        under(SET_MARGIN, "13"),
        under(SET_MARGIN, "0"),
        under(RELEASE, "0"),
        under(RELEASE, "12"),
        under(RELEASE, "17"),
        under(REVALUE, "0"),
        under(REVISE, "0"),
        is(LAST_CODE + 1, "4"),
    ];
    chosen(RECORDS, &is)
}

fn place_edges(length: u64, place: u64) -> Vec<&'static str> {
    let largest = place == u64::MAX;
    let is = [
        place == 0 && length > 0,
        (1..length).contains(&place),
        place == length,
        place > length && !largest,
        largest,
    ];
    chosen(PLACES, &is)
}

fn records(piece: &[u8]) -> u64 {
    let mut reader = Reader::new(piece);
    let mut many = 0;
    while let Next::Record(_) = reader.next() {
        many += 1;
    }
    many
}

fn number_edges(records: u64, number: u64) -> Vec<&'static str> {
    let is = [
        number == 0,
        number == 1,
        number < records,
        number == records && records > 0,
        number > records && number < u64::MAX,
        number == u64::MAX,
    ];
    chosen(NUMBERS, &is)
}

fn room_edges(wanted: usize, room: usize) -> Vec<&'static str> {
    let is = [
        room == wanted,
        room + 1 == wanted,
        room == wanted + 1,
        room == 0,
        room == LIST_MOST,
    ];
    chosen(ROOMS, &is)
}

fn book_edges(book: &Table) -> Vec<&'static str> {
    let held = &book.places[..book.held()];
    let amounts = RECEIVED..=PLEDGED;
    let is = [
        book.count == 1,
        book.count == 256,
        held.iter()
            .any(|place| amounts.clone().any(|word| place[word] == CEILING)),
        held.iter().any(|place| place[LIVE] == 0),
        held.iter()
            .any(|place| place[MODE] == 1 && place[ALLOCATED] > 0),
        book.serial == u16::MAX,
        is_just_covered(book),
        book.shortfall() == 1,
    ];
    chosen(BOOKS, &is)
}

pub fn chosen(list: &'static str, is: &[bool]) -> Vec<&'static str> {
    let named = names(list).zip(is).filter(|(_, is)| **is);
    named.map(|(name, _)| name).collect()
}
