//! Of which kinds it is what `most` is asked.

use super::*;
use crate::model::most::{most, Asked};
use crate::model::*;

/// The kind of a mark that gives 5.
fn mark_of(code: u8, mark: u8) -> Option<Mark> {
    let suiting = bits(code).filter(|&bit| mark & (1 << bit) != 0).count();
    match mark.count_ones() {
        0 => Some(Mark::Nothing),
        1 => Some(Mark::Bit(mark.trailing_zeros() as u8)),
        8 => Some(Mark::All),
        _ if mark < 16 => Some(Mark::Kinds),
        2 if suiting == 1 => Some(Mark::Beside),
        _ => None,
    }
}

/// All that this is.
pub fn kinds(table: &Table, record: &Values) -> Vec<Kind> {
    match (table.book(), Asked::of(record)) {
        (None, asked) => vec![Kind::Unsound(
            asked.err().map_or(0, |refusal| refusal as u8),
        )],
        (Some(book), Ok(asked)) => of_amount(&book, record, &asked),
        (Some(book), Err(_)) if !CODES.contains(&record.code) => of_strange(&book, record),
        (Some(_), Err(_)) => mark_of(record.code, record.mark)
            .map(|mark| Kind::Mark(record.code, mark))
            .into_iter()
            .collect(),
    }
}

fn of_strange(book: &Book, record: &Values) -> Vec<Kind> {
    let mut kinds = Vec::new();
    if STRANGE.contains(&record.code) {
        kinds.push(Kind::Code(record.code));
    }
    let next = Values {
        serial: book.serial,
        amounts: [0; 6],
        ..*record
    };
    if !matches!(
        carry_values(&mut book.clone(), &next).outcome,
        Outcome::Refused(_)
    ) {
        kinds.push(Kind::Carried(record.code));
    }
    kinds
}

fn of_amount(book: &Book, record: &Values, asked: &Asked) -> Vec<Kind> {
    let code = record.code;
    let place = match book.live_place(record.account) {
        Some(place) => place,
        None => return vec![Kind::Gone(code, gone(book, record.account))],
    };
    let sort = book.rows[place].sort;
    let amount = match most(book, record) {
        Ok(amount) => amount,
        Err(refusal) => {
            let mut kinds = vec![Kind::Nothing(code, refusal as u8)];
            if book.keeps_in(place) {
                kinds.push(Kind::InMode(sort, code, refusal as u8));
            }
            return kinds;
        }
    };
    let mut kinds = vec![Kind::Of(sort, code)];
    kinds.extend(of_words(book, record, place));
    if amount == CEILING {
        kinds.push(Kind::Ceiling(code));
        kinds.extend(room(book, code, place));
        return kinds;
    }
    let refusal = asked.tried(book, amount + 1).err();
    let refusal = refusal.map_or(0, |refusal| refusal as u8);
    kinds.push(Kind::Stands(code, stand(asked, amount), refusal));
    kinds.push(Kind::Bit(code, asked.bit, refusal));
    match code {
        SET_MARGIN => kinds.extend(of_margin(book, place, amount)),
        RELEASE | UNPLEDGE => kinds.extend(of_taking_out(book, place, asked, amount)),
        _ => {}
    }
    kinds
}

fn gone(book: &Book, account: u16) -> Gone {
    match book.place_of(account) {
        Some(_) => Gone::Retired,
        None if u32::from(account) < book.numbers.next => Gone::Archived,
        None => Gone::NeverGiven,
    }
}

fn stand(asked: &Asked, amount: u64) -> Stand {
    match amount {
        _ if amount == asked.least() => Stand::Least,
        _ if amount + 1 == CEILING => Stand::UnderCeiling,
        _ => Stand::Between,
    }
}

/// By the record's words and by the book, where there is an amount.
fn of_words(book: &Book, record: &Values, place: usize) -> Vec<Kind> {
    let named = record.amounts[record.mark.trailing_zeros() as usize];
    let others: Vec<u64> = (0..6)
        .filter(|bit| record.mark & (1 << bit) == 0)
        .map(|bit| record.amounts[bit])
        .collect();
    let is = [
        record.serial == book.serial,
        record.serial != book.serial,
        named == 0,
        (1..=CEILING).contains(&named),
        named > CEILING,
        others == [0; 5],
        others.iter().any(|&amount| amount > CEILING),
    ];
    let unseen = Unseen::ALL.into_iter().zip(is).filter(|(_, is)| *is);
    let mut kinds: Vec<Kind> = unseen.map(|(unseen, _)| Kind::Unseen(unseen)).collect();
    if usize::from(record.account) != place {
        kinds.push(Kind::Elsewhere);
    }
    if book.deemed(0) > 0 {
        kinds.push(Kind::Short(record.code));
    }
    let above = book.answers_for(place);
    let is_under = book.rows[place].sort == Sort::Client && book.modes[above] == Mode::On;
    if is_under && record.code == RELEASE {
        kinds.push(Kind::UnderMode);
    }
    kinds
}

/// Of a margin that may rise to the ceiling.
fn room(book: &Book, code: u8, place: usize) -> Option<Kind> {
    let rises = code == SET_MARGIN && book.rows[place].margin < CEILING;
    let (need, own) = (book.cm_need_with(place, CEILING), book.collateral(0));
    match need {
        _ if !rises => None,
        _ if need == own => Some(Kind::RoomEnds),
        _ => Some(Kind::RoomGoesOn),
    }
}

fn of_margin(book: &Book, place: usize, amount: u64) -> Option<Kind> {
    let (sort, above) = (book.rows[place].sort, book.answers_for(place));
    let free = |account: usize| book.free(account) > 0;
    let own = free(place);
    if book.deemed(0) > 0 {
        let is_present = 0 < amount && amount == book.rows[place].margin;
        return (is_present && (own || place == 0)).then_some(Kind::ShortMargin(sort));
    }
    let frees = match sort {
        Sort::Cm => [false, false, own],
        Sort::Tm => [false, own, free(0)],
        Sort::Client => [own, free(above), free(0)],
        _ => [own, false, free(0)],
    };
    Some(Kind::Margin(sort, frees))
}

/// Of less than the ceiling.
fn of_taking_out(book: &Book, place: usize, asked: &Asked, amount: u64) -> Vec<Kind> {
    let row = &book.rows[place];
    let mut left = *row;
    match asked.code {
        RELEASE => left.allocated[asked.bit] -= amount,
        _ => left.pledged -= amount,
    }
    let mut kinds = Vec::new();
    let (blocked, refusal) = (book.blocked(place), asked.tried(book, amount + 1));
    let is_all = refusal == Err(Refusal::MoreThanThere);
    if is_all && blocked > 0 && left.collateral() == blocked {
        kinds.push(Kind::Tied(asked.code));
    }
    if !is_all && asked.code == RELEASE && asked.bit == SECURITIES {
        kinds.push(Kind::Tenth(left.allocated[SECURITIES] % 10));
        if amount == 1 && left.collateral() == row.collateral() {
            kinds.push(Kind::ForNothing(row.sort));
        }
    }
    kinds
}
