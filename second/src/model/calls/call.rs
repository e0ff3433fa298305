//! One call with its arguments, from its bytes and back.

use super::input::Input;
use crate::model::desk::Position;
use crate::model::*;

#[derive(Clone, PartialEq, Eq, Debug)]
pub enum Call {
    IsSound(Table),
    Standing(Table, u16),
    CarryOut(Table, Values),
    /// Book, piece, place.
    CarryOutNext(Table, Vec<u8>, u64),
    /// Book, piece, stated number.
    Day(Table, Vec<u8>, u64),
    ReadAt(Vec<u8>, u64),
    /// A room is its length alone.
    Write(Values, usize),
    /// Book, losses, room.
    CloseOut(Table, Vec<u64>, usize),
    Needs(Table, usize),
    TakeOver(Table),
    /// Serial, account, initial margin, positions.
    Margin(u16, u16, u64, Vec<Position>),
    Exposure(Vec<i64>),
    /// Serial, account, initial margin, positions, figures.
    MarginWith(u16, u16, u64, Vec<Position>, Vec<i64>),
    /// Figures a client, all clients' figures, room.
    Exposures(u8, Vec<i64>, usize),
    /// Book, the TM's number, statement.
    Statement(Table, u16, Vec<u8>),
    /// Book, room.
    Archive(Table, usize),
    Most(Table, Values),
}

/// Every call by its number.
pub const NAMES: [(u8, &str); 17] = [
    (1, "is_sound"),
    (2, "standing"),
    (3, "carry_out"),
    (4, "carry_out_next"),
    (5, "day"),
    (6, "read_at"),
    (7, "write"),
    (8, "close_out"),
    (9, "needs"),
    (10, "take_over"),
    (11, "margin"),
    (12, "exposure"),
    (13, "margin_with"),
    (14, "exposures"),
    (15, "statement"),
    (16, "archive"),
    (17, "most"),
];

impl Call {
    /// None for what is no call. Calls of later requests get their line here.
    pub fn read(input: &mut Input) -> Option<Call> {
        let call = match input.byte()? {
            1 => Call::IsSound(input.book()?),
            2 => Call::Standing(input.book()?, input.short()?),
            3 => Call::CarryOut(input.book()?, input.record()?),
            4 => Call::CarryOutNext(input.book()?, input.piece()?, input.long()?),
            5 => Call::Day(input.book()?, input.piece()?, input.long()?),
            6 => Call::ReadAt(input.piece()?, input.long()?),
            7 => Call::Write(input.record()?, input.room()?),
            8 => Call::CloseOut(input.book()?, input.list()?, input.room()?),
            9 => Call::Needs(input.book()?, input.room()?),
            10 => Call::TakeOver(input.book()?),
            11 => {
                let (serial, account) = (input.short()?, input.short()?);
                Call::Margin(serial, account, input.long()?, input.positions()?)
            }
            12 => Call::Exposure(input.figures()?),
            13 => {
                let (serial, account, initial) = (input.short()?, input.short()?, input.long()?);
                let positions = input.positions()?;
                Call::MarginWith(serial, account, initial, positions, input.figures()?)
            }
            14 => Call::Exposures(input.figures_each()?, input.signed_list()?, input.room()?),
            15 => Call::Statement(input.book()?, input.short()?, input.piece()?),
            16 => Call::Archive(input.book()?, input.room()?),
            17 => Call::Most(input.book()?, input.record()?),
            _ => return None,
        };
        Some(call)
    }

    pub fn is_known(byte: u8) -> bool {
        NAMES.iter().any(|&(number, _)| number == byte)
    }

    /// The byte that stands for it.
    pub fn number(&self) -> u8 {
        match self {
            Call::IsSound(..) => 1,
            Call::Standing(..) => 2,
            Call::CarryOut(..) => 3,
            Call::CarryOutNext(..) => 4,
            Call::Day(..) => 5,
            Call::ReadAt(..) => 6,
            Call::Write(..) => 7,
            Call::CloseOut(..) => 8,
            Call::Needs(..) => 9,
            Call::TakeOver(..) => 10,
            Call::Margin(..) => 11,
            Call::Exposure(..) => 12,
            Call::MarginWith(..) => 13,
            Call::Exposures(..) => 14,
            Call::Statement(..) => 15,
            Call::Archive(..) => 16,
            Call::Most(..) => 17,
        }
    }

    pub fn name(&self) -> &'static str {
        let own = self.number();
        let named = NAMES.iter().find(|&&(number, _)| number == own);
        named.map_or("no call", |&(_, name)| name)
    }

    /// The rule that judges its book.
    pub fn rule(&self) -> Rule {
        match self {
            Call::TakeOver(_) => Rule::Old,
            _ => Rule::New,
        }
    }

    pub fn book(&self) -> Option<&Table> {
        match self {
            Call::IsSound(book) | Call::Standing(book, _) | Call::CarryOut(book, _) => Some(book),
            Call::CarryOutNext(book, _, _) | Call::Day(book, _, _) => Some(book),
            Call::CloseOut(book, _, _) | Call::Needs(book, _) => Some(book),
            Call::TakeOver(book) | Call::Archive(book, _) => Some(book),
            Call::Statement(book, _, _) | Call::Most(book, _) => Some(book),
            Call::ReadAt(..) | Call::Write(..) | Call::Margin(..) => None,
            Call::Exposure(..) | Call::MarginWith(..) | Call::Exposures(..) => None,
        }
    }

    pub fn lay(&self, out: &mut Vec<u8>) {
        let book = self.book().map(bookfile::bytes);
        self.lay_over(out, book.as_deref().unwrap_or(&[]));
    }

    /// With these bytes for its book, whatever they are.
    pub fn lay_over(&self, out: &mut Vec<u8>, book: &[u8]) {
        out.push(self.number());
        out.extend_from_slice(book);
        match self {
            Call::IsSound(_) | Call::TakeOver(_) => {}
            Call::Standing(_, account) => out.extend_from_slice(&account.to_be_bytes()),
            Call::CarryOut(_, record) | Call::Most(_, record) => lay_record(out, record),
            Call::CarryOutNext(_, piece, number)
            | Call::Day(_, piece, number)
            | Call::ReadAt(piece, number) => {
                lay_length(out, piece.len());
                out.extend_from_slice(piece);
                out.extend_from_slice(&number.to_be_bytes());
            }
            Call::Write(record, room) => {
                lay_record(out, record);
                lay_length(out, *room);
            }
            Call::CloseOut(_, losses, room) => {
                lay_length(out, losses.len());
                for loss in losses {
                    out.extend_from_slice(&loss.to_be_bytes());
                }
                lay_length(out, *room);
            }
            Call::Needs(_, room) | Call::Archive(_, room) => lay_length(out, *room),
            Call::Statement(_, tm, statement) => {
                out.extend_from_slice(&tm.to_be_bytes());
                lay_length(out, statement.len());
                out.extend_from_slice(statement);
            }
            _ => self.lay_desk(out),
        }
    }

    /// The currency desk's, which take no book.
    fn lay_desk(&self, out: &mut Vec<u8>) {
        match self {
            Call::Margin(serial, account, initial, positions) => {
                lay_margin(out, [*serial, *account], *initial, positions);
            }
            Call::Exposure(figures) => lay_signed(out, figures),
            Call::MarginWith(serial, account, initial, positions, figures) => {
                lay_margin(out, [*serial, *account], *initial, positions);
                lay_signed(out, figures);
            }
            Call::Exposures(each, figures, room) => {
                out.push(*each);
                lay_signed(out, figures);
                lay_length(out, *room);
            }
            _ => {}
        }
    }
}

fn lay_length(out: &mut Vec<u8>, length: usize) {
    out.extend_from_slice(&(length as u32).to_be_bytes());
}

/// "Two's complement numbers of 8."
fn lay_signed(out: &mut Vec<u8>, figures: &[i64]) {
    lay_length(out, figures.len());
    for figure in figures {
        out.extend_from_slice(&figure.to_be_bytes());
    }
}

fn lay_margin(out: &mut Vec<u8>, names: [u16; 2], initial: u64, positions: &[Position]) {
    for name in names {
        out.extend_from_slice(&name.to_be_bytes());
    }
    out.extend_from_slice(&initial.to_be_bytes());
    lay_length(out, positions.len());
    for position in positions {
        out.extend_from_slice(&[position.product, position.side as u8]);
        out.extend_from_slice(&position.notional.to_be_bytes());
    }
}

/// "Serial 2, code 1, second mark byte 1, account 2, six amounts 8 each."
fn lay_record(out: &mut Vec<u8>, record: &Values) {
    out.extend_from_slice(&record.serial.to_be_bytes());
    out.extend_from_slice(&[record.code, record.mark]);
    out.extend_from_slice(&record.account.to_be_bytes());
    for amount in record.amounts {
        out.extend_from_slice(&amount.to_be_bytes());
    }
}
