//! What the programs print. Every line ends with a newline. An account is told
//! by its number, accounts stand in the order of their rows.

use crate::model::day::run;
use crate::model::losses::{by_rows, Loss};
use crate::model::*;

/// How the line begins that stands on standard error in place of the output.
pub const CANNOT_READ: &str = "closeouts: cannot read the file of losses";

/// Room for seven of the longest numbers, each with a space or the newline.
const LINE: usize = 7 * 21;

/// A line of up to seven numbers, laid down from its end: a day may print five
/// million numbers, and this way each line is copied once.
fn push_numbers(out: &mut Vec<u8>, numbers: &[u64]) {
    let mut line = [b' '; LINE];
    let mut at = LINE - 1;
    line[at] = b'\n';
    for (place, &number) in numbers.iter().enumerate().rev() {
        let mut left = number;
        loop {
            at -= 1;
            line[at] = b'0' + (left % 10) as u8;
            left /= 10;
            if left == 0 {
                break;
            }
        }
        at -= usize::from(place > 0);
    }
    out.extend_from_slice(&line[at..]);
}

fn answer_numbers(answer: &Answer) -> [u64; 5] {
    [
        u64::from(answer.serial),
        u64::from(answer.code),
        u64::from(answer.account),
        u64::from(answer.refusal()),
        u64::from(answer.opened()),
    ]
}

pub fn push_answer(out: &mut Vec<u8>, answer: &Answer) {
    push_numbers(out, &answer_numbers(answer));
}

/// The same with two numbers more.
pub fn push_explained(out: &mut Vec<u8>, answer: &Answer, more: [u64; 2]) {
    let [serial, code, account, refusal, opened] = answer_numbers(answer);
    let [first, second] = more;
    push_numbers(
        out,
        &[serial, code, account, refusal, opened, first, second],
    );
}

pub fn push_closing(out: &mut Vec<u8>, day: &Day) {
    let word: &[u8] = match day.closing {
        Closing::End => b"end ",
        Closing::Cut => b"cut ",
        Closing::Long => b"long ",
    };
    out.extend_from_slice(word);
    push_numbers(out, &[day.read as u64, day.carried as u64]);
}

/// The closing line over a book that isn't sound, and all there is of it.
pub const UNSOUND: &[u8] = b"1 0 0\n";
/// What `closeouts` prints after it.
pub const UNSOUND_CLOSE_OUT: &[u8] = b"refused 1\n";

/// The lines of `day` without the closing line; `each` may look at every
/// answer besides.
fn day_lines(
    mut book: Book,
    piece: &[u8],
    mut each: impl FnMut(&Answer, &Book),
) -> (Vec<u8>, Book, Day) {
    let mut out = Vec::with_capacity(piece.len() + 64);
    let day = run(&mut book, piece, MILLION, |answer, book| {
        push_answer(&mut out, answer);
        each(answer, book);
    });
    (out, book, day)
}

/// Lines and closing line apart: the book is kept between them.
pub fn day_parts(
    book: Book,
    piece: &[u8],
    each: impl FnMut(&Answer, &Book),
) -> (Vec<u8>, Vec<u8>, Book) {
    let (lines, book, day) = day_lines(book, piece, each);
    let mut closing = Vec::new();
    push_closing(&mut closing, &day);
    (lines, closing, book)
}

/// The output of `day` over a fresh book.
pub fn day_seen(piece: &[u8], each: impl FnMut(&Answer, &Book)) -> (Vec<u8>, Book, Day) {
    let (mut out, book, day) = day_lines(Book::fresh(), piece, each);
    push_closing(&mut out, &day);
    (out, book, day)
}

pub fn day(piece: &[u8]) -> Vec<u8> {
    day_seen(piece, |_, _| {}).0
}

pub fn sort_word(sort: Sort) -> &'static str {
    match sort {
        Sort::Cm => "cm",
        Sort::Tm => "tm",
        Sort::Client => "client",
        Sort::Cp => "cp",
        Sort::Unused => "unused",
    }
}

/// Number, sort, state and TM.
pub fn account_words(book: &Book, account: usize) -> String {
    let row = &book.rows[account];
    let (sort, tm) = (sort_word(row.sort), book.tm_number(account));
    let number = book.number(account);
    let state = if row.live { "live" } else { "retired" };
    format!("{number} {sort} {state} {tm}")
}

fn push_standing(out: &mut Vec<u8>, book: &Book, account: usize, standing: &Standing) {
    let account = account_words(book, account);
    let Standing {
        collateral,
        need,
        blocked,
        deemed,
        free,
        mode,
        shortfall,
    } = *standing;
    let mode = mode.word();
    let figures = format!("{collateral} {need} {blocked} {deemed} {free} {mode} {shortfall}");
    out.extend_from_slice(format!("{account} {figures}\n").as_bytes());
}

/// The lines of `standings` without the closing line.
pub fn standing_lines(book: &Book) -> Vec<u8> {
    let mut out = Vec::new();
    for (account, standing) in book.standings().iter().enumerate() {
        push_standing(&mut out, book, account, standing);
    }
    out
}

/// The closing line after a day over this book, and the book then.
pub fn closed(mut book: Book, piece: &[u8]) -> (Vec<u8>, Book) {
    let day = run(&mut book, piece, MILLION, |_, _| {});
    let mut out = Vec::new();
    push_closing(&mut out, &day);
    (out, book)
}

/// The output of `standings`.
pub fn standings_over(book: Book, piece: &[u8]) -> Vec<u8> {
    let (mut out, book) = closed(book, piece);
    out.extend(standing_lines(&book));
    out
}

pub fn standings(piece: &[u8]) -> Vec<u8> {
    standings_over(Book::fresh(), piece)
}

/// The output of `needs`.
pub fn needs_over(book: Book, piece: &[u8]) -> Vec<u8> {
    let (mut out, book) = closed(book, piece);
    for (account, need) in book.all_needs().into_iter().enumerate() {
        push_numbers(&mut out, &[u64::from(book.number(account)), need]);
    }
    out
}

pub fn needs(piece: &[u8]) -> Vec<u8> {
    needs_over(Book::fresh(), piece)
}

/// The output of `closeouts`, once the file of losses is read.
pub fn closeouts_over(book: Book, piece: &[u8], losses: &[u8]) -> Vec<u8> {
    closed_out(book, piece, |book| close_out_bytes(book, losses))
}

/// The same with losses by account's number.
pub fn closeouts_of(book: Book, piece: &[u8], losses: &[Loss]) -> Vec<u8> {
    closed_out(book, piece, |book| close_out(book, by_rows(book, losses)?))
}

fn closed_out(
    book: Book,
    piece: &[u8],
    close: impl Fn(&Book) -> Result<CloseOut, Refusal>,
) -> Vec<u8> {
    let (mut out, book) = closed(book, piece);
    match close(&book) {
        Ok(answer) => push_close_out(&mut out, &book, &answer),
        Err(refusal) => out.extend_from_slice(format!("refused {}\n", refusal as u8).as_bytes()),
    }
    out
}

pub fn closeouts(piece: &[u8], losses: &[u8]) -> Vec<u8> {
    closeouts_over(Book::fresh(), piece, losses)
}

fn push_close_out(out: &mut Vec<u8>, book: &Book, answer: &CloseOut) {
    for (account, (loss, payment)) in answer.losses.iter().zip(&answer.payments).enumerate() {
        let numbers = [
            u64::from(book.number(account)),
            *loss,
            payment.own,
            payment.tm,
            payment.cm,
            payment.uncovered,
        ];
        push_numbers(out, &numbers);
    }
    out.extend_from_slice(format!("total {}\n", answer.total).as_bytes());
}
