//! The functions of `include/loft.h`, with slices for lists. All that is unsafe
//! stands here, for one reason each time: the page asks of a caller that no
//! pointer is null and that what changes overlaps nothing else. A slice's pointer
//! is never null, and what is lent as `&mut` overlaps nothing.

#![allow(unsafe_code)]

mod page {
    extern "C" {
        pub fn loft_fresh(book: *mut u8, book_length: usize) -> u8;
        pub fn loft_is_sound(book: *const u8, book_length: usize) -> bool;
        pub fn loft_standing(
            book: *const u8,
            book_length: usize,
            account: u16,
            figures: *mut u64,
            figures_length: usize,
        ) -> u8;
        pub fn loft_carry_out(
            book: *mut u8,
            book_length: usize,
            serial: u16,
            code: u8,
            named: u8,
            account: u16,
            amounts: *const u64,
            amounts_length: usize,
            answer: *mut u16,
            answer_length: usize,
        ) -> u8;
        pub fn loft_day(
            book: *mut u8,
            book_length: usize,
            piece: *const u8,
            piece_length: usize,
            most: u64,
            answers: *mut u16,
            answers_length: usize,
            told: *mut u64,
            told_length: usize,
        ) -> u8;
        pub fn loft_most(
            book: *const u8,
            book_length: usize,
            code: u8,
            named: u8,
            account: u16,
            amount: *mut u64,
        ) -> u8;
        pub fn loft_needs(
            book: *const u8,
            book_length: usize,
            needs: *mut u64,
            needs_length: usize,
        ) -> u8;
        pub fn loft_close_out(
            book: *const u8,
            book_length: usize,
            losses: *const u64,
            losses_length: usize,
            pays: *mut u64,
            pays_length: usize,
            total: *mut u64,
        ) -> u8;
        pub fn loft_margin(
            serial: u16,
            account: u16,
            initial: u64,
            products: *const u8,
            products_length: usize,
            sides: *const u8,
            sides_length: usize,
            notionals: *const u64,
            notionals_length: usize,
            figures: *const i64,
            figures_length: usize,
            record: *mut u8,
            record_length: usize,
        ) -> u8;
        pub fn loft_statement(
            book: *const u8,
            book_length: usize,
            tm: u16,
            piece: *const u8,
            piece_length: usize,
        ) -> u8;
        pub fn loft_archive(
            book: *mut u8,
            book_length: usize,
            entries: *mut u16,
            entries_length: usize,
            moved: *mut u16,
        ) -> u8;
        pub fn loft_take_over(book: *mut u8, book_length: usize) -> u8;
        pub fn loft_write_record(
            serial: u16,
            code: u8,
            named: u8,
            account: u16,
            amounts: *const u64,
            amounts_length: usize,
            room: *mut u8,
            room_length: usize,
            length: *mut usize,
        ) -> u8;
        pub fn loft_read_record(
            piece: *const u8,
            piece_length: usize,
            place: usize,
            numbers: *mut u64,
            numbers_length: usize,
        ) -> u8;
    }
}

/// What `read_record` returns where no byte is left.
pub const NO_RECORD: u8 = 255;

/// What a record says, in the order of a call's arguments.
pub struct Said<'a> {
    pub serial: u16,
    pub code: u8,
    pub named: u8,
    pub account: u16,
    pub amounts: &'a [u64],
}

pub fn fresh(book: &mut [u8]) -> u8 {
    unsafe { page::loft_fresh(book.as_mut_ptr(), book.len()) }
}

pub fn is_sound(book: &[u8]) -> bool {
    unsafe { page::loft_is_sound(book.as_ptr(), book.len()) }
}

pub fn standing(book: &[u8], account: u16, figures: &mut [u64]) -> u8 {
    unsafe {
        page::loft_standing(
            book.as_ptr(),
            book.len(),
            account,
            figures.as_mut_ptr(),
            figures.len(),
        )
    }
}

pub fn carry_out(book: &mut [u8], record: &Said, answer: &mut [u16]) -> u8 {
    unsafe {
        page::loft_carry_out(
            book.as_mut_ptr(),
            book.len(),
            record.serial,
            record.code,
            record.named,
            record.account,
            record.amounts.as_ptr(),
            record.amounts.len(),
            answer.as_mut_ptr(),
            answer.len(),
        )
    }
}

pub fn day(book: &mut [u8], piece: &[u8], most: u64, answers: &mut [u16], told: &mut [u64]) -> u8 {
    unsafe {
        page::loft_day(
            book.as_mut_ptr(),
            book.len(),
            piece.as_ptr(),
            piece.len(),
            most,
            answers.as_mut_ptr(),
            answers.len(),
            told.as_mut_ptr(),
            told.len(),
        )
    }
}

pub fn most(book: &[u8], code: u8, named: u8, account: u16, amount: &mut u64) -> u8 {
    unsafe { page::loft_most(book.as_ptr(), book.len(), code, named, account, amount) }
}

pub fn needs(book: &[u8], needs: &mut [u64]) -> u8 {
    unsafe { page::loft_needs(book.as_ptr(), book.len(), needs.as_mut_ptr(), needs.len()) }
}

pub fn close_out(book: &[u8], losses: &[u64], pays: &mut [u64], total: &mut u64) -> u8 {
    unsafe {
        page::loft_close_out(
            book.as_ptr(),
            book.len(),
            losses.as_ptr(),
            losses.len(),
            pays.as_mut_ptr(),
            pays.len(),
            total,
        )
    }
}

/// The three lists of positions: products, sides, notionals.
pub struct Positions<'a> {
    pub products: &'a [u8],
    pub sides: &'a [u8],
    pub notionals: &'a [u64],
}

pub fn margin(
    serial: u16,
    account: u16,
    initial: u64,
    positions: &Positions,
    figures: &[i64],
    record: &mut [u8],
) -> u8 {
    unsafe {
        page::loft_margin(
            serial,
            account,
            initial,
            positions.products.as_ptr(),
            positions.products.len(),
            positions.sides.as_ptr(),
            positions.sides.len(),
            positions.notionals.as_ptr(),
            positions.notionals.len(),
            figures.as_ptr(),
            figures.len(),
            record.as_mut_ptr(),
            record.len(),
        )
    }
}

pub fn statement(book: &[u8], tm: u16, piece: &[u8]) -> u8 {
    unsafe { page::loft_statement(book.as_ptr(), book.len(), tm, piece.as_ptr(), piece.len()) }
}

pub fn archive(book: &mut [u8], entries: &mut [u16], moved: &mut u16) -> u8 {
    unsafe {
        page::loft_archive(
            book.as_mut_ptr(),
            book.len(),
            entries.as_mut_ptr(),
            entries.len(),
            moved,
        )
    }
}

pub fn take_over(book: &mut [u8]) -> u8 {
    unsafe { page::loft_take_over(book.as_mut_ptr(), book.len()) }
}

pub fn write_record(record: &Said, room: &mut [u8], length: &mut usize) -> u8 {
    unsafe {
        page::loft_write_record(
            record.serial,
            record.code,
            record.named,
            record.account,
            record.amounts.as_ptr(),
            record.amounts.len(),
            room.as_mut_ptr(),
            room.len(),
            length,
        )
    }
}

pub fn read_record(piece: &[u8], place: usize, numbers: &mut [u64]) -> u8 {
    unsafe {
        page::loft_read_record(
            piece.as_ptr(),
            piece.len(),
            place,
            numbers.as_mut_ptr(),
            numbers.len(),
        )
    }
}
