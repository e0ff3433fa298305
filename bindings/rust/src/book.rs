//! A book and its calls.

use crate::answer::answers;
use crate::ffi;
use crate::{Answer, Archived, CloseOut, DayEnd, Record, Refusal, Standing};
use crate::{Closing, ANSWER, BOOK};

/// A collateral book by its written form, which it owns.
///
/// Any bytes can be held; where they are no sound book of version 2 every call
/// but [`is_sound`](Book::is_sound) refuses with [`Refusal::NotSound`], and
/// [`take_over`](Book::take_over) judges by the old rule.
#[derive(Clone, PartialEq, Eq, Hash, Debug)]
pub struct Book {
    bytes: Vec<u8>,
}

/// How many records a turn of a whole day has: enough that reading and writing
/// the book, once a turn, costs little beside them.
const TURN: usize = 32_768;

impl Book {
    /// The book at first: the CM alone, live, all amounts 0.
    pub fn fresh() -> Book {
        let mut bytes = vec![0; BOOK];
        let refusal = ffi::fresh(&mut bytes);
        debug_assert_eq!(refusal, 0);
        Book { bytes }
    }

    /// The book that these bytes are, if they are one.
    ///
    /// ```
    /// use loft::Book;
    /// let book = Book::fresh();
    /// assert_eq!(Book::from_bytes(book.as_bytes()), book);
    /// assert!(!Book::from_bytes([1, 2, 3]).is_sound());
    /// ```
    pub fn from_bytes(bytes: impl Into<Vec<u8>>) -> Book {
        Book {
            bytes: bytes.into(),
        }
    }

    /// Its written form, as a book file has it.
    pub fn as_bytes(&self) -> &[u8] {
        &self.bytes
    }

    /// Whether the bytes are a book of version 2 that is sound.
    pub fn is_sound(&self) -> bool {
        ffi::is_sound(&self.bytes)
    }

    /// How many rows it says that it holds.
    pub fn rows(&self) -> usize {
        self.bytes.get(4..6).map_or(0, |count| {
            usize::from(count[0]) << 8 | usize::from(count[1])
        })
    }

    /// How an account stands. Refuses with 1 and 7.
    ///
    /// ```
    /// use loft::{Book, Refusal};
    /// let book = Book::fresh();
    /// assert_eq!(book.standing(0)?.collateral, 0);
    /// assert_eq!(book.standing(1), Err(Refusal::NotLive));
    /// # Ok::<(), Refusal>(())
    /// ```
    pub fn standing(&self, account: u16) -> Result<Standing, Refusal> {
        let mut figures = [0; 7];
        Refusal::of(ffi::standing(&self.bytes, account, &mut figures))?;
        Ok(Standing::of(figures))
    }

    /// Carries a record out. Where it is refused the answer says so; only a book
    /// that isn't sound refuses the call, with 1. A refused record moves the next
    /// serial on, but for refusal 3, and changes nothing else.
    pub fn carry_out(&mut self, record: &Record) -> Result<Answer, Refusal> {
        let mut answer = [0; ANSWER];
        let amounts = record.amounts();
        let refusal = ffi::carry_out(&mut self.bytes, &record.said(&amounts), &mut answer);
        match Refusal::of(refusal) {
            Err(Refusal::NotSound) => Err(Refusal::NotSound),
            _ => Ok(Answer::of(&answer)),
        }
    }

    /// Carries out the records of a piece of a day file from its start, at most
    /// `most` and as many as the room has place for, [`ANSWER`] numbers each.
    /// [`answers`](crate::answers) reads the room. Refuses with 1.
    ///
    /// ```
    /// use loft::{answers, Book, Closing, Outcome, Refusal};
    ///
    /// let mut book = Book::fresh();
    /// let piece = [1, 0, 0, 0, 0, 0, 2, 0, 0, 1, 0, 1];
    /// let mut room = [0; 5];
    /// let end = book.day(&piece, 1_000_000, &mut room)?;
    /// assert_eq!((end.closing, end.place, end.read), (Closing::Long, 6, 1));
    /// let first = answers(&room, end.read).next();
    /// assert_eq!(first.map(|answer| answer.outcome), Some(Outcome::Opened(1)));
    /// # Ok::<(), Refusal>(())
    /// ```
    pub fn day(&mut self, piece: &[u8], most: u64, room: &mut [u16]) -> Result<DayEnd, Refusal> {
        let mut told = [0; 4];
        Refusal::of(ffi::day(&mut self.bytes, piece, most, room, &mut told))?;
        Ok(DayEnd::of(&told))
    }

    /// Carries out the records of a whole day file in turns, at most `most` of
    /// them; `each` sees every answer. Refuses with 1, before any record.
    ///
    /// ```
    /// use loft::{Book, Closing, Refusal, MILLION};
    ///
    /// let mut book = Book::fresh();
    /// let file = [1, 0, 0, 0, 0, 0, 2, 0, 0, 1, 0, 1, 9];
    /// let mut serials = Vec::new();
    /// let end = book.whole_day(&file, MILLION, |answer| serials.push(answer.serial))?;
    /// assert_eq!(serials, [0, 1]);
    /// assert_eq!((end.closing, end.read, end.done), (Closing::Cut, 2, 2));
    /// # Ok::<(), Refusal>(())
    /// ```
    pub fn whole_day(
        &mut self,
        file: &[u8],
        most: u64,
        mut each: impl FnMut(Answer),
    ) -> Result<DayEnd, Refusal> {
        let mut room = vec![0; ANSWER * TURN];
        let mut end = self.day(file, most, &mut room)?;
        answers(&room, end.read).for_each(&mut each);
        while end.closing == Closing::Long && end.read < most {
            let turn = self.day(&file[end.place..], most - end.read, &mut room)?;
            answers(&room, turn.read).for_each(&mut each);
            end = turn.after(end);
        }
        Ok(end)
    }

    /// The largest amount with which a record of this code, second mark byte and
    /// account is carried out. Refuses with 1, 4, 5, 7, and with whatever refuses
    /// even the least amount.
    ///
    /// ```
    /// use loft::{Book, Refusal, CEILING};
    /// assert_eq!(Book::fresh().most(4, 1, 0), Ok(CEILING));
    /// assert_eq!(Book::fresh().most(7, 1, 0), Err(Refusal::MoreThanThere));
    /// ```
    pub fn most(&self, code: u8, named: u8, account: u16) -> Result<u64, Refusal> {
        let mut amount = 0;
        let refusal = ffi::most(&self.bytes, code, named, account, &mut amount);
        Refusal::of(refusal).map(|()| amount)
    }

    /// Every account's need, one for each row held. Refuses with 1.
    pub fn needs(&self) -> Result<Vec<u64>, Refusal> {
        let mut needs = vec![0; self.rows()];
        Refusal::of(ffi::needs(&self.bytes, &mut needs)).map(|()| needs)
    }

    /// Who pays what of losses, one for each row held. Refuses with 1, 15 (not
    /// one for each row) and 16.
    ///
    /// ```
    /// use loft::{Book, Payment, Refusal};
    /// let closed = Book::fresh().close_out(&[5])?;
    /// assert_eq!(closed.payments, [Payment { uncovered: 5, ..Payment::default() }]);
    /// assert_eq!(closed.total, 5);
    /// # Ok::<(), Refusal>(())
    /// ```
    pub fn close_out(&self, losses: &[u64]) -> Result<CloseOut, Refusal> {
        let mut pays = vec![0; 4 * self.rows()];
        let mut total = 0;
        Refusal::of(ffi::close_out(&self.bytes, losses, &mut pays, &mut total))?;
        Ok(CloseOut::of(&pays, total))
    }

    /// Holds a TM's statement against the book. Refuses with 1, 7, 8 and 24 to 29.
    pub fn statement(&self, tm: u16, piece: &[u8]) -> Result<(), Refusal> {
        Refusal::of(ffi::statement(&self.bytes, tm, piece))
    }

    /// Moves all retired rows to the archive and gives them. Refuses with 1.
    ///
    /// ```
    /// use loft::{Archived, Book, Record, Refusal};
    /// let mut book = Book::fresh();
    /// book.carry_out(&Record::open_cp(0))?;
    /// book.carry_out(&Record::retire(1, 1))?;
    /// assert_eq!(book.archive()?, [Archived { number: 1, code: 3, tm: 0 }]);
    /// assert_eq!(book.rows(), 1);
    /// # Ok::<(), Refusal>(())
    /// ```
    pub fn archive(&mut self) -> Result<Vec<Archived>, Refusal> {
        let mut entries = vec![0; 3 * self.rows()];
        let mut moved = 0;
        Refusal::of(ffi::archive(&mut self.bytes, &mut entries, &mut moved))?;
        let moved = entries.chunks_exact(3).take(usize::from(moved));
        Ok(moved.map(Archived::of).collect())
    }

    /// Takes the book over from the old rule, by which government securities
    /// counted in full, to the one by which they count less a tenth. Refuses with
    /// 1.
    pub fn take_over(&mut self) -> Result<(), Refusal> {
        Refusal::of(ffi::take_over(&mut self.bytes))
    }
}

impl Default for Book {
    fn default() -> Book {
        Book::fresh()
    }
}
