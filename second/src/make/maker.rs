//! A seeded maker of a day. It keeps a model book beside the bytes, so that it
//! can steer at the edges of the rules. Steps name accounts by row; a record is
//! laid down with the row's number.

use crate::make::rng::Rng;
use crate::model::*;

pub struct Maker {
    pub seed: u64,
    pub rng: Rng,
    pub book: Book,
    pub bytes: Vec<u8>,
    /// How far the model has read.
    place: usize,
    /// How many bytes the day may have.
    pub room: usize,
    /// The usual size of an amount on this day.
    pub scale: u64,
    /// How many accounts the day works up to.
    pub wanted: usize,
    /// Work goes to accounts from this row on.
    pub lowest: u16,
    naming: Naming,
}

/// What the account of a step is.
#[derive(Clone, Copy)]
pub enum Naming {
    /// A row. As far past the rows held it is as far past the numbers given; in
    /// a book without an archive that is the same number.
    Row,
    /// A number as it is, whichever row has it.
    Number,
}

impl Naming {
    fn number(self, book: &Book, account: u16) -> u16 {
        let row = usize::from(account);
        match self {
            Naming::Number => account,
            Naming::Row if row < book.count => book.number(row),
            Naming::Row => {
                let past = book.numbers.next as usize + row - book.count;
                u16::try_from(past).unwrap_or(u16::MAX)
            }
        }
    }
}

impl Maker {
    pub fn new(seed: u64, stream: u64, room: usize) -> Maker {
        let mut rng = Rng::new(seed, stream);
        let scale = rng.pick(&[10, 1_000, 1_000_000, 5_000_000_000, 2_000_000_000_000]);
        Maker {
            seed,
            rng,
            book: Book::fresh(),
            bytes: Vec::new(),
            place: 0,
            room,
            scale,
            wanted: 8,
            lowest: 0,
            naming: Naming::Row,
        }
    }

    /// A day that goes on with this book.
    pub fn over(book: Book, seed: u64) -> Maker {
        let mut maker = Maker::new(seed, 0x0CE2, usize::MAX / 2);
        maker.wanted = book.count + 2;
        maker.book = book;
        maker
    }

    pub fn full(&self) -> bool {
        self.bytes.len() + LONGEST > self.room
    }

    pub fn put(&mut self, code: u8, mark: u8, serial: u16, account: u16, amounts: &[u64]) -> bool {
        let number = self.naming.number(&self.book, account);
        if self.full() {
            return self.go_on(code, mark, serial, number, amounts);
        }
        lay(&mut self.bytes, code, mark, serial, number, amounts);
        self.catch_up()
    }

    /// Past the day's room nothing is laid down any more. The model goes on, so
    /// that a step finds what it has put.
    fn go_on(&mut self, code: u8, mark: u8, serial: u16, number: u16, amounts: &[u64]) -> bool {
        let mut bytes = Vec::new();
        lay(&mut bytes, code, mark, serial, number, amounts);
        match Reader::new(&bytes).next() {
            Next::Record(record) => {
                !matches!(carry(&mut self.book, &record).outcome, Outcome::Refused(_))
            }
            _ => false,
        }
    }

    /// The model reads the bytes as anyone would and so stays in step with
    /// bent records too. Gives whether the last record was carried out.
    fn catch_up(&mut self) -> bool {
        let mut carried_out = false;
        let mut reader = Reader::new(&self.bytes[self.place..]);
        while let Next::Record(record) = reader.next() {
            let answer = carry(&mut self.book, &record);
            carried_out = !matches!(answer.outcome, Outcome::Refused(_));
        }
        self.place += reader.place();
        carried_out
    }

    /// Random bytes, and zeros up to where a record ends, so that the day
    /// goes on in step.
    pub fn put_garbage(&mut self, many: u64) {
        for _ in 0..many {
            let byte = self.rng.byte();
            self.bytes.push(byte);
        }
        self.catch_up();
        while self.place < self.bytes.len() {
            self.bytes.push(0);
            self.catch_up();
        }
    }

    /// A record with the serial that the book waits for.
    pub fn say(&mut self, code: u8, mark: u8, account: u16, amounts: &[u64]) -> bool {
        self.put(code, mark, self.book.serial, account, amounts)
    }

    /// Names the kinds whose amount isn't 0.
    pub fn say_kinds(&mut self, code: u8, account: u16, kinds: [u64; 4]) -> bool {
        let mark = (0..4)
            .filter(|&kind| kinds[kind] != 0)
            .map(|kind| 1u8 << kind)
            .sum();
        let named: Vec<u64> = kinds.into_iter().filter(|&amount| amount != 0).collect();
        !named.is_empty() && self.say(code, mark, account, &named)
    }

    /// Names this kind.
    pub fn say_kind(&mut self, code: u8, account: u16, kind: usize, amount: u64) -> bool {
        amount != 0 && self.say(code, 1 << kind, account, &[amount])
    }

    pub fn say_pledge(&mut self, code: u8, account: u16, amount: u64) -> bool {
        self.say(code, 1 << PLEDGED, account, &[amount.max(1)])
    }

    pub fn say_margin(&mut self, account: u16, amount: u64) -> bool {
        self.say(SET_MARGIN, 1 << MARGIN, account, &[amount])
    }

    /// K8: a new value of what is pledged.
    pub fn say_value(&mut self, account: u16, value: u64) -> bool {
        self.say(REVALUE, 1 << PLEDGED, account, &[value])
    }

    /// K8: a margin that can't be refused for want of cover.
    pub fn say_revision(&mut self, account: u16, margin: u64) -> bool {
        self.say(REVISE, 1 << MARGIN, account, &[margin])
    }

    /// One record after another, each with this amount and so much more or less.
    pub fn say_around(
        &mut self,
        say: fn(&mut Maker, u16, u64) -> bool,
        account: u16,
        amount: u64,
        by: &[i64],
    ) {
        for more in by {
            say(self, account, (amount as i64 + more) as u64);
        }
    }

    /// What the CM is short of.
    pub fn shortfall(&self) -> u64 {
        self.book.deemed(0)
    }

    /// Steps that name accounts by number.
    pub fn by_number(&mut self, steps: impl FnOnce(&mut Maker)) {
        self.naming = Naming::Number;
        steps(self);
        self.naming = Naming::Row;
    }

    /// Opens an account and gives its row.
    pub fn opened(&mut self, code: u8, named: u16) -> u16 {
        self.say(code, 0, named, &[]);
        self.book.count as u16 - 1
    }

    pub fn row(&self, account: u16) -> Row {
        self.book.rows[usize::from(account)]
    }

    /// The account's own collateral.
    pub fn own(&self, account: u16) -> u64 {
        self.book.collateral(usize::from(account))
    }

    pub fn free(&self, account: u16) -> u64 {
        self.book.free(usize::from(account))
    }

    /// Opens a TM, a client of it and a CP.
    pub fn opened_three(&mut self) -> [u16; 3] {
        let tm = self.opened(OPEN_TM, 0);
        [tm, self.opened(OPEN_CLIENT, tm), self.opened(OPEN_CP, 0)]
    }

    /// What the account and its TM have free; the CM's isn't counted.
    pub fn free_below_cm(&self, account: u16) -> u64 {
        let above = |&at: &usize| Some(self.book.answers_for(at));
        let all = std::iter::successors(Some(usize::from(account)), above);
        let below = all.take_while(|&at| at != 0);
        below.map(|at| self.book.free(at)).sum()
    }

    /// Received and allocated at once.
    pub fn put_in(&mut self, account: u16, kinds: [u64; 4]) -> bool {
        self.say_kinds(RECEIVE, account, kinds) && self.say_kinds(ALLOCATE, account, kinds)
    }

    pub fn amount(&mut self) -> u64 {
        let most = self.scale;
        self.rng.between(1, most)
    }

    /// A live account if one is found soon, else the CM.
    pub fn live(&mut self) -> u16 {
        let span = self.book.count as u64 - u64::from(self.lowest).min(self.book.count as u64 - 1);
        for _ in 0..8 {
            let account = (self.book.count as u64 - 1 - self.rng.below(span)) as u16;
            if self.book.is_live(usize::from(account)) {
                return account;
            }
        }
        0
    }

    /// A live account that fits, if one is found soon.
    pub fn live_with(&mut self, fits: impl Fn(&Maker, u16) -> bool) -> u16 {
        let mut account = self.live();
        for _ in 0..12 {
            if fits(self, account) {
                break;
            }
            account = self.live();
        }
        account
    }

    pub fn live_of(&mut self, sort: Sort) -> Option<u16> {
        let rows = &self.book.rows[..self.book.count];
        let fitting: Vec<u16> = (0..rows.len() as u16)
            .filter(|&account| rows[usize::from(account)].live)
            .filter(|&account| rows[usize::from(account)].sort == sort)
            .collect();
        self.rng.any(&fitting)
    }

    /// A number that was given and that no row held has; None in a book without
    /// an archive.
    pub fn archived(&mut self) -> Option<u16> {
        let held = self.book.numbers.of_rows[..self.book.count].iter();
        let held = held.map(|&number| u32::from(number));
        let ends: Vec<u32> = held.chain([self.book.numbers.next]).collect();
        let gaps: Vec<(u32, u32)> = ends
            .windows(2)
            .filter(|two| two[0] + 1 < two[1])
            .map(|two| (two[0] + 1, two[1] - 1))
            .collect();
        let &first = gaps.first()?;
        let drawn = self.rng.pick(&gaps);
        let (least, most) = self.rng.pick(&[first, drawn]);
        let inside = self.rng.between(u64::from(least), u64::from(most)) as u32;
        Some(self.rng.pick(&[least, most, inside]) as u16)
    }

    /// Mostly some hundreds of records, now and then a few thousand.
    pub fn usual_length(&mut self) -> u64 {
        if self.rng.one_in(20) {
            self.rng.between(1_000, 4_000)
        } else {
            self.rng.between(10, 500)
        }
    }
}
