//! Books for statements: a TM with live clients, a retired one and another TM's
//! between them, and what its right statement says.

use crate::listed;
use crate::make::asked::books::{append, fill, find, row, settle, sound};
use crate::make::asked::numbers::{archived, renumber, Gaps};
use crate::make::rng::Rng;
use crate::model::statement::Record;
use crate::model::table::PLEDGED;
use crate::model::table::*;
use crate::model::*;

listed! {
    /// What a TM's clients are like.
    Sheet:
    /// No live client.
    Empty, Several,
    /// As many as the book has rows for.
    Full,
    /// One with nothing.
    Nothing,
    /// One whose record says that all that is allocated is placed.
    JustAllocated,
    /// One with four ceilings received.
    Most
}

/// What one client has.
#[derive(Clone, Copy, PartialEq, Eq)]
pub enum Has {
    /// Of every kind, some of it allocated; its record says something of everything.
    Something,
    /// The same with four ceilings received.
    Most,
    Nothing,
}

listed! {
    /// An account that is no live TM.
    Who: RetiredTm, RetiredClient, Archived, NeverGiven, Cm, Client, Cp
}

/// A sound book, a TM of it and its live clients, by place.
pub struct Scene {
    pub book: Table,
    pub tm: usize,
    pub clients: Vec<usize>,
    /// Those whose records say something of everything.
    endowed: Vec<usize>,
    /// The one whose record says that all that is allocated is placed.
    just: Option<usize>,
}

impl Scene {
    pub fn of(sheet: Sheet, rng: &mut Rng) -> Scene {
        let mut book = with_room(rng);
        let tm = match (sheet, find(&book, TRADING, Some(1), rng)) {
            (Sheet::Empty, _) | (_, None) => append(&mut book, row(TRADING, 1, 0)),
            (_, Some(tm)) => tm,
        };
        put_rows(&mut book, tm, sheet, rng);
        let gaps = rng.pick(&Gaps::ALL);
        if rng.one_in(2) {
            renumber(&mut book, gaps, rng);
        }
        settle(&mut book, Rule::New);
        let is_client =
            |place: &Place| place[SORT] == CLIENT && place[LIVE] == 1 && place[TM] == tm as u64;
        let clients = (0..book.held()).filter(|&place| is_client(&book.places[place]));
        let clients = clients.collect();
        let mut scene = Scene {
            book,
            tm,
            clients,
            endowed: Vec::new(),
            just: None,
        };
        scene.put_sheet(sheet, rng);
        scene
    }

    fn put_sheet(&mut self, sheet: Sheet, rng: &mut Rng) {
        let has = match sheet {
            Sheet::Empty | Sheet::Several | Sheet::Full => return,
            Sheet::Nothing => Has::Nothing,
            Sheet::JustAllocated => Has::Something,
            Sheet::Most => Has::Most,
        };
        let spots = self.spots(rng);
        let client = rng.pick(&spots);
        self.endow(client, has, rng);
        self.just = Some(client);
    }

    pub fn number(&self, place: usize) -> u16 {
        self.book.places[place][NUMBER] as u16
    }

    /// The first of the TM's clients, one between and the last; there are three at
    /// least.
    pub fn spots(&self, rng: &mut Rng) -> [usize; 3] {
        let last = self.clients.len() - 1;
        [0, rng.between(1, last as u64 - 1) as usize, last]
    }

    pub fn endow(&mut self, client: usize, has: Has, rng: &mut Rng) {
        let place = &mut self.book.places[self.clients[client]];
        for kind in 0..KINDS {
            let drawn = rng.between(10, CEILING);
            let received = if has == Has::Most { CEILING } else { drawn };
            place[RECEIVED + kind] = received;
            place[ALLOCATED + kind] = rng.between(2, received - 2);
        }
        if has == Has::Nothing {
            place[RECEIVED..=PLEDGED].fill(0);
        }
        self.endowed.push(client);
        settle(&mut self.book, Rule::New);
    }

    fn total(&self, client: usize, first: usize) -> u64 {
        let place = &self.book.places[self.clients[client]];
        place[first..first + KINDS].iter().sum()
    }

    pub fn received(&self, client: usize) -> u64 {
        self.total(client, RECEIVED)
    }

    pub fn allocated(&self, client: usize) -> u64 {
        self.total(client, ALLOCATED)
    }

    /// The TM's right statement.
    pub fn records(&self, rng: &mut Rng) -> Vec<Record> {
        let all = 0..self.clients.len();
        all.map(|client| self.record(client, rng)).collect()
    }

    /// Any amounts that the rules let pass.
    fn record(&self, client: usize, rng: &mut Rng) -> Record {
        let (received, allocated) = (self.received(client), self.allocated(client));
        let is_endowed = self.endowed.contains(&client);
        let mut lodged = part(allocated, is_endowed, rng);
        if self.just == Some(client) {
            lodged = allocated;
        }
        let held = part(received - lodged, is_endowed, rng);
        let placed = held + lodged;
        Record {
            account: self.number(self.clients[client]),
            amounts: [received, received - placed, placed, held, lodged],
        }
    }

    /// A number that names no live TM; the book gets one where it has none.
    pub fn number_of(&mut self, who: Who, rng: &mut Rng) -> u16 {
        let (sort, live) = match who {
            Who::Cm => return 0,
            Who::Archived => return self.archived(rng),
            Who::NeverGiven => return self.never_given(rng),
            Who::RetiredTm => (TRADING, 0),
            Who::RetiredClient => (CLIENT, 0),
            Who::Client => (CLIENT, 1),
            Who::Cp => (CP, 1),
        };
        let found = find(&self.book, sort, Some(live), rng);
        self.number(found.unwrap_or(0))
    }

    fn archived(&mut self, rng: &mut Rng) -> u16 {
        let with_gaps = rng.pick(&[Gaps::Start, Gaps::End]);
        renumber(&mut self.book, with_gaps, rng);
        rng.pick(&archived(&self.book)) as u16
    }

    fn never_given(&mut self, rng: &mut Rng) -> u16 {
        if self.book.next >= MOST_NUMBERS {
            self.book.number_by_places();
        }
        rng.pick(&[self.book.next as u16, u16::MAX])
    }
}

/// Half of it, or any part of it.
fn part(whole: u64, is_half: bool, rng: &mut Rng) -> u64 {
    let drawn = rng.below(whole + 1);
    let part = rng.pick(&[0, whole, whole / 2, drawn]);
    if is_half {
        whole / 2
    } else {
        part
    }
}

/// Every other time after an archiving.
fn with_room(rng: &mut Rng) -> Table {
    let book = loop {
        let book = sound(rng);
        if book.held() + 12 < MOST_ACCOUNTS {
            break book;
        }
    };
    match book.archived() {
        Some(archived) if rng.one_in(2) => archived.book,
        _ => book,
    }
}

/// Clients of this TM, retired and live, and others between them.
fn put_rows(book: &mut Table, tm: usize, sheet: Sheet, rng: &mut Rng) {
    let other = append(book, row(TRADING, 1, 0)) as u64;
    let (own, live) = (tm as u64, u64::from(sheet != Sheet::Empty));
    let mut rows = vec![
        row(CLIENT, live, own),
        row(CLIENT, 0, own),
        row(CLIENT, 1, other),
        row(CP, 1, 0),
        row(TRADING, 0, 0),
        row(CLIENT, live, own),
        row(CLIENT, live, own),
    ];
    if rng.one_in(3) {
        rows.reverse();
    }
    if sheet == Sheet::Full {
        rows.resize(MOST_ACCOUNTS - book.held(), row(CLIENT, 1, own));
    }
    for row in rows {
        let place = append(book, row);
        if book.places[place][LIVE] == 1 {
            let scale = rng.pick(&[10, 1_000_000, CEILING]);
            fill(&mut book.places[place], scale, rng);
        }
    }
}
