//! Sound books of any kind, with one account bent so that the amount asked for
//! ends where it should.

use super::super::books::{self, append, collateral, fund, row, settle};
use super::super::breaches::an_account;
use super::super::overs::fund_with_securities;
use crate::make::rng::Rng;
use crate::model::table::*;
use crate::model::table::{MARGIN, PLEDGED, SECURITIES};
use crate::model::*;

/// A book and the place of an account in it.
pub struct Scene {
    pub table: Table,
    pub place: usize,
}

/// Where collateral of a bit stands.
fn word(bit: usize) -> usize {
    ALLOCATED + bit
}

impl Scene {
    /// A live account of this sort, its mode off, in some book.
    pub fn with(sort: Sort, rng: &mut Rng) -> Option<Scene> {
        let mut table = books::sound(rng);
        let live = Some(1);
        let place = match sort {
            Sort::Tm => an_account(&mut table, TRADING, live, rng)?,
            Sort::Client => an_account(&mut table, CLIENT, live, rng)?,
            Sort::Cp => an_account(&mut table, CP, live, rng)?,
            Sort::Cm | Sort::Unused => 0,
        };
        table.places[place][MODE] = 0;
        let mut scene = Scene { table, place };
        // Where it has little or nothing else, more can be bent.
        if rng.one_in(2) {
            let left = rng.pick(&[0, 1_000]);
            fund(scene.row(), left, Rule::New);
        }
        scene.settle();
        Some(scene)
    }

    fn row(&mut self) -> &mut Place {
        &mut self.table.places[self.place]
    }

    fn settle(&mut self) {
        settle(&mut self.table, Rule::New);
    }

    /// What the account needs beside its margin.
    fn under(&mut self) -> u64 {
        self.settle();
        let row = self.row();
        match row[SORT] {
            CM | TRADING => row[NEED] - row[MARGIN],
            _ => 0,
        }
    }

    pub fn turn(&mut self) {
        self.row()[MODE] = 1;
    }

    /// The mode of a client's TM.
    pub fn turn_tm(&mut self) {
        let tm = self.row()[TM] as usize;
        self.table.places[tm][MODE] = 1;
    }

    /// So much of it allocated, or pledged.
    fn put(&mut self, word: usize, amount: u64) {
        let row = self.row();
        row[word] = amount;
        if word < PLEDGED {
            row[word - KINDS] = row[word - KINDS].max(amount);
        }
    }

    /// What a release or an unpledge could take at most.
    pub fn put_there(&mut self, code: u8, bit: usize, amount: u64) {
        let word = if code == UNPLEDGE { PLEDGED } else { word(bit) };
        self.put(word, amount);
        self.settle();
    }

    /// So much is to pass, and a paisa more to be refused so.
    pub fn limit(
        &mut self,
        code: u8,
        bit: usize,
        refusal: u8,
        want: u64,
        rng: &mut Rng,
    ) -> Option<()> {
        let most = CEILING - want;
        let drawn = rng.below(most + 1);
        match code {
            RECEIVE => {
                let received = RECEIVED + bit;
                self.row()[received] = most;
                self.row()[word(bit)] = rng.pick(&[0, drawn, most]);
            }
            HAND_BACK | ALLOCATE => {
                let allocated = rng.pick(&[0, drawn, most]);
                self.row()[word(bit)] = allocated;
                self.row()[RECEIVED + bit] = allocated + want;
            }
            PLEDGE => self.row()[PLEDGED] = most,
            SET_MARGIN => return self.margin_to(want, rng),
            _ if refusal == 11 => self.all_free(word(bit), want, rng),
            _ => {
                let more = rng.pick(&[1, 1 + drawn]).min(most);
                self.put(word(bit), want + more);
                return self.keep_free(word(bit), want);
            }
        }
        self.settle();
        Some(())
    }

    /// All that is there is free, if the account can have so much.
    fn all_free(&mut self, word: usize, want: u64, rng: &mut Rng) {
        self.put(word, want);
        self.row()[MARGIN] = 0;
        if rng.one_in(2) {
            let another = if word == PLEDGED { ALLOCATED } else { PLEDGED };
            self.put(another, CEILING);
        }
    }

    /// A margin that leaves so much of it to be taken out.
    fn keep_free(&mut self, word: usize, want: u64) -> Option<()> {
        let under = self.under();
        let mut left = *self.row();
        left[word] = left[word].checked_sub(want)?;
        let margin = collateral(&left, Rule::New).checked_sub(under)?;
        self.row()[MARGIN] = Some(margin).filter(|&margin| margin <= CEILING)?;
        self.settle();
        Some(())
    }

    /// The CM has what it needs at this margin, to the paisa.
    fn margin_to(&mut self, want: u64, rng: &mut Rng) -> Option<()> {
        let drawn = rng.below(want + 1);
        self.row()[MARGIN] = rng.pick(&[0, drawn, want]);
        self.settle();
        let need = self.table.book()?.cm_need_with(self.place, want);
        self.fund_cm_to(need)
    }

    fn fund_cm_to(&mut self, amount: u64) -> Option<()> {
        let cm = &mut self.table.places[0];
        fund(cm, amount, Rule::New);
        let is_enough = collateral(cm, Rule::New) == amount;
        self.settle();
        is_enough.then_some(())
    }

    /// So much more for the CM.
    pub fn fund_cm(&mut self, more: u64) -> Option<()> {
        let own = collateral(&self.table.places[0], Rule::New);
        self.fund_cm_to(own + more)
    }

    /// Securities of which so many over whole tens are to be left.
    pub fn tenth(sort: Sort, left: u64, rng: &mut Rng) -> Option<Scene> {
        let mut scene = Scene::with(sort, rng)?;
        let tens = rng.pick(&[1, 9, 1_000, CEILING / 20]);
        let left = 10 * rng.between(1, tens) + left;
        let want = rng.between(1, 30);
        scene.put(SECURITIES, left + want);
        scene.keep_free(SECURITIES, want)?;
        Some(scene)
    }

    /// One over whole tens of them, and nothing free.
    pub fn for_nothing(sort: Sort, rng: &mut Rng) -> Option<Scene> {
        let mut scene = Scene::with(sort, rng)?;
        let tens = rng.pick(&[1, 9, 1_000, CEILING / 20]);
        scene.put(SECURITIES, 10 * rng.between(1, tens) + 1);
        scene.keep_free(SECURITIES, 1)?;
        Some(scene)
    }

    /// All that is there of one kind, and no more, is free.
    pub fn tied(sort: Sort, bit: usize, rng: &mut Rng) -> Option<Scene> {
        let mut scene = Scene::with(sort, rng)?;
        let (word, want) = (word(bit), rng.between(1, 5_000));
        let another = if word == PLEDGED { ALLOCATED } else { PLEDGED };
        scene.put(another, rng.between(1, 5_000));
        scene.put(word, want);
        scene.keep_free(word, want)?;
        Some(scene)
    }

    /// A TM, its client and a CP, behind whatever rows there are.
    fn three(rng: &mut Rng) -> Option<(Table, [usize; 3])> {
        let mut table = match rng.below(2) {
            0 => Table::fresh(),
            _ => books::sound(rng),
        };
        if table.held() + 3 > MOST_ACCOUNTS {
            return None;
        }
        let tm = append(&mut table, row(TRADING, 1, 0));
        let client = append(&mut table, row(CLIENT, 1, tm as u64));
        let cp = append(&mut table, row(CP, 1, 0));
        for place in [0, tm, client, cp] {
            let drawn = rng.between(1, 1_000_000);
            table.places[place][MARGIN] = rng.pick(&[1, 10, drawn]);
        }
        Some((table, [tm, client, cp]))
    }

    /// Whether the account, its TM and the CM have something free.
    pub fn family(sort: Sort, frees: [bool; 3], rng: &mut Rng) -> Option<Scene> {
        let (table, [tm, client, cp]) = Scene::three(rng)?;
        let mut scene = Scene { table, place: 0 };
        let [own, of_tm, of_cm] = frees;
        let levels: &[(usize, bool)] = match sort {
            Sort::Client | Sort::Tm => &[(client, own), (tm, of_tm)],
            Sort::Cp => &[(cp, own)],
            _ => &[],
        };
        for &(place, is_free) in levels {
            scene.level(place, is_free, rng);
        }
        scene.settle();
        let more = rng.pick(&[1, 9, 10, 5_000]);
        let need = scene.table.places[0][NEED];
        scene.fund_cm_to(need + if of_cm { more } else { 0 })?;
        scene.place = match sort {
            Sort::Client => client,
            Sort::Tm => tm,
            Sort::Cp => cp,
            _ => 0,
        };
        Some(scene)
    }

    /// More than its need, or no more than that.
    fn level(&mut self, place: usize, is_free: bool, rng: &mut Rng) {
        self.settle();
        let row = &mut self.table.places[place];
        let need = if row[SORT] == TRADING {
            row[NEED]
        } else {
            row[MARGIN]
        };
        let drawn = rng.below(need + 1);
        let amount = if is_free {
            need + rng.pick(&[1, 9, 10, 5_000])
        } else {
            rng.pick(&[need, need.saturating_sub(1), drawn, 0])
        };
        fund_with_securities(row, amount, Rule::New, rng);
    }

    /// A margin with own collateral to spare, and a CM that is short.
    pub fn short_margin(sort: Sort, rng: &mut Rng) -> Option<Scene> {
        let frees = [true, true, false];
        let mut scene = Scene::family(sort, frees, rng)?;
        books::fall_short(&mut scene.table, rng);
        Some(scene)
    }
}
