//! The kinds that made-up days are to meet, in one tally, and how a run of days
//! says what it has met.

use super::{explained, holds, looks, margins, moves, shorts, tenths};
use crate::listed;
use crate::make::loss_lines;
use crate::model::*;
use crate::tally::{names, said, Tally};
use std::fmt;

listed! {
    /// Close-outs under a shortfall.
    Closed: AtMargins = "all at the margins", SomeUncovered = "within the margins, some uncovered",
    NoneUncovered = "within the margins, none uncovered", Beyond = "beyond the margins"
}

#[derive(Clone, Copy, PartialEq, Eq, PartialOrd, Ord)]
pub enum Kind {
    /// Whether it is at the CM, and which of the looks.
    Look(bool, usize),
    Margin(Sort, margins::Change),
    Move(moves::Kind),
    Hold(holds::Kind),
    Tenth(tenths::Kind),
    Short(shorts::Kind),
    Closed(Closed),
    /// Close-outs with losses as lines.
    Lines(&'static str),
    Explained(explained::Kind),
}

impl Kind {
    /// What every round of days meets.
    pub fn all() -> Vec<Kind> {
        let mut all: Vec<Kind> = (0..=looks::RETIRED)
            .map(|look| Kind::Look(false, look))
            .collect();
        all.extend((0..looks::RETIRED).map(|look| Kind::Look(true, look)));
        for sort in Sort::HELD {
            all.extend(margins::Change::ALL.map(|change| Kind::Margin(sort, change)));
        }
        all.extend(moves::Kind::all().into_iter().map(Kind::Move));
        all.extend(holds::Kind::all().into_iter().map(Kind::Hold));
        all.extend(tenths::Kind::all().into_iter().map(Kind::Tenth));
        all.extend(shorts::Kind::all().into_iter().map(Kind::Short));
        all
    }

    /// What it meets besides where losses are asked about, and explanations.
    pub fn of_close_outs() -> Vec<Kind> {
        let closed = Closed::ALL.into_iter().map(Kind::Closed);
        closed.chain(Kind::of_lines()).collect()
    }

    pub fn of_lines() -> Vec<Kind> {
        let cases = loss_lines::all().into_iter();
        cases.map(|case| Kind::Lines(case.kind)).collect()
    }

    pub fn of_explanations() -> Vec<Kind> {
        explained::Kind::all()
            .into_iter()
            .map(Kind::Explained)
            .collect()
    }

    /// The group that it is told with, and its words there.
    fn told(&self) -> (String, String) {
        let of_sorts = |of: &str, words: [&str; 4], sort: Sort| {
            let place = Sort::HELD.iter().position(|&held| held == sort);
            of.replace('~', words[place.unwrap_or(0)])
        };
        let (whose, who) = (
            ["the CM's", "TMs'", "clients'", "CPs'"],
            ["the CM", "TMs", "clients", "CPs"],
        );
        match self {
            Kind::Look(is_cm, look) => {
                let of = of_sorts("looks at ~", who, [Sort::Tm, Sort::Cm][usize::from(*is_cm)]);
                (of, names(looks::KINDS).nth(*look).unwrap_or("").to_string())
            }
            Kind::Margin(sort, change) => {
                let words = format!("{} {}", sort.whose(), change.words());
                ("margins at full use".to_string(), words)
            }
            Kind::Move(kind) => (
                of_sorts("needs after ~ records", whose, kind.sort()),
                kind.words(),
            ),
            Kind::Hold(kind) => (of_sorts("taken out by ~", who, kind.sort()), kind.words()),
            Kind::Tenth(kind) => ("tenths of securities".to_string(), format!("{kind:?}")),
            Kind::Short(kind) => ("shortfalls".to_string(), format!("{kind:?}")),
            Kind::Closed(kind) => (
                "close-outs under a shortfall".to_string(),
                kind.words().to_string(),
            ),
            Kind::Lines(kind) => ("losses as lines".to_string(), kind.to_string()),
            Kind::Explained(kind) => ("explained".to_string(), format!("{kind:?}")),
        }
    }
}

/// As it is told where it is missed.
impl fmt::Debug for Kind {
    fn fmt(&self, out: &mut fmt::Formatter) -> fmt::Result {
        let (of, words) = self.told();
        match self {
            Kind::Move(kind) => write!(out, "{kind:?}"),
            Kind::Hold(kind) => write!(out, "{kind:?}"),
            Kind::Tenth(kind) => write!(out, "{kind:?}"),
            Kind::Short(kind) => write!(out, "{kind:?}"),
            Kind::Look(..) => write!(out, "{}: {words}", of.replacen("looks", "look", 1)),
            Kind::Margin(..) => write!(out, "at full use: {words}"),
            Kind::Closed(_) => write!(
                out,
                "{}: {words}",
                of.replacen("close-outs", "close-out", 1)
            ),
            _ => write!(out, "{of}: {words}"),
        }
    }
}

/// How much has been compared. Slots 0 to 17 count answers by refusal.
#[derive(Default)]
pub struct Days {
    pub days: u64,
    pub records: u64,
    pub refusals: [u64; 18],
    /// How often a day was stopped on the way to ask for standings and needs.
    pub stops: u64,
    /// Runs with losses as lines.
    pub lines: u64,
    pub met: Tally<Kind>,
}

impl Days {
    pub fn count(&mut self, answer: &Answer) {
        self.records += 1;
        self.refusals[usize::from(answer.refusal())] += 1;
    }

    /// A close-out that was not refused. Whether its total is right: "at most
    /// the shortfall plus the losses beyond margins".
    pub fn count_closed(&mut self, book: &Book, closed: &CloseOut) -> bool {
        let short = book.standings()[0].shortfall;
        let margins = book.rows.iter().map(|row| row.margin);
        let each: Vec<(u64, u64)> = closed.losses.iter().copied().zip(margins).collect();
        let beyond = each
            .iter()
            .map(|(loss, margin)| loss.saturating_sub(*margin));
        let beyond: u64 = beyond.sum();
        let at_margins = each.iter().all(|(loss, margin)| loss == margin);
        let kind = match (at_margins, beyond, closed.total) {
            (true, ..) => Closed::AtMargins,
            (_, 0, 1..) => Closed::SomeUncovered,
            (_, 0, 0) => Closed::NoneUncovered,
            _ => Closed::Beyond,
        };
        self.met.count_if(Kind::Closed(kind), short > 0);
        closed.total <= short + beyond && (!at_margins || closed.total == short)
    }

    pub fn summary(&self) -> String {
        let refusals: Vec<String> = (2..18)
            .map(|number| format!("{number}:{}", self.refusals[number]))
            .collect();
        let mut lines = vec![format!(
            "same: {} days, {} stops on the way, {} records, {} carried out, refusals {}",
            self.days,
            self.stops,
            self.records,
            self.refusals[0],
            refusals.join(" ")
        )];
        let closed = Closed::ALL.map(Kind::Closed);
        lines.extend(self.groups(Kind::all().into_iter().chain(closed)));
        lines.join("\n")
    }

    /// A line a group: how many of its kinds weren't met, and the others.
    fn groups(&self, kinds: impl Iterator<Item = Kind>) -> Vec<String> {
        let mut groups: Vec<(String, Vec<(String, u64)>)> = Vec::new();
        for kind in kinds {
            let (of, words) = kind.told();
            let told = (words, self.met.times(kind));
            match groups.iter_mut().find(|group| group.0 == of) {
                Some(group) => group.1.push(told),
                None => groups.push((of, vec![told])),
            }
        }
        let line = |(of, mut each): (String, Vec<(String, u64)>)| {
            let all = each.len();
            each.retain(|(_, many)| *many > 0);
            format!("{of}, {} kinds not met, {}", all - each.len(), said(each))
        };
        groups.into_iter().map(line).collect()
    }

    pub fn lines_line(&self) -> String {
        let each = Kind::of_lines()
            .into_iter()
            .map(|kind| (kind.told().1, self.met.times(kind)));
        format!("losses as lines, {} runs; {}", self.lines, said(each))
    }

    pub fn explained_line(&self) -> String {
        let met = self
            .met
            .met()
            .filter(|(kind, _)| matches!(kind, Kind::Explained(_)));
        format!(
            "explained, {}",
            said(met.map(|(kind, many)| (kind.told().1, many)))
        )
    }
}
