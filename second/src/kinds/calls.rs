//! What made-up calls have met: every outcome of every call, every single way
//! in which a book isn't sound, and the edges of their arguments.

mod desk;
mod edges;
mod figures;
mod most;
mod numbers;

use crate::kinds::{most::Kind, statements};
use crate::make::asked::{self, Asked, ENDINGS};
use crate::model::calls::{Answered, Call, NAMES};
use crate::model::statement::check;
use crate::model::*;
use crate::tally::{names, said, Tally};
use edges::EDGES;
use std::collections::BTreeMap;

/// The outcomes of each call, in the order of their names.
const OUTCOMES: [&str; NAMES.len()] = [
    "0|1",
    "0|1|7",
    "0|1|3|4|5|6|7|8|9|10|11|12|13|14|17",
    "0|1|2|3|4|5|6|7|8|9|10|11|12|13|14|17|end",
    "1|end|cut|long",
    "0|2|4|5|6|end",
    "0|4|5|6|15",
    "0|1|15|16",
    "0|1|15",
    "0|1",
    "0|15|18|19|20|21",
    "0|22",
    "0|15|18|19|20|21|22",
    "0|15",
    "0|1|7|8|24|25|26|27|28|29",
    "0|1|23",
    "0|1|4|5|7|10|11|12|17",
];

#[derive(Default)]
pub struct Met {
    inputs: u64,
    calls: u64,
    outcomes: BTreeMap<(&'static str, String), u64>,
    edges: Tally<(&'static str, &'static str)>,
    /// Books with one fault alone, the sound ones and those with several.
    alone: Tally<(Rule, Fault)>,
    sound: u64,
    several: u64,
    /// Books of version 1.
    first_versions: u64,
    endings: Tally<&'static str>,
    desk: Tally<asked::desk::Case>,
    figures: Tally<asked::figures::Case>,
    statements: statements::Met,
    most: Tally<Kind>,
    at_paisa: Tally<most::Edge>,
    /// Answers of `most` followed by the two records.
    pairs: u64,
    /// Where an answer of `most` and those of `carry_out` don't agree.
    pub wrong: Vec<String>,
}

impl Met {
    pub fn count(&mut self, call: &Call, answered: &Answered) {
        self.calls += 1;
        let outcome = (call.name(), answered.word.clone());
        *self.outcomes.entry(outcome).or_default() += 1;
        let edges = edges::of_call(call, &answered.word).into_iter();
        let edges = edges.chain(numbers::of_call(call, &answered.word));
        self.edges.count_all(edges.map(|edge| (call.name(), edge)));
        self.figures.count_all(figures::cases(call));
        match call {
            Call::Margin(_, _, initial, positions) => {
                self.desk.count_all(desk::cases(*initial, positions));
            }
            Call::Most(table, record) => {
                self.most.count_all(super::most::kinds(table, record));
                self.pairs += u64::from(most::is_pair(record));
                if !most::agrees(table, record, answered) {
                    self.wrong.push(story::short(call));
                }
            }
            Call::CarryOut(table, record) => {
                let edge = table.book().and_then(|book| most::edge(&book, record));
                self.at_paisa.count_all(edge);
            }
            Call::Statement(book, tm, statement) => {
                let book = book.book();
                let checked = check(book.as_ref(), *tm, statement);
                self.statements
                    .count(book.as_ref(), *tm, statement, &checked);
            }
            _ => {}
        }
        if let Some(book) = call.book() {
            self.count_book(book, call.rule());
        }
    }

    fn count_book(&mut self, book: &Table, rule: Rule) {
        let faults = book.faults_by(rule);
        let alone = Fault::alone(&faults);
        self.sound += u64::from(faults.is_empty());
        self.several += u64::from(alone.is_empty() && !faults.is_empty());
        self.alone
            .count_all(alone.into_iter().map(|fault| (rule, fault)));
    }

    pub fn count_input(&mut self, asked: &Asked) {
        self.inputs += 1;
        self.endings.count(asked.ending);
        self.first_versions += asked.first_versions;
    }

    pub fn missed(&self) -> Vec<String> {
        let mut missed = Vec::new();
        for ((_, name), outcomes) in NAMES.into_iter().zip(OUTCOMES) {
            let is_met = |outcome: &&str| self.outcomes.contains_key(&(name, outcome.to_string()));
            let unmet = names(outcomes).filter(|outcome| !is_met(outcome));
            missed.extend(unmet.map(|outcome| format!("{name}: {outcome}")));
        }
        for (name, edges) in EDGES.into_iter().chain(numbers::EDGES) {
            let unmet = names(edges).filter(|&edge| self.edges.times((name, edge)) == 0);
            missed.extend(unmet.map(|edge| format!("{name}: {edge}")));
        }
        for rule in [Rule::Old, Rule::New] {
            let faults = Fault::all(rule).into_iter();
            let unmet = faults.filter(|&fault| self.alone.times((rule, fault)) == 0);
            missed.extend(unmet.map(|fault| format!("alone, {rule:?}: {fault:?}")));
        }
        missed.extend(self.endings.missed("", names(ENDINGS)));
        if self.first_versions == 0 {
            missed.push("a book of version 1".to_string());
        }
        missed.extend(self.desk.missed("margin: ", asked::desk::Case::all()));
        missed.extend(
            self.figures
                .missed("figures: ", asked::figures::Case::all()),
        );
        missed.extend(self.statements.missed());
        missed.extend(self.most.missed("most: ", Kind::all()));
        missed.extend(self.at_paisa.missed("carry_out: ", most::Edge::all()));
        missed
    }

    pub fn lines(&self) -> Vec<String> {
        let (ways, alone) = self.alone.sums();
        let mut lines = vec![format!(
            "same: {} inputs of {} calls; books: {} sound, unsound in {ways} single ways: {alone}, in several: {}; {} of version 1",
            self.inputs, self.calls, self.sound, self.several, self.first_versions
        )];
        for (_, name) in NAMES {
            let of_call = self.outcomes.iter().filter(|((call, _), _)| *call == name);
            let mut met: Vec<(&String, u64)> = of_call
                .map(|((_, outcome), &many)| (outcome, many))
                .collect();
            met.sort_by_key(|(outcome, _)| outcome.parse::<u8>().ok());
            lines.push(format!("{name}, {}", said(met)));
        }
        let sums = |(kinds, many): (usize, u64)| format!("{kinds} kinds: {many}");
        lines.push(format!("positions, {}", sums(self.desk.sums())));
        lines.push(format!("figures, {}", sums(self.figures.sums())));
        lines.push(format!("statements, {}", self.statements.line()));
        let of_numbers = numbers::EDGES.into_iter();
        let of_numbers =
            of_numbers.flat_map(|(name, list)| names(list).map(move |edge| (name, edge)));
        let met = of_numbers
            .map(|edge| self.edges.times(edge))
            .filter(|&many| many > 0);
        let met: Vec<u64> = met.collect();
        let of_numbers = sums((met.len(), met.iter().sum()));
        lines.push(format!("archives and numbers, {of_numbers}"));
        lines.push(self.most_line());
        lines.push(format!(
            "records at the paisa, {}; answers of most and then their records: {}",
            sums(self.at_paisa.sums()),
            self.pairs
        ));
        let endings = names(ENDINGS);
        lines.push(format!("endings, {}", self.endings.line(endings)));
        lines
    }

    fn most_line(&self) -> String {
        let mut by_words = BTreeMap::new();
        for (kind, many) in self.most.met() {
            if let Some(words) = kind.words() {
                *by_words.entry(words).or_default() += many;
            }
        }
        format!(
            "most by kind, {} kinds, {}",
            self.most.sums().0,
            said(by_words)
        )
    }
}
