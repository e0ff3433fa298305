//! One tally of kinds met: each kind with how often, what is missed of all that
//! were to be met, and how both are said.

use std::collections::BTreeMap;
use std::fmt::{Debug, Display};

/// An enum of plain kinds, all of them in `ALL`, and how each is said.
#[macro_export]
macro_rules! listed {
    (@said $kind:ident) => { stringify!($kind) };
    (@said $kind:ident $words:literal) => { $words };
    ($(#[$about:meta])* $name:ident: $($(#[$note:meta])* $kind:ident $(= $words:literal)?),+) => {
        $(#[$about])*
        #[derive(Clone, Copy, PartialEq, Eq, PartialOrd, Ord, Debug)]
        pub enum $name { $($(#[$note])* $kind),+ }

        impl $name {
            pub const ALL: [$name; [$(stringify!($kind)),+].len()] = [$($name::$kind),+];

            #[allow(dead_code)]
            pub fn words(self) -> &'static str {
                match self { $($name::$kind => $crate::listed!(@said $kind $($words)?)),+ }
            }
        }
    };
}

/// How often each kind was met.
#[derive(Clone)]
pub struct Tally<K>(BTreeMap<K, u64>);

impl<K> Default for Tally<K> {
    fn default() -> Tally<K> {
        Tally(BTreeMap::new())
    }
}

/// As a kind is written; a name without its quotes.
pub fn name<K: Debug>(kind: &K) -> String {
    format!("{kind:?}").trim_matches('"').to_string()
}

impl<K: Ord + Copy + Debug> Tally<K> {
    pub fn count(&mut self, kind: K) {
        self.count_many(kind, 1);
    }

    pub fn count_many(&mut self, kind: K, many: u64) {
        *self.0.entry(kind).or_default() += many;
    }

    pub fn count_if(&mut self, kind: K, is_met: bool) {
        if is_met {
            self.count(kind);
        }
    }

    pub fn count_all(&mut self, kinds: impl IntoIterator<Item = K>) {
        kinds.into_iter().for_each(|kind| self.count(kind));
    }

    pub fn add(&mut self, other: &Tally<K>) {
        other
            .met()
            .for_each(|(kind, many)| self.count_many(kind, many));
    }

    pub fn times(&self, kind: K) -> u64 {
        self.0.get(&kind).copied().unwrap_or(0)
    }

    /// Those that were met, and how often.
    pub fn met(&self) -> impl Iterator<Item = (K, u64)> + '_ {
        self.0.iter().map(|(&kind, &many)| (kind, many))
    }

    /// How many kinds were met at all, and how often together.
    pub fn sums(&self) -> (usize, u64) {
        (self.0.len(), self.0.values().sum())
    }

    /// The names of those that weren't, with this before each.
    pub fn missed(&self, of: &str, all: impl IntoIterator<Item = K>) -> Vec<String> {
        let missed = all.into_iter().filter(|&kind| self.times(kind) == 0);
        missed.map(|kind| format!("{of}{}", name(&kind))).collect()
    }

    /// All of these, each with how often.
    pub fn line(&self, all: impl IntoIterator<Item = K>) -> String {
        let each = all.into_iter().map(|kind| (name(&kind), self.times(kind)));
        said(each)
    }
}

/// Kinds with how often each, in one line.
pub fn said<N: Display>(each: impl IntoIterator<Item = (N, u64)>) -> String {
    let each = each
        .into_iter()
        .map(|(kind, many)| format!("{kind}: {many}"));
    each.collect::<Vec<String>>().join(", ")
}

/// An error where a whole round has missed something.
pub fn none_missed(by: &str, is_whole: bool, missed: Vec<String>) -> Result<(), String> {
    match is_whole && !missed.is_empty() {
        true => Err(format!("not met{by}: {}", missed.join(", "))),
        false => Ok(()),
    }
}

/// Names that stand in one text with `|` between them.
pub fn names(list: &'static str) -> impl Iterator<Item = &'static str> + Clone {
    list.split('|')
}
