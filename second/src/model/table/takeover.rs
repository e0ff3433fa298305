//! K7: "One more call takes a book over to the new rule." K8: it "judges the
//! book by the old rule as before, and no longer asks for cover by the new".

use super::*;

impl Table {
    /// "1 and the same book if it isn't sound by the old rule .., otherwise the
    /// book with its kept needs worked out afresh and nothing else changed."
    /// None stands for 1.
    pub fn taken_over(&self) -> Option<Table> {
        self.is_sound_by(Rule::Old).then(|| self.settled(Rule::New))
    }

    /// With its kept needs worked out afresh, as far as their word goes.
    pub fn settled(&self, rule: Rule) -> Table {
        let mut table = self.clone();
        let (needs, held) = (table.needs_afresh(rule), table.held());
        for (place, need) in table.places[..held].iter_mut().zip(needs) {
            place[NEED] = u64::try_from(need).unwrap_or(u64::MAX);
        }
        table
    }
}
