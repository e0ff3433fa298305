//! The modes of one day by the letter: after every record carried out every
//! TM and the CM are looked at, with uses worked out afresh. It is held
//! against the book's own modes, and counts what the looks met.

use super::days::Kind;
use super::seen::Step;
use crate::model::*;
use crate::tally::Tally;

/// Kinds of looks. All but those at an opening count where use or collateral
/// has moved since the last look. A use comes to a threshold from off or from
/// on, so that "as before" shows both ways.
pub const KINDS: &str = "\
turned on|turned off|kept on|kept off|0 of 0 from off|0 of 0 from on|1 of 0 from off|\
1 of 0 from on|at 9 from off|at 9 from on|a tenth under 9 from off|a tenth under 9 from on|\
at 8.5 from off|at 8.5 from on|half a tenth under 8.5 from off|half a tenth under 8.5 from on|\
a tenth under 8.5 from off|a tenth under 8.5 from on|turned off by an allocation|\
turned off by a pledge|turned on by a release|turned on by an unpledging|kept on at an opening|\
kept off at an opening|retired after having been on";

/// Where in the list they stand; the CM never retires.
const TURNED: usize = 0;
const KEPT: usize = 2;
const PLACES: usize = 4;
const COLLATERAL: usize = 18;
const OPENING: usize = 22;
pub const RETIRED: usize = 24;

pub struct Looks {
    modes: [Mode; MOST_ACCOUNTS],
    /// Use and collateral at the last look, None before the first.
    seen: [Option<(u64, u64)>; MOST_ACCOUNTS],
    has_been_on: [bool; MOST_ACCOUNTS],
}

impl Looks {
    /// Over a day that starts with this book.
    pub fn from(book: &Book) -> Looks {
        Looks {
            modes: book.modes,
            seen: [None; MOST_ACCOUNTS],
            has_been_on: [false; MOST_ACCOUNTS],
        }
    }

    /// Looks at every TM and the CM, at none after a refusal; whether the
    /// book's own modes are the same then.
    pub fn after(&mut self, step: &Step, met: &mut Tally<Kind>) -> bool {
        let (book, code) = (step.after, step.answer.code);
        if step.is_done() {
            for (account, used) in book.uses().into_iter().enumerate() {
                if book.is_member(account) {
                    let looks = self.look(code, account, used, book.collateral(account));
                    met.count_all(looks.into_iter().map(|look| Kind::Look(account == 0, look)));
                }
            }
            let named = step.place.unwrap_or(0);
            let is_gone = code == RETIRE && self.has_been_on[named];
            met.count_if(Kind::Look(named == 0, RETIRED), is_gone);
        }
        self.modes == book.modes
    }

    fn look(&mut self, code: u8, account: usize, used: u64, collateral: u64) -> Vec<usize> {
        let before = self.modes[account];
        let now = before.looked_at(used, collateral);
        self.modes[account] = now;
        self.has_been_on[account] |= now == Mode::On;
        let moved = self.seen[account].replace((used, collateral)) != Some((used, collateral));
        let mut looks = Vec::new();
        if moved {
            looks.extend(changes(code, before, now));
            let places = places(used, collateral).into_iter().enumerate();
            let places = places.filter(|(_, is_there)| *is_there);
            let from_on = usize::from(before == Mode::On);
            looks.extend(places.map(|(place, _)| PLACES + 2 * place + from_on));
        }
        if used < 9 * collateral && 2 * used >= 17 * collateral {
            let from_off = usize::from(before == Mode::Off);
            if moved {
                looks.push(KEPT + from_off);
            } else if matches!(code, OPEN_TM | OPEN_CLIENT | OPEN_CP) {
                looks.push(OPENING + from_off);
            }
        }
        looks
    }
}

fn changes(code: u8, before: Mode, now: Mode) -> Vec<usize> {
    if before == now {
        return Vec::new();
    }
    let turned = TURNED + usize::from(now == Mode::Off);
    let way = match (now, code) {
        (Mode::Off, ALLOCATE) => 0,
        (Mode::Off, PLEDGE) => 1,
        (Mode::On, RELEASE) => 2,
        (Mode::On, UNPLEDGE) => 3,
        _ => return vec![turned],
    };
    vec![turned, COLLATERAL + way]
}

/// From three paise of collateral on the last five are different uses.
fn places(used: u64, collateral: u64) -> [bool; 7] {
    let (nine, seventeen) = (9 * collateral, 17 * collateral);
    let apart = collateral > 2;
    [
        used == 0 && collateral == 0,
        used == 1 && collateral == 0,
        apart && used == nine,
        apart && used + 1 == nine,
        apart && 2 * used == seventeen,
        apart && 2 * used + 1 == seventeen,
        apart && 2 * used + 2 == seventeen,
    ]
}
