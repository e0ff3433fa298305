//! What `most` was asked, by kind: every refusal, where the amount stands and
//! what a paisa more would be refused with.

mod told;

use crate::listed;
use crate::model::*;
pub use told::kinds;

/// The codes that have an amount.
pub const CODES: [u8; 9] = [
    RECEIVE, HAND_BACK, ALLOCATE, RELEASE, PLEDGE, UNPLEDGE, SET_MARGIN, REVALUE, REVISE,
];

/// Codes with what a paisa more than enough is refused with.
pub const LIMITS: [(u8, u8); 9] = [
    (RECEIVE, 10),
    (HAND_BACK, 11),
    (ALLOCATE, 11),
    (RELEASE, 11),
    (RELEASE, 12),
    (PLEDGE, 10),
    (UNPLEDGE, 11),
    (UNPLEDGE, 12),
    (SET_MARGIN, 13),
];

/// Codes without an amount, and some that there aren't.
pub const STRANGE: [u8; 9] = [0, OPEN_TM, OPEN_CLIENT, OPEN_CP, RETIRE, 14, 15, 128, 255];

/// A second mark byte that gives 5.
#[derive(Clone, Copy, PartialEq, Eq, PartialOrd, Ord, Debug)]
pub enum Mark {
    Nothing,
    /// One bit that doesn't suit.
    Bit(u8),
    /// Several of bits 0 to 3, which codes 4 to 7 may have.
    Kinds,
    /// One bit that suits and one that doesn't.
    Beside,
    All,
}

listed! { Gone: Retired, Archived, NeverGiven }

listed! {
    /// Where an amount stands between the least and the ceiling.
    Stand: Least, Between, UnderCeiling
}

listed! {
    /// What is not looked at, where there is an amount.
    Unseen: NextSerial, OtherSerial, NamedNothing, NamedWithin, NamedPast, OthersNothing,
    OthersPast
}

#[derive(Clone, Copy, PartialEq, Eq, PartialOrd, Ord, Debug)]
pub enum Kind {
    /// 1, and what a sound book would have refused: 4, 5, or 0 for neither.
    Unsound(u8),
    /// 4.
    Code(u8),
    /// 4 for a record that would be carried out.
    Carried(u8),
    /// 5.
    Mark(u8, Mark),
    /// 7.
    Gone(u8, Gone),
    /// Not even the least amount passes: code and refusal.
    Nothing(u8, u8),
    /// The same for a member in the mode.
    InMode(Sort, u8, u8),
    /// An amount, and what a paisa more is refused with.
    Stands(u8, Stand, u8),
    /// The same by the bit of its mark.
    Bit(u8, usize, u8),
    Ceiling(u8),
    /// A margin's room ends at the ceiling, or goes on past it.
    RoomEnds,
    RoomGoesOn,
    /// An amount of this code and this sort of account.
    Of(Sort, u8),
    /// 13 a paisa on, without a shortfall: whether the account, its TM and the
    /// CM have something free. A TM counts as its own, a CP has none.
    Margin(Sort, [bool; 3]),
    /// Securities of which so many over whole tens are left, with 12 a paisa on.
    Tenth(u64),
    /// A paisa of securities where nothing is free.
    ForNothing(Sort),
    /// All that is there, which is all that is free.
    Tied(u8),
    Unseen(Unseen),
    /// Of an account whose row has another place than its number.
    Elsewhere,
    /// A client's release under a TM in the mode.
    UnderMode,
    /// An amount under a shortfall.
    Short(u8),
    /// The present margin under a shortfall; but for the CM with own collateral
    /// free.
    ShortMargin(Sort),
}

pub const SORTS: [Sort; 4] = [Sort::Cm, Sort::Tm, Sort::Client, Sort::Cp];

impl Kind {
    pub fn all() -> Vec<Kind> {
        let mut all = vec![Kind::Unsound(0), Kind::Unsound(4), Kind::Unsound(5)];
        all.extend(STRANGE.map(Kind::Code));
        all.extend([OPEN_TM, OPEN_CLIENT, OPEN_CP, RETIRE].map(Kind::Carried));
        for code in CODES {
            all.extend(marks(code).into_iter().map(|mark| Kind::Mark(code, mark)));
            all.extend(Gone::ALL.map(|gone| Kind::Gone(code, gone)));
            all.extend([Kind::Ceiling(code), Kind::Short(code)]);
            all.extend(SORTS.map(|sort| Kind::Of(sort, code)));
        }
        for (code, refusal) in LIMITS {
            all.extend(Stand::ALL.map(|stand| Kind::Stands(code, stand, refusal)));
            all.extend(bits(code).map(|bit| Kind::Bit(code, bit, refusal)));
            // A margin of 0 never rises.
            if code != SET_MARGIN {
                all.push(Kind::Nothing(code, refusal));
            }
        }
        for code in [RELEASE, UNPLEDGE] {
            all.extend([Kind::Nothing(code, 17), Kind::Tied(code)]);
            for sort in [Sort::Cm, Sort::Tm] {
                all.extend([11, 17].map(|refusal| Kind::InMode(sort, code, refusal)));
            }
        }
        all.extend([Kind::RoomEnds, Kind::RoomGoesOn]);
        all.extend([Kind::Elsewhere, Kind::UnderMode]);
        all.extend(Kind::margins());
        // Left with one over tens, that one would cost nothing more.
        all.extend([0, 2, 3, 4, 5, 6, 7, 8, 9].map(Kind::Tenth));
        all.extend(SORTS.map(Kind::ForNothing));
        all.extend(SORTS.map(Kind::ShortMargin));
        all.extend(Unseen::ALL.map(Kind::Unseen));
        all
    }

    /// Whether there is an amount, and the paisa at which it ends.
    pub fn is_edge(&self) -> bool {
        let is_of_code = matches!(self, Kind::Stands(..) | Kind::Ceiling(_));
        is_of_code || matches!(self, Kind::Margin(..) | Kind::Tenth(_))
    }

    /// How a tally says it; some kinds say once more what another one says.
    pub fn words(&self) -> Option<String> {
        let words = match self {
            Kind::Unsound(_) => "1".to_string(),
            Kind::Code(_) => "4".to_string(),
            Kind::Mark(..) => "5".to_string(),
            Kind::Gone(..) => "7".to_string(),
            Kind::Nothing(_, refusal) => format!("{refusal} for the least amount"),
            Kind::Stands(code, _, refusal) => format!("code {code} until {refusal}"),
            Kind::Ceiling(code) => format!("code {code} to the ceiling"),
            Kind::Margin(sort, _) => format!("{} margin until 13", whose(*sort)),
            Kind::Tenth(left) => format!("securities with {left} over tens left"),
            Kind::ForNothing(sort) => format!("{} paisa for nothing", whose(*sort)),
            Kind::Short(_) => "under a shortfall".to_string(),
            Kind::ShortMargin(sort) => format!("{} margin under a shortfall", whose(*sort)),
            _ => return None,
        };
        Some(words)
    }

    fn margins() -> Vec<Kind> {
        let mut all = Vec::new();
        for cm in [false, true] {
            all.push(Kind::Margin(Sort::Cm, [false, false, cm]));
            for own in [false, true] {
                all.push(Kind::Margin(Sort::Cp, [own, false, cm]));
                all.push(Kind::Margin(Sort::Tm, [false, own, cm]));
                all.extend([false, true].map(|tm| Kind::Margin(Sort::Client, [own, tm, cm])));
            }
        }
        all
    }
}

fn whose(sort: Sort) -> &'static str {
    match sort {
        Sort::Cm => "the CM's",
        Sort::Tm => "a TM's",
        Sort::Client => "a client's",
        _ => "a CP's",
    }
}

/// The bits that suit.
pub fn bits(code: u8) -> std::ops::Range<usize> {
    match code {
        RECEIVE..=RELEASE => 0..4,
        SET_MARGIN | REVISE => MARGIN..MARGIN + 1,
        _ => PLEDGED..PLEDGED + 1,
    }
}

fn marks(code: u8) -> Vec<Mark> {
    let mut marks = vec![Mark::Nothing, Mark::Kinds, Mark::Beside, Mark::All];
    let unsuited = (0..8).filter(|&bit| !bits(code).contains(&usize::from(bit)));
    marks.extend(unsuited.map(Mark::Bit));
    marks
}
