//! The needs of one day by the letter: after every record they are worked out
//! afresh and held against the kept ones. Counts which records moved whose (K3),
//! K8's among them.

use super::days;
use super::seen::Step;
use crate::listed;
use crate::model::*;
use crate::tally::Tally;
use std::cmp::Ordering;
use Deed::*;

listed! {
    /// What a record does to the account it names, or opens.
    Deed: Opened = "opened", Received = "received", HandedBack = "handed back",
    Allocated = "allocated", Released = "released", Pledged = "pledged", Unpledged = "unpledged",
    Risen = "risen", Fallen = "fallen", Same = "same margin", Retired = "retired",
    ValueUp = "value up", ValueDown = "value down", ValueSame = "same value",
    RevisedUp = "revised up", RevisedDown = "revised down", RevisedSame = "revised to the same"
}

listed! {
    /// Whose kept need moves with it: a TM's own or its client's, and the CM's.
    Moved: Nothing = "nobody's", Tm = "TM's", Cm = "CM's", Both = "TM's and CM's"
}

listed! {
    /// Where need and collateral differ by a paisa or not at all.
    Edge:
    /// Nothing free any more, and nothing deemed.
    Level = "level",
    /// A paisa deemed, where nothing was.
    Over = "a paisa over",
    /// The last paisa deemed is gone.
    Back = "a paisa back"
}

#[derive(Clone, Copy, PartialEq, Eq, PartialOrd, Ord, Debug)]
pub enum Kind {
    Moved(Sort, Deed, Moved),
    /// The account named comes to the edge of its own collateral.
    AtEdge(Sort, Deed, Edge),
    /// A client's record brings its TM there.
    TmAtEdge(Deed, Edge),
}

impl Edge {
    /// An edge of a paisa or none would be no edge.
    fn of(before: &Standing, now: &Standing) -> Option<Edge> {
        let is_level = now.free == 0 && now.deemed == 0;
        match (before.free, before.deemed, now.deemed) {
            _ if now.blocked < 2 => None,
            (1.., 0, 0) if is_level => Some(Edge::Level),
            (_, 0, 1) => Some(Edge::Over),
            (_, 1, 0) if is_level => Some(Edge::Back),
            _ => None,
        }
    }
}

impl Kind {
    /// All that are possible.
    pub fn all() -> Vec<Kind> {
        let mut all = Vec::new();
        for deed in Deed::ALL {
            for sort in Sort::HELD {
                all.extend(Moved::ALL.map(|moved| Kind::Moved(sort, deed, moved)));
                all.extend(Edge::ALL.map(|edge| Kind::AtEdge(sort, deed, edge)));
            }
            all.extend(Edge::ALL.map(|edge| Kind::TmAtEdge(deed, edge)));
        }
        all.retain(Kind::is_possible);
        all
    }

    fn is_possible(&self) -> bool {
        match *self {
            Kind::Moved(sort, deed, moved) => can_move(sort, deed, moved),
            // 13 stands ahead of a margin that rises past cover.
            Kind::AtEdge(Sort::Cm, Risen, Edge::Over) => false,
            Kind::AtEdge(_, deed, edge) => can_come(deed, edge),
            // What a client releases was deemed by nobody.
            Kind::TmAtEdge(Released | Unpledged, _) => false,
            Kind::TmAtEdge(deed, edge) => can_come(deed, edge),
        }
    }

    /// Whether it takes a price, a revision or a shortfall.
    pub fn is_k8(&self) -> bool {
        let (deed, of_cm, edge) = match *self {
            Kind::Moved(_, deed, _) => (deed, false, None),
            Kind::AtEdge(sort, deed, edge) => (deed, sort == Sort::Cm, Some(edge)),
            Kind::TmAtEdge(deed, edge) => (deed, false, Some(edge)),
        };
        deed >= ValueUp || (of_cm && edge != Some(Edge::Level))
    }

    /// The sort of the account that the record names.
    pub fn sort(&self) -> Sort {
        match *self {
            Kind::Moved(sort, ..) | Kind::AtEdge(sort, ..) => sort,
            Kind::TmAtEdge(..) => Sort::Client,
        }
    }

    pub fn words(&self) -> String {
        match *self {
            Kind::Moved(_, deed, Moved::Nothing) => deed.words().to_string(),
            Kind::Moved(_, deed, moved) => format!("{} {}", deed.words(), moved.words()),
            Kind::AtEdge(_, deed, edge) => format!("{} {}", deed.words(), edge.words()),
            Kind::TmAtEdge(deed, edge) => format!("{} its TM {}", deed.words(), edge.words()),
        }
    }
}

/// A member's own margin is part of its need; what an account is deemed is
/// part of the need above it. Release and unpledge are of what is free (12).
fn can_move(sort: Sort, deed: Deed, moved: Moved) -> bool {
    let of_margin = matches!(deed, Risen | Fallen | RevisedUp | RevisedDown);
    let of_collateral = matches!(deed, Allocated | Pledged | ValueUp | ValueDown);
    match (sort, deed) {
        (Sort::Cm, Opened | Retired) => false,
        (Sort::Cm, _) if of_margin => moved == Moved::Cm,
        (Sort::Tm, _) if of_margin => matches!(moved, Moved::Tm | Moved::Both),
        (Sort::Client, _) if of_margin || of_collateral => moved != Moved::Cm,
        (Sort::Cp, _) if of_margin => matches!(moved, Moved::Nothing | Moved::Cm),
        (Sort::Tm | Sort::Cp, _) if of_collateral => matches!(moved, Moved::Nothing | Moved::Cm),
        _ => moved == Moved::Nothing,
    }
}

fn can_come(deed: Deed, edge: Edge) -> bool {
    let past = matches!(deed, Risen | RevisedUp | ValueDown);
    match edge {
        Edge::Level => past || matches!(deed, Released | Unpledged),
        Edge::Over => past,
        Edge::Back => matches!(deed, Fallen | Allocated | Pledged | RevisedDown | ValueUp),
    }
}

/// Whether the kept needs are those worked out afresh, and have moved as they can;
/// with a refusal none does.
pub fn after(step: &Step, met: &mut Tally<days::Kind>) -> bool {
    let is_moved = |&account: &usize| {
        step.after.is_member(account) && step.was[account].need != step.now[account].need
    };
    let moved: Vec<usize> = (0..step.was.len()).filter(is_moved).collect();
    let fits = match step.is_done() {
        false => moved.is_empty(),
        true => kinds(step, &moved).map_or(false, |kinds| {
            met.count_all(kinds.iter().map(|&kind| days::Kind::Move(kind)));
            kinds.iter().all(Kind::is_possible)
        }),
    };
    fits && step.after.needs == step.after.needs_afresh()
}

/// None where a need moved that has nothing to do with the account.
fn kinds(step: &Step, moved: &[usize]) -> Option<Vec<Kind>> {
    let (answer, book) = (step.answer, step.after);
    // A number given is above the one named.
    let account = book.place_of(answer.opened().max(answer.account))?;
    let (sort, deed) = (book.rows[account].sort, deed(step, account));
    let above = book.answers_for(account);
    let tm = if sort == Sort::Tm { account } else { above };
    let moved = match *moved {
        [] => Moved::Nothing,
        [0] => Moved::Cm,
        [one] if one == tm => Moved::Tm,
        [0, one] if one == tm => Moved::Both,
        _ => return None,
    };
    let edge = |account: usize| Edge::of(step.was.get(account)?, &step.now[account]);
    let mut kinds = vec![Kind::Moved(sort, deed, moved)];
    kinds.extend(edge(account).map(|edge| Kind::AtEdge(sort, deed, edge)));
    let of_tm = edge(above).filter(|_| sort == Sort::Client);
    kinds.extend(of_tm.map(|edge| Kind::TmAtEdge(deed, edge)));
    Some(kinds)
}

/// A margin is part of the need of the account named, whoever that is.
fn deed(step: &Step, account: usize) -> Deed {
    let by = |turn: Ordering| (turn as i8 + 1) as usize;
    let (was, now) = (step.was.get(account), &step.now[account]);
    let collateral = was.map_or(1, |was| by(now.collateral.cmp(&was.collateral)));
    let need = was.map_or(1, |was| by(now.need.cmp(&was.need)));
    match step.answer.code {
        OPEN_TM | OPEN_CLIENT | OPEN_CP => Opened,
        RECEIVE => Received,
        HAND_BACK => HandedBack,
        ALLOCATE => Allocated,
        RELEASE => Released,
        PLEDGE => Pledged,
        UNPLEDGE => Unpledged,
        RETIRE => Retired,
        REVALUE => [ValueDown, ValueSame, ValueUp][collateral],
        REVISE => [RevisedDown, RevisedSame, RevisedUp][need],
        _ => [Fallen, Same, Risen][need],
    }
}
