//! Made-up days held against the rules written by the letter a second time, and
//! what they meet.

mod common;
use common::*;
use second::kinds::{holds, moves};
use second::make::bundle;

/// Need as the paper says it, with no walk order and nothing kept.
fn need(book: &Book, account: usize) -> u64 {
    let under = (0..book.count).filter(|&other| match book.rows[other].sort {
        Sort::Client => usize::from(book.rows[other].tm) == account,
        Sort::Tm | Sort::Cp => account == 0,
        _ => false,
    });
    let deemed = |other| need(book, other).saturating_sub(book.collateral(other));
    book.rows[account].margin + under.map(deemed).sum::<u64>()
}

fn standing(book: &Book, account: usize) -> Standing {
    let (collateral, need) = (book.collateral(account), need(book, account));
    let blocked = need.min(collateral);
    Standing {
        collateral,
        need,
        blocked,
        deemed: need - blocked,
        free: collateral - blocked,
        mode: book.modes[account],
        shortfall: if account == 0 { need - blocked } else { 0 },
    }
}

#[test]
fn standings_by_the_letter() {
    each_day(300..325, 3_000, |bytes, day| {
        let (book, _) = run_fresh(bytes);
        for (account, given) in book.standings().into_iter().enumerate() {
            assert_eq!(given, standing(&book, account), "{day}");
        }
    });
}

#[test]
fn sound_after_every_record() {
    each_day(0..40, 60_000, |bytes, day| {
        print::day_seen(bytes, |_, book| {
            assert!(book.is_sound() && book.uses_agree(), "{day}")
        });
    });
}

/// A refusal leaves every row as it was; what passes changes one row and the
/// serial, an opening also the number of accounts.
#[test]
fn one_row_at_most() {
    each_day(0..25, 20_000, |bytes, _| {
        let mut before = Book::fresh();
        print::day_seen(bytes, |answer, book| {
            let rows = (0..256)
                .filter(|&row| before.rows[row] != book.rows[row])
                .count();
            assert!(rows <= usize::from(answer.refusal() == 0));
            assert_eq!(book.count, before.count + usize::from(answer.opened() != 0));
            let moved = u16::from(answer.refusal() != 3);
            assert_eq!(book.serial, before.serial.wrapping_add(moved));
            before = book.clone();
        });
    });
}

/// Looks, moves, takings out, margins, tenths and shortfalls on days of every kind.
#[test]
fn the_old_line_gives_the_same() {
    each_day(700..730, 60_000, |bytes, _| drop(seen(bytes)));
}

#[test]
fn answers_by_the_letter() {
    each_day(600..630, 20_000, |bytes, _| drop(seen(bytes)));
}

/// Every one of these kinds in every day made for them, be it one of a bundle; and
/// how often each refusal is met but for those here, on all of them the same.
fn meets(name: &str, many: usize, is_told: impl Fn(&Met) -> bool, meant: &[(u8, usize)]) {
    let kinds: Vec<Met> = Met::all().into_iter().filter(is_told).collect();
    assert_eq!(kinds.len(), many, "{name}");
    for room in [NO_LIMIT, ROOM] {
        for (seed, bytes) in days_of(name, 0..400, room).enumerate() {
            let missed = seen(&bytes).missed("", kinds.iter().copied());
            assert!(missed.is_empty(), "{name} {seed} {room}: {missed:?}");
            let list = refusals_of(&bytes);
            let of = |wanted: u8| list.iter().filter(|&&refusal| refusal == wanted).count();
            let refused: usize = meant.iter().map(|&(refusal, _)| of(refusal)).sum();
            assert_eq!(of(0) + refused, list.len(), "{name} {seed}: {list:?}");
            for &(refusal, many) in meant.iter().filter(|meant| meant.1 < usize::MAX) {
                assert_eq!(of(refusal), many, "{name} {seed}: {refusal}");
            }
        }
    }
}

const ANY: usize = usize::MAX;

#[test]
fn warned_days_meet_every_kind() {
    meets(
        "warned",
        49,
        |kind| matches!(kind, Met::Look(..)),
        &[(7, 1), (8, ANY)],
    );
}

/// But margins a paisa over what the CM has: three of its own, and at full use one
/// of each sort.
#[test]
fn moved_days_meet_every_kind() {
    let is_told = |kind: &Met| match kind {
        Met::Move(kind) => !kind.is_k8(),
        _ => matches!(kind, Met::Margin(..)),
    };
    let many = moves::Kind::all()
        .iter()
        .filter(|kind| !kind.is_k8())
        .count();
    meets("moved", many + 12, is_told, &[(13, 7)]);
}

#[test]
fn valued_days_meet_every_kind() {
    let many = moves::Kind::all()
        .iter()
        .filter(|kind| kind.is_k8())
        .count();
    meets(
        "valued",
        many,
        |kind| matches!(kind, Met::Move(kind) if kind.is_k8()),
        &[],
    );
}

/// A TM's and a client's in the one, the CM's and a CP's in the other.
#[test]
fn held_days_meet_every_kind() {
    for (name, sorts) in [
        ("held", [Sort::Tm, Sort::Client]),
        ("withheld", [Sort::Cm, Sort::Cp]),
    ] {
        let is_told = |kind: &Met| matches!(kind, Met::Hold(kind) if sorts.contains(&kind.sort()));
        meets(name, 88, is_told, &[(11, 9), (12, 12), (17, 27)]);
    }
}

#[test]
fn haircut_days_meet_every_kind() {
    let is_told = |kind: &Met| matches!(kind, Met::Tenth(_));
    meets("haircut", 72, is_told, &[(12, 16), (13, 4), (17, 4)]);
}

#[test]
fn short_days_meet_every_kind() {
    let meant = [3, 4, 5, 6, 7, 8, 11, 12, 13, 14, 17].map(|refusal| (refusal, ANY));
    meets("short", 106, |kind| matches!(kind, Met::Short(_)), &meant);
}

#[test]
fn moving_days_come_to_every_edge() {
    let mut met = Tally::default();
    for bytes in days_of("moving", 0..40, NO_LIMIT) {
        met.add(&seen(&bytes));
    }
    for kind in moves::Kind::all().into_iter().filter(|kind| !kind.is_k8()) {
        assert!(met.times(Met::Move(kind)) > 2, "{kind:?}");
    }
}

/// By sort of account: moves 27 of the CM's records, 38 of TMs', 57 of clients' and
/// 38 of CPs'; takings out 64 of the CM and of TMs, 24 of clients and of CPs. A
/// tally that has met nothing misses all.
#[test]
fn how_many_kinds() {
    let moved = |sort| {
        moves::Kind::all()
            .iter()
            .filter(|kind| kind.sort() == sort)
            .count()
    };
    assert_eq!(Sort::HELD.map(moved), [27, 38, 57, 38]);
    assert_eq!(
        Sort::HELD.map(|sort| holds::Kind::of(sort).len()),
        [64, 64, 24, 24]
    );
    let missed = Tally::default().missed("", Met::all());
    assert_eq!(missed.len(), 25 + 24 + 12 + 160 + 176 + 72 + 106);
    let mut tally = Tally::default();
    tally.count_many("two", 2);
    tally.count_if("one", false);
    assert_eq!(tally.missed("", ["one", "two"]), ["one"]);
    assert_eq!(tally.line(["one", "two"]), "one: 0, two: 2");
}

#[test]
fn busy_days_meet_every_refusal() {
    let mut counts = [0; 18];
    for bytes in days_of("busy", 0..60, NO_LIMIT) {
        refusals_of(&bytes)
            .iter()
            .for_each(|&refusal| counts[usize::from(refusal)] += 1);
    }
    assert!(counts[7..=14].iter().all(|&count| count > 50), "{counts:?}");
    assert!(counts[17] > 50, "{counts:?}");
    assert!(counts[0] * 2 > counts.iter().sum::<usize>(), "{counts:?}");
}

#[test]
fn cuts_reach_every_length() {
    let lengths: Vec<usize> = days_of("cuts", 0..3_000, 4_000)
        .map(|bytes| bytes.len())
        .collect();
    assert!((0..150).all(|length| lengths.contains(&length)));
}

#[test]
fn million_days_close_in_every_way() {
    let days = days_of("million", 0..9, NO_LIMIT).map(|bytes| run_fresh(&bytes).1);
    let seen: Vec<(Closing, usize)> = days.map(|day| (day.closing, day.read)).collect();
    assert!(seen
        .iter()
        .all(|(_, read)| (999_998..=1_000_000).contains(read)));
    for wanted in [Closing::End, Closing::Long] {
        assert!(seen.contains(&(wanted, 1_000_000)), "{seen:?}");
    }
    assert!(
        seen.iter().any(|(closing, _)| *closing == Closing::Cut),
        "{seen:?}"
    );
}

#[test]
fn serials_go_round_somewhere() {
    let mut days = days_of("serials", 0..40, NO_LIMIT);
    assert!(days.any(|bytes| run_fresh(&bytes).1.read > 65_536));
}

#[test]
fn a_bundle_is_its_days() {
    let words = ["--days", "18", "--seed", "5"].map(String::from);
    let bytes = bundle::bundle(&words).unwrap();
    let mut want = Vec::new();
    for place in 0..18 {
        let day = make(ROUND[place % ROUND.len()], 5 + place as u64, 3_000);
        assert!(day.len() <= 3_000);
        want.extend(print::day(&day));
        let standings = print::standings(&day);
        let first = standings.iter().position(|&byte| byte == b'\n').unwrap();
        want.extend_from_slice(&standings[first + 1..]);
    }
    assert!(bundle::bundled(&bytes).unwrap() == want);
    assert!(bundle::bundled(&bytes[..bytes.len() - 1]).is_err());
    assert!(bundle::bundled(&[]).unwrap().is_empty());
}

/// Cutting a day after a whole record never changes the lines before.
#[test]
fn a_shorter_day_is_a_beginning() {
    for bytes in days_of("mixed", 0..6, 2_000) {
        let whole = print::day(&bytes);
        let mut reader = Reader::new(&bytes);
        while let Next::Record(_) = reader.next() {
            let part = print::day(&bytes[..reader.place()]);
            let lines = part.iter().rposition(|&byte| byte == b'e').unwrap();
            assert!(whole.starts_with(&part[..lines]));
        }
    }
}
