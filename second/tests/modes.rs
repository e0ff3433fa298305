//! K2 of document 02: Annexure 5's table, each threshold with its neighbour, come
//! to from off and from on; and K5: no taking out under risk reduction, 17 with its
//! neighbours 11 and 12.

mod common;
use common::*;
use Mode::{Off, On};

/// The modes of all accounts, `+` for on.
fn modes(said: &str) -> String {
    let all = book_after(said).standings();
    all.iter()
        .map(|standing| if standing.mode == On { '+' } else { '-' })
        .collect()
}

fn mode(said: &str, account: usize) -> Mode {
    book_after(said).standings()[account].mode
}

/// Annexure 5 in paise: the CM, TM-1 (account 1) with Client-1 to Client-3
/// (2 to 4), TM-2 (5) with Client-4 and Client-5 (6, 7).
const ANNEXURE_5: &str = "tm;client 1;client 1;client 1;tm;client 5;client 5;\
pledge 0 120000;pledge 1 50000;pledge 2 80000;pledge 3 50000;pledge 4 40000;\
pledge 5 50000;pledge 6 100000;pledge 7 100000;margin 0 80000;margin 1 40000;margin 2 78000;\
margin 3 45000;margin 4 38000;margin 5 20000;margin 6 92000;margin 7 88000";

/// "CliMrgn>90%" of 60, 0, 20, 20 and 0 rupees and "TMMrgn>90%" of 30 and 0, each a
/// thousand tenths of a paisa; TM1 96%, on; TM2 44%, off; CM 69.1%, off.
#[test]
fn annexure_5() {
    let book = book_after(ANNEXURE_5);
    let excess: Vec<u64> = (1..8).map(|account| book.excess(account) / 1000).collect();
    assert_eq!(excess, [30, 60, 0, 20, 0, 20, 0]);
    let per_mille = |account: usize| 100 * book.used(account) / book.collateral(account);
    assert_eq!([per_mille(1), per_mille(5), per_mille(0)], [960, 440, 691]);
    assert_eq!(modes(ANNEXURE_5), "-+------");
    let uses = [
        "69.1", "96.0", "97.5", "90.0", "95.0", "44.0", "92.0", "88.0",
    ];
    assert_eq!(shown_uses(ANNEXURE_5), uses);
}

/// The use of each account, as `holdings` has it.
fn shown_uses(said: &str) -> Vec<String> {
    let text = utf(holdings::over(Book::fresh(), &piece(said)));
    let last = |line: &str| line.rsplit(' ').next().unwrap_or("").to_string();
    text.lines().skip(3).map(last).collect()
}

/// On from 90.0 or `none`, off below 85.0.
#[test]
fn uses_in_percent() {
    let table = "90.0: pledge 0 1000;margin 0 900\n89.9: pledge 0 10000;margin 0 8999
84.9: pledge 0 100000;margin 0 84999\nnone: revise 0 1
1000000000000000.0: pledge 0 1;revise 0 10000000000000";
    for (use_, said) in rows(table) {
        assert_eq!(shown_uses(said), [use_]);
    }
}

#[test]
fn holdings_columns() {
    let said = "tm;client 1;receive 2 cash 1 deposits 2 guarantees 3 securities 40;\
        allocate 2 securities 20;pledge 2 6;revise 2 20;retire 9;tm;retire 3;raw 00";
    let want = "cut 9 8\nserial 9 number 4
account sort state tm received.cash received.deposits received.guarantees received.securities \
allocated.cash allocated.deposits allocated.guarantees allocated.securities pledged margin use
0 cm live 0 0 0 0 0 0 0 0 0 0 0 0.0\n1 tm live 0 0 0 0 0 0 0 0 0 0 0 0.0
2 client live 1 1 2 3 40 0 0 0 20 6 20 83.3\n3 tm retired 0 0 0 0 0 0 0 0 0 0 0 0.0\n";
    assert_eq!(utf(holdings::over(Book::fresh(), &piece(said))), want);
}

/// A collateral of 100 and its margin, and one account with 9 of collateral
/// and, for nine odd tenths, a margin of 9. Then the margin of the use wanted.
fn at_use(member: usize, tenths: u64, from: Mode) -> Mode {
    let (start, lever) = match member {
        0 => ("cp;pledge 0 100;pledge 1 9", 1),
        _ => ("tm;client 1;pledge 1 100;pledge 2 9", 2),
    };
    let before = if from == On { 100 } else { 0 };
    let odd = tenths % 10;
    assert!(odd == 0 || odd == 9);
    let start = format!("{start};margin {member} {before};margin {lever} {odd}");
    assert_eq!(mode(&start, member), from);
    let said = format!("{start};margin {member} {}", tenths / 10);
    assert_eq!(book_after(&said).used(member), tenths);
    mode(&said, member)
}

/// Nothing stands at eight and a half of an odd number: half a tenth over
/// them keeps the mode, half a tenth under turns it off.
#[test]
fn thresholds() {
    for member in [0, 1] {
        for (wanted, tenths) in rows("++: 1000|900\n-+: 899|859|850\n--: 849|840|0") {
            let tenths = tenths.parse().unwrap();
            let come = [Off, On].map(|from| {
                if at_use(member, tenths, from) == On {
                    '+'
                } else {
                    '-'
                }
            });
            assert_eq!(come.iter().collect::<String>(), wanted, "{member} {tenths}");
        }
    }
    for (lever, tenths, mode_then) in [(9, 859, On), (8, 858, Off)] {
        let said = format!(
            "tm;client 1;pledge 1 101;margin 1 101;pledge 2 {lever};margin 2 {lever};margin 1 85"
        );
        assert_eq!(book_after(&said).used(1), tenths);
        assert_eq!(mode(&said, 1), mode_then);
    }
}

/// "On when use isn't 0": nothing of nothing is off, a tenth of it is on. A client's
/// deposit lessens its TM's use, and by that the CM's. "A record may change modes
/// besides its row", and clients and CPs have none.
#[test]
fn whose_mode() {
    let table = "---: tm;client 1|tm;client 1;pledge 2 1;margin 2 1;margin 2 0|cp;tm;pledge 1 1;margin 1 1;margin 1 0
-: margin 0 0\n++-: tm;client 1;pledge 2 1;margin 2 1\n+--: cp;tm;pledge 1 1;margin 1 1
++-: tm;client 1;pledge 0 10;pledge 1 10;margin 2 18
-+-: tm;client 1;pledge 0 10;pledge 1 10;margin 2 18;pledge 2 2
---: tm;client 1;pledge 0 10;pledge 1 10;margin 2 18;pledge 2 11
-+--: tm;client 1;cp;pledge 0 10;pledge 1 10;margin 2 10
+---: tm;client 1;cp;pledge 0 10;pledge 1 10;margin 3 9
++--: tm;client 1;cp;pledge 0 10;pledge 1 10;margin 2 20
++-: tm;client 1;pledge 1 10;margin 2 10
----: tm;client 1;pledge 1 10;margin 2 10;margin 2 0;unpledge 1 10;retire 2;retire 1;tm";
    for (wanted, said) in rows(table) {
        assert_eq!(modes(said), wanted, "{said}");
        assert_eq!(last(said), 0, "{said}");
    }
}

/// A look changes nothing between the thresholds, and a refusal looks at nothing.
#[test]
fn kept_by_records_of_others() {
    let (on, off) = (
        "tm;cp;pledge 1 100;margin 1 100;margin 1 87",
        "tm;cp;pledge 1 100;margin 1 87",
    );
    let table =
        "0: tm|client 1|cp|receive 1 cash 5|pledge 2 5\n3: serial 9 margin 1 0\n4: raw 0E0000050001
13: margin 1 101\n17: unpledge 1 14\n11: handback 1 cash 1\n14: retire 1\n8: retire 0";
    refused(on, table);
    for (_, said) in rows(table) {
        assert_eq!(mode(&format!("{on};{said}"), 1), On, "{said}");
        assert_eq!(mode(&format!("{off};{said}"), 1), Off, "{said}");
    }
    // A refused margin would have brought the use past the threshold.
    let start = "tm;client 1;pledge 1 100;margin 1 85";
    refused(start, "13: margin 2 16\n0: margin 2 15");
    assert_eq!(
        [15, 16].map(|margin| mode(&format!("{start};margin 2 {margin}"), 1)),
        [On, Off]
    );
}

/// Nine of 170 are eight and a half of 180.
#[test]
fn deposits_and_releases() {
    let start = "tm;receive 1 cash 200;allocate 1 cash 170;margin 1 153";
    assert_eq!(mode(start, 1), On);
    let table = "-+: receive 1 cash 100|allocate 1 cash 10|pledge 1 10|pledge 1 11;unpledge 1 10;release 1 cash 1
--: allocate 1 cash 11|pledge 1 11|pledge 1 11;release 1 cash 10";
    for (wanted, said) in rows(table) {
        assert_eq!(
            &modes(&format!("{start};{said}"))[1..],
            &wanted[1..],
            "{said}"
        );
    }
}

/// Use as the paper says it, with no walk order and nothing kept.
fn used(book: &Book, account: usize) -> u64 {
    let under = (0..book.count).filter(|&other| match book.rows[other].sort {
        Sort::Client => usize::from(book.rows[other].tm) == account,
        Sort::Tm | Sort::Cp => account == 0,
        _ => false,
    });
    10 * book.rows[account].margin + under.map(|other| excess(book, other)).sum::<u64>()
}

fn excess(book: &Book, account: usize) -> u64 {
    let (row, nine) = (&book.rows[account], 9 * book.collateral(account));
    match row.sort {
        Sort::Tm => used(book, account).saturating_sub(nine),
        _ => (10 * row.margin).saturating_sub(nine),
    }
}

/// A look with its three sentences in another order.
fn looked_at(before: Mode, used: u64, collateral: u64) -> Mode {
    let on = used != 0 && used >= 9 * collateral;
    let off = used == 0 || 2 * used < 17 * collateral;
    assert!(!(on && off));
    match (on, off) {
        (false, false) => before,
        _ if off => Off,
        _ => On,
    }
}

#[test]
fn modes_by_the_letter() {
    each_day(400..415, 3_000, |bytes, day| {
        let mut before = [Off; 256];
        print::day_seen(bytes, |answer, book| {
            for account in (0..book.count).filter(|_| answer.refusal() == 0) {
                if matches!(book.rows[account].sort, Sort::Cm | Sort::Tm) {
                    let (used, collateral) = (used(book, account), book.collateral(account));
                    before[account] = looked_at(before[account], used, collateral);
                }
            }
            assert!(before == book.modes, "{day}");
        });
    });
}

/// Where TMs and the CM stand at the end: modes on and off at each mark.
#[test]
fn warned_days_end_at_the_marks() {
    let mut of_cm = [[0; 2]; 5];
    for bytes in days_of("warned", 0..10, ROOM) {
        let book = run_fresh(&bytes).0;
        let mut of_tms = [[0; 2]; 5];
        for (account, used) in book.uses().into_iter().enumerate() {
            let collateral = book.collateral(account);
            let slots = if account == 0 {
                &mut of_cm
            } else {
                &mut of_tms
            };
            // Nine, a tenth under, eight and a half, half a tenth under, a tenth.
            let (nine, lower) = (18 * collateral as i64, 17 * collateral as i64);
            let marks = [nine, nine - 2, lower, lower - 1, lower - 2];
            for (slot, mark) in slots.iter_mut().zip(marks) {
                let is_on = usize::from(book.modes[account] == On);
                slot[is_on] += usize::from(collateral > 2 && 2 * used as i64 == mark);
            }
        }
        assert!(is_at_all(of_tms), "{of_tms:?}");
    }
    assert!(is_at_all(of_cm), "{of_cm:?}");
}

/// At nine on alone, under the lower one off alone, between them both.
fn is_at_all([nine, under_nine, lower, half, tenth]: [[usize; 2]; 5]) -> bool {
    let both = |slot: [usize; 2]| slot[0] > 0 && slot[1] > 0;
    let alone = |many: usize, other: usize| many > 1 && other == 0;
    alone(nine[1], nine[0])
        && both(under_nine)
        && both(lower)
        && alone(half[0], half[1])
        && alone(tenth[0], tenth[1])
}

#[test]
fn wavering_days_come_to_the_thresholds() {
    let mut met = Tally::default();
    for bytes in days_of("wavering", 0..40, NO_LIMIT) {
        met.add(&seen(&bytes));
    }
    for is_cm in [false, true] {
        assert!((0..4).all(|look| met.times(Met::Look(is_cm, look)) > 100));
        assert!((8..22).all(|look| met.times(Met::Look(is_cm, look)) > 4));
    }
}

/// The CM 200 (account 0), a TM 200 (1), its client 100 (2), a CP 100 (3),
/// each half in allocated cash and half pledged, with 5 more of cash received.
const BOOK: &str = "tm;client 1;cp;\
receive 0 cash 105;allocate 0 cash 100;pledge 0 100;receive 1 cash 105;allocate 1 cash 100;\
pledge 1 100;receive 2 cash 55;allocate 2 cash 50;pledge 2 50;receive 3 cash 55;allocate 3 cash 50;\
pledge 3 50";

/// The book with these margins, each `ACCOUNT MARGIN`, and the modes of the CM and
/// the TM then.
fn with(margins: &str, both: &str) -> String {
    let margins = margins
        .split(", ")
        .map(|margin| format!(";margin {margin}"));
    let said = format!("{BOOK}{}", margins.collect::<String>());
    assert_eq!(&modes(&said)[..2], both, "{said}");
    said
}

/// Release and unpledge of one account, rows of amounts with their answers.
fn asked(start: &str, account: usize, table: &str) {
    for (refusal, amount) in rows(table) {
        refused(
            start,
            &format!("{refusal}: release {account} cash {amount}|unpledge {account} {amount}"),
        );
    }
}

/// 20 are free. Within that or beyond it makes no difference, what isn't there
/// does: "after 11 and before 12". A paisa less of margin: 21 are free. Another's
/// mode doesn't matter.
#[test]
fn members_on_and_off() {
    let (on, off) = ("17: 1|20|21|100\n11: 101", "0: 1|21\n12: 22|100\n11: 101");
    asked(&with("1 180", "-+"), 1, on);
    asked(&with("0 180", "+-"), 0, on);
    asked(&with("1 179", "--"), 1, off);
    asked(&with("0 179", "--"), 0, off);
    asked(&with("0 180, 1 179", "+-"), 1, off);
    asked(&with("1 180, 0 179", "-+"), 0, off);
}

/// "Clients' own releases go on: their money isn't the member's."
#[test]
fn those_under_it() {
    for (both, margins) in rows("-+: 1 180\n+-: 0 180\n++: 0 180, 1 180\n--: 0 0") {
        let start = with(&format!("{margins}, 2 80, 3 80"), both);
        for account in [2, 3] {
            asked(&start, account, "0: 1|20\n12: 21|50\n11: 51");
        }
    }
}

/// On at 90% exactly; from on it stays so down to 85% exactly.
#[test]
fn about_the_thresholds() {
    let table = "0: 179|180 169|180 169 170|180 169 179|180 0
17: 180|181|200|180 179|180 171|180 170|180 169 180";
    for (member, other) in [(0, 1), (1, 0)] {
        for (refusal, margins) in rows(table) {
            let margins = margins
                .split(' ')
                .map(|margin| format!(";margin {member} {margin}"));
            let start = format!("{BOOK}{}", margins.collect::<String>());
            asked(&start, member, &format!("{refusal}: 1"));
            asked(&start, other, "0: 1");
        }
    }
}

/// Each kind is looked at for 11, whatever the mode.
#[test]
fn several_kinds() {
    let start =
        "tm;receive 1 cash 50 deposits 50 securities 50;allocate 1 cash 50 deposits 50;margin 1 90";
    let table =
        "17: release 1 cash 1 deposits 1|release 1 cash 5 deposits 6|release 1 cash 50 deposits 50
11: release 1 cash 50 deposits 51|release 1 cash 51 deposits 1|release 1 cash 1 securities 1";
    refused(start, table);
}

/// Hand back takes from what isn't allocated, and so is no taking out; nor is
/// anything else, in either direction.
#[test]
fn other_records_go_on() {
    for (both, margins) in rows("-+: 1 180\n+-: 0 180") {
        let start = with(margins, both);
        for account in 0..4 {
            let table = "0: handback ~ cash 1|handback ~ cash 5\n11: handback ~ cash 6";
            refused(&start, &table.replace('~', &account.to_string()));
        }
    }
    let start = with("1 180, 0 180", "++");
    for account in ["0", "1"] {
        let table = "0: receive ~ cash 1|allocate ~ cash 1|pledge ~ 1|margin ~ 181|margin ~ 179|client 1|tm";
        refused(&start, &table.replace('~', account));
    }
    refused(&start, "8: retire 0\n14: retire 1");
}

/// What turns the mode off, and the next record takes out again: more collateral
/// (180 are 85% of 211.8), a lower margin of its own or under it, or more
/// collateral there.
#[test]
fn after_it_went_off() {
    for (member, under) in [(1, 2), (0, 3)] {
        let own = format!("{BOOK};margin {member} 180;receive {member} cash 20");
        let table = "17: allocate ~ cash 11|pledge ~ 11|margin ~ 170\n0: allocate ~ cash 12|pledge ~ 12|margin ~ 169";
        turn(&own, member, &table.replace('~', &member.to_string()));
        // A margin of 100 is 10 over 90% of as much collateral, and a tenth
        // of a paisa over 90% of 111. With 170 that is 180, with 169 less.
        let from_under = format!(
            "{BOOK};margin {under} 100;margin {member} 170;margin {member} 169;receive {under} cash 20"
        );
        let table = "17: margin ~ 91|pledge ~ 10|allocate ~ cash 10\n0: margin ~ 90|pledge ~ 11|allocate ~ cash 11";
        turn(&from_under, member, &table.replace('~', &under.to_string()));
    }
}

/// 17 before the record, and after it what it leaves.
fn turn(start: &str, member: usize, table: &str) {
    asked(start, member, "17: 1");
    for (refusal, said) in rows(table) {
        let start = format!("{start};{said}");
        let mode_then = if refusal == "17" { On } else { Off };
        assert_eq!(mode(&start, member), mode_then, "{said}");
        asked(&start, member, &format!("{refusal}: 1"));
    }
}

/// What turns the mode on: the record itself goes out, "the mode before the
/// record counts", and the next one doesn't.
#[test]
fn after_it_went_on() {
    let stands = |start: &str, member: usize, mode_then: Mode| {
        assert_eq!(mode(start, member), mode_then, "{start}");
        asked(
            start,
            member,
            if mode_then == On { "17: 1" } else { "0: 1" },
        );
    };
    for (member, under) in [(1, 2), (0, 3)] {
        let start = format!("{BOOK};margin {member} 179");
        asked(&start, member, "0: 1|2|21");
        for word in [
            format!("release {member} cash"),
            format!("unpledge {member}"),
        ] {
            // 179 are nine tenths of 198.9.
            stands(&format!("{start};{word} 1"), member, Off);
            for more in ["2".to_string(), "21".to_string(), format!("1;{word} 1")] {
                stands(&format!("{start};{word} {more}"), member, On);
            }
        }
        // 95 are 5 over 90% of 100, and 85 are 4 over 90% of 90.
        let start = format!("{BOOK};margin {member} 176;margin {under} 85");
        stands(&start, member, Off);
        for said in ["margin ~ 95", "release ~ cash 10", "unpledge ~ 10"] {
            let said = said.replace('~', &under.to_string());
            assert_eq!(after(&start, &said), 0, "{said}");
            stands(&format!("{start};{said}"), member, On);
        }
    }
}

/// One file: on, 17; off by a deposit, 0; on by what went out, 17; off by a
/// margin, 0.
#[test]
fn in_one_day() {
    let said = format!(
        "{BOOK};margin 1 180;release 1 cash 1;unpledge 1 1;pledge 1 12;unpledge 1 1;\
        unpledge 1 11;unpledge 1 1;release 1 cash 1;margin 1 169;release 1 cash 1"
    );
    assert_eq!(refusals(&said)[15..], [0, 17, 17, 0, 0, 0, 17, 17, 0, 0]);
}

/// "Refusals 4 to 14 and 17 change the serial only": it moves, and amounts,
/// needs and modes stay. Everything before 11 comes before 17 too.
#[test]
fn seventeen_changes_the_serial_only() {
    let start = with("1 180, 1 175, 0 175", "-+");
    for said in ["release 1 cash 1", "release 1 cash 100", "unpledge 1 1"] {
        let (before, book) = (book_after(&start), book_after(&format!("{start};{said}")));
        assert_eq!(book.serial, before.serial + 1);
        assert!(book.rows == before.rows && book.count == before.count);
        assert!(book.needs == before.needs && book.modes == before.modes);
        let (serial, next) = (before.serial, before.serial + 1);
        refused(
            &start,
            &format!("17: {said}\n3: {said};serial {serial} tm\n0: {said};serial {next} tm"),
        );
    }
    let table = "3: serial 3 release 1 cash 1\n5: raw 0710 0010 0001 0000000000000001
5: raw 0901 0010 0001 0000000000000001\n6: release 1 cash 0|unpledge 1 10000000000001
7: release 4 cash 1\n11: release 1 deposits 1";
    refused(&with("1 180", "-+"), table);
}

/// A retired TM is not live, 7, whatever it has been.
#[test]
fn a_retired_tm() {
    let start = "tm;receive 1 cash 10;allocate 1 cash 10;margin 1 9";
    assert_eq!(mode(start, 1), On);
    refused(start, "17: release 1 cash 1");
    let start = format!("{start};margin 1 0;release 1 cash 10;handback 1 cash 10;retire 1");
    refused(&start, "7: release 1 cash 1|unpledge 1 1");
}

/// A mode that doesn't fit the figures counts as it is until a record is
/// carried out: 17 doesn't look, a deposit does.
#[test]
fn a_mode_that_was_handed_over() {
    for account in ["0", "1"] {
        let mut book = book_after(BOOK);
        book.modes[account.parse::<usize>().unwrap()] = On;
        assert!(book.is_sound());
        let said = "serial 15 release ~ cash 1;serial 16 unpledge ~ 1;serial 17 handback ~ cash 6;\
            serial 18 pledge ~ 1;serial 19 unpledge ~ 1";
        let mut answers = Vec::new();
        let bytes = piece(&said.replace('~', account));
        day::run(&mut book, &bytes, 9, |answer, _| {
            answers.push(answer.refusal())
        });
        assert_eq!(answers, [17, 17, 11, 0, 0]);
    }
}

/// Other days meet 17 too, without being made for it.
#[test]
fn seventeen_on_other_days() {
    for name in ["busy", "bounds", "wavering", "moving", "mixed"] {
        let days = days_of(name, 0..60, NO_LIMIT).map(|bytes| refusals_of(&bytes));
        let many = days.flatten().filter(|&refusal| refusal == 17).count();
        assert!(many > 20, "{name}: {many}");
    }
}
