//! K3 of document 02: the needs kept beside the rows, moved by one record at a
//! time, each edge with its neighbour; and K6: 13 for a rising margin alone, which
//! in a sound book is 13 as it was.

mod common;
use common::*;

/// "All needs in one list"; the kept ones must be the TMs' and the CM's of it.
fn needs(said: &str) -> String {
    let book = book_after(said);
    let all = book.all_needs();
    for (account, row) in book.rows.iter().enumerate() {
        let is_kept = matches!(row.sort, Sort::Cm | Sort::Tm);
        let kept = if is_kept { all[account] } else { 0 };
        assert_eq!(book.needs[account], kept, "account {account}");
    }
    all.iter().map(u64::to_string).collect::<Vec<_>>().join(" ")
}

/// Rows of records that are carried out, with the needs then.
fn needed(start: &str, table: &str) {
    for (wanted, said) in rows(table) {
        assert_eq!(after(start, said), 0, "{said}");
        assert_eq!(needs(&format!("{start};{said}")), wanted, "{said}");
    }
}

#[test]
fn printed_needs() {
    let shown = |said: &str| utf(print::needs(&piece(said)));
    assert_eq!(shown(""), "end 0 0\n0 0\n");
    let said = "tm;client 1;cp;pledge 0 9;pledge 1 3;margin 2 5;margin 3 1;retire 1";
    assert_eq!(shown(said), "end 8 7\n0 3\n1 5\n2 5\n3 1\n");
    assert_eq!(shown("pledge 0 3;margin 0 2;raw 0A20"), "cut 2 2\n0 2\n");
}

/// A retired account's line stays, with 0.
#[test]
fn retired_ones() {
    let start = "tm;client 1;cp;pledge 0 9;margin 1 1;margin 2 2;margin 3 3";
    assert_eq!(needs(start), "6 3 2 3");
    let all = "margin 2 0;retire 2;margin 1 0;retire 1;margin 3 0;retire 3";
    needed(
        start,
        &format!("0 0 0 0: {all}\n0 0 0 0 0 0: {all};tm;client 4"),
    );
}

/// The CM 100, TM 50 (account 1), its client 20 (2), a CP 10 (3), another TM
/// 50 (4).
const BOOK: &str =
    "tm;client 1;cp;tm;receive 0 cash 100;allocate 0 cash 100;receive 1 deposits 60;\
allocate 1 deposits 50;receive 2 cash 15;allocate 2 cash 10;pledge 2 10;pledge 3 10;pledge 4 50";

#[test]
fn margins() {
    let table = "7 0 0 0 0: margin 0 7\n6 0 0 0 0: margin 0 7;margin 0 6
0 50 0 0 0: margin 1 50|margin 1 51;margin 1 50\n1 51 0 0 0: margin 1 51
20 60 0 0 60: margin 1 60;margin 4 60
0 0 20 0 0: margin 2 20|margin 2 71;margin 2 20\n0 1 21 0 0: margin 2 21
0 50 70 0 0: margin 2 70|margin 2 71;margin 2 70\n1 51 71 0 0: margin 2 71
1 51 41 0 0: margin 1 30;margin 2 41\n0 21 41 0 0: margin 1 30;margin 2 41;margin 1 0
0 0 0 10 0: margin 3 10|margin 3 11;margin 3 10\n1 0 0 11 0: margin 3 11";
    needed(BOOK, table);
}

/// Collateral put in lessens what others need for the account, and its own
/// need not.
#[test]
fn deposits() {
    let table = "2 52 72 0 0: receive 2 cash 9|receive 2 cash 9;handback 2 cash 9
1 51 72 0 0: allocate 2 cash 1|pledge 2 1\n0 50 72 0 0: allocate 2 cash 2|pledge 2 2
0 49 72 0 0: allocate 2 cash 3|pledge 2 3\n1 52 72 0 0: allocate 1 deposits 1|pledge 1 1
0 52 72 0 0: allocate 1 deposits 3|pledge 1 3";
    needed(&format!("{BOOK};margin 2 72"), table);
    let table = "1 0 0 12 0: margin 3 12;pledge 3 1\n0 0 0 12 0: margin 3 12;pledge 3 3
5 0 0 0 0: margin 0 5;pledge 0 3";
    needed(BOOK, table);
}

/// To the last paisa that is free, and no need moves; a paisa more is 12. A refused
/// record leaves every need.
#[test]
fn what_moves_no_need() {
    let free = "0: release 0 cash 95|release 1 deposits 45|release 2 cash 5|unpledge 2 5|unpledge 3 6|unpledge 4 6
12: release 0 cash 96|release 1 deposits 46|release 2 cash 6|unpledge 2 6|unpledge 3 7|unpledge 4 7";
    let bad = "3: serial 3 margin 2 0\n6: margin 2 10000000000001\n7: margin 5 0
13: margin 2 121|margin 0 1|margin 3 11\n11: allocate 2 cash 6\n14: retire 1";
    for (margins, table, wanted) in [
        (
            "margin 0 5;margin 1 5;margin 2 15;margin 3 4;margin 4 44",
            free,
            "5 5 15 4 44",
        ),
        ("margin 1 50;margin 2 120", bad, "100 150 120 0 0"),
    ] {
        let start = format!("{BOOK};{margins}");
        assert_eq!(needs(&start), wanted);
        refused(&start, table);
        for (_, said) in rows(table) {
            assert_eq!(needs(&format!("{start};{said}")), wanted, "{said}");
        }
    }
}

/// Need as the paper says it, in two plain sums over all accounts.
fn by_the_letter(book: &Book, account: usize) -> u64 {
    let sort = |other: usize| book.rows[other].sort;
    let deemed = |other: usize| by_the_letter(book, other).saturating_sub(book.collateral(other));
    let all = 0..book.count;
    let margin = book.rows[account].margin;
    match sort(account) {
        Sort::Client | Sort::Cp | Sort::Unused => margin,
        Sort::Tm => {
            let clients = all.filter(|&other| sort(other) == Sort::Client);
            let own = clients.filter(|&client| usize::from(book.rows[client].tm) == account);
            margin + own.map(deemed).sum::<u64>()
        }
        Sort::Cm => {
            let others = all.filter(|&other| matches!(sort(other), Sort::Tm | Sort::Cp));
            margin + others.map(deemed).sum::<u64>()
        }
    }
}

#[test]
fn needs_by_the_letter() {
    each_day(500..512, 3_000, |bytes, day| {
        print::day_seen(bytes, |_, book| {
            for account in 0..256 {
                let is_kept = matches!(book.rows[account].sort, Sort::Cm | Sort::Tm);
                let kept = if is_kept {
                    by_the_letter(book, account)
                } else {
                    0
                };
                assert_eq!(book.needs[account], kept, "{day}");
            }
        });
    });
}

/// The last four TMs: a paisa free, none, a paisa deemed, or more.
#[test]
fn moved_days_end_about_collaterals() {
    for bytes in days_of("moved", 0..100, ROOM) {
        let all = run_fresh(&bytes).0.standings();
        let last = [8, 6, 4, 2].map(|back| &all[all.len() - back]);
        assert_eq!(last.map(|tm| tm.free), [1, 0, 0, 0]);
        assert_eq!(last[..3].iter().map(|tm| tm.deemed).sum::<u64>(), 1);
        assert!(last[2].deemed == 1 && last[3].deemed > 1);
    }
}

/// All 100 of the CM are needed: 20 for what the TM (account 1, with 20) is
/// deemed for its client (2, with 10), 20 for the TM's own margin, 30 for the
/// CP (3) and 30 for itself.
const FULL: &str = "tm;client 1;cp;pledge 0 100;pledge 1 20;pledge 2 10;\
margin 2 50;margin 1 20;margin 3 30;margin 0 30";
const MARGINS: [(u64, u64); 4] = [(0, 30), (1, 20), (2, 50), (3, 30)];

/// What fell may rise again to full use, and not a paisa further; what one
/// leaves another may have.
#[test]
fn at_full_use() {
    assert_eq!(book_after(FULL).standings()[0].free, 0);
    for (account, margin) in MARGINS {
        let (less, more) = (margin - 1, margin + 1);
        let table = "0: margin ~ {}|margin ~ {less}|margin ~ 0\n13: margin ~ {more}";
        let table = table
            .replace("{less}", &less.to_string())
            .replace("{more}", &more.to_string());
        refused(
            FULL,
            &table
                .replace('~', &account.to_string())
                .replace("{}", &margin.to_string()),
        );
        let start = format!("{FULL};margin {account} {}", margin - 7);
        for (other, was) in MARGINS {
            let now = if other == account { was - 7 } else { was };
            refused(
                &start,
                &format!(
                    "0: margin {other} {}\n13: margin {other} {}",
                    now + 7,
                    now + 8
                ),
            );
        }
    }
}

/// Only a book that isn't covered tells the lines apart: here the CM's pledge
/// has lost value.
#[test]
fn a_book_that_is_not_covered() {
    let start = format!("{FULL};revalue 0 60");
    assert!(book_after(&start).standings()[0].shortfall > 0);
    let said = "margin 2 50;margin 2 51;margin 2 49;margin 2 50;margin 0 30;margin 3 30;margin 1 19;margin 0 31";
    assert_eq!(
        refusals(&format!("{start};{said}"))[11..],
        [0, 13, 0, 13, 0, 0, 0, 13]
    );
}
