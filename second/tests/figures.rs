//! Document 01, "The program" and "Figures to hold against it", with K1's
//! figures and K3's list of document 02. Rupees there, paise here.

mod common;
use common::*;

/// CM 1000, TM-1 500 (account 1), its clients A 300 (2) and B 300 (3).
const BOOK: &str = "tm;client 1;client 1;receive 0 cash 100000;allocate 0 cash 100000;\
receive 1 cash 50000;allocate 1 cash 50000;receive 2 cash 30000;allocate 2 cash 30000;\
receive 3 cash 30000;allocate 3 cash 30000";

/// The book at P1 to P5.
fn at(figure: usize) -> String {
    let margins = ["3 10000", "2 60000", "3 60000", "3 90000", "3 150000"];
    let margins = margins[..figure]
        .iter()
        .map(|margin| format!(";margin {margin}"));
    format!("{BOOK}{}", margins.collect::<String>())
}

/// A figure of the CM, TM-1, A and B.
fn each(said: &str, figure: fn(&Standing) -> u64) -> Vec<u64> {
    book_after(said).standings().iter().map(figure).collect()
}

fn blocked(said: &str) -> Vec<u64> {
    each(said, |standing| standing.blocked)
}

/// Payments of some accounts, each own, TM's, CM's and uncovered, and the total.
fn closes(said: &str, losses: &[u64], payments: &[(usize, [u64; 4])], total: u64) {
    let answer = close_out(&book_after(said), losses.to_vec()).unwrap();
    for &(account, want) in payments {
        let Payment {
            own,
            tm,
            cm,
            uncovered,
        } = answer.payments[account];
        assert_eq!([own, tm, cm, uncovered], want, "account {account}");
    }
    assert_eq!(answer.total, total);
}

#[test]
fn the_example() {
    let hex = "raw 0100 0000 0000;raw 0200 0001 0001;raw 0401 0002 0002 0000000000007530;\
        raw 0601 0003 0002 0000000000007530;raw 0A20 0004 0002 000000000000EA60";
    let want = "0 1 0 0 1\n1 2 1 0 2\n2 4 2 0 0\n3 6 2 0 0\n4 10 2 13 0\nend 5 4\n";
    assert_eq!(printed(hex), want);
}

#[test]
fn p1() {
    assert_eq!(blocked(&at(1)), [0, 0, 0, 10_000]);
}

#[test]
fn p2() {
    assert_eq!(blocked(&at(2)), [0, 30_000, 30_000, 10_000]);
}

#[test]
fn p3() {
    assert_eq!(blocked(&at(3)), [10_000, 50_000, 30_000, 30_000]);
}

#[test]
fn p4() {
    assert_eq!(blocked(&at(4)), [40_000, 50_000, 30_000, 30_000]);
    assert_eq!(
        each(&at(4), |standing| standing.deemed),
        [0, 40_000, 30_000, 60_000]
    );
}

#[test]
fn p5() {
    assert!(refusals(&at(5)).iter().all(|&refusal| refusal == 0));
    assert_eq!(blocked(&at(5)), [100_000, 50_000, 30_000, 30_000]);
}

/// P1 to P5 in K3's list; beside the rows stand TM-1's and the CM's alone.
#[test]
fn needs_of_p1_to_p5() {
    let needs = |figure: usize| book_after(&at(figure)).all_needs();
    assert_eq!(needs(1), [0, 0, 0, 10_000]);
    assert_eq!(needs(2), [0, 30_000, 60_000, 10_000]);
    assert_eq!(needs(3), [10_000, 60_000, 60_000, 60_000]);
    assert_eq!(needs(4), [40_000, 90_000, 60_000, 90_000]);
    assert_eq!(needs(5), [100_000, 150_000, 60_000, 150_000]);
    assert_eq!(book_after(&at(4)).needs[..4], [40_000, 90_000, 0, 0]);
}

#[test]
fn p6() {
    refused(&at(4), "13: margin 3 150001");
    refused(&at(5), "13: margin 3 150001");
}

#[test]
fn p7() {
    let paid = [
        (2, [30_000, 30_000, 0, 0]),
        (3, [30_000, 20_000, 40_000, 0]),
    ];
    closes(&at(4), &[0, 0, 60_000, 90_000], &paid, 0);
}

#[test]
fn p8() {
    let paid = [
        (0, [0; 4]),
        (1, [0; 4]),
        (2, [30_000, 30_000, 60_000, 0]),
        (3, [30_000, 20_000, 40_000, 30_000]),
    ];
    closes(&at(4), &[0, 0, 120_000, 120_000], &paid, 30_000);
}

/// "From free collateral only": TM-1's 300 blocked for A stay where they are,
/// though A has no loss.
#[test]
fn blocked_for_another() {
    let paid = [(3, [30_000, 20_000, 100_000, 50_000])];
    closes(
        &format!("{BOOK};margin 2 60000"),
        &[0, 0, 0, 200_000],
        &paid,
        50_000,
    );
}

/// Members have no payment ahead: beyond their margins, here 0, they are owners
/// of what is free and no more.
#[test]
fn members_with_losses() {
    let paid = [
        (0, [40_000, 0, 0, 0]),
        (1, [0, 0, 20_000, 10_000]),
        (2, [30_000, 30_000, 0, 0]),
        (3, [30_000, 20_000, 40_000, 0]),
    ];
    closes(&at(4), &[40_000, 30_000, 60_000, 90_000], &paid, 10_000);
}

#[test]
fn p9() {
    refused(&at(1), "0: release 3 cash 20000\n12: release 3 cash 20001");
}

#[test]
fn p10() {
    refused(&at(0), "0: margin 2 0");
    assert_eq!(last("margin 0 0"), 0);
}

#[test]
fn p11() {
    let mut long = vec![4, 0xFF];
    long.resize(69, 0);
    assert_eq!(print::day(&long), b"cut 0 0\n");
    long.push(0);
    assert_eq!(print::day(&long), b"0 4 0 5 0\nend 1 0\n");
}

#[test]
fn fresh_close_out() {
    closes("", &[5], &[(0, [0, 0, 0, 5])], 5);
}

/// "A client's later deposit must free the TM's collateral at once."
#[test]
fn blocking_is_not_by_arrival() {
    let later = format!("{};receive 2 cash 10000;allocate 2 cash 10000", at(2));
    assert_eq!(blocked(&at(2))[1], 30_000);
    assert_eq!(blocked(&later)[1], 20_000);
}

/// A's free collateral doesn't help B of the same TM.
#[test]
fn no_lending_between_clients() {
    assert_eq!(
        blocked(&format!("{BOOK};margin 3 40000")),
        [0, 10_000, 0, 30_000]
    );
}

/// Without margins everything is free: TM and CM pay their own losses first,
/// then one order over all others.
#[test]
fn close_out_order() {
    let said = "tm;client 1;cp;tm;pledge 0 100;pledge 1 50;pledge 2 10;pledge 3 10";
    let paid = [
        (0, [30, 0, 0, 0]),
        (1, [40, 0, 0, 0]),
        (2, [10, 10, 15, 0]),
        (3, [10, 0, 15, 0]),
        (4, [0, 0, 40, 10]),
    ];
    closes(said, &[30, 40, 35, 25, 50], &paid, 10);
}
