//! K8 of document 02: prices and revisions, the shortfall, and what is refused
//! under one; and K7: government securities at their haircut, the old rule beside
//! the new, and books taken over.

mod common;
use common::*;
use second::make::MILLION_KIND;
use second::model::table::MODE;

/// The CM 100 pledged, TM 1 with its client 2 who has 11 paise of securities,
/// which count as 9, and CP 3 with 50 of cash. The client needs 109, the CP 20.
const BOOK: &str = "tm;client 1;cp;pledge 0 100;receive 2 securities 11;allocate 2 securities 11;\
receive 3 cash 50;allocate 3 cash 50;margin 2 109;margin 3 20";

fn shortfall(said: &str) -> u64 {
    book_after(said).standings()[0].shortfall
}

/// The pledge's value falls below need.
fn fallen() -> String {
    format!("{BOOK};revalue 0 90")
}

#[test]
fn a_value_that_falls() {
    assert_eq!(shortfall(BOOK), 0);
    assert_eq!(shortfall(&fallen()), 10);
    assert_eq!(shortfall(&format!("{};revalue 0 100", fallen())), 0);
    let all = book_after(&fallen()).standings();
    assert!(all[1..].iter().all(|standing| standing.shortfall == 0));
}

/// "A margin under code 10 that doesn't rise is carried out even while there is
/// a shortfall"; one that rises isn't, though the CM's need stays.
#[test]
fn margins_under_a_shortfall() {
    let table = "13: margin 2 110|margin 3 21|margin 0 1
0: margin 2 109|margin 2 108|margin 3 20|margin 3 0|margin 0 0|revise 2 110|revise 0 10000000000000";
    refused(&fallen(), table);
}

/// "Release rules stay."
#[test]
fn releases_under_a_shortfall() {
    let table =
        "0: release 3 cash 30|release 2 securities 1\n12: release 3 cash 31|release 2 securities 2
17: unpledge 0 1";
    refused(&fallen(), table);
}

#[test]
fn at_the_edges() {
    let table = "0: revalue 0 0|revalue 3 0|revalue 3 10000000000000|revise 3 0|revise 3 10000000000000
6: revalue 3 10000000000001|revise 3 10000000000001\n7: revalue 4 1|revise 4 1\n4: raw 0E00 000A 0000
5: raw 0C20 000A 0000 0000000000000001|raw 0D10 000A 0000 0000000000000001|raw 0C00 000A 0000";
    refused(BOOK, table);
}

/// Code 12 is no taking out (K5), and looks at modes as any record.
#[test]
fn a_value_of_a_member_in_the_mode() {
    let table = "17: unpledge 0 1\n0: revalue 0 50|revalue 0 200;unpledge 0 1";
    refused("pledge 0 100;margin 0 90", table);
}

/// "The total uncovered is at most the shortfall plus the losses beyond
/// margins"; with losses at the margins it is the shortfall.
#[test]
fn a_close_out_under_a_shortfall() {
    let book = book_after(&fallen());
    for (client, cp, total) in [
        (109, 20, 10),
        (99, 20, 0),
        (110, 20, 11),
        (109, 50, 10),
        (109, 51, 11),
    ] {
        let closed = close_out(&book, vec![0, 0, client, cp]).unwrap();
        assert_eq!(closed.total, total);
    }
}

/// One more pledge or a margin that falls cures it; K5 and 13 are as before
/// then.
#[test]
fn cured() {
    for said in ["pledge 0 10", "margin 2 99", "revise 2 99", "revalue 0 100"] {
        let start = format!("{};{said}", fallen());
        assert_eq!(shortfall(&start), 0, "{said}");
        refused(&start, "0: margin 3 50\n13: margin 3 51");
    }
}

#[test]
fn by_codes_12_and_13_alone() {
    each_day(900..930, 20_000, |bytes, _| drop(seen(bytes)));
}

/// A day made for a shortfall ends with one, and so does one made for close-outs;
/// other days have some on the way.
#[test]
fn days_with_shortfalls() {
    for (name, room) in [("short", ROOM), ("wanting", NO_LIMIT)] {
        for bytes in days_of(name, 0..200, room) {
            let short = run_fresh(&bytes).0.standings()[0].shortfall;
            assert!(short > 0 && short <= 200 * CEILING, "{name}");
        }
    }
    for name in ["busy", "mixed", "falling", "bounds"] {
        let is_short = |bytes: &Vec<u8>| {
            let mut is_short = false;
            print::day_seen(bytes, |_, book| is_short |= book.deemed(0) > 0);
            is_short
        };
        let many = days_of(name, 0..60, NO_LIMIT).filter(is_short).count();
        assert!(many > 20, "{name}: {many}");
    }
}

/// "The tenth rounded up to a paisa. One paisa therefore counts as nothing."
#[test]
fn what_they_count_as() {
    let table = "0: 1\n8: 9\n9: 10|11\n17: 19\n18: 20|21\n9000000000000: 10000000000000
8999999999999: 9999999999999";
    for (counted, paise) in rows(table) {
        let book = book_after(&format!(
            "receive 0 securities {paise};allocate 0 securities {paise}"
        ));
        assert_eq!(
            book.standings()[0].collateral.to_string(),
            counted,
            "{paise}"
        );
    }
}

#[test]
fn face_values_that_count_as_much() {
    for rule in [Rule::Old, Rule::New] {
        for counted in (0..2_000).chain([8_999_999_999_999, 9_000_000_000_000]) {
            let face = rule.face(counted);
            assert_eq!(rule.counted(face), counted);
            assert!(face == 0 || rule.counted(face - 1) < counted);
        }
    }
}

/// "Of the account's whole allocated amount": two allocations of five are ten.
#[test]
fn the_tenth_is_of_the_whole() {
    let book =
        book_after("receive 0 securities 10;allocate 0 securities 5;allocate 0 securities 5");
    assert_eq!(book.standings()[0].collateral, 9);
    assert_eq!(
        (book.rows[0].received[3], book.rows[0].allocated[3]),
        (10, 10)
    );
}

/// A client with 11 paise of securities that count as 9, and nothing free.
const CLIENT: &str = "tm;client 1;receive 2 securities 11;allocate 2 securities 11;margin 2 9";

#[test]
fn a_paisa_with_nothing_free() {
    refused(
        CLIENT,
        "0: release 2 securities 1\n12: release 2 securities 2",
    );
    refused(
        &format!("{CLIENT};release 2 securities 1"),
        "12: release 2 securities 1",
    );
}

/// The same by a client that is deemed something: what was blocked is all of
/// its collateral.
#[test]
fn a_paisa_with_something_deemed() {
    let start = format!("pledge 0 10;{CLIENT};margin 2 15");
    refused(
        &start,
        "0: release 2 securities 1\n12: release 2 securities 2",
    );
}

/// A TM and the CM with nothing free are in the mode: 17 ahead of 12.
#[test]
fn members_with_nothing_free() {
    for (account, opened) in [("0", ""), ("1", "tm;")] {
        let start =
            "receive ~ securities 11;allocate ~ securities 11;margin ~ 9".replace('~', account);
        let table =
            "17: release ~ securities 1|release ~ securities 2\n11: release ~ securities 12";
        refused(&format!("{opened}{start}"), &table.replace('~', account));
    }
}

/// 100 of cash and 101 of securities count as 190, 130 of which are needed:
/// 60 may go.
#[test]
fn several_kinds_in_one_release() {
    let start =
        "cp;receive 1 cash 100 securities 101;allocate 1 cash 100 securities 101;margin 1 130";
    let table = "0: cash 60 securities 1|cash 51 securities 11|securities 67\n11: securities 102
12: cash 60 securities 2|cash 61 securities 1|cash 51 securities 12|securities 68";
    for (refusal, kinds) in rows(table) {
        refused(start, &format!("{refusal}: release 1 {kinds}"));
    }
}

/// Needs, cover and modes go by what securities count as.
#[test]
fn everything_else_goes_by_it() {
    let start = "tm;receive 0 securities 100;allocate 0 securities 100;receive 1 securities 100;\
        allocate 1 securities 100";
    refused(start, "0: margin 1 180\n13: margin 1 181");
    let mode = |margin| book_after(&format!("{start};margin 1 {margin}")).standings()[1].mode;
    assert_eq!([80, 81].map(mode), [Mode::Off, Mode::On]);
}

/// Covered at face value only: taken over, the CM is short of a tenth.
#[test]
fn covered_at_face_value_only() {
    let said =
        "do receive 0 securities 100 / do allocate 0 securities 100 / set 0 margin 100 / settle old
is_sound / take_over / standing 0 / set 0 margin 101 / settle old / is_sound / take_over";
    assert_eq!(
        answers(said),
        ["1", "0 same", "0 90 100 90 10 0 0 10", "1", "1 same"]
    );
}

/// "The book with its kept needs worked out afresh and nothing else changed",
/// modes that don't fit among it; and once more.
#[test]
fn taken_over_and_once_more() {
    let said = "do tm\ndo client 1\ndo receive 2 securities 100\ndo allocate 2 securities 100
do pledge 0 1000\ndo revise 2 100\nset 1 mode 1\nsettle old\ntake_over\nis_sound\nsettle\ntake_over\nis_sound";
    let bytes = story::write(said.as_bytes()).unwrap();
    let calls: Vec<calls::Call> = calls::Calls::of(&bytes).collect();
    let tables: Vec<&Table> = calls.iter().map(|call| call.book().unwrap()).collect();
    let after = tables[0].taken_over().unwrap();
    assert!(after == *tables[2]);
    assert_eq!(after.places[1][MODE], 1);
    assert_eq!(answers(said)[1..], ["0", "1 same", "1"]);
    assert!(answers(said)[0].starts_with("0 3 6 3 0 "));
}

/// The old rule's calls are gone.
#[test]
fn no_calls_of_the_old_rule() {
    for byte in 20..=30 {
        assert_eq!(
            answers(&format!("is_sound / bytes {byte:02X} / is_sound")),
            ["1", "bad 1"]
        );
    }
    assert!(story::write(b"old is_sound").is_err());
}

#[test]
fn collateral_by_the_letter() {
    each_day(0..30, 20_000, |bytes, _| drop(seen(bytes)));
}

/// Every file that isn't of bytes without sense, or cut before it, has some.
#[test]
fn securities_in_every_file() {
    each_day(0..20, 20_000, |bytes, day| {
        let is_cut = day.starts_with("kind cuts") && bytes.len() < 28;
        let is_other = is_cut || day.starts_with("kind hostile");
        assert!(bytes.starts_with(&[4, 8]) || is_other, "{day}");
    });
    assert!((0..2).all(|seed| make(MILLION_KIND, seed, NO_LIMIT).starts_with(&[4, 8])));
}
