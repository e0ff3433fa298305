//! Each refusal with the neighbour just allowed, the order of checking, and how a
//! day closes.

mod common;
use common::*;

const MOST: &str = "10000000000000";
const MORE: &str = "10000000000001";

#[test]
fn two_cut() {
    let receive = piece("receive 0 cash 1");
    let late = piece("serial 9 receive 0 cash 1");
    let days: [(&[u8], &[u8]); 5] = [
        (&[1, 0, 0, 0, 0], b"cut 0 0\n"),
        (&[1, 0, 0, 0, 0, 0], b"0 1 0 0 1\nend 1 1\n"),
        (&receive[..13], b"cut 0 0\n"),
        (&receive, b"0 4 0 0 0\nend 1 1\n"),
        // Two comes before three: a cut record's serial isn't looked at.
        (&late[..13], b"cut 0 0\n"),
    ];
    for (day, want) in days {
        assert_eq!(print::day(day), want);
    }
}

/// Three changes nothing, the serial neither; four to fourteen and 17 move it.
#[test]
fn three_serial() {
    assert_eq!(refusals("serial 1 tm"), [3]);
    assert_eq!(refusals("serial 0 tm"), [0]);
    let day = printed("serial 7 client 9;tm");
    assert_eq!(day, "7 2 9 3 0\n0 1 0 0 1\nend 2 1\n");
    let said = "serial 5 tm;serial 0 retire 0;serial 0 tm;serial 1 tm;serial 2 tm";
    assert_eq!(refusals(said), [3, 8, 3, 0, 0]);
    let said = "raw 0E0000000000;raw 010100010000 0000000000000001;serial 2 pledge 0 0;\
        serial 3 retire 9;serial 4 unpledge 0 1;serial 5 margin 0 1;serial 6 tm";
    assert_eq!(refusals(said), [4, 5, 6, 7, 11, 13, 0]);
    let said = "serial 0 pledge 0 9;serial 1 margin 0 9;serial 2 unpledge 0 1;serial 3 tm";
    assert_eq!(refusals(said), [0, 0, 17, 0]);
}

#[test]
fn serial_goes_round() {
    let said = "retire 0\n".repeat(65_535) + "serial 65535 tm\nserial 65536 tm";
    assert!(text::write(said.as_bytes(), 0).is_err());
    let list = refusals(&said.replace("serial 65536", "serial 0"));
    assert_eq!(list.len(), 65_537);
    assert_eq!(list[65_534..], [8, 0, 0]);
}

/// "It knows where a record ends even if the code is unknown."
#[test]
fn four_code() {
    refused(
        "",
        "4: raw 000000000000|raw 0E0000000000\n0: tm;raw 0B0000010001|raw 010000000000",
    );
    let said = "raw 0EC100000000 0000000000000000 0000000000000000 0000000000000000;tm";
    assert_eq!(refusals(said), [4, 0]);
}

/// The table's third column, written down a second time.
fn suits_by_the_table(code: u8, mark: u8) -> bool {
    match code {
        4..=7 => (1..=15).contains(&mark),
        8 | 9 | 12 => mark == 16,
        10 | 13 => mark == 32,
        _ => mark == 0,
    }
}

#[test]
fn five_mark() {
    for code in 1..=13 {
        for mark in 0..=255u8 {
            let amounts = bytes_of(&vec![1; mark.count_ones() as usize]);
            let list = refusals_of(&[&[code, mark, 0, 0, 0, 0], &amounts[..]].concat());
            assert_eq!(list.len(), 1);
            let is_suited = suits_by_the_table(code, mark);
            assert_eq!(list[0] != 5, is_suited, "code {code} mark {mark}");
        }
    }
}

#[test]
fn six_range() {
    for word in ["receive 0 cash", "receive 0 securities", "pledge 0"] {
        for (wanted, amount) in rows(&format!("6: 0|{MORE}|9999999999999999\n0: 1|{MOST}")) {
            let refusal = last(&format!("{word} {amount}"));
            assert_eq!(refusal.to_string(), wanted, "{word} {amount}");
        }
    }
    let table = "6: raw 0401 0000 0000 FFFFFFFFFFFFFFFF|margin 0 ~1|receive 0 cash 5 guarantees 0
0: margin 0 0|pledge 0 ~0;margin 0 ~0|receive 0 cash 5 guarantees 5";
    refused("", &table.replace('~', &MOST[..13]));
}

#[test]
fn seven_account() {
    for word in [
        "client 1",
        "receive 1 cash 1",
        "pledge 1 1",
        "margin 1 0",
        "retire 1",
    ] {
        assert_eq!(last(word), 7, "{word}");
        assert_eq!(after("tm", word), 0, "{word}");
        assert_eq!(after("tm;retire 1", word), 7, "{word}");
    }
    refused(
        "",
        "7: receive 256 cash 1|receive 65535 cash 1|raw 010000000005|raw 030000000005",
    );
}

#[test]
fn eight_sort() {
    assert_eq!(last("retire 0"), 8);
    let table = "8: client 0|client 2|client 3|raw 010000030001|raw 010000030002|raw 010000030003
8: raw 030000030001|raw 030000030002|raw 030000030003\n0: client 1|retire 3";
    refused("tm;client 1;cp", table);
}

#[test]
fn nine_full() {
    let all = "tm\n".repeat(255);
    assert_eq!(last(&all), 0);
    assert!(printed(&all).contains("254 1 0 0 255\n"));
    refused(
        &all,
        "9: tm|cp|client 255|retire 7;tm\n8: client 0\n7: client 256",
    );
}

#[test]
fn ten_ceiling() {
    let start = "receive 0 deposits 9999999999995;pledge 0 9999999999995";
    for (wanted, amount) in rows(&format!("0: 5\n10: 6|{MOST}")) {
        for said in [
            "receive 0 deposits",
            "pledge 0",
            "receive 0 cash 1 deposits",
        ] {
            refused(start, &format!("{wanted}: {said} {amount}"));
        }
    }
    // For all its amounts or for none: the cash of the refused one isn't there.
    let said = format!("{start};receive 0 cash 1 deposits 6;handback 0 cash 1");
    assert_eq!(refusals(&said), [0, 0, 10, 11]);
}

#[test]
fn eleven_there() {
    let start = "receive 0 cash 10 securities 7;allocate 0 cash 4 securities 2;pledge 0 3";
    let table = "0: handback 0 cash 6|allocate 0 cash 6 securities 5|release 0 cash 4 securities 2
0: unpledge 0 3\n11: handback 0 cash 7|allocate 0 cash 6 securities 6|allocate 0 deposits 1
11: release 0 cash 5|release 0 cash 3 securities 3|unpledge 0 4";
    refused(start, table);
}

/// Each kind alone is within what is free, the sum decides.
#[test]
fn twelve_free() {
    let start =
        "receive 0 cash 10 deposits 10;allocate 0 cash 10 deposits 10;pledge 0 10;margin 0 15";
    let table = "0: release 0 cash 10 deposits 5|unpledge 0 10
12: release 0 cash 10 deposits 6\n11: release 0 cash 11";
    refused(start, table);
    let start = format!("{start};release 0 cash 7");
    refused(
        &start,
        "0: unpledge 0 8\n12: unpledge 0 9\n11: unpledge 0 11",
    );
}

#[test]
fn thirteen_margin() {
    let start = "tm;client 1;cp;pledge 0 100;pledge 1 50;pledge 2 20;pledge 3 10";
    let table = "0: margin 0 100|margin 1 150|margin 2 170|margin 3 110
13: margin 0 101|margin 1 151|margin 2 171|margin 3 111";
    refused(start, table);
    // TM need 60 + 30, deemed 40; CP deemed 20; CM need 61 of 100.
    let start = format!("{start};margin 2 80;margin 1 30;margin 3 30;margin 0 1");
    refused(
        &start,
        "0: margin 2 119|margin 0 40\n13: margin 2 120|margin 0 41",
    );
}

#[test]
fn fourteen_retire() {
    // Another TM's live client is no hindrance.
    let table = "14: receive 2 cash 1;retire 2|pledge 2 1;retire 2|margin 2 1;retire 2|retire 1
0: pledge 2 1;unpledge 2 1;retire 2|retire 2;retire 1|tm;retire 3";
    refused("tm;client 1;pledge 0 9", table);
}

#[test]
fn fifteen_and_sixteen() {
    let book = book_after("tm;cp;retire 2");
    let closed = |losses: &[u64]| close_out(&book, losses.to_vec()).map(|answer| answer.total);
    for losses in [&[0, 0][..], &[0, 0, 0, 0], &[CEILING + 1, 0]] {
        assert_eq!(closed(losses), Err(Refusal::WrongLength));
    }
    assert_eq!(closed(&[0, CEILING, 0]), Ok(CEILING));
    assert_eq!(closed(&[0, CEILING + 1, 0]), Err(Refusal::BadLoss));
    assert_eq!(closed(&[0, 0, 1]), Err(Refusal::BadLoss));
    for length in [0, 8, 23, 25, 32] {
        let answer = close_out_bytes(&book, &vec![0; length]);
        assert_eq!(answer, Err(Refusal::WrongLength), "{length}");
    }
    assert!(close_out_bytes(&book, &[0; 24]).is_ok());
}

/// The lowest number that applies, with everything after it wrong too.
#[test]
fn order_of_checking() {
    let huge = "FFFFFFFFFFFFFFFF";
    let table = "3: raw 0E10 0009 0009 ~\n4: raw 0E10 0000 0009 ~\n5: raw 0A10 0000 0009 ~
6: raw 0A20 0000 0009 ~\n7: raw 0A20 0000 0009 0000000000000001";
    refused("", &table.replace('~', huge));
}

#[test]
fn an_empty_day() {
    assert_eq!(print::day(&[]), b"end 0 0\n");
    assert_eq!(
        print::standings(&[]),
        b"end 0 0\n0 cm live 0 0 0 0 0 0 off 0\n"
    );
    assert_eq!(print::needs(&[]), b"end 0 0\n0 0\n");
}

#[test]
fn a_stated_number() {
    let three = piece("tm;tm;serial 9 tm");
    for (bytes, most, closing, numbers) in [
        (&three[..], 4, Closing::End, [18, 3, 2]),
        (&three, 3, Closing::End, [18, 3, 2]),
        (&three, 2, Closing::Long, [12, 2, 2]),
        (&three[..13], 2, Closing::Long, [12, 2, 2]),
        (&three[..13], 3, Closing::Cut, [12, 2, 2]),
        (&three, 0, Closing::Long, [0, 0, 0]),
        (&[], 0, Closing::End, [0, 0, 0]),
        (&[1], 0, Closing::Long, [0, 0, 0]),
        (&[1], 1, Closing::Cut, [0, 0, 0]),
    ] {
        let day = day::run(&mut Book::fresh(), bytes, most, |_, _| {});
        assert_eq!(
            (day.closing, [day.place, day.read, day.carried]),
            (closing, numbers)
        );
    }
}

#[test]
fn a_million() {
    let mut bytes = [11, 0, 0, 0, 0, 0].repeat(1_000_000);
    // Serial 0 each time: 8 for the first, 3 for all others.
    let ends = |bytes: &[u8], closing: &str| {
        let want = format!("0 11 0 3 0\n{closing} 0\n");
        assert!(print::day(bytes).ends_with(want.as_bytes()), "{closing}");
    };
    ends(&bytes[..5_999_994], "end 999999");
    ends(&bytes[..5_999_999], "cut 999999");
    ends(&bytes, "end 1000000");
    bytes.push(11);
    ends(&bytes, "long 1000000");
}

#[test]
fn standings_lines() {
    let said = "tm;client 1;cp;client 1;retire 4;pledge 0 10;pledge 1 3;margin 2 5;margin 3 1";
    let want = "end 9 9\n0 cm live 0 10 3 3 0 7 off 0\n1 tm live 0 3 5 3 2 0 on 0
2 client live 1 0 5 0 5 0 off 0\n3 cp live 0 0 1 0 1 0 off 0\n4 client retired 1 0 0 0 0 0 off 0\n";
    assert_eq!(utf(print::standings(&piece(said))), want);
}
