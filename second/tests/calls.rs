//! Calls from outside, each by hand from the documents.

mod common;
use common::*;
use second::compare::calls::emptied;
use second::model::bookfile::Version;
use second::model::calls::{answered, Call, Calls};
use second::model::table::{LIVE, MODE, NEED, SORT, TM};

/// CM 1000, TM 1 with 500, its client 2 with 300, CP 3; TM 4 is retired.
const START: &str = "do tm / do client 1 / do cp / do tm / do retire 4 / do pledge 0 1000 / \
do pledge 1 500 / do receive 2 cash 300 / do allocate 2 cash 300 / ";

#[test]
fn is_sound() {
    assert_eq!(answered(&[]), b"");
    let table = "is_sound => 1\ncount 0 / is_sound => 0\ncount 2 / is_sound => 0
serial 65535 / is_sound => 1\nset 0 sort 255 / is_sound => 0";
    answered_so("", table);
    answered_so(START, "is_sound => 1");
}

/// Refusal, collateral, need, blocked, deemed, free, mode, shortfall.
#[test]
fn standing() {
    answered_so("", "standing 0 => 0 0 0 0 0 0 0 0");
    let table = "do margin 2 900 / standing 2 => 0 300 900 300 600 0 0 0
do margin 2 900 / standing 1 => 0 500 600 500 100 0 1 0
do margin 2 900 / standing 0 => 0 1000 100 100 0 900 0 0
set 0 margin 1 / standing 0 => 1 0 0 0 0 0 0 0\nset 0 margin 1 / standing 9 => 1 0 0 0 0 0 0 0
set 0 mode 1 / standing 0 => 0 1000 0 0 0 1000 1 0";
    answered_so(START, table);
    for account in [4, 5, 255, 256, 65_535] {
        answered_so(START, &format!("standing {account} => 7 0 0 0 0 0 0 0"));
    }
}

#[test]
fn carry_out_in_order() {
    let table = "4: values 9 14 255 9 1 1 1 1 1 1|values 9 0 0 0 0 0 0 0 0 0
5: values 9 8 32 9 1 1 1 1 1 1|values 9 8 80 9 0 0 0 0 1 0
6: pledge 9 0|pledge 9 10000000000001|values 9 8 16 9 0 0 0 0 1 1|values 9 1 0 9 0 0 0 1 0 0
7: margin 9 1|retire 4|client 4\n8: retire 0|client 0\n10: pledge 1 9999999999501
11: handback 2 cash 1|unpledge 1 501\n13: margin 3 1001\n14: retire 1";
    for (refusal, record) in rows(table) {
        let line = answers(&format!("{START}carry_out {record}"))
            .pop()
            .unwrap();
        let words: Vec<&str> = line.split(' ').collect();
        assert_eq!(words[0], "9", "{record}");
        assert_eq!(
            words[3..].join(" "),
            format!("{refusal} 0 5 10 5"),
            "{record}"
        );
    }
    let table = "carry_out serial 8 pledge 9 1 => 8 8 9 3 0 same
carry_out values 9 14 255 9 1 1 1 1 1 1 => 9 14 9 4 0 5 10 5\ncarry_out client 4 => 9 2 4 7 0 5 10 5
set 1 mode 1 / carry_out unpledge 1 500 => 9 9 1 17 0 5 10 5
do margin 2 301 / carry_out unpledge 1 500 => 10 9 1 12 0 5 11 5";
    answered_so(START, table);
}

/// Count, serial, next number, then each place of which a word differs, with all its
/// words. Nothing but the serial moves with a margin of 0. The client is deemed 600,
/// the TM 100; the TM's use is 6300 of 4500.
#[test]
fn the_book_that_comes_back() {
    let table = "carry_out tm => 9 1 0 0 5 6 10 6 5 5 1 1 0 0 0 0 0 0 0 0 0 0 0 0 0
carry_out receive 2 securities 7 => 9 4 2 0 0 5 10 5 2 2 2 1 1 300 0 0 7 300 0 0 0 0 0 0 0
carry_out margin 2 900 => 9 10 2 0 0 5 10 5 0 0 0 1 0 0 0 0 0 0 0 0 0 1000 0 0 100 \
1 1 1 1 0 0 0 0 0 0 0 0 0 500 0 1 600 2 2 2 1 1 300 0 0 0 300 0 0 0 0 900 0 0
carry_out margin 3 0 => 9 10 3 0 0 5 10 5";
    answered_so(START, table);
    answered_so(
        "",
        "serial 65535 / carry_out margin 0 0 => 65535 10 0 0 0 1 0 1",
    );
    let table =
        "carry_out tm => 255 1 0 9 0 256 256 256\ncarry_out client 1 => 255 2 1 8 0 256 256 256
count 257 / carry_out tm => 0 0 0 1 0 same";
    answered_so(&"do cp / ".repeat(255), table);
}

/// "Every TM and the CM, after every record carried out"; a refusal looks at nobody.
/// At 90% exactly and off: the look turns it on.
#[test]
fn modes_that_were_handed_over() {
    let table = "carry_out margin 3 0 => 9 10 3 0 0 5 10 5 0 0 0 1 0 0 0 0 0 0 0 0 0 1000 0 0 0 \
1 1 1 1 0 0 0 0 0 0 0 0 0 500 0 0 0\ncarry_out margin 3 1001 => 9 10 3 13 0 5 10 5
carry_out_next 0 => 0 0 0 end 0 0 same";
    answered_so(&format!("{START}set 0 mode 1 / set 1 mode 1 / "), table);
    let table = "set 1 margin 450 / settle / carry_out cp => 9 3 0 0 5 6 10 6 \
1 1 1 1 0 0 0 0 0 0 0 0 0 500 450 1 450 5 5 3 1 0 0 0 0 0 0 0 0 0 0 0 0 0";
    answered_so(START, table);
}

#[test]
fn carry_out_next() {
    let table = "carry_out_next 0 ~ => 9 1 0 0 5 6 6 10 6 5 5 1 1 0 0 0 0 0 0 0 0 0 0 0 0 0
carry_out_next 6 ~ => 3 1 0 3 0 12 same\ncarry_out_next 7 ~ => 0 0 0 2 0 7 same
carry_out_next 12 ~ => 0 0 0 end 0 12 same\ncarry_out_next 13 ~ => 0 0 0 end 0 13 same
carry_out_next 18446744073709551615 ~ => 0 0 0 end 0 18446744073709551615 same
carry_out_next 0 => 0 0 0 end 0 0 same\ncarry_out_next 0 raw 0E FF 0009 0000 => 0 0 0 2 0 0 same
carry_out_next 0 raw 0E FF 0009 0001 ; zeros 65 => 9 14 1 4 0 70 5 10 5
count 0 / carry_out_next 99 ~ => 0 0 0 1 0 99 same";
    answered_so(START, &table.replace('~', "tm ; serial 3 tm"));
}

#[test]
fn a_day() {
    let table =
        "day 0 => end 0 0 0 same\nday 0 raw 01 => long 0 0 0 same\nday 1 raw 01 => cut 0 0 0 same
day 1 serial 3 tm => end 6 1 0 same\nday 1 tm => end 6 1 1 6 10 6 ~
day 1 tm ; raw 01 => long 6 1 1 6 10 6 ~\nday 2 tm ; raw 01 => cut 6 1 1 6 10 6 ~
day 2 tm ; retire 0 => end 12 2 1 6 11 6 ~
day 18446744073709551615 tm ; retire 5 => end 12 2 2 6 11 6 5 5 1 0 0 0 0 0 0 0 0 0 0 0 0 0 0
set 9 need 1 / day 3 tm => 1 0 0 0 same\nset 9 need 1 / day 0 => 1 0 0 0 same";
    answered_so(
        START,
        &table.replace('~', "5 5 1 1 0 0 0 0 0 0 0 0 0 0 0 0 0"),
    );
}

/// Serials it doesn't check.
#[test]
fn read_at() {
    let table = "read_at 0 => end\nread_at 18446744073709551615 tm => end\nread_at 6 tm => end
read_at 5 tm => 2\nread_at 0 tm => 0 6 0 1 0 0 0 0 0 0 0 0
read_at 6 tm ; receive 7 cash 1 securities 2 => 0 28 1 4 7 9 1 0 0 2 0 0
read_at 0 serial 77 margin 300 0 => 0 14 77 10 300 32 0 0 0 0 0 0
read_at 0 raw 0E01 0005 0006 ; zeros 8 => 4 14 5 14 6\nread_at 0 raw 04FF 0005 0006 ; zeros 64 => 5 70 5 4 6
read_at 0 raw 04FF 0005 0006 ; zeros 63 => 2\nread_at 0 pledge 3 0 => 6 14 0 8 3
read_at 0 margin 3 10000000000001 => 6 14 0 10 3";
    answered_so("", table);
}

/// Place i of the room holds i + 1 beforehand, of bytes modulo 256. What no book
/// could carry out may be written all the same.
#[test]
fn write() {
    let table = "serial 258 tm room 6 => 0 6 1 0 1 2 0 0\ntm room 8 => 0 6 1 0 0 0 0 0 7 8
tm room 5 => 15 0 1 2 3 4 5\ntm room 0 => 15 0
margin 772 258 room 14 => 0 14 10 32 0 0 3 4 0 0 0 0 0 0 1 2
values 0 1 0 5 0 0 0 0 0 0 room 6 => 0 6 1 0 0 0 0 5\nvalues 0 14 255 5 1 1 1 1 1 1 room 0 => 4 0
values 0 4 0 5 1 0 0 0 0 0 room 1 => 5 0 1\nvalues 0 4 3 5 1 0 0 0 0 0 room 1 => 6 0 1
values 0 4 1 5 1 1 0 0 0 0 room 1 => 6 0 1\nvalues 0 4 1 5 1 0 0 0 0 0 room 1 => 15 0 1";
    answered_so("write ", table);
    let long = answers("write retire 9 room 4096").pop().unwrap();
    assert!(long.starts_with("0 6 11 0 0 0 0 9 7 8 "));
    assert!(long.ends_with(" 254 255 0") && long.contains(" 255 0 1 2 "));
}

/// P8 as K1 has it; lists and rooms of the wrong length.
#[test]
fn close_out_and_needs() {
    let p4 = "do tm / do client 1 / do client 1 / do pledge 0 100000 / do pledge 1 50000 / do pledge 2 30000 / \
        do pledge 3 30000 / do margin 3 10000 / do margin 2 60000 / do margin 3 90000 / close_out ";
    let kept: String = (1..17).map(|number| format!(" {number}")).collect();
    let table = "room 16 losses 0 0 120000 120000 => \
0 30000 0 0 0 0 0 0 0 0 30000 30000 60000 0 30000 20000 40000 30000
room 3 losses 0 0 0 0 => 15 0 1 2 3\nroom 0 losses => 15 0\nroom 1 losses 0 0 0 10000000000001 => 15 0 1
room 16 losses 0 0 0 => 15 0~\nroom 16 losses 0 0 0 0 0 => 15 0~\nroom 17 losses 0 0 0 0 => 15 0~ 17
room 16 losses 0 0 0 10000000000001 => 16 0~";
    answered_so(p4, &table.replace('~', &kept));
    let table = "close_out room 4 losses 10000000000000 => 0 10000000000000 0 0 0 10000000000000
do cp / do retire 1 / close_out room 8 losses 0 1 => 16 0 1 2 3 4 5 6 7 8
do cp / do retire 1 / close_out room 8 losses 0 0 => 0 0 0 0 0 0 0 0 0 0
count 3 / close_out room 1 losses 5 => 1 0 1\nneeds room 1 => 0 0\nneeds room 0 => 15\nneeds room 2 => 15 1 2";
    answered_so("", table);
    let table = "do margin 2 900 / needs room 5 => 0 100 600 900 0 0\nset 2 need 1 / needs room 5 => 1 1 2 3 4 5
set 2 need 1 / needs room 0 => 1";
    answered_so(START, table);
}

/// 1, 4, 5, 7, then what a paisa is refused with; or 0 and the amount.
#[test]
fn most() {
    let table = "most margin 0 0 => 0 0\nmost pledge 0 1 => 0 10000000000000\nmost revalue 0 1 => 0 10000000000000";
    answered_so("", table);
    let table = "most margin 2 1 => 0 1800\nmost values 0 10 32 1 0 0 0 0 0 18446744073709551615 => 0 1500
most release 2 cash 0 => 0 300\ndo margin 2 299 / most release 2 cash 0 => 0 1
do margin 2 300 / most release 2 cash 0 => 12 0\nmost release 2 deposits 1 => 11 0
set 1 mode 1 / most unpledge 1 1 => 17 0\nset 0 received.cash 10000000000000 / most receive 0 cash 5 => 10 0
most values 0 10 32 2 9 9 9 9 9 9 => 0 1800\nmost tm => 4 0\nmost raw 0E01 0000 0000 0000000000000001 => 4 0
most raw 0440 0000 0000 0000000000000001 => 5 0\nset 0 margin 1 / most tm => 1 0
set 0 margin 1 / most margin 9 1 => 1 0";
    answered_so(START, table);
    for account in ["4", "5", "256", "65535"] {
        let table =
            "most margin ~ 1 => 7 0\nmost receive ~ cash 1 deposits 1 => 5 0\nmost retire ~ => 4 0";
        answered_so(START, &table.replace('~', account));
    }
}

#[test]
fn what_is_no_call() {
    let bad = "bytes 00|bytes 0A|bytes 0F|bytes 12|bytes 15|bytes FF / is_sound|needs room 4097|archive room 4097|\
        write tm room 4097|read_at 0 zeros 65537|bytes 06 FFFFFFFF|set 200 live 2 / is_sound|\
        set 200 mode 255 / is_sound|byte 0 0 / is_sound|byte 1 0 / is_sound|byte 2 67 / is_sound|\
        byte 3 3 / is_sound|byte 3 0 / is_sound";
    for bad in bad.split('|') {
        let lines = answers(&format!(
            "is_sound / needs room 1 / {bad} / fresh / is_sound"
        ));
        assert_eq!(lines, ["1", "0 0", "bad 2"], "{bad}");
    }
    assert_eq!(answers("bytes 0C"), ["bad 0"]);
    let most = answers("read_at 65536 zeros 65536 / needs room 4096");
    assert!(most[0] == "end" && most[1].ends_with(" 4095 4096"));
}

/// Every call of an input cut at every length that is near one of its ends.
#[test]
fn cut_short() {
    let calls = "is_sound|standing 0|carry_out tm|carry_out_next 0 tm|day 1 tm|read_at 0 tm|write tm room 3|\
        close_out room 3 losses 4 5|needs room 3|archive room 3|version 2 / archive room 3|most tm|\
        version 2 / most tm";
    for call in calls.split('|') {
        let whole = story::write(call.replace(" / ", "\n").as_bytes()).unwrap();
        for at in (0..whole.len()).filter(|&at| at < 90 || at + 120 > whole.len()) {
            let want: &[u8] = if at == 0 { b"" } else { b"bad 0\n" };
            assert_eq!(answered(&whole[..at]), want, "{call} at {at}");
        }
        assert!(answered(&whole).len() > 1 && !answered(&whole).starts_with(b"bad"));
    }
}

/// Anything in every word: nothing may fail, and 1 comes before all else.
#[test]
fn the_largest_words() {
    let mut book = bookfile::bytes(&Table::fresh());
    book[4..].fill(255);
    for place in 0..256 {
        let at = |word: usize| Version::Two.at(place, word).unwrap();
        book[at(SORT)] = (place % 4) as u8;
        book[at(TM)..][..2].copy_from_slice(&[0, (place % 7) as u8]);
        (book[at(LIVE)], book[at(MODE)]) = (1, 1);
    }
    let table = bookfile::table(&book).unwrap();
    let place = &table.places[9];
    assert_eq!(
        (place[MODE], place[NEED], place[0], table.next),
        (1, u64::MAX, 65_535, u32::MAX)
    );
    for count in [0, 1, 256, 257, 65_535] {
        let table = || Table {
            count,
            ..table.clone()
        };
        let mut bytes = Vec::new();
        for call in [
            Call::IsSound(table()),
            Call::Standing(table(), 65_535),
            Call::CarryOutNext(table(), vec![1], u64::MAX),
            Call::CloseOut(table(), vec![u64::MAX], 1),
            Call::Needs(table(), 0),
            Call::Archive(table(), 2),
            Call::Most(table(), Values::default()),
        ] {
            call.lay(&mut bytes);
        }
        let want = "0\n1 0 0 0 0 0 0 0\n0 0 0 1 0 18446744073709551615 same\n1 0 1\n1\n1 0 1 2 same\n1 0\n";
        assert_eq!(utf(answered(&bytes)), want);
        assert_eq!(Calls::of(&bytes).count(), 7);
    }
}

#[test]
fn lines_of_calls_left_out_are_empty() {
    let lines = b"0 80\n1\n0 50\nbad 3\n";
    assert_eq!(emptied(lines, &[12, 1, 14], &[12, 14]), b"\n1\n\nbad 3\n");
    assert_eq!(emptied(lines, &[12, 1, 14], &[]), lines);
}
