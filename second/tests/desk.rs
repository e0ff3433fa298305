//! K9 of document 02: the extreme loss margin, its refusals in their order, and
//! the program that takes positions as text; K10: crystallised obligations by
//! client, alone, in a list and in K9's sum.

mod common;
use common::*;
use second::make::asked::desk::{good, Case};
use second::make::asked::figures::{self, EDGES};
use second::make::sheets;
use second::model::calls::{Call, Calls};
use second::model::desk::figures::{exposure, exposures, margin_with};
use second::model::desk::{lines, margin, record, Position, Side, PRODUCTS, SIDES};

fn position(product: u8, side: Side, notional: u64) -> Position {
    Position {
        product,
        side,
        notional,
    }
}

fn number(name: &str) -> u8 {
    PRODUCTS
        .iter()
        .position(|(known, ..)| *known == name)
        .unwrap() as u8
}

fn told<T>(answer: Result<T, Refusal>) -> Result<T, u8> {
    answer.map_err(|refusal| refusal as u8)
}

fn charge(name: &str, side: Side, notional: u64) -> Result<u64, u8> {
    told(position(number(name), side, notional).charge())
}

/// "USDINR futures of 10,000,001 paise give 50,001"; a spread is rounded once. Each
/// product's two rates on a notional of 100,000, as the document lists them.
#[test]
fn rates() {
    assert_eq!(charge("USDINR", Side::Futures, 10_000_001), Ok(50_001));
    assert_eq!(charge("USDINR", Side::Futures, 10_000_000), Ok(50_000));
    assert_eq!(charge("EURINR", Side::Spread, 2_000), Ok(1));
    assert_eq!(charge("EURINR", Side::Spread, 2_001), Ok(2));
    let listed = [
        ("EURINR", 150, Ok(750)),
        ("EURUSD", 500, Ok(500)),
        ("GBPINR", 250, Ok(750)),
        ("GBPUSD", 500, Ok(500)),
        ("JPYINR", 350, Ok(750)),
        ("USDINR", 500, Ok(750)),
        ("USDJPY", 500, Ok(500)),
        ("INTEREST", 250, Ok(250)),
        ("TBILL91", 15, Err(19)),
        ("ONMIBOR", 500, Err(19)),
    ];
    for (place, (name, futures, short)) in listed.into_iter().enumerate() {
        assert_eq!(number(name), place as u8);
        assert_eq!(charge(name, Side::Futures, 100_000), Ok(futures));
        assert_eq!(charge(name, Side::Short, 100_000), short);
        assert_eq!(charge(name, Side::Long, 100_000), short.map(|_| 0));
        assert_eq!(charge(name, Side::Spread, 300_000), Ok(futures));
    }
}

/// "Round up to a paisa once per position": the least number of paise that is
/// not below the fraction.
#[test]
fn rounded_up_once() {
    let mut rng = Rng::new(1, 9);
    for _ in 0..5_000 {
        let position = good(&mut rng);
        let (_, futures, short) = PRODUCTS[usize::from(position.product)];
        let (rate, per) = match position.side {
            Side::Futures => (futures, 100_000u64),
            Side::Short => (short.unwrap(), 100_000),
            Side::Long => (0, 1),
            Side::Spread => (futures, 300_000),
        };
        let exact = u128::from(position.notional) * u128::from(rate);
        let (charge, paisa) = (u128::from(position.charge().unwrap()), u128::from(per));
        assert!(charge * paisa >= exact && (charge == 0 || (charge - 1) * paisa < exact));
    }
}

/// 15; 18, 19, 20 by first position at fault; 20 for the initial margin; 22, then 21.
#[test]
fn refusals_in_their_order() {
    let good = position(5, Side::Futures, 10_000_001);
    let unknown = position(10, Side::Long, CEILING + 1);
    let unlisted = position(8, Side::Long, CEILING + 1);
    let past = position(5, Side::Long, CEILING + 1);
    let far = CEILING + 1;
    let cases: [(u64, &[Position], Result<u64, u8>); 13] = [
        (far, &[good; 65], Err(15)),
        (far, &[unknown; 65], Err(15)),
        (far, &[good, unknown, unlisted], Err(18)),
        (far, &[good, unlisted, unknown], Err(19)),
        (far, &[past, unlisted, unknown], Err(20)),
        (far, &[good], Err(20)),
        (0, &[past], Err(20)),
        (CEILING, &[good], Err(21)),
        (CEILING - 50_001, &[good], Ok(CEILING)),
        (CEILING - 50_000, &[good], Err(21)),
        (CEILING, &[], Ok(CEILING)),
        (0, &[], Ok(0)),
        (7, &[good; 64], Ok(7 + 64 * 50_001)),
    ];
    for (initial, positions, want) in cases {
        assert_eq!(told(margin(initial, positions)), want);
    }
    let out = [LIMIT + 1, 0];
    let cases: [(u64, &[Position], &[i64], Result<u64, u8>); 11] = [
        (0, &[good], &[50, 30], Ok(50_081)),
        (0, &[good], &[-50, 30], Ok(50_001)),
        (0, &[good; 65], &out, Err(15)),
        (0, &[unknown], &out, Err(18)),
        (far, &[], &out, Err(20)),
        (CEILING, &[good], &out, Err(22)),
        (CEILING, &[good], &[0, 0], Err(21)),
        (0, &[], &[LIMIT, 0], Ok(CEILING)),
        (0, &[], &[LIMIT, 1], Err(21)),
        (1, &[], &[LIMIT, 0, 0, 0], Err(21)),
        (1, &[], &[LIMIT, 0, -1, 0], Ok(CEILING)),
    ];
    for (initial, positions, figures, want) in cases {
        assert_eq!(told(margin_with(initial, positions, figures)), want);
    }
}

/// "And makes the code 10 record": a good one, that reads back.
#[test]
fn the_record() {
    for margin in [0, 1, CEILING] {
        let values = record(9, 65_535, margin);
        assert_eq!(values.fault(), None);
        let mut bytes = Vec::new();
        values.lay(&mut bytes);
        assert_eq!(bytes[..6], [10, 32, 0, 9, 255, 255]);
        assert_eq!(second::model::merge::records(&bytes), Ok(vec![values]));
    }
}

/// The order of positions doesn't matter, and one more never lowers it.
#[test]
fn neighbours_and_one_more() {
    let mut rng = Rng::new(2, 9);
    for _ in 0..500 {
        let mut positions: Vec<Position> = (0..20).map(|_| good(&mut rng)).collect();
        let whole = margin(0, &positions).unwrap();
        positions.swap(3, 4);
        assert_eq!(margin(0, &positions).unwrap(), whole);
        positions.pop();
        assert!(margin(0, &positions).unwrap() <= whole);
    }
}

/// A side above 3, a length past its limit and figures that aren't two or four are no
/// calls; nor is a call cut.
#[test]
fn calls_of_the_desk() {
    let table = "margin 7 2 0 USDINR futures 10000001 => 0 7 10 32 2 0 0 0 0 0 50001
margin 7 2 5  => 0 7 10 32 2 0 0 0 0 0 5\nmargin 65535 256 0 10 long 5 => 18
margin 1 2 3 TBILL91 short 0 ; 255 long 0 => 19\nbytes ~03 0000000000000001 => 0 1 10 32 2 0 0 0 0 0 4
bytes ~04 0000000000000001 => bad 0\nbytes ~FF 0000000000000001 => bad 0\nbytes ~03 => bad 0
bytes 0B 0001 0002 0000000000000003 00001001 => bad 0\nexposure 50,30 => 0 80
exposure -9223372036854775808,0 => 22 0\nexposure 1,2,3,4 => 0 10
margin_with 7 2 0 50,30 USDINR futures 10000001 => 0 7 10 32 2 0 0 0 0 0 50081
margin_with 7 2 0 10000000000001,0 => 22\nexposures 2 room 4 50 30 10000000000001 0 => 0 0 80 22 0
exposures 4 room 3 1 2 3 4 => 15 1 2 3\nexposures 2 room 0 => 0\nexposure 1 => bad 0
exposure 1,2,3 => bad 0\nexposures 3 room 2 1 2 3 => bad 0";
    let table = table.replace('~', "0B 0001 0002 0000000000000003 00000001 05");
    answered_so("", &table);
    for row in table.lines().filter(|row| !row.contains("bad")) {
        let bytes = story::write(row.split(" => ").next().unwrap().as_bytes()).unwrap();
        assert!(
            story::write(story::read(&bytes).as_bytes()).unwrap() == bytes,
            "{row}"
        );
    }
    assert!(story::write(b"margin 7 2 0 USDINR futures").is_err());
    assert!(story::write(b"margin 7 2 0 USDINR option 5").is_err());
}

fn ran(words: &str, text: &str) -> second::Output {
    let words: Vec<OsString> = words.split_whitespace().map(OsString::from).collect();
    lines::margins(&words, &|| Ok(text.as_bytes().to_vec()))
}

#[test]
fn lines_of_positions() {
    let text = "# two\n\nUSDINR futures 10000001\nEURINR spread 2000";
    for (words, text, want) in [
        ("7 2 8", text, "0 50010\n"),
        ("7 2 10000000000001", text, "20 0\n"),
        ("7 2 99999999999999999999999", "", "20 0\n"),
        ("7 2 0", "", "0 0\n"),
        ("7 2 0", "\n\n", "0 0\n"),
        ("7 2 0", "X1 long 5\n", "18 0\n"),
        ("7 2 0", "figures 50 30\n", "0 80\n"),
        (
            "7 2 0",
            "figures 50 30 -20 1\nUSDINR futures 10000001",
            "0 50062\n",
        ),
        (
            "7 2 0",
            "USDINR futures 10000001\nfigures -50 30",
            "0 50001\n",
        ),
        ("7 2 0", "figures 99999999999999999999 0\n", "22 0\n"),
        ("7 2 0", "figures 0 -99999999999999999999\n", "22 0\n"),
        ("7 2 0", "figures 0 -10000000000000\n", "0 0\n"),
        ("7 2 0", "figures 0 -10000000000001\n", "22 0\n"),
        ("7 2 0", "figures -0 007\n", "0 7\n"),
        (
            "7 2 0",
            "X long 5\nfigures 99999999999999999999 0\n",
            "18 0\n",
        ),
        ("7 2 0", &"#".repeat(65_536), "0 0\n"),
    ] {
        assert_eq!(utf(ran(words, text).unwrap()), want, "{text}");
    }
    let record = [10, 32, 0, 7, 0, 2, 0, 0, 0, 0, 0, 0, 195, 81];
    assert_eq!(
        ran("--record 7 2 0", "USDINR futures 10000001\n").unwrap(),
        record
    );
    let refused = ran("--record 7 2 0", "X1 long 5\n").unwrap_err();
    assert_eq!(refused, "margins: refused 18");
}

#[test]
fn what_is_told() {
    for (text, line) in [
        ("USDINR futures\n", 1),
        ("USDINR futures 5\n USDINR futures 5\n", 2),
        ("#\n\nUSDINR futures 5 \n", 3),
        ("X1 long 5\nusdinr long 5\n", 2),
        ("USDINR futures 5\r\n", 1),
        ("figures 1\n", 1),
        ("figures 1 2\nfigures 1 2\n", 2),
        ("figures 1 2 3\n", 1),
    ] {
        let told = ran("7 2 0", text).unwrap_err();
        assert_eq!(told, format!("margins: line {line} is no position"));
    }
    let told = ran("7 2 0", &"#".repeat(65_537)).unwrap_err();
    assert_eq!(told, "margins: standard input is too long");
    for words in "|1 2|1 2 3 4|--record 1 2|65536 2 3|1 2 -3|1 2 x|--help".split('|') {
        let split: Vec<OsString> = words.split_whitespace().map(OsString::from).collect();
        let told = lines::margins(&split, &|| panic!("it was read")).unwrap_err();
        assert_eq!(
            told.lines().count(),
            1 + usize::from(words == "--help"),
            "{words}"
        );
    }
}

/// A run of the program and a call give the same; a call comes back.
#[test]
fn text_and_calls_agree() {
    let mut rng = Rng::new(3, 9);
    for case in Case::all() {
        let (initial, positions) = case.asked(&mut rng);
        let text: String = positions
            .iter()
            .map(|one| lines::line(one) + "\n")
            .collect();
        if text.len() <= lines::MOST {
            let want = match told(margin(initial, &positions)) {
                Ok(margin) => format!("0 {margin}\n"),
                Err(refusal) => format!("{refusal} 0\n"),
            };
            assert_eq!(
                utf(ran(&format!("7 2 {initial}"), &text).unwrap()),
                want,
                "{case:?}"
            );
        }
        let call = case.call(&mut rng);
        let mut bytes = Vec::new();
        call.lay(&mut bytes);
        assert!(Calls::of(&bytes).collect::<Vec<Call>>() == [call]);
    }
}

#[test]
fn sheets_are_as_they_say() {
    for seed in 0..600 {
        let sheet = sheets::make(seed);
        let words: Vec<OsString> = sheet.words.iter().map(OsString::from).collect();
        let told = lines::margins(&words, &|| Ok(sheet.text.clone()));
        let told = told.err().unwrap_or_default();
        let is_bad = told.contains("is no position");
        assert_eq!(sheet.odd == sheets::Odd::BadLine, is_bad, "{seed} {told}");
        assert_eq!(
            sheet.odd == sheets::Odd::TooLong,
            told.contains("too long"),
            "{seed} {told}"
        );
    }
    assert_eq!(SIDES.len(), 4);
}

const LIMIT: i64 = CEILING as i64;

fn asked(figures: &[i64]) -> Result<u64, u8> {
    told(exposure(figures))
}

/// The document's six cases.
#[test]
fn cases_of_the_document() {
    let cases = [
        (-20, -90, 0),
        (50, 30, 80),
        (-30, 80, 50),
        (30, -80, 0),
        (-100, 80, 0),
        (100, -80, 20),
    ];
    for (premium, loss, amount) in cases {
        assert_eq!(asked(&[premium, loss]), Ok(amount));
        assert_eq!(asked(&[premium, loss, 0, 0]), Ok(amount));
    }
}

/// "From minus the ceiling to the ceiling", each figure by itself.
#[test]
fn the_ends_of_the_range() {
    for (many, place) in [2, 4]
        .into_iter()
        .flat_map(|many| (0..many).map(move |place| (many, place)))
    {
        for edge in EDGES {
            let mut figures = vec![0; many];
            figures[place] = edge;
            let is_within = (-LIMIT..=LIMIT).contains(&edge);
            let want = if is_within {
                Ok(edge.max(0) as u64)
            } else {
                Err(22)
            };
            assert_eq!(asked(&figures), want, "{figures:?}");
        }
    }
    assert_eq!(asked(&[LIMIT; 4]), Ok(4 * CEILING));
    assert_eq!(asked(&[-LIMIT; 4]), Ok(0));
    assert_eq!(asked(&[LIMIT, -LIMIT]), Ok(0));
    assert_eq!(asked(&[i64::MIN, i64::MAX]), Err(22));
}

/// "Prove that a client's figure, or its 22, doesn't change with any other
/// client's."
#[test]
fn each_client_by_itself() {
    let mut rng = Rng::new(1, 10);
    for each in [2, 4].repeat(200) {
        let mut list = figures::good(each * 5, &mut rng);
        let before = exposures(each, &list, 10).unwrap();
        list[each..]
            .iter_mut()
            .for_each(|figure| *figure = rng.next() as i64);
        let after = exposures(each, &list, 10).unwrap();
        assert_eq!(before[..2], after[..2]);
        for (client, answer) in list.chunks(each).zip(after.chunks(2)) {
            let want = asked(client).map_or_else(|no| [u64::from(no), 0], |amount| [0, amount]);
            assert_eq!(answer, want);
        }
    }
}

#[test]
fn rooms_and_lists() {
    let list = [50, 30, LIMIT + 1, 0, -30, 80];
    let cases: [(usize, &[i64], usize, Result<Vec<u64>, u8>); 8] = [
        (2, &[], 0, Ok(vec![])),
        (2, &[], 1, Err(15)),
        (2, &[50, 30], 2, Ok(vec![0, 80])),
        (2, &[50, 30], 1, Err(15)),
        (2, &[50, 30], 3, Err(15)),
        (2, &[50, 30, 1], 2, Err(15)),
        (4, &[50, 30], 0, Err(15)),
        (2, &list, 6, Ok(vec![0, 80, 22, 0, 0, 50])),
    ];
    for (each, list, room, want) in cases {
        assert_eq!(told(exposures(each, list, room)), want);
    }
}

/// Raising a figure in range never lowers the amount.
#[test]
fn raising_one() {
    let mut rng = Rng::new(2, 10);
    for _ in 0..2_000 {
        let figures = figures::good(4, &mut rng);
        let place = rng.below(4) as usize;
        let mut raised = figures.clone();
        raised[place] = (figures[place] + rng.below(CEILING) as i64).min(LIMIT);
        assert!(asked(&raised).unwrap() >= asked(&figures).unwrap());
        assert!(asked(&figures).unwrap() <= 4 * CEILING);
    }
    assert_eq!(figures::Case::all().len(), 140);
}
