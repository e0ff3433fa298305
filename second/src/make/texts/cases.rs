//! Kinds of lines, each with ways of saying it and the fault it must be told
//! with.

use crate::model::text::LINE_MOST;

#[derive(Clone, Copy)]
pub struct Case {
    pub kind: &'static str,
    /// 0 for a line that is no bad one.
    pub fault: u8,
    /// With `|` between them.
    ways: &'static str,
    /// Padded to so many bytes, if any.
    pub length: Option<usize>,
}

/// Fault, kind and ways. `@` stands for an account, `$` for an amount, `%` for a
/// serial, `^` for the running serial in hexadecimal, `{8}` for eight bytes.
const CASES: &str = "\
0 tm: tm|serial % tm
0 tm and an account: tm @|cp @
0 client: client @|serial % client @
0 cp: cp|serial % cp
0 receive: receive @ cash $|receive @ deposits $ securities $
0 handback: handback @ deposits $|handback @ cash $ guarantees $
0 allocate: allocate @ guarantees $|serial % allocate @ cash $ deposits $
0 release: release @ securities $|release @ cash $ deposits $ securities $
0 four kinds: receive @ cash $ deposits $ guarantees $ securities $
0 pledge: pledge @ $|serial % pledge @ $
0 unpledge: unpledge @ $
0 margin: margin @ $|serial % margin @ $
0 retire: retire @|serial % retire @
0 revalue: revalue @ $
0 revise: revise @ $
0 0 where it may be: margin @ 0|revalue @ 000|revise @ 0
0 the ceiling: margin @ 10000000000000|receive @ cash 10000000000000 securities 1
0 zeros in front: serial 007 tm|margin 00@ 00$|cp 000|receive 0@ cash 0$ deposits 00$
0 16 digits: pledge @ 0010000000000000|serial 0000000000065535 tm|margin 0000000000000001 0
0 serial 65535: serial 65535 tm|serial 65535 margin @ $
0 account 65535: retire 65535|tm 65535|pledge 65535 $
0 raw of 1 byte: raw {1}
0 raw of 69 bytes: raw {69}
0 raw of 70 bytes: raw {70}
0 raw without a blank: rawAB|rawFF{3}|raw0e 00|rawC0 {69}
0 raw of any bytes: raw {3}|raw {4}|raw {6}|raw {14}{7}
0 raw with the running serial: raw {2}^{2}|raw {2} ^ {10}|raw {2}^
0 raw of a bad record: raw 0810 ^ 0003 0000000000000000|raw 0e00^0000|raw 0B01 ^ {2} {8}
0 raw of two records: raw 0100^0000 0100{2}0000
0 a comment: #|# tm|#raw 0| # serial 65536
0 an empty line: |
0 blanks alone:  |  \t\r |\r|\t
4 another word: rent @|receiver @ cash $|t|raws 00|seria 5 tm|cash $
4 capitals: TM|Client @|Raw 00|SERIAL % tm|serial % TM
4 small letters behind a word: tmx|rawab|rawaB|pledgex @ $|serialtm
4 12 letters: receivehandb @ cash $|rawrawrawraw 00|serialserial % tm|tmtmtmtmtmtm
4 13 letters: receivehandba @ cash $|rawrawrawrawr 00|serialserials % tm|abcdefghijklmABC
4 no word: 5|-|$ tm|\0|\u{b}tm|\u{e9}|*
4 no word after a serial: serial %|serial % 5|serial % -|serial % rent @
4 raw or serial after a serial: serial % raw 00|serial % serial % tm
5 kinds missing: receive @|handback @|serial % allocate @|release @
5 kinds of another word: tm cash $|client @ deposits $|pledge @ cash $ $|retire @ cash 0
5 another word's kinds without an amount: tm cash|cp @ securities x|pledge @ cash $|pledge @ cash|revise @ deposits x
5 another word's kinds with a bad amount: retire @ cash 00000000000000000|margin @ cash 0 10000000000001
5 another word's kinds and more: tm cash $ $|client @ cash $ x|pledge @ cash $ $ $|retire @ deposits cash $
5 another kind alone: receive @ gold $|release @ cashx $|allocate @ CASH $|handback @ x|receive @ -
5 13 letters for a kind: receive @ cashcashcashc $|release @ securitiesabc $
5 an amount without its kind: receive @ $|handback @ 0|release @ $ cash $|allocate @ 00000000000000000
6 a kind's amount missing: receive @ cash|release @ cash deposits $|handback @ guarantees x
6 a capital for an amount: receive @ cashX $|pledge @ X|release @ cash $ securitiesX
6 an amount missing: pledge @|unpledge @ x|margin @|revalue @ -1|revise @ +1
6 an amount of 0: pledge @ 0|unpledge @ 000|receive @ cash 0|release @ cash $ securities 0
6 a paisa above the ceiling: margin @ 10000000000001|receive @ deposits 10000000000001
6 16 digits above the ceiling: margin @ 9999999999999999|receive @ cash 1000000000000000
6 17 digits of an amount: margin @ 00000000000000000|receive @ cash 12345678901234567
6 a bad amount and more: pledge @ 0 x|receive @ cash 0 5|receive @ deposits 0 cash $|revise @ x 5
30 more behind a record: tm 0 0|tm x|cp @ -|margin @ $ $|retire @ $|tm \0|retire @ \u{c}
30 a capital behind a word: tmX|cpCASH 5|tmX 5|serial % tmTM|retire @ X
30 account 65536 where none need be: tm 65536|cp 65536|tm 9999999999999999|cp 65536 cash $
30 17 digits where no account need be: tm 00000000000000000|cp 12345678901234567 5
30 a fraction: margin @ 5.5|pledge @ 1,000|retire 5.0
30 another kind behind one: allocate @ cash $ gold $|receive @ cash $ securitiesabc $|release @ cash $ X
30 a kind behind an amount: pledge @ $ cash $|margin @ 0 cash 0|revise @ $ cash
30 an amount without its kind behind one: handback @ cash $ $|release @ securities $ 0
30 kinds out of order: receive @ deposits $ cash $|release @ cash $ securities $ deposits $
30 a kind twice: receive @ cash $ cash $|handback @ cash $ securities $ securities $
30 raw of 71 bytes: raw {71}|raw {70} {1}
30 odd digits: raw {1}0|raw {69}7|raw {70}1|raw 12 3 4
30 more behind bytes: raw {1}x|raw {6} -|raw {70} g0|raw {2} tm
31 no serial: serial|serialX|serial tm|serial x|serial -1 tm|serial # 5
31 serial 65536: serial 65536 tm|serial 65536|serial 9999999999999999 tm
31 17 digits of a serial: serial 00000000000000001 tm|serial 12345678901234567 rent
32 no bytes: raw|raw # 00|raw x|raw g0|raw -|rawX|rawG0
32 one digit: raw 0|raw 7 7|raw 5x
33 no account: client|clientX 5|receive cash $|pledge x $|margin -1 5|serial % retire|revise
33 account 65536: client 65536|pledge 65536 $|receive 9999999999999999 cash $
33 17 digits of an account: client 00000000000000001|margin 12345678901234567 0";

const LONG: [(u8, &str, usize); 4] = [
    (0, "a line of 4,095 bytes", LINE_MOST - 1),
    (0, "a line of 4,096 bytes", LINE_MOST),
    (34, "a line of 4,097 bytes", LINE_MOST + 1),
    (34, "a line of 70,000 bytes", 70_000),
];

pub fn all() -> Vec<Case> {
    let long = LONG.iter().map(|&(fault, kind, length)| Case {
        kind,
        fault,
        ways: "tm|serial % client @|margin @ $|raw {70}|",
        length: Some(length),
    });
    CASES.split('\n').filter_map(case).chain(long).collect()
}

fn case(line: &'static str) -> Option<Case> {
    let (fault, rest) = line.split_once(' ')?;
    let (kind, ways) = rest.split_once(": ")?;
    Some(Case {
        kind,
        fault: fault.parse().ok()?,
        ways,
        length: None,
    })
}

impl Case {
    pub fn is_short_and_good(&self) -> bool {
        self.fault == 0 && self.length.is_none()
    }

    pub fn ways(&self) -> Vec<&'static str> {
        self.ways.split('|').collect()
    }
}
