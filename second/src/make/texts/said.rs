//! A line from one of its ways of saying it, and how it is dressed: other
//! blanks, none where none is needed, and a comment.

use crate::make::rng::Rng;
use crate::model::text::hex;
use crate::model::*;

const BLANKS: [u8; 5] = [b' ', b' ', b'\t', b'\t', b'\r'];

/// What stands for accounts and the like is drawn.
pub fn filled(said: &str, running: u16, rng: &mut Rng) -> String {
    let mut out = String::new();
    let mut left = said.chars();
    while let Some(letter) = left.next() {
        match letter {
            '@' => out += &account(rng).to_string(),
            '$' => out += &amount(rng).to_string(),
            '%' => out += &serial(running, rng).to_string(),
            '^' => out += &format!("{running:04X}"),
            '{' => {
                let many: String = left.by_ref().take_while(|&letter| letter != '}').collect();
                out += &bytes(many.parse().unwrap_or(0), rng);
            }
            _ => out.push(letter),
        }
    }
    out
}

fn account(rng: &mut Rng) -> u64 {
    let drawn = rng.below(65_536);
    rng.pick(&[0, 1, 2, 17, 255, 256, 65_534, drawn])
}

fn amount(rng: &mut Rng) -> u64 {
    let drawn = rng.between(1, CEILING);
    let small = rng.between(1, 99_999);
    rng.pick(&[1, CEILING, small, small, drawn])
}

fn serial(running: u16, rng: &mut Rng) -> u16 {
    let drawn = rng.next() as u16;
    let beside = [running.wrapping_add(1), running.wrapping_sub(1)];
    rng.pick(&[running, running, beside[0], beside[1], 0, 65_535, drawn])
}

/// In one case or the other, with blanks between some bytes or none.
fn bytes(many: usize, rng: &mut Rng) -> String {
    let (is_small, is_spaced) = (rng.one_in(3), rng.one_in(3));
    let mut out = String::new();
    for place in 0..many {
        if place > 0 && is_spaced && rng.one_in(4) {
            out.push(' ');
        }
        out += &hex(&[rng.byte()]);
    }
    match is_small {
        true => out.to_lowercase(),
        false => out,
    }
}

/// The same line otherwise; every other one stays as it is.
pub fn dressed(said: &str, rng: &mut Rng) -> Vec<u8> {
    if rng.one_in(2) {
        return said.as_bytes().to_vec();
    }
    let mut out = blanks(0, rng);
    let said = said.as_bytes();
    for (place, &byte) in said.iter().enumerate() {
        let around = (said.get(place.wrapping_sub(1)), said.get(place + 1));
        match (byte, around) {
            (b' ', (Some(before), Some(after))) if can_join(*before, *after) && rng.one_in(2) => {}
            (b' ', _) => out.extend(blanks(1, rng)),
            _ => out.push(byte),
        }
    }
    out.extend(blanks(0, rng));
    if rng.one_in(3) {
        out.extend(comment(rng.below(40) as usize, rng));
    }
    out
}

/// "Between letters and digits a blank may be missing."
pub fn can_join(before: u8, after: u8) -> bool {
    before.is_ascii_alphabetic() && after.is_ascii_digit()
        || before.is_ascii_digit() && after.is_ascii_alphabetic()
}

fn blanks(least: u64, rng: &mut Rng) -> Vec<u8> {
    let many = rng.between(least, least + 2);
    (0..many).map(|_| rng.pick(&BLANKS)).collect()
}

/// Any bytes but a newline.
fn comment(many: usize, rng: &mut Rng) -> Vec<u8> {
    let other = |byte: u8| if byte == b'\n' { b'#' } else { byte };
    let bytes = (0..many).map(|_| other(rng.byte()));
    [b'#'].into_iter().chain(bytes).collect()
}

/// Blanks or a comment fill it up to so many bytes.
pub fn padded(said: &str, length: usize, rng: &mut Rng) -> Vec<u8> {
    let more = length.saturating_sub(said.len());
    let said = said.as_bytes();
    let blanks = vec![rng.pick(&BLANKS); more];
    match rng.below(3) {
        0 => [&blanks[..], said].concat(),
        1 => [said, &blanks].concat(),
        _ => [said, &comment(more.saturating_sub(1), rng)].concat(),
    }
}
