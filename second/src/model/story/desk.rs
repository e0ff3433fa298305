//! The currency desk's calls in a story.

use crate::model::calls::Call;
use crate::model::desk::{Position, PRODUCTS, SIDES};
use crate::model::text::parsed;

type Read<T> = Result<T, String>;

/// None where the word is none of the desk's.
pub fn call(word: &str, words: &[&str]) -> Read<Option<Call>> {
    let call = match (word, words) {
        ("margin", [serial, account, initial, positions @ ..]) => Call::Margin(
            parsed(serial, "serial")?,
            parsed(account, "account")?,
            parsed(initial, "initial margin")?,
            all_positions(positions)?,
        ),
        ("margin_with", [serial, account, initial, figures, positions @ ..]) => Call::MarginWith(
            parsed(serial, "serial")?,
            parsed(account, "account")?,
            parsed(initial, "initial margin")?,
            all_positions(positions)?,
            figures.split(',').map(signed).collect::<Read<_>>()?,
        ),
        ("exposure", [figures]) => {
            Call::Exposure(figures.split(',').map(signed).collect::<Read<_>>()?)
        }
        ("exposures", [each, "room", room, figures @ ..]) => Call::Exposures(
            parsed(each, "number of figures")?,
            figures
                .iter()
                .map(|word| signed(word))
                .collect::<Read<_>>()?,
            parsed(room, "room")?,
        ),
        _ => return Ok(None),
    };
    Ok(Some(call))
}

fn signed(word: &str) -> Result<i64, String> {
    let digits = word.strip_prefix('-').unwrap_or(word);
    let is_plain = !digits.is_empty() && digits.bytes().all(|byte| byte.is_ascii_digit());
    let figure = if is_plain { word.parse().ok() } else { None };
    figure.ok_or_else(|| format!("`{word}` is no figure"))
}

/// With `;` between them, or none at all.
fn all_positions(words: &[&str]) -> Result<Vec<Position>, String> {
    if words.is_empty() {
        return Ok(Vec::new());
    }
    words.split(|&word| word == ";").map(position).collect()
}

fn position(words: &[&str]) -> Result<Position, String> {
    let (product, side, notional) = match words {
        [product, side, notional] => (product, side, notional),
        _ => return Err("a position is a product, a side and a notional".to_string()),
    };
    let known = PRODUCTS.iter().position(|(name, ..)| name == product);
    let side = SIDES.iter().find(|(name, _)| name == side);
    Ok(Position {
        product: match known {
            Some(place) => place as u8,
            None => parsed(product, "product")?,
        },
        side: side.ok_or("a side is futures, short, long or spread")?.1,
        notional: parsed(notional, "notional")?,
    })
}
