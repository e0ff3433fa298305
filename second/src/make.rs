//! Made-up days by kind and seed.

pub mod asked;
mod bend;
pub mod bundle;
mod deemed;
pub mod froms;
mod haircut;
mod held;
mod lengths;
mod lives;
pub mod loss_lines;
pub mod losses;
pub mod maker;
pub mod merges;
mod mixed;
mod moved;
pub mod orders;
pub mod refused;
pub mod rng;
pub mod sheets;
mod short;
mod steer;
pub mod texts;
mod uses;
mod warned;

use crate::model::*;
use maker::Maker;

pub type Kind = (&'static str, fn(&mut Maker));

/// The kinds that a comparison goes round. `million` stands apart for its size.
/// An odd number, so that days fed in small pieces (one in four) are of every
/// kind.
pub const ROUND: [Kind; 23] = [
    ("busy", steer::busy),
    ("hostile", bend::hostile),
    ("bent", bend::bent),
    ("bounds", bend::bounds),
    ("cuts", lengths::cuts),
    ("serials", lengths::serials),
    ("openings", lives::openings),
    ("retire", lives::retire),
    ("shared", deemed::shared),
    ("spent", deemed::spent),
    ("warned", warned::warned),
    ("wavering", warned::wavering),
    ("moved", moved::moved),
    ("moving", moved::moving),
    ("held", held::held),
    ("withheld", held::withheld),
    ("mixed", mixed::mixed),
    ("haircut", haircut::haircut),
    ("tens", haircut::tens),
    ("valued", short::valued),
    ("short", short::short),
    ("wanting", short::wanting),
    ("falling", short::falling),
];

pub const MILLION_KIND: Kind = ("million", lengths::million);

pub const NO_LIMIT: usize = usize::MAX / 2;

pub fn make((name, fill): Kind, seed: u64, room: usize) -> Vec<u8> {
    let stream = name.bytes().fold(0, |sum, byte| sum * 31 + u64::from(byte));
    let mut maker = Maker::new(seed, stream, room);
    if name != "hostile" {
        endow(&mut maker);
    }
    fill(&mut maker);
    maker.bytes
}

/// Securities in every file: a paisa, which counts as nothing.
fn endow(maker: &mut Maker) {
    for code in [RECEIVE, ALLOCATE] {
        maker.say_kinds(code, 0, [0, 0, 0, 1]);
    }
}

pub fn kind_named(name: &str) -> Option<Kind> {
    ROUND
        .into_iter()
        .chain([MILLION_KIND])
        .find(|(known, _)| *known == name)
}
