//! K14 of document 02: "from one sound book take two orders of the same records,
//! renumbered". Carried out whole, they leave the same book but for its modes.

use crate::model::*;

/// What records come to in one order: the book after them, and the refusal of
/// each, or 0.
pub struct Carried {
    pub order: Vec<Values>,
    pub book: Book,
    pub refusals: Vec<u8>,
}

impl Carried {
    pub fn is_whole(&self) -> bool {
        self.refusals.iter().all(|&refusal| refusal == 0)
    }
}

pub fn carried(book: &Book, order: &[Values]) -> Carried {
    let mut book = book.clone();
    let each = order.iter().map(|record| {
        let serial = book.serial;
        carry_values(&mut book, &Values { serial, ..*record }).refusal()
    });
    let refusals = each.collect();
    Carried {
        order: order.to_vec(),
        book,
        refusals,
    }
}
