//! What can be wrong with a line of text, by number and in words.

#[derive(Clone, Copy, PartialEq, Eq, PartialOrd, Ord, Debug)]
pub enum Fault {
    NoWord = 4,
    Kinds = 5,
    Amount = 6,
    More = 30,
    NoSerial = 31,
    NoBytes = 32,
    NoAccount = 33,
    TooLong = 34,
}

impl Fault {
    pub fn words(self) -> &'static str {
        match self {
            Fault::NoWord => "no such word",
            Fault::Kinds => "kinds missing, or not of this word",
            Fault::Amount => "an amount missing or out of range",
            Fault::More => {
                "something more in the line (kinds stand in the order cash, deposits, guarantees, securities)"
            }
            Fault::NoSerial => "no serial after serial",
            Fault::NoBytes => "no bytes after raw",
            Fault::NoAccount => "no account",
            Fault::TooLong => "too long",
        }
    }
}
