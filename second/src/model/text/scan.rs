//! A line from left to right: blanks, letters, numbers, bytes in hexadecimal.

/// "A number is 1 to 16 decimal digits, zeros in front allowed."
const MOST_DIGITS: usize = 16;

#[derive(Clone, Copy)]
pub struct Scan<'a> {
    left: &'a [u8],
}

impl<'a> Scan<'a> {
    /// "`#` ends what is read of a line."
    pub fn of(line: &'a [u8]) -> Scan<'a> {
        let end = line.iter().position(|&byte| byte == b'#');
        Scan {
            left: &line[..end.unwrap_or(line.len())],
        }
    }

    /// "Blanks (space, tab, carriage return) in front of anything", the end too.
    fn skip_blanks(&mut self) {
        while let [b' ' | b'\t' | b'\r', rest @ ..] = self.left {
            self.left = rest;
        }
    }

    pub fn is_at_end(&mut self) -> bool {
        self.skip_blanks();
        self.left.is_empty()
    }

    /// What comes next as far as its bytes are such ones; it isn't passed.
    fn run(&mut self, is_one: fn(&u8) -> bool) -> &'a [u8] {
        self.skip_blanks();
        let left = self.left;
        let end = left.iter().position(|byte| !is_one(byte));
        &left[..end.unwrap_or(left.len())]
    }

    /// All small letters that come next; nothing where none does. That more than
    /// 12 are no word needs no look: no word of the form is as long.
    pub fn word(&mut self) -> &'a [u8] {
        let word = self.run(u8::is_ascii_lowercase);
        self.left = &self.left[word.len()..];
        word
    }

    /// Passes this word, if it is what comes next.
    pub fn takes(&mut self, word: &str) -> bool {
        let is_next = self.run(u8::is_ascii_lowercase) == word.as_bytes();
        if is_next {
            self.left = &self.left[word.len()..];
        }
        is_next
    }

    /// All digits that come next; None where they are none or too many.
    pub fn number(&mut self) -> Option<u64> {
        let digits = self.run(u8::is_ascii_digit);
        self.left = &self.left[digits.len()..];
        let sum = |sum: u64, digit: &u8| 10 * sum + u64::from(digit - b'0');
        let is_one = (1..=MOST_DIGITS).contains(&digits.len());
        is_one.then(|| digits.iter().fold(0, sum))
    }

    /// A serial or an account.
    pub fn short(&mut self) -> Option<u16> {
        u16::try_from(self.number()?).ok()
    }

    /// The byte of two hexadecimal digits; they stand together.
    pub fn byte(&mut self) -> Option<u8> {
        self.skip_blanks();
        let (&high, &low) = (self.left.first()?, self.left.get(1)?);
        let digit = |byte: u8| char::from(byte).to_digit(16);
        let byte = digit(high)? << 4 | digit(low)?;
        self.left = &self.left[2..];
        Some(byte as u8)
    }
}
