//! The texts of numbers, ready at compile time. A text is a word: its
//! characters from the lowest byte on, and its length in the highest bits.

const LENGTH: u32 = 61;

/// A space alone.
const SPACE: u64 = b' ' as u64 | 1 << LENGTH;

/// Each number's digits and a space: the text of its tenth with one digit more,
/// since the compiler allows a table only so many steps.
static NUMBERS: [u64; 1 << 16] = {
    let mut texts = [0; 1 << 16];
    let mut number = 0;
    while number < texts.len() {
        let tenth = if number < 10 {
            SPACE
        } else {
            texts[number / 10]
        };
        texts[number] = with_digit(tenth, number as u64 % 10);
        number += 1;
    }
    texts
};

/// What ends a line. First for each number given by an opening: no refusal and
/// that number; then for each refusal: itself and no number.
static ENDS: [[u64; 256]; 2] = {
    let mut ends = [[0; 256]; 2];
    let mut number = 0;
    while number < 256 {
        ends[0][number] = ended(NUMBERS[0], NUMBERS[number]);
        ends[1][number] = ended(NUMBERS[number], NUMBERS[0]);
        number += 1;
    }
    ends
};

/// The digit before the space that ends the text.
const fn with_digit(text: u64, digit: u64) -> u64 {
    let end = 8 * (text >> LENGTH);
    let space_to_digit = (b' ' as u64 ^ (b'0' as u64 + digit)) << (end - 8);
    ((text ^ space_to_digit) | (b' ' as u64) << end) + (1 << LENGTH)
}

/// Two texts in one, the last space made a newline.
const fn ended(first: u64, second: u64) -> u64 {
    let (length, more) = (first >> LENGTH, second >> LENGTH);
    let characters = (first << 8 >> 8) | (second << 8 >> 8 << (8 * length));
    let space_to_newline = ((b' ' ^ b'\n') as u64) << (8 * (length + more - 1));
    (characters ^ space_to_newline) | (length + more) << LENGTH
}

pub fn of_number(number: u16) -> u64 {
    NUMBERS[usize::from(number)]
}

pub fn of_given(number: u8) -> u64 {
    ENDS[0][usize::from(number)]
}

pub fn of_refusal(refusal: u8) -> u64 {
    ENDS[1][usize::from(refusal)]
}

/// At most 7.
pub fn length(text: u64) -> usize {
    (text >> LENGTH) as usize
}
