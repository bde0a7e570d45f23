use crate::{sheet::Mode, INVALID};

const TAB: u8 = b'\t';
const NEWLINE: u8 = b'\n';
const HEXADECIMAL: &[u8; 16] = b"0123456789abcdef";
/// The hexadecimal digits of a double's bits.
const BITS_DIGITS: usize = 16;
/// The two digits of each number below 100.
const PAIRS: [[u8; 2]; 100] = pairs();

const fn pairs() -> [[u8; 2]; 100] {
    let mut pairs = [[0; 2]; 100];
    let mut number = 0;
    while number < 100 {
        pairs[number] = [b'0' + number as u8 / 10, b'0' + number as u8 % 10];
        number += 1;
    }
    pairs
}

/// A text in the making: a buffer that is long enough, and how much of it is written.
pub struct Writer<'a> {
    text: &'a mut [u8],
    len: usize,
}

impl<'a> Writer<'a> {
    pub fn new(text: &'a mut [u8]) -> Self {
        Writer { text, len: 0 }
    }

    pub fn len(&self) -> usize {
        self.len
    }

    pub fn heading(&mut self, n: usize, mode: Mode) {
        self.byte(b'n');
        self.number(n as u32);
        self.byte(TAB);
        let name = mode.name();
        self.text[self.len..self.len + name.len()].copy_from_slice(name);
        self.len += name.len();
        self.byte(NEWLINE);
    }

    /// A line: its letter, and a field of each kind for each item.
    pub fn line<T>(&mut self, letter: u8, items: impl IntoIterator<Item = T>, field: impl Fn(&mut Self, T)) {
        self.byte(letter);
        for item in items {
            field(self, item);
        }
        self.byte(NEWLINE);
    }

    #[inline]
    pub fn number(&mut self, value: u32) {
        let digits = value.max(1).ilog10() as usize + 1;
        put_digits(self.field(digits), value.into());
    }

    pub fn long_number(&mut self, value: u64) {
        let digits = value.max(1).ilog10() as usize + 1;
        put_digits(self.field(digits), value);
    }

    /// A clause or a variable, or `-` for none.
    pub fn number_or_none(&mut self, value: usize) {
        if value == INVALID {
            self.field(1)[0] = b'-';
        } else {
            self.number(value as u32);
        }
    }

    pub fn switch(&mut self, on: bool) {
        self.field(1)[0] = if on { b'1' } else { b'0' };
    }

    pub fn bits(&mut self, double: f64) {
        let bits = double.to_bits();
        for (i, place) in self.field(BITS_DIGITS).iter_mut().rev().enumerate() {
            *place = HEXADECIMAL[(bits >> (4 * i)) as usize % 16];
        }
    }

    /// The place of a field of so many bytes, behind its tab.
    #[inline]
    fn field(&mut self, bytes: usize) -> &mut [u8] {
        self.byte(TAB);
        let start = self.len;
        self.len += bytes;
        &mut self.text[start..self.len]
    }

    #[inline]
    fn byte(&mut self, byte: u8) {
        self.text[self.len] = byte;
        self.len += 1;
    }
}

/// Fills the places with a number's digits, two at a time from the last on.
#[inline]
fn put_digits(places: &mut [u8], mut value: u64) {
    let mut pairs = places.rchunks_exact_mut(2);
    for pair in &mut pairs {
        pair.copy_from_slice(&PAIRS[(value % 100) as usize]);
        value /= 100;
    }
    if let [first] = pairs.into_remainder() {
        *first = b'0' + value as u8;
    }
}
