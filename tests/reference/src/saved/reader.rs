use crate::{refusal::Refusal, sheet::Mode, INVALID};

const TAB: u8 = b'\t';
const NEWLINE: u8 = b'\n';
/// The hexadecimal digits of a double's bits.
const BITS_DIGITS: usize = 16;

/// The value of each byte as a lower-case hexadecimal digit.
const HEXADECIMAL: [u8; 256] = hexadecimal();
/// What stands there for a byte that is none: all bits.
const NO_DIGIT: u8 = 0xff;

const fn hexadecimal() -> [u8; 256] {
    let mut values = [NO_DIGIT; 256];
    let mut value = 0;
    while value < 16 {
        values[b"0123456789abcdef"[value] as usize] = value as u8;
        value += 1;
    }
    values
}

/// A text that is read from its front on. Whatever is not as it must be is refusal 15.
pub struct Reader<'a> {
    text: &'a [u8],
    at: usize,
}

impl<'a> Reader<'a> {
    pub fn new(text: &'a [u8]) -> Self {
        Reader { text, at: 0 }
    }

    /// The number of variables and the mode.
    pub fn heading(&mut self) -> Result<(u32, Mode), Refusal> {
        self.byte(b'n')?;
        let n = self.field(Self::number)?;
        let mode = self.field(Self::mode)?;
        self.byte(NEWLINE)?;
        Ok((n, mode))
    }

    /// Whether a line with this letter comes next.
    pub fn has_line(&self, letter: u8) -> bool {
        self.peek() == Some(letter)
    }

    /// A line of one field.
    pub fn one<T>(&mut self, letter: u8, read: impl FnOnce(&mut Self) -> Result<T, Refusal>) -> Result<T, Refusal> {
        self.byte(letter)?;
        let field = self.field(read)?;
        self.byte(NEWLINE)?;
        Ok(field)
    }

    /// A line of any number of fields, in a vector that has room for some.
    pub fn all<T>(&mut self, letter: u8, room: usize, read: impl Fn(&mut Self) -> Result<T, Refusal>) -> Result<Vec<T>, Refusal> {
        let mut fields = Vec::with_capacity(room);
        self.append(letter, &mut fields, read)?;
        Ok(fields)
    }

    /// The same, its fields behind those that a vector has.
    pub fn append<T>(&mut self, letter: u8, fields: &mut Vec<T>, read: impl Fn(&mut Self) -> Result<T, Refusal>) -> Result<(), Refusal> {
        self.byte(letter)?;
        while self.peek() == Some(TAB) {
            fields.push(self.field(&read)?);
        }
        self.byte(NEWLINE)
    }

    /// Nothing stands behind the last line.
    pub fn end(&self) -> Result<(), Refusal> {
        match self.peek() {
            None => Ok(()),
            Some(_) => Err(Refusal::Saved),
        }
    }

    pub fn field<T>(&mut self, read: impl FnOnce(&mut Self) -> Result<T, Refusal>) -> Result<T, Refusal> {
        self.byte(TAB)?;
        read(self)
    }

    /// A whole number in decimal without leading zeros, of 32 bits.
    #[inline]
    pub fn number(&mut self) -> Result<u32, Refusal> {
        self.decimal(|number, digit| Some(10 * number + digit).filter(|&number| number <= u32::MAX.into())).map(|number| number as u32)
    }

    /// The same, of 64 bits.
    #[inline]
    pub fn long_number(&mut self) -> Result<u64, Refusal> {
        self.decimal(|number, digit| number.checked_mul(10)?.checked_add(digit))
    }

    /// A number without leading zeros, by the step that puts a digit behind it, as far as it goes. What stands behind a single 0 is left to the
    /// caller, who wants a tab or a newline.
    #[inline]
    fn decimal(&mut self, with_digit: impl Fn(u64, u64) -> Option<u64>) -> Result<u64, Refusal> {
        let mut number = self.digit().ok_or(Refusal::Saved)?;
        if number > 0 {
            while let Some(digit) = self.digit() {
                number = with_digit(number, digit).ok_or(Refusal::Saved)?;
            }
        }
        Ok(number)
    }

    /// A number other than the one that marks none, or `-` for none.
    pub fn number_or_none(&mut self) -> Result<usize, Refusal> {
        if self.peek() == Some(b'-') {
            self.at += 1;
            return Ok(INVALID);
        }
        match self.number()? {
            u32::MAX => Err(Refusal::Saved),
            number => Ok(number as usize),
        }
    }

    pub fn switch(&mut self) -> Result<bool, Refusal> {
        let switch = match self.peek() {
            Some(b'0') => false,
            Some(b'1') => true,
            _ => return Err(Refusal::Saved),
        };
        self.at += 1;
        Ok(switch)
    }

    /// The double whose bits are sixteen lower-case hexadecimal digits.
    pub fn bits(&mut self) -> Result<f64, Refusal> {
        let digits = self.text.get(self.at..self.at + BITS_DIGITS).ok_or(Refusal::Saved)?;
        self.at += BITS_DIGITS;
        let (mut bits, mut all) = (0, 0);
        for &byte in digits {
            let digit = HEXADECIMAL[usize::from(byte)];
            bits = bits << 4 | u64::from(digit);
            all |= digit;
        }
        if all == NO_DIGIT {
            return Err(Refusal::Saved);
        }
        Ok(f64::from_bits(bits))
    }

    fn mode(&mut self) -> Result<Mode, Refusal> {
        let rest = &self.text[self.at..];
        let mode = [Mode::Vsids, Mode::Vmtf].into_iter().find(|mode| rest.starts_with(mode.name())).ok_or(Refusal::Saved)?;
        self.at += mode.name().len();
        Ok(mode)
    }

    /// The value of the digit that comes next, if one does.
    #[inline]
    fn digit(&mut self) -> Option<u64> {
        let digit = self.peek()?.wrapping_sub(b'0');
        if digit > 9 {
            return None;
        }
        self.at += 1;
        Some(digit.into())
    }

    #[inline]
    fn byte(&mut self, byte: u8) -> Result<(), Refusal> {
        if self.peek() != Some(byte) {
            return Err(Refusal::Saved);
        }
        self.at += 1;
        Ok(())
    }

    #[inline]
    fn peek(&self) -> Option<u8> {
        self.text.get(self.at).copied()
    }
}
