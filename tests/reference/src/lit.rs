/// A literal: a variable with a sign, as 2 × variable, plus 1 when positive.
#[derive(Clone, Copy, Debug, PartialEq, Eq)]
pub struct Lit {
    code: u32,
}

impl Lit {
    pub fn new(idx: usize, polarity: bool) -> Lit {
        Lit::from_code((idx as u32) * 2 + u32::from(polarity))
    }

    pub fn from_code(code: u32) -> Lit {
        Lit { code }
    }

    #[inline]
    pub fn code(self) -> u32 {
        self.code
    }

    /// The literal's variable.
    #[inline]
    pub fn index(self) -> usize {
        (self.code >> 1) as usize
    }

    #[inline]
    pub fn is_positive(self) -> bool {
        self.code % 2 == 1
    }
}
